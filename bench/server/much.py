#!/usr/bin/env python3
# Much at once for one session: publishes beyond the thousand that may be unanswered, messages that fall due together,
# and messages for a consumer that does not read. Nobody waits for what nobody would do: all is answered and given back.
# much.py PROGRAM [port]
import json
import sys
import time

from client import Broker, Client, consumer, frame, producer, text_of

program = sys.argv[1]
port = int(sys.argv[2]) if len(sys.argv) > 2 else 18086
SECONDS = 10


def publish_at_once(topic, count, payload=b''):
    client = producer(port, topic)
    client.sock.settimeout(SECONDS)
    client.sock.sendall(frame(1, text_of(payload)) * count)
    for number in range(count):
        assert client.receive()['result'] == 'ok', number
    client.close()


def come_to(topic, what, count):
    """Waits until so many messages of the subscription are live, or pending."""
    admin = Client(port, f'/ws/v2/admin/persistent/public/default/{topic}', SECONDS)
    until = time.time() + SECONDS
    while True:
        admin.send('{"type":"stats","subscription":"s"}')
        now = admin.receive()[what]
        if now == count:
            break
        assert time.time() < until, f'{topic}: {now} and not {count} messages are {what}'
        time.sleep(0.01)
    admin.close()


def fall_due(topic, count, query):
    """Messages are sent to a consumer that pulls, and does not acknowledge them."""
    publish_at_once(topic, count)
    client = consumer(port, topic, 's', '?subscriptionInitialPosition=Earliest&pullMode=true'
                      f'&subscriptionType=Shared&ackTimeoutMillis=500&{query}')
    client.send(json.dumps({'type': 'permit', 'permitMessages': count}))
    for _ in range(count):
        client.receive()
    come_to(topic, 'pending', 0)
    client.close()


def leave_unread(topic, count):
    """Half of the messages are sent to a consumer that reads none of them, and in the end all come to another one."""
    query = '?subscriptionInitialPosition=Earliest&subscriptionType=Shared&ackTimeoutMillis=1000'
    still = consumer(port, topic, 's', query)
    client = consumer(port, topic, 's', query)
    client.sock.settimeout(SECONDS)
    publish_at_once(topic, count, bytes(50_000))
    came = set()
    while len(came) < count:
        message = client.receive()['messageId']
        client.send(json.dumps({'messageId': message}))
        came.add(message)
    come_to(topic, 'live', 0)
    client.close()
    still.close()


broker = Broker(program, port)
try:
    for turn, count in enumerate([1_000, 1_001, 1_064, 2_000, 2_500, 10_000] * 3):
        publish_at_once(f'publishes-{turn}', count)
        print(f'{count} publishes at once are all answered')
    for count in [64, 65, 400, 2_000]:
        fall_due(f'due-{count}', count, '')
        print(f'{count} messages that fall due together are all given back')
        fall_due(f'dead-{count}', count, 'maxRedeliverCount=1')
        print(f'{count} messages with a dead-letter topic are all given back')
    for count in [10, 400]:
        leave_unread(f'unread-{count}', count)
        print(f'{count} messages, of which half were sent to a consumer that does not read, all come to another one')
finally:
    broker.kill()
