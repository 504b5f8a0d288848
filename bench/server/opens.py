#!/usr/bin/env python3
# Whoever sees its connection open is subscribed, and whoever sees its close answered may come again at once: a message
# that is published right after a consumer with Latest was let in is delivered to it, on topics that are open and on new
# ones, and an Exclusive consumer and a named producer that come again at once are not refused. The gate runs it.
# opens.py PROGRAM [times] [port]
import base64
import json
import sys

from client import Broker, Client, consumer, producer, text_of

program = sys.argv[1]
times = int(sys.argv[2]) if len(sys.argv) > 2 else 2000
port = int(sys.argv[3]) if len(sys.argv) > 3 else 18086
NEW = 200  # so many topics are new to one broker, which has 256 open at most


def payload_of(message):
    assert isinstance(message, dict), f'closed: {message}'
    return base64.b64decode(message['payload']).decode()


def on_an_open_topic(count):
    """Each time the subscription is new, since it is dropped afterwards."""
    admin_target = '/ws/v2/admin/persistent/public/default/open'
    teller = producer(port, 'open')
    teller.send(text_of(b'first'))
    assert teller.receive()['result'] == 'ok'
    admin = Client(port, admin_target)
    for number in range(count):
        reader = consumer(port, 'open', 's')
        teller.send(text_of(f'open {number}'.encode()))
        got = payload_of(reader.receive())
        assert got == f'open {number}', f'{number}: {got}'
        assert teller.receive()['result'] == 'ok'
        reader.leave()
        reader.close()
        admin.send(json.dumps({'type': 'dropSubscription', 'subscription': 's'}))
        answer = admin.receive()
        assert answer == {'result': 'ok'}, answer
    admin.close()
    teller.close()


def on_new_topics(count, first):
    for number in range(first, first + count):
        reader = consumer(port, f'new-{number}', 's')
        teller = producer(port, f'new-{number}')
        teller.send(text_of(f'new {number}'.encode()))
        got = payload_of(reader.receive())
        assert got == f'new {number}', f'{number}: {got}'
        teller.close()
        reader.close()


def again(count):
    """An Exclusive consumer and a named producer that leave and come again at once."""
    for number in range(count):
        reader = consumer(port, 'again', 'sole')
        reader.send('{"type":"isEndOfTopic"}')
        got = reader.receive()
        while isinstance(got, dict) and 'endOfTopic' not in got:
            got = reader.receive()
        assert isinstance(got, dict), f'{number}: {got}'
        reader.leave()
        teller = producer(port, 'again', '?producerName=one')
        teller.send(text_of(b'x'))
        answer = teller.receive()
        assert isinstance(answer, dict) and answer['result'] == 'ok', f'{number}: {answer}'
        teller.leave()
        reader.close()
        teller.close()


for workers in (1, 4):
    broker = Broker(program, port, workers)
    try:
        on_an_open_topic(times // 2)
        again(times)
        done = 0
        while done < times // 2:
            count = min(NEW, times // 2 - done)
            on_new_topics(count, done)
            done += count
            broker.kill()
            broker.start()
        print(f'{workers} workers: {times} messages published right after a consumer was let in, all delivered; '
              f'{times} times left and come again at once')
    finally:
        broker.kill()
