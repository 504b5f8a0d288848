#!/usr/bin/env python3
# Kills the broker again and again while consumers give back all that they get. In the rows that each kill leaves no count
# is below the one that the kill before left, unless its message was acknowledged or died; what comes first after a start
# has the count of its row; and in the end each message has died, at its limit. The gate runs it.
# counts.py PROGRAM [times] [port] [limit]
import base64
import json
import random
import sqlite3
import sys
import threading
import time

from client import Broker, Client, consumer, producer, text_of

program = sys.argv[1]
times = int(sys.argv[2]) if len(sys.argv) > 2 else 200
port = int(sys.argv[3]) if len(sys.argv) > 3 else 18094
TOPIC, FULL, MOST = 'back', 'persistent://public/default/back', 40
LIMIT = int(sys.argv[4]) if len(sys.argv) > 4 else 50  # how often a message comes again before it dies
DYING = {'Shared': f'maxRedeliverCount={LIMIT}', 'Key_Shared': f'maxRedeliverCount={LIMIT}'}
KINDS = {**DYING, 'Exclusive': 'ackTimeoutMillis=2', 'Failover': 'ackTimeoutMillis=2'}

lock = threading.Lock()
first, highest = {}, {}


def note(kind, body, count):
    """What comes first of a message after a start, and the highest count that came of it."""
    with lock:
        first.setdefault((kind, body), count)
        highest[kind, body] = max(highest.get((kind, body), 0), count)


def give_back(kind, ends):
    """Gives back whatever comes, until the broker is gone or the event is set. In order, now and then one is acknowledged."""
    try:
        client = consumer(port, TOPIC, kind, f'?subscriptionType={kind}&subscriptionInitialPosition=Earliest'
                          f'&negativeAckRedeliveryDelay=1&{KINDS[kind]}')
        client.sock.settimeout(0.5)
        while not ends.is_set():
            try:
                message = client.receive()
            except TimeoutError:
                continue
            note(kind, message['payload'], message['redeliveryCount'])
            if kind not in DYING and random.random() < 0.01:
                client.send(json.dumps({'messageId': message['messageId']}))
            else:
                client.send(json.dumps({'type': 'negativeAcknowledge', 'messageId': message['messageId']}))
        client.close()
    except (OSError, ConnectionError, AssertionError, TypeError):
        pass


def publish(name):
    try:
        client = producer(port, TOPIC)
        for number in range(MOST):
            client.send(text_of(f'{name}-{number}'.encode()))
            client.receive()
    except (OSError, ConnectionError, AssertionError):
        pass


def ask(question):
    base = sqlite3.connect(broker.database)
    try:
        return base.execute(question).fetchall()
    finally:
        base.close()


def rows():
    """The counts, and what is acknowledged or dead, by subscription and place."""
    assert ask('PRAGMA integrity_check') == [('ok',)]
    counts = {(sub, idx): count for sub, idx, count in ask(f"SELECT sub, idx, times FROM redelivery WHERE topic = '{FULL}'")}
    gone = set(ask(f"SELECT sub, idx FROM dead WHERE topic = '{FULL}'"))
    for sub, low, high in ask(f"SELECT sub, first, last FROM ack WHERE topic = '{FULL}'"):
        gone |= {(sub, idx) for idx in range(low, high + 1)}
    return counts, gone


def bodies():
    """The places of the messages, by body as it comes to a consumer."""
    return {base64.b64encode(payload).decode(): idx for idx, payload in ask(f"SELECT idx, payload FROM entry WHERE topic = '{FULL}'")}


def check_first(before, gone):
    """What came first after the start has the count that stood in its row, and nothing that was gone came again."""
    places = bodies()
    for (kind, body), count in first.items():
        at = kind, places.get(body)
        if at[1] is not None:
            assert at not in gone, f'{at} came again'
            assert count >= before.get(at, 0), f'{at} came with {count}, and {before[at]} stood'


def check_kept(before, now, gone):
    for at, count in before.items():
        assert at in gone or now.get(at, 0) >= count, f'{at} fell from {count} to {now.get(at)}'
    for at, count in now.items():
        assert at not in gone and 1 <= count, at
        assert at[0] not in DYING or count <= LIMIT, f'{at} has {count}'


def is_done(kind):
    client = Client(port, f'/ws/v2/admin/persistent/public/default/{TOPIC}')
    client.send(json.dumps({'type': 'stats', 'subscription': kind}))
    told = client.receive()
    client.close()
    return isinstance(told, dict) and told.get('live') == told.get('dead') == told.get('pending') == 0


def consumers(kinds, ends):
    workers = [threading.Thread(target=give_back, args=(kind, ends)) for kind in kinds]
    for worker in workers:
        worker.start()
    return workers


random.seed(5)
broker = Broker(program, port)
counts, gone, raised = {}, set(), 0
for number in range(times):
    if number:
        broker.start()
    first.clear()
    ends = threading.Event()
    workers = consumers(KINDS, ends)
    if number % 10 == 0:
        publish(str(number))
    time.sleep(random.uniform(0.05, 0.4))
    broker.kill()
    ends.set()
    for worker in workers:
        worker.join()
    check_first(counts, gone)
    now, gone_now = rows()
    check_kept(counts, now, gone_now)
    raised += sum(count - counts.get(at, 0) for at, count in now.items())
    counts, gone = now, gone_now
broker.start()
ends = threading.Event()
workers = consumers(DYING, ends)
until = time.time() + 300
while not all(map(is_done, DYING)):
    assert time.time() < until, 'messages live after five minutes'
    time.sleep(0.2)
ends.set()
for worker in workers:
    worker.join()
broker.kill()
for kind in DYING:
    for body in bodies():
        assert highest.get((kind, body)) == LIMIT, f'{body} died in {kind} at {highest.get((kind, body))}'
print(f'{times} kills: counts rose by {raised} in the rows, none fell but by an acknowledgement or a death; '
      f'each of {len(bodies())} messages died in {len(DYING)} subscriptions at its limit of {LIMIT}')
