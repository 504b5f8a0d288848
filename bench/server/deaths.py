#!/usr/bin/env python3
# Kills the broker again and again while every message dies: whatever a kill leaves, each letter that counts as moved stands
# in its dead-letter topic once, and in the end all do, in the order of dying. The gate runs it.
# deaths.py PROGRAM [times] [port]
import json
import random
import sqlite3
import sys
import threading
import time

from client import Broker, Client, consumer, producer, text_of

program = sys.argv[1]
times = int(sys.argv[2]) if len(sys.argv) > 2 else 300
port = int(sys.argv[3]) if len(sys.argv) > 3 else 18093
TOPICS, MOST, ROUNDS_OF_A_TOPIC = 2, 60, 5
SUBSCRIPTIONS = ['Shared', 'Key_Shared']
FULL = 'persistent://public/default/'

lock = threading.Lock()
answered = {}


def publish(topic, name):
    """Publishes some messages, or until the broker is gone, and notes what was answered ok."""
    try:
        client = producer(port, topic)
        for number in range(MOST):
            body = f'{name}-{number}'
            client.send(text_of(body.encode()))
            answer = client.receive()
            if isinstance(answer, dict) and answer['result'] == 'ok':
                with lock:
                    answered.setdefault(topic, set()).add(body)
    except (OSError, ConnectionError, AssertionError):
        pass


def give_back(topic, kind, ends):
    """Gives back whatever comes, until the broker is gone or the event is set."""
    try:
        client = consumer(port, topic, kind, f'?subscriptionType={kind}&subscriptionInitialPosition=Earliest'
                          '&negativeAckRedeliveryDelay=1&maxRedeliverCount=1')
        client.sock.settimeout(0.5)
        while not ends.is_set():
            try:
                message = client.receive()
            except TimeoutError:
                continue
            client.send(json.dumps({'type': 'negativeAcknowledge', 'messageId': message['messageId']}))
        client.close()
    except (OSError, ConnectionError, AssertionError, TypeError):
        pass


def topics_of(number):
    return [f'dying-{number // ROUNDS_OF_A_TOPIC}-{each}' for each in range(TOPICS)]


def ask(database, question):
    base = sqlite3.connect(database)
    try:
        return base.execute(question).fetchall()
    finally:
        base.close()


def letters_in(database):
    """Of each courier its letters: the ordinal and the body, in the order in which they stand in the log."""
    found = {}
    rows = ask(database, "SELECT topic, producer, sequence, hex(payload) FROM entry "
                         "WHERE producer LIKE 'dlq/%' ORDER BY topic, idx")
    for topic, courier, ordinal, payload in rows:
        assert topic == f'{FULL}{"-".join(courier.rsplit("/", 2)[1:])}-DLQ', (topic, courier)
        found.setdefault(courier, []).append((int(ordinal), payload))
    return found


def gone_from(database):
    """The bodies of what is acknowledged, by courier. Nobody acknowledges here but by a move."""
    rows = ask(database, 'SELECT ack.topic, ack.sub, hex(entry.payload) FROM ack JOIN entry ON entry.topic = ack.topic '
                         "AND entry.idx BETWEEN ack.first AND ack.last WHERE ack.topic NOT LIKE '%-DLQ'")
    found = {}
    for topic, subscription, payload in rows:
        found.setdefault(f'dlq/public/default/{topic.rsplit("/", 1)[1]}/{subscription}', set()).add(payload)
    return found


def check(database):
    """What stands in the rows: no letter twice, all in the order of dying, and none is done with that has no copy."""
    assert ask(database, 'PRAGMA integrity_check') == [('ok',)]
    letters = letters_in(database)
    for courier, moved in letters.items():
        ordinals, bodies = [each for each, _ in moved], [each for _, each in moved]
        assert ordinals == sorted(set(ordinals)), f'{courier} has its letters in another order'
        assert len(set(bodies)) == len(bodies), f'{courier} has a letter twice'
    for courier, bodies in gone_from(database).items():
        lost = bodies - {each for _, each in letters.get(courier, [])}
        assert not lost, f'{courier} lost {sorted(lost)[:5]}'
    return letters


def is_done(topic, kind):
    """Whether the subscription says that each message was moved."""
    client = Client(port, f'/ws/v2/admin/persistent/public/default/{topic}')
    client.send(json.dumps({'type': 'stats', 'subscription': kind}))
    told = client.receive()
    client.close()
    return isinstance(told, dict) and told.get('live') == told.get('dead') == told.get('pending') == 0


def drain(topics):
    """All that is left of these topics dies and is moved."""
    ends = threading.Event()
    pairs = [(topic, kind) for topic in topics for kind in SUBSCRIPTIONS]
    workers = [threading.Thread(target=give_back, args=(*pair, ends)) for pair in pairs]
    for worker in workers:
        worker.start()
    until = time.time() + 120
    while not all(is_done(*pair) for pair in pairs):
        assert time.time() < until, 'letters lie after two minutes'
        time.sleep(0.2)
    ends.set()
    for worker in workers:
        worker.join()


random.seed(11)
broker = Broker(program, port)
for number in range(times):
    if number:
        broker.start()
    ends = threading.Event()
    workers = [threading.Thread(target=give_back, args=(topic, kind, ends))
               for topic in topics_of(number) for kind in SUBSCRIPTIONS]
    workers += [threading.Thread(target=publish, args=(topic, f'{number}-{topic}-{each}'))
                for topic in topics_of(number) for each in range(2)]
    for worker in workers:
        worker.start()
    time.sleep(random.uniform(0.05, 0.4))
    broker.kill()
    ends.set()
    for worker in workers:
        worker.join()
    check(broker.database)
every = sorted({topic for number in range(times) for topic in topics_of(number)})
for at in range(0, len(every), 20):
    broker.start()
    drain(every[at:at + 20])
    broker.kill()
letters = check(broker.database)
count = 0
for topic in every:
    bodies = {body for _, body in ask(broker.database, f"SELECT idx, hex(payload) FROM entry WHERE topic = '{FULL}{topic}'")}
    assert {body.encode().hex().upper() for body in answered.get(topic, set())} <= bodies, f'{topic} lost a message'
    for kind in SUBSCRIPTIONS:
        moved = letters.get(f'dlq/public/default/{topic}/{kind}', [])
        assert {body for _, body in moved} == bodies, f'{topic} and its letters of {kind} differ'
        count += len(moved)
print(f'{times} kills: {sum(map(len, answered.values()))} publishes were answered ok; in the end {count} letters '
      'stand once each in their dead-letter topics, in the order of dying')
