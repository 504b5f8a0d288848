#!/usr/bin/env python3
# Kills the broker again and again under load: each publish that was answered ok is found again, each of them is
# delivered, and SQLite finds the file whole. The gate runs it.
# kills.py PROGRAM [times] [port]
import base64
import json
import random
import sqlite3
import sys
import threading
import time

from client import Broker, consumer, producer, text_of

program = sys.argv[1]
times = int(sys.argv[2]) if len(sys.argv) > 2 else 200
port = int(sys.argv[3]) if len(sys.argv) > 3 else 18083
TOPICS, PUBLISHERS, ROUNDS_OF_A_TOPIC = 4, 8, 5

lock = threading.Lock()
answered = {}
delivered = {}


def publish(topic, name):
    """Publishes until the broker is gone, and notes what was answered ok."""
    try:
        client = producer(port, topic)
        number = 0
        while True:
            number += 1
            body = f'{name}-{number}'
            client.send(text_of(body.encode()))
            answer = client.receive()
            if isinstance(answer, dict) and answer['result'] == 'ok':
                with lock:
                    answered.setdefault(topic, {})[answer['messageId']] = body
    except (OSError, ConnectionError, AssertionError):
        pass


def consume(topic):
    """Takes and acknowledges what comes, until the broker is gone or nothing has come for two seconds."""
    try:
        client = consumer(port, topic, 'all', '?subscriptionType=Shared&subscriptionInitialPosition=Earliest')
        client.sock.settimeout(2)
        while True:
            message = client.receive()
            with lock:
                delivered.setdefault(topic, {})[message['messageId']] = base64.b64decode(message['payload']).decode()
            client.send(json.dumps({'messageId': message['messageId']}))
    except (OSError, ConnectionError, AssertionError):
        pass


def topics_of(round_number):
    return [f'kill-{round_number // ROUNDS_OF_A_TOPIC}-{each}' for each in range(TOPICS)]


def ask(database, question):
    base = sqlite3.connect(database)
    try:
        return base.execute(question).fetchall()
    finally:
        base.close()


def stored(database):
    """The payloads that stand in the database, by topic."""
    found = {}
    for topic, payload in ask(database, 'SELECT topic, payload FROM entry'):
        found.setdefault(topic.rsplit('/', 1)[1], set()).add(payload.decode())
    return found


def check(database):
    whole = ask(database, 'PRAGMA integrity_check')
    assert whole == [('ok',)], whole
    rows = stored(database)
    for topic, bodies in answered.items():
        lost = set(bodies.values()) - rows.get(topic, set())
        assert not lost, f'{topic} lost {sorted(lost)[:5]}'


random.seed(7)
broker = Broker(program, port)
for number in range(times):
    if number:
        broker.start()
    workers = [threading.Thread(target=consume, args=(topic,)) for topic in topics_of(number)]
    workers += [threading.Thread(target=publish, args=(random.choice(topics_of(number)), f'{number}-{each}'))
                for each in range(PUBLISHERS)]
    for worker in workers:
        worker.start()
    time.sleep(random.uniform(0.05, 0.4))
    broker.kill()
    for worker in workers:
        worker.join()
    check(broker.database)
broker.start()
every = sorted({topic for number in range(times) for topic in topics_of(number)})
for some in (every[at:at + 40] for at in range(0, len(every), 40)):
    workers = [threading.Thread(target=consume, args=(topic,)) for topic in some]
    for worker in workers:
        worker.start()
    for worker in workers:
        worker.join()
broker.kill()
count = 0
for topic, bodies in answered.items():
    for where, body in bodies.items():
        assert delivered.get(topic, {}).get(where) == body, f'{topic} never delivered {body}'
        count += 1
assert count, 'nothing was answered'
print(f'{times} kills: {count} publishes were answered ok; each was found again and delivered, '
      'and the file was whole each time')
