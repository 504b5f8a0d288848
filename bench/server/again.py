#!/usr/bin/env python3
# A topic is deleted and made again, again and again, and so is its dead-letter topic, while the broker is killed in between. Each
# letter of each life is found once, no id comes twice, and an old id acknowledges nothing. The gate runs it.
# again.py PROGRAM [lives] [port]
import base64
import json
import random
import sqlite3
import sys
import time

from client import Broker, Client, consumer, producer, text_of

program = sys.argv[1]
lives = int(sys.argv[2]) if len(sys.argv) > 2 else 8
port = int(sys.argv[3]) if len(sys.argv) > 3 else 18097
GRAVES = 'persistent://public/default/graves'
DYING = ('?subscriptionType=Shared&subscriptionInitialPosition=Earliest&negativeAckRedeliveryDelay=1&maxRedeliverCount=1'
         f'&deadLetterTopic={GRAVES}')
LETTERS = 3


def admin(topic):
    return Client(port, f'/ws/v2/admin/persistent/public/default/{topic}')


def asked(topic, **said):
    client = admin(topic)
    try:
        client.send(json.dumps(said))
        return client.receive()
    finally:
        client.close()


def published(topic, bodies):
    """Their ids."""
    client = producer(port, topic, '?producerName=writer')
    ids = []
    for body in bodies:
        client.send(text_of(body.encode()))
        answer = client.receive()
        assert answer['result'] == 'ok', answer
        ids.append(answer['messageId'])
    client.leave()
    return ids


def waits_for(what, holds):
    until = time.time() + 30
    while not holds():
        assert time.time() < until, what
        time.sleep(0.05)


def is_moved():
    told = asked('work', type='stats', subscription='s')
    return isinstance(told, dict) and told.get('live') == told.get('dead') == told.get('pending') == 0


def kill(broker):
    broker.kill()
    broker.start()


def dies(broker, is_killed):
    """Whatever waits is given back until it is dead, and its letters are moved; in between the broker may be killed."""
    until = time.time() + 30
    while True:
        client = consumer(port, 'work', 's', DYING)
        client.sock.settimeout(0.3)
        try:
            for _ in range(2 * LETTERS):
                client.send(json.dumps({'type': 'negativeAcknowledge', 'messageId': client.receive()['messageId']}))
                if is_killed and random.random() < 0.3:
                    break
        except TimeoutError:
            pass
        client.close()
        if is_killed:
            kill(broker)
            is_killed = random.random() < 0.5
        waits_for('its consumer has gone', lambda: asked('work', type='stats', subscription='s').get('members') == 0)
        if is_moved():
            return
        assert time.time() < until, 'letters lie'


def is_gone(topic):
    """Deletes it, once nobody is there."""
    answers = []
    waits_for(f'{topic} is deleted', lambda: answers.append(asked(topic, type='deleteTopic')) or answers[-1] == {'result': 'ok'})
    client = admin(topic)
    assert client.receive() == (4008, 'F11'), f'{topic} is known still'
    client.close()


def old_ids_mean_nothing(ids):
    """Whoever acknowledges what an earlier life had acknowledges nothing."""
    client = consumer(port, 'work', 's', '?subscriptionType=Shared')
    for each in ids:
        client.send(json.dumps({'messageId': each}))
    client.leave()
    told = asked('work', type='stats', subscription='s')
    assert told['acknowledged'] == 0 and told['live'] == LETTERS, told
    for each in ids:
        assert asked('work', type='seek', subscription='s', position=each) == {'fault': 8, 'result': 'refused'}, each


def stands(database, topic):
    base = sqlite3.connect(database)
    try:
        return [(bytes(payload).decode(), producer) for payload, producer in
                base.execute('SELECT payload, producer FROM entry WHERE topic = ? ORDER BY idx', (topic,))]
    finally:
        base.close()


random.seed(7)
broker = Broker(program, port)
try:
    every, old, wanted = [], [], []
    for life in range(lives):
        bodies = [f'{life}-{number}' for number in range(LETTERS)]
        consumer(port, 'work', 's', DYING).leave()
        ids = published('work', bodies)
        if old:
            old_ids_mean_nothing(old)
        every += ids
        assert len(set(every)) == len(every), 'an id came twice'
        dies(broker, life % 2 == 1)
        wanted += bodies
        broker.kill()
        got = stands(broker.database, GRAVES)
        assert [body for body, _ in got] == wanted, f'{got} for {wanted}'
        assert {name for _, name in got} == {'dlq/public/default/work/s'}, got
        broker.start()
        if life % 4 == 2:
            is_gone('graves')
            wanted = []
            if life % 8 == 2:
                kill(broker)
        is_gone('work')
        if life % 3 == 0:
            kill(broker)
        old = ids
        published('other', ['x'])
        assert '/default/work"' not in json.dumps(asked('other', type='overview')), 'it is shown still'
    broker.kill()
    base = sqlite3.connect(broker.database)
    for table in ('entry', 'sub', 'ack', 'dead', 'redelivery', 'author'):
        assert base.execute(f"SELECT count(*) FROM {table} WHERE topic LIKE '%/work'").fetchone() == (0,), table
    gone, = base.execute("SELECT gone FROM retention WHERE topic LIKE '%/work'").fetchone()
    ordinal, = base.execute("SELECT ordinal FROM topic WHERE name LIKE '%/work'").fetchone()
    assert gone == ordinal == lives * LETTERS, (gone, ordinal)
finally:
    broker.kill()
print(f'{lives} lives of a topic: each of {lives * LETTERS} letters was found once, no id came twice, and old ones acknowledge nothing')
