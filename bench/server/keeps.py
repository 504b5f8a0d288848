#!/usr/bin/env python3
# What all have done with goes, and no more: by the broker's rule, by a topic's own, which goes before it, and by age; a start keeps
# what is kept, the numbers of producers whose messages are gone, and where the topic goes on. The gate runs it.
# keeps.py PROGRAM [port]
import json
import sqlite3
import sys
import time

from client import Broker, Client, consumer, producer, text_of

program = sys.argv[1]
port = int(sys.argv[2]) if len(sys.argv) > 2 else 18114
FULL = 'persistent://public/default/'
LAST = 253_402_300_799_999


def ask(topic, **said):
    client = Client(port, f'/ws/v2/admin/persistent/public/default/{topic}')
    client.send(json.dumps(said))
    answer = client.receive()
    client.leave()
    client.close()
    return answer


def publish(client, count):
    """Publishes so many; the ids."""
    for _ in range(count):
        client.send(text_of(b'x'))
    answers = [client.receive() for _ in range(count)]
    assert all(answer['result'] == 'ok' for answer in answers), answers
    return [answer['messageId'] for answer in answers]


def take(topic, count):
    """A consumer acknowledges the next messages, so many."""
    reader = consumer(port, topic, 's', '?subscriptionInitialPosition=Earliest')
    for _ in range(count):
        reader.send(json.dumps({'messageId': reader.receive()['messageId']}))
    reader.leave()
    reader.close()


def gone(topic, wanted):
    """So many messages come to be gone, and it stays so."""
    end = time.time() + 30
    while (got := ask(topic, type='stats', subscription='s').get('gone', 0)) != wanted:
        assert got < wanted and time.time() < end, f'{topic}: {got}, and not {wanted}'
        time.sleep(0.02)
    time.sleep(0.1)
    assert ask(topic, type='stats', subscription='s').get('gone', 0) == wanted


def rows(topic):
    with sqlite3.connect(broker.database) as base:
        found = base.execute('SELECT idx, sequence FROM entry WHERE topic = ? ORDER BY idx', [FULL + topic]).fetchall()
    base.close()
    return found


def keeps(rule):
    broker.kill()
    broker.more = [f'keep={rule}'] if rule else []
    broker.start()


def keeps_none():
    """290 of 300 are acknowledged, so 256 go. A number of one that is gone is used, also after a start."""
    writer = producer(port, 'none', '?producerName=p')
    publish(writer, 300)
    take('none', 290)
    gone('none', 256)
    writer.leave()
    # By numbers that were used nothing comes; the next has the next place.
    again = producer(port, 'none', '?producerName=p&initialSequenceId=4')
    publish(again, 295)
    assert publish(again, 1) == ['CAAQrAI=']
    again.leave()
    gone('none', 256)
    broker.kill()
    assert [each for each, _ in rows('none')] == list(range(256, 301))
    broker.start()
    again = producer(port, 'none', '?producerName=p&initialSequenceId=4')
    publish(again, 296)
    assert publish(again, 1) == ['CAEQAA==']
    gone('none', 256)
    print('ok what all have done with goes, and the topic goes on')


def own_rule():
    """A rule of a topic goes before the broker's, which counts again once the topic has none."""
    writer = producer(port, 'own')
    publish(writer, 1)
    assert ask('own', type='keep', keep='all') == {'result': 'ok'}
    publish(writer, 299)
    take('own', 300)
    publish(writer, 1)
    gone('own', 0)
    for rule, wanted in [({'messages': 236}, 64), ({'millis': 86_400_000}, 64), ({'keep': 'default'}, 64), ({'messages': 40}, 256), ({'keep': 'all'}, 256)]:
        assert ask('own', type='keep', **rule) == {'result': 'ok'}
        publish(writer, 1)
        gone('own', wanted)
    keeps('all')
    writer = producer(port, 'own')
    assert ask('own', type='keep', keep='default') == {'result': 'ok'}
    publish(writer, 1)
    gone('own', 256)
    print("ok a topic's own rule goes before the broker's, and is there after a start")


def all_kept():
    """Where all is kept nothing goes, and what was done with goes once the rule is another, and something is stored."""
    publish(producer(port, 'all'), 130)
    take('all', 130)
    publish(producer(port, 'all'), 1)
    gone('all', 0)
    keeps('0')
    gone('all', 0)
    publish(producer(port, 'all'), 1)
    gone('all', 128)
    print('ok where all is kept nothing goes')


def by_age():
    """A message of a moment that is to come holds back all behind it, whenever they were published."""
    publish(producer(port, 'age'), 300)
    broker.kill()
    with sqlite3.connect(broker.database) as base:
        base.execute('UPDATE entry SET time = 1000 WHERE topic = ?', [FULL + 'age'])
        base.execute('UPDATE entry SET time = ? WHERE topic = ? AND idx = 100', [LAST, FULL + 'age'])
    base.close()
    broker.more = ['keep=86400000ms']
    broker.start()
    take('age', 300)
    publish(producer(port, 'age'), 1)
    gone('age', 64)
    assert ask('age', type='keep', messages=0) == {'result': 'ok'}
    publish(producer(port, 'age'), 1)
    gone('age', 256)
    print('ok what is not old stays, and all behind it')


broker = Broker(program, port, 2, more=['keep=0'])
try:
    keeps_none()
    keeps('200')
    own_rule()
    all_kept()
    by_age()
finally:
    broker.kill()
