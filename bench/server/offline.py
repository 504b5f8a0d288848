#!/usr/bin/env python3
# Trims the file of a broker that was killed, and compares what each subscription gets afterwards with what it would have got.
# Python's own library alone. The gate runs it.
# offline.py PROGRAM [port]
import base64
import json
import os
import shutil
import sqlite3
import subprocess
import sys
import tempfile

from client import Broker, Client, consumer, producer, text_of

program = sys.argv[1]
port = int(sys.argv[2]) if len(sys.argv) > 2 else 18097
TOOL = os.path.join(os.path.dirname(os.path.abspath(__file__)), '..', '..', 'tools', 'brokerctl')
T = 'persistent://public/default/t'
KINDS = {'a': 'Exclusive', 'b': 'Shared', 'c': 'Key_Shared', 'late': 'Failover'}


def tool(*words, fails=False):
    """The lines that the tool answers with, each from JSON; or the one line with which it fails."""
    said = subprocess.run([sys.executable, TOOL, '--json', 'offline', *words], capture_output=True, text=True)
    assert (said.returncode != 0) == fails, said
    return said.stderr.strip() if fails else [json.loads(line) for line in said.stdout.splitlines()]


def publish(name, first, count):
    writer = producer(port, 't', f'?producerName={name}')
    for number in range(first, first + count):
        writer.send(json.dumps({**json.loads(text_of(f'm{number}'.encode())), 'key': f'k{number % 7}'}))
        assert writer.receive()['result'] == 'ok'
    writer.leave()


def reader(sub):
    return consumer(port, 't', sub, f'?subscriptionType={KINDS[sub]}&receiverQueueSize=10000&subscriptionInitialPosition=Earliest')


def acknowledge(sub, numbers):
    """Of all that comes, these are acknowledged."""
    client, ids = reader(sub), {}
    while len(ids) < TOTAL:
        message = client.receive()
        ids[int(base64.b64decode(message['payload'])[1:])] = message['messageId']
    for number in numbers:
        client.send(json.dumps({'messageId': ids[number]}))
    client.leave()


def all_of(folder):
    """What each subscription gets, each message with its id, its key, its moment and how often it came before."""
    broker, got = Broker(program, port, folder=folder), {}
    try:
        publish('after', TOTAL, 1)
        last = base64.b64encode(f'm{TOTAL}'.encode()).decode()
        for sub in KINDS:
            client, got[sub] = reader(sub), []
            while (message := client.receive())['payload'] != last:
                got[sub].append(message)
            got[sub].append(message['messageId'])
            client.leave()
    finally:
        broker.kill()
    return got


def copied(folder):
    other = tempfile.mkdtemp(prefix='broker-', dir=os.environ.get('ROOM', '.'))
    for name in os.listdir(folder):
        shutil.copy(f'{folder}/{name}', other)
    return other


def count_in(folder):
    conn = sqlite3.connect(f'{folder}/broker.db')
    try:
        return conn.execute('SELECT count(*), min(idx) FROM entry').fetchone()
    finally:
        conn.close()


TOTAL = 300
broker = Broker(program, port)
try:
    for sub in KINDS:
        reader(sub).leave()
    publish('first', 0, 50)
    publish('second', 50, 250)
    acknowledge('a', range(200))
    acknowledge('b', [*range(160), *range(170, 180), 250])
    acknowledge('c', [*range(150), *range(151, 300)])
    acknowledge('late', range(300))
    assert 'the broker has it open' in tool('trim', broker.database, fails=True)
    # What is published is stored with the acknowledgements that came before it.
    publish('second', 300, 1)
    TOTAL += 1
finally:
    broker.kill()
print('a file that the broker has open is left alone')

whole, trimmed, some = copied(broker.folder), copied(broker.folder), copied(broker.folder)
listed = tool('list', f'{trimmed}/broker.db')[0]
assert listed['topic'] == T and listed['messages'] == TOTAL, listed
assert listed['done'] == 150, listed
went = tool('trim', f'{trimmed}/broker.db', '--vacuum')
assert went == [{'topic': T, 'went': 149, 'producersForgotten': []}], went
assert count_in(trimmed) == (TOTAL - 149, 149)
assert tool('trim', f'{trimmed}/broker.db', 't')[0]['went'] == 0
assert tool('trim', f'{some}/broker.db', 't', '--keep', '200')[0]['went'] == TOTAL - 200
assert tool('trim', f'{some}/broker.db', 't', '--older', '1h')[0]['went'] == 0
assert tool('check', f'{trimmed}/broker.db') == [{'result': 'ok'}]
would = all_of(whole)
assert [len(would[sub]) for sub in KINDS] == [102, 131, 3, 2], {sub: len(got) for sub, got in would.items()}
for folder in (trimmed, some):
    got = all_of(folder)
    assert got == would, {sub: (len(would[sub]), len(got[sub])) for sub in KINDS}
print('after a trim each subscription gets just what it would have got')

# A dead letter that waits to be moved keeps what stands behind it, and a topic without subscriptions all.
conn = sqlite3.connect(f'{whole}/broker.db')
conn.execute("DELETE FROM ack WHERE sub = 'a'")
conn.execute("INSERT INTO ack VALUES (?, 'a', 0, 99)", (T,))
conn.execute("INSERT INTO ack VALUES (?, 'a', 101, 299)", (T,))
conn.execute("INSERT INTO dead VALUES (?, 'a', 0, 40, ?)", (T, T + '-a-DLQ'))
conn.execute('INSERT INTO redelivery VALUES (?, ?, 100, 3)', (T, 'a'))
conn.execute('UPDATE topic SET ordinal = 1')
conn.execute("INSERT INTO topic VALUES (?, 50000, 0, 0)", (T + '2',))
conn.execute("INSERT INTO entry SELECT ?, idx, ledger, entry, producer, sequence, time, has_key, key, properties, payload FROM entry WHERE idx < 70", (T + '2',))
conn.commit()
conn.close()
assert [one['went'] for one in tool('trim', f'{whole}/broker.db')] == [39, 0]
conn = sqlite3.connect(f'{whole}/broker.db')
assert conn.execute('SELECT idx FROM dead').fetchall() == [(40,)]
assert conn.execute('SELECT idx, times FROM redelivery').fetchall() == [(100, 3)]
assert conn.execute("SELECT first, last FROM ack WHERE sub = 'a' ORDER BY first").fetchall() == [(39, 99), (101, 299)]
assert conn.execute('SELECT topic, gone FROM retention').fetchall() == [(T, 39)]
assert conn.execute('SELECT idx, producer, sequence FROM author').fetchall() == [(38, 'first', 38)]
assert conn.execute('SELECT count(*) FROM entry WHERE topic = ?', (T + '2',)).fetchone() == (70,)
conn.close()
assert tool('delete', f'{whole}/broker.db', 't2') == [{'result': 'ok'}]
assert [one['topic'] for one in tool('list', f'{whole}/broker.db')] == [T]
assert 'no such topic' in tool('trim', f'{whole}/broker.db', 'nowhere', fails=True)
assert 'no such topic' in tool('delete', f'{whole}/broker.db', 't2', fails=True)
print('a dead letter keeps what stands behind it, a topic without subscriptions all')

# What is left of a deleted topic: its numbers, and who moved dead letters there. So an id of it is never another message's.
conn = sqlite3.connect(f'{whole}/broker.db')
assert conn.execute('SELECT ledger, ordinal FROM topic WHERE name = ?', (T + '2',)).fetchall() == [(0, 0)]
assert conn.execute('SELECT gone, kind, amount FROM retention WHERE topic = ?', (T + '2',)).fetchall() == [(70, 0, 0)]
for table in ('entry', 'author', 'sub', 'ack', 'dead', 'redelivery'):
    assert conn.execute(f'SELECT count(*) FROM {table} WHERE topic = ?', (T + '2',)).fetchone() == (0,), table
old = conn.execute('SELECT max(ledger) FROM entry WHERE topic = ?', (T,)).fetchone()[0]
conn.close()
broker = Broker(program, port, folder=whole)
try:
    looker = Client(port, '/ws/v2/admin/persistent/public/default/t2')
    assert looker.receive() == (4008, 'F11')
    looker.close()
    writer = producer(port, 't2', '?producerName=first')
    writer.send(text_of(b'again'))
    again = writer.receive()
    assert again['result'] == 'ok' and base64.b64decode(again['messageId']) == b'\x08\x01\x10\x00', again
    writer.leave()
    client = consumer(port, 't2', 's', '?subscriptionInitialPosition=Earliest')
    assert base64.b64decode(client.receive()['payload']) == b'again'
    client.leave()
finally:
    broker.kill()
print('a topic is deleted; the one that is made again under its name goes on with its numbers')
