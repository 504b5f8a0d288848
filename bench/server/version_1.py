#!/usr/bin/env python3
# A file of version 1, as an earlier program wrote it: the broker goes on from it, and makes it one of version 3, by way of version 2.
# It wants Python's own library alone. The gate runs it.
# version_1.py PROGRAM [port]
import base64
import json
import os
import sqlite3
import sys
import tempfile

from client import Broker, Client, consumer, producer, text_of

program = sys.argv[1]
port = int(sys.argv[2]) if len(sys.argv) > 2 else 18096
T, U = 'persistent://public/default/t', 'persistent://public/default/u'

TABLES = '''
CREATE TABLE meta (id INTEGER NOT NULL PRIMARY KEY, version INTEGER NOT NULL) STRICT;
CREATE TABLE topic (name TEXT NOT NULL, ledger_size INTEGER NOT NULL, ledger INTEGER NOT NULL, ordinal INTEGER NOT NULL, PRIMARY KEY (name)) STRICT;
CREATE TABLE entry (topic TEXT NOT NULL, idx INTEGER NOT NULL, ledger INTEGER NOT NULL, entry INTEGER NOT NULL, producer TEXT NOT NULL, sequence INTEGER NOT NULL, time INTEGER NOT NULL, has_key INTEGER NOT NULL, key TEXT NOT NULL, properties TEXT NOT NULL, payload BLOB NOT NULL, PRIMARY KEY (topic, idx)) STRICT;
CREATE TABLE sub (topic TEXT NOT NULL, name TEXT NOT NULL, kind INTEGER NOT NULL, PRIMARY KEY (topic, name)) STRICT;
CREATE TABLE ack (topic TEXT NOT NULL, sub TEXT NOT NULL, first INTEGER NOT NULL, last INTEGER NOT NULL, PRIMARY KEY (topic, sub, first)) STRICT;
CREATE TABLE dead (topic TEXT NOT NULL, sub TEXT NOT NULL, ordinal INTEGER NOT NULL, idx INTEGER NOT NULL, target TEXT NOT NULL, PRIMARY KEY (topic, sub, ordinal)) STRICT;
'''
ROWS = {
    'meta': [(1, 1)],
    'topic': [(T, 50000, 0, 1), (U, 50000, 3, 0)],
    'entry': [(T, n, 0, n, 'p', n, 1000 + n, 0, '', '{}', f'm{n}'.encode()) for n in range(4)]
    + [(U, 0, 3, 0, 'q', 7, 2000, 1, 'k', '{"color":"red"}', b'u')],
    'sub': [(T, 's', 2), (U, 'v', 0)],
    'ack': [(T, 's', 0, 0)],
    'dead': [(T, 's', 0, 1, 'persistent://public/default/t-s-DLQ')],
}


def write(database):
    """The file: its rows, and the mark of SQLite's write-ahead log, as the broker leaves it."""
    conn = sqlite3.connect(database)
    conn.execute('PRAGMA journal_mode = wal')
    conn.executescript(TABLES)
    for table, rows in ROWS.items():
        for row in rows:
            conn.execute(f'INSERT INTO {table} VALUES ({", ".join("?" * len(row))})', row)
    conn.commit()
    conn.close()


def ask(database, question):
    conn = sqlite3.connect(database)
    try:
        return conn.execute(question).fetchall()
    finally:
        conn.close()


def has_same(database, but=()):
    """The rows of version 1 stand as they were, but in these tables."""
    for table, rows in ROWS.items():
        if table not in but:
            found = ask(database, f'SELECT * FROM {table}')
            assert sorted(found) == sorted(rows), f'{table}: {found}'


def receives(client, body, count):
    message = client.receive()
    assert base64.b64decode(message['payload']) == body and message['redeliveryCount'] == count, message
    return message['messageId']


folder = tempfile.mkdtemp(prefix='broker-', dir=os.environ.get('ROOM', '.'))
write(f'{folder}/broker.db')
broker = Broker(program, port, folder=folder)
try:
    broker.kill()
    assert ask(broker.database, 'PRAGMA integrity_check') == [('ok',)]
    assert ask(broker.database, 'SELECT * FROM meta') == [(1, 3)]
    for table in ('redelivery', 'author', 'retention'):
        assert ask(broker.database, f'SELECT * FROM {table}') == []
    has_same(broker.database, but=('meta',))
    print('a file of version 1 became one of version 3, with the same rows')

    broker.start()
    given = consumer(port, 't', 's', '?subscriptionType=Shared&negativeAckRedeliveryDelay=1')
    for body in (b'm2', b'm3'):
        position = receives(given, body, 0)
        given.send(json.dumps({'type': 'negativeAcknowledge', 'messageId': position}))
    for body in (b'm2', b'm3'):
        receives(given, body, 1)
    reader = consumer(port, 'u', 'v', '?subscriptionInitialPosition=Earliest')
    receives(reader, b'u', 0)
    # What is published is stored with all that came before it.
    writer = producer(port, 't', '?producerName=p')
    writer.send(text_of(b'm4'))
    assert writer.receive()['result'] == 'ok'
    broker.kill()
    assert ask(broker.database, f"SELECT sub, idx, times FROM redelivery WHERE topic = '{T}'") == [('s', 2, 1), ('s', 3, 1)]
    broker.start()
    again = consumer(port, 't', 's', '?subscriptionType=Shared')
    receives(again, b'm2', 1)
    receives(again, b'm3', 1)
    receives(again, b'm4', 0)
    print('its topics go on, and keep their counts over a kill')
    broker.kill()

    conn = sqlite3.connect(broker.database)
    conn.execute('UPDATE meta SET version = 9')
    conn.commit()
    conn.close()
    try:
        broker.start()
        raise SystemExit('a database of version 9 was taken')
    except AssertionError:
        broker.kill()
    assert ask(broker.database, 'SELECT * FROM meta') == [(1, 9)]
    print('a database of another version is refused, and stays')
finally:
    broker.kill()
