#!/usr/bin/env python3
# How large a file with a topic of 1,000, 100,000 and 1,000,000 messages of 100 bytes is, how long the broker takes to
# start over it and to load the topic, how much memory it has then, and how long a publish and its acknowledgement take; and whether the stock sqlite3
# (Debian's package of that name) finds the file whole and reads what was written.
# rows.py PROGRAM [port]
# The files go into the folder ROOM; over /dev/shm a sync costs nothing, which tells the rows' time from the disk's.
import json
import os
import subprocess
import sys
import time

from client import Broker, consumer, middle, producer, text_of, timed
from filled import NAME, fill

program = sys.argv[1]
port = int(sys.argv[2]) if len(sys.argv) > 2 else 18085
SIZES, CHANGES = (1_000, 100_000, 1_000_000), 20


def took(step):
    """How long it took, in seconds, and its answer."""
    before = time.perf_counter()
    answer = step()
    return time.perf_counter() - before, answer


def publish(writer):
    writer.send(text_of(b'x' * 99))
    assert writer.receive()['result'] == 'ok'


def first_publish():
    """The handshake is answered before the topic is loaded, a publish behind it."""
    writer = producer(port, 'big')
    publish(writer)
    return writer


def change(writer):
    """How long publishes take until they are answered, and messages until they come, in microseconds."""
    reader = consumer(port, 'big', 's', '?receiverQueueSize=1')

    def acknowledge(_):
        reader.send(json.dumps({'messageId': reader.receive()['messageId']}))

    return middle(timed(lambda _: publish(writer), CHANGES)), middle(timed(acknowledge, CHANGES))


def ask(question):
    asked = subprocess.run(['sqlite3', broker.database, question], check=True, capture_output=True, text=True)
    return asked.stdout.strip()


def check(size):
    """What the stock sqlite3 reads."""
    of_it = f"FROM entry WHERE topic = '{NAME}'"
    for question, answer in (
            ('PRAGMA integrity_check', 'ok'), ('PRAGMA journal_mode', 'wal'), ('SELECT id, version FROM meta', '1|2'),
            ('SELECT name FROM topic', NAME),
            (f'SELECT count(*), min(idx), max(idx) {of_it}', f'{size + CHANGES + 1}|0|{size + CHANGES}'),
            (f'SELECT DISTINCT typeof(payload), length(payload), properties {of_it} AND idx < {size}', 'blob|100|{}'),
            (f"SELECT sub, first, last FROM ack WHERE topic = '{NAME}'", f's|0|{CHANGES - 1}')):
        found = ask(question)
        assert found == answer, f'{question}: {found}, and not {answer}'


for size in SIZES:
    broker = Broker(program, port)
    try:
        broker.kill()
        fill(broker.database, size)
        file = os.path.getsize(broker.database) / 1048576
        start, _ = took(broker.start)
        load, writer = took(first_publish)
        memory = broker.memory() / 1048576
        published, delivered = change(writer)
        # An acknowledgement has no answer; it is stored with what comes next, or soon.
        time.sleep(1)
        broker.kill()
        check(size)
        print(f'{size:>9} messages: file {file:.1f} MiB, start {start:.3f} s, load {load:.3f} s, then {memory:.0f} MiB, '
              f'publish {published:.0f} us, delivery {delivered:.0f} us', flush=True)
    finally:
        broker.kill()
        for name in os.listdir(broker.folder):
            os.remove(f'{broker.folder}/{name}')
        os.rmdir(broker.folder)
