#!/usr/bin/env python3
# What the broker writes on standard error: its start, commits that a slow disk takes long for, sessions that are refused,
# each refusal once a second, a topic whose load takes long, and a client that says nothing for 75 seconds. It wants gcc, and
# Python's own library.
# log.py PROGRAM [port] [messages of the topic that is loaded]
import os
import re
import subprocess
import sys
import tempfile
import time

from client import consumer, frame, producer, text_of
from said import Said

program = sys.argv[1]
port = int(sys.argv[2]) if len(sys.argv) > 2 else 18105
COUNT = int(sys.argv[3]) if len(sys.argv) > 3 else 1_000_000
HERE = os.path.dirname(os.path.abspath(__file__))


def publish(count):
    client = producer(port, 'loaded')
    text = frame(1, text_of(b'x' * 100))
    left = count
    while left:
        some = min(left, 1000)
        client.sock.sendall(text * some)
        for _ in range(some):
            assert client.receive()['result'] == 'ok'
        left -= some
    client.leave()


def refuse(times):
    """Consumers that an Exclusive subscription has no room for."""
    for _ in range(times):
        got = consumer(port, 'taken', 's').receive()
        assert got == (4002, 'F6'), got


with tempfile.TemporaryDirectory(dir=os.environ.get('ROOM')) as room:
    slow = f'{room}/slow.so'
    subprocess.run(['gcc', '-O2', '-shared', '-fPIC', '-o', slow, f'{HERE}/fixed_sync.c'], check=True)
    broker = Said(program, room, port, LD_PRELOAD=slow, SYNC_US='150000')
    print(broker.until(r'level=info msg="started" version=\S+ database=\S+ bytes=\d+ log_bytes=\d+ address=\S+ workers=2'))
    writer = producer(port, 'slow')
    writer.send(text_of(b'x'))
    assert writer.receive()['result'] == 'ok'
    print(broker.until(r'level=warn msg="slow store" millis=1[5-9]\d rows=\d+'))
    broker.end()

    broker = Said(program, room, port)
    silent = consumer(port, 'silent', 's')
    came = time.time()
    holder = consumer(port, 'taken', 's')
    for _ in range(3):
        refuse(20)
        time.sleep(0.5)
    time.sleep(1.2)
    refuse(1)
    time.sleep(0.3)
    told = [line for line in broker.lines if 'sessions refused' in line]
    counts = [int(re.fullmatch(r'level=warn msg="sessions refused" fault=F6 count=(\d+)', line).group(1)) for line in told]
    assert 2 <= len(counts) <= 5 and sum(counts) == 61, told
    print(f'{sum(counts)} refusals in {len(told)} lines, as {told[0]}')
    publish(COUNT)
    print(broker.until(r'level=info msg="ended by silence" address=127\.0\.0\.1:\d+ millis=7[5-9]\d\d\d', 90))
    print(f'after {time.time() - came:.0f} s')
    broker.end()

    broker = Said(program, room, port)
    reader = consumer(port, 'loaded', 's', '?subscriptionInitialPosition=Earliest')
    assert 'payload' in reader.receive()
    print(broker.until(r'level=info msg="topic loaded" topic="persistent://public/default/loaded" millis=\d+'))
    broker.end()
