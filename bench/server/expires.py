#!/usr/bin/env python3
# Subscriptions that nobody uses are dropped, of topics in memory and of others, and the log says so; those that somebody uses stay.
# The clocks are moved by days. The gate runs it; it wants gcc.
# expires.py PROGRAM [port]
import json
import mmap
import os
import struct
import subprocess
import sys
import tempfile
import time
import urllib.request

from client import consumer, producer, text_of
from said import Said

program = sys.argv[1]
port = int(sys.argv[2]) if len(sys.argv) > 2 else 18143
HERE = os.path.dirname(os.path.abspath(__file__))
FULL, HOUR, DAY = 'persistent://public/default/', 3_600_000, 86_400_000


class Broker(Said):
    """The program, whose clocks can be moved."""

    def __init__(self, folder, shim):
        clocks = f'{folder}/clocks'
        with open(clocks, 'wb') as it:
            it.write(bytes(16))
        self.file = open(clocks, 'r+b')
        self.clocks, self.ahead = mmap.mmap(self.file.fileno(), 16), 0
        super().__init__(program, folder, port, 'expire=2d', LD_PRELOAD=shim, SET_CLOCK=clocks)

    def pass_by(self, millis):
        """So much later, as both clocks show it, all topics are looked at: much that is published wakes the thread that does so."""
        self.ahead += millis
        self.clocks[:] = struct.pack('<qq', self.ahead, self.ahead)
        for _ in range(3):
            publish('busy', 200)
            time.sleep(0.2)


def publish(topic, count):
    client = producer(port, topic)
    for number in range(count):
        client.send(text_of(b'%d' % number))
    for _ in range(count):
        assert client.receive()['result'] == 'ok'
    client.leave()


def subscriptions():
    """For how long nobody was in each, by the names of its topic and of itself."""
    with urllib.request.urlopen(f'http://127.0.0.1:{port}/overview', timeout=10) as answer:
        seen = json.loads(answer.read())['topics']
    return {(topic['name'].removeprefix(FULL), sub['name']): sub.get('unused') for topic in seen for sub in topic['subscriptions']}


def visit(topic, name):
    consumer(port, topic, name, '?subscriptionType=Shared').leave()


def waits_for(what, holds):
    until = time.time() + 20
    while not holds():
        assert time.time() < until, (what, subscriptions(), broker.lines)
        time.sleep(0.1)


def expired(topic, name):
    return f'level=info msg="subscription expired" topic="{FULL}{topic}" subscription="{name}"'


with tempfile.TemporaryDirectory(dir=os.environ.get('ROOM')) as folder:
    shim = f'{folder}/set_clock.so'
    subprocess.run(['gcc', '-O2', '-shared', '-fPIC', '-o', shim, f'{HERE}/set_clock.c'], check=True)
    broker = Broker(folder, shim)
    try:
        for name in ('left', 'sometimes'):
            visit('open', name)
        visit('rests', 'left')
        publish('open', 3)
        stays = consumer(port, 'open', 'used', '?subscriptionType=Shared')
        broker.pass_by(2 * 60_000)
        waits_for('it is known who is there', lambda: subscriptions()[('open', 'left')] is not None)
        assert subscriptions()[('open', 'used')] is None
        broker.pass_by(DAY)
        waits_for('a day has passed', lambda: subscriptions()[('open', 'left')] >= DAY)
        visit('open', 'sometimes')
        # The other topic leaves memory, since nobody uses it.
        for _ in range(8):
            broker.pass_by(5 * 60_000)
        waits_for('it rests', lambda: [sub for sub in subscriptions() if sub[0] == 'rests'])
        broker.pass_by(DAY + HOUR)
        waits_for('nobody used it', lambda: ('open', 'left') not in subscriptions())
        waits_for('nobody used it in a topic that rests', lambda: ('rests', 'left') not in subscriptions())
        assert {('open', 'used'), ('open', 'sometimes')} <= set(subscriptions()), subscriptions()
        assert DAY <= subscriptions()[('open', 'sometimes')] <= DAY + 3 * HOUR, subscriptions()
        for topic in ('open', 'rests'):
            waits_for('the log says so', lambda: expired(topic, 'left') in broker.lines)
        assert len([line for line in broker.lines if 'expired' in line]) == 2, broker.lines

        # It was stored, and the time begins anew with a start.
        broker.end()
        broker = Broker(folder, shim)
        waits_for('topics are counted', lambda: ('open', 'sometimes') in subscriptions())
        assert ('open', 'left') not in subscriptions() and ('rests', 'left') not in subscriptions()
        broker.pass_by(2 * 60_000)
        broker.pass_by(DAY)
        assert ('open', 'sometimes') in subscriptions()
        broker.pass_by(DAY + HOUR)
        waits_for('nobody used it since the start', lambda: ('open', 'sometimes') not in subscriptions())
    finally:
        broker.end()
print('subscriptions that nobody uses are dropped, and no others')
