#!/usr/bin/env python3
# The time of day is set while the broker runs, ahead and back: what was given back, or is not acknowledged, comes again when it
# should all the same; a rule by age throws nothing away within the hour after; and the log says that the clock was set. The gate
# runs it; it wants gcc.
# clock.py PROGRAM [port]
import calendar
import json
import mmap
import os
import re
import struct
import subprocess
import sys
import tempfile
import time

from client import Client, consumer, producer, text_of
from said import Said

program = sys.argv[1]
port = int(sys.argv[2]) if len(sys.argv) > 2 else 18131
HERE = os.path.dirname(os.path.abspath(__file__))
SECOND, HOUR, DAY = 1000, 3_600_000, 86_400_000
DELAY, SOON = 1500, 3000  # milliseconds


class Broker(Said):
    """The program, whose clocks can be set."""

    def __init__(self, folder, shim):
        clocks = f'{folder}/clocks'
        with open(clocks, 'wb') as it:
            it.write(bytes(16))
        self.file = open(clocks, 'r+b')
        self.clocks = mmap.mmap(self.file.fileno(), 16)
        self.day = self.steady = 0
        super().__init__(program, folder, port, f'keep={DAY}ms', LD_PRELOAD=shim, SET_CLOCK=clocks)

    def set(self, day, steady=0):
        """Moves the clocks by so many milliseconds more."""
        self.day, self.steady = self.day + day, self.steady + steady
        self.clocks[:] = struct.pack('<qq', self.day, self.steady)

    def told(self, way, least, most=10):
        """The log says that the time of day was set, that way and about as far. Each line counts once."""
        end = time.time() + most
        while time.time() < end:
            for line in self.lines:
                found = re.fullmatch(r'level=warn msg="the time of day was set" way=(ahead|back) millis=(\d+)', line)
                if found and found.group(1) == way and least - 2 * SECOND <= int(found.group(2)) <= least + 2 * SECOND:
                    self.lines.remove(line)
                    return
            time.sleep(0.05)
        raise AssertionError((way, least, self.lines))


def publish(topic, count):
    client = producer(port, topic)
    for number in range(count):
        client.send(text_of(b'%d' % number))
    for _ in range(count):
        assert client.receive()['result'] == 'ok'
    client.leave()


def comes_again(broker, what, way, query, gives_back):
    """The clock is set while a message waits to come again."""
    publish(what, 1)
    reader = consumer(port, what, 's', f'?subscriptionType=Shared&subscriptionInitialPosition=Earliest&{query}={DELAY}')
    sent, since = reader.receive(), time.monotonic()
    if gives_back:
        since = time.monotonic()
        reader.send(json.dumps({'type': 'negativeAcknowledge', 'messageId': sent['messageId']}))
        time.sleep(0.2)
    broker.set(HOUR if way == 'ahead' else -HOUR)
    again = reader.receive()
    waited = 1000 * (time.monotonic() - since)
    assert again['messageId'] == sent['messageId'] and again['redeliveryCount'] == 1, again
    # the time when it was sent is known here a little late
    assert DELAY - 300 <= waited <= DELAY + SOON, f'{what}, clock set {way}: after {waited:.0f} ms'
    broker.told(way, HOUR)
    broker.set(-HOUR if way == 'ahead' else HOUR)
    broker.told('back' if way == 'ahead' else 'ahead', HOUR)
    reader.leave()
    print(f'ok {what} comes again after {waited:.0f} ms, although the clock was set {way} by an hour')


def kept(topic):
    """How many messages the topic keeps."""
    boss = Client(port, f'/ws/v2/admin/persistent/public/default/{topic}')
    boss.send(json.dumps({'type': 'overview'}))
    seen = boss.receive()
    boss.close()
    return next(each['kept'] for each in seen['topics'] if each['name'].endswith(f'/{topic}'))


def acknowledged(topic, count):
    """So many messages, each of which the only subscription has done with."""
    reader = consumer(port, topic, 's', '?subscriptionInitialPosition=Earliest')
    publish(topic, count)
    for _ in range(count):
        reader.send(json.dumps({'messageId': reader.receive()['messageId']}))
    return reader


def keeps_on(topic, reader, rounds):
    """More is published, so that all is stored and trimmed several times."""
    for _ in range(rounds):
        publish(topic, 5)
        for _ in range(5):
            reader.send(json.dumps({'messageId': reader.receive()['messageId']}))
        time.sleep(0.1)


def throws_nothing_away(broker):
    reader = acknowledged('aged', 100)
    broker.set(2 * DAY)
    keeps_on('aged', reader, 5)
    broker.told('ahead', 2 * DAY)
    time.sleep(1.5)
    keeps_on('aged', reader, 2)
    assert kept('aged') == 135, kept('aged')
    broker.set(-2 * DAY)
    keeps_on('aged', reader, 5)
    broker.told('back', 2 * DAY)
    assert kept('aged') == 160, kept('aged')
    print('ok a rule by age throws nothing away, where the clock is set ahead by two days and back')
    # an hour later the clock is believed: the first hundred are two days old, of which sixty-four go
    broker.set(2 * DAY)
    broker.told('ahead', 2 * DAY)
    broker.set(HOUR + SECOND, HOUR + SECOND)
    count, end = 160, time.time() + 10
    while kept('aged') > count - 64:
        keeps_on('aged', reader, 1)
        count += 5
        assert time.time() < end, (count, kept('aged'))
    reader.close()
    print('ok an hour after it was set the rule goes by the clock again')


def publish_time_is_of_the_day(broker):
    broker.set(-HOUR)
    broker.told('back', HOUR)
    publish('dated', 1)
    reader = consumer(port, 'dated', 's', '?subscriptionInitialPosition=Earliest')
    came = reader.receive()['publishTime']
    seconds = calendar.timegm(time.strptime(came[:19], '%Y-%m-%dT%H:%M:%S'))
    ought = time.time() + broker.day / 1000
    assert abs(seconds - ought) < 10, (came, ought)
    reader.close()
    broker.set(HOUR)
    broker.told('ahead', HOUR)
    print('ok a message is published at the time of day')


with tempfile.TemporaryDirectory(dir=os.environ.get('ROOM')) as room:
    shim = f'{room}/set_clock.so'
    subprocess.run(['gcc', '-O2', '-shared', '-fPIC', '-o', shim, f'{HERE}/set_clock.c'], check=True)
    broker = Broker(room, shim)
    try:
        for way in ('back', 'ahead'):
            comes_again(broker, f'given-back-{way}', way, 'negativeAckRedeliveryDelay', True)
            comes_again(broker, f'not-acknowledged-{way}', way, 'ackTimeoutMillis', False)
        publish_time_is_of_the_day(broker)
        throws_nothing_away(broker)
    finally:
        broker.end()
