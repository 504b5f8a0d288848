#!/usr/bin/env python3
# What redelivery counts cost: a publish to a topic before a subscription has any, while each of its messages is sent back
# once, and after that; and how long the load of the topic takes then. Debian's package: sqlite3.
# rewound.py PROGRAM [port]
import subprocess
import sys
import time

from client import Broker, consumer, middle, producer, text_of, timed
from filled import NAME, fill

program = sys.argv[1]
port = int(sys.argv[2]) if len(sys.argv) > 2 else 18095
COUNTS, PUBLISHES = (1_000, 10_000, 100_000), 200


def publish(writer):
    writer.send(text_of(b'x' * 99))
    assert writer.receive()['result'] == 'ok'


def counted():
    asked = subprocess.run(['sqlite3', broker.database, 'SELECT count(*), max(times) FROM redelivery'],
                           check=True, capture_output=True, text=True)
    return asked.stdout.strip()


def rewind(count):
    """All are sent, and none is acknowledged in time: so all are sent back at once."""
    reader = consumer(port, 'big', 's', f'?receiverQueueSize={count}&ackTimeoutMillis=3000')
    for _ in range(count):
        reader.receive()
    time.sleep(3.2)
    return reader


for count in COUNTS:
    broker = Broker(program, port)
    try:
        broker.kill()
        fill(broker.database, count)
        broker.start()
        writer = producer(port, 'big')
        before = middle(timed(lambda _: publish(writer), PUBLISHES))
        reader = rewind(count)
        reader.close()
        time.sleep(2)
        after = middle(timed(lambda _: publish(writer), PUBLISHES))
        broker.kill()
        rows = counted()
        broker.start()
        start = time.perf_counter()
        publish(producer(port, 'big'))
        load = time.perf_counter() - start
        print(f'{count:>7} messages: publish {before:.0f} us; {rows.replace("|", " counts, at most ")}; publish {after:.0f} us, '
              f'load {load:.3f} s', flush=True)
    finally:
        broker.kill()
