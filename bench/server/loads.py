#!/usr/bin/env python3
# Whether a load of a topic of many messages stops anybody else: how long a publish to another topic takes until it is answered,
# and how long an attach to a name that is not open, before the load and while it goes on; and how long those wait who want the
# loaded topic, to which the next message has the next place then.
# loads.py PROGRAM [port [messages [bytes a message]]]
# The file goes into the folder ROOM.
import os
import sys
import threading
import time

from client import Broker, consumer, producer, text_of
from filled import fill

program = sys.argv[1]
port, SIZE, PAYLOAD = (int(word) for word in (sys.argv[2:] + ['18087', '1000000', '100'][len(sys.argv) - 2:]))
WAITERS, QUIET, EVERY = 5, 10.0, 25


def publish(writer):
    writer.send(text_of(b'x' * 99))
    answer = writer.receive()
    assert answer['result'] == 'ok', answer
    return answer


def shares(times):
    """The middle, the 99th of a hundred and the longest, in milliseconds."""
    if not times:
        return 'none'
    times = sorted(times)
    return ' / '.join(f'{1000 * times[at]:.2f}' for at in (len(times) // 2, len(times) * 99 // 100, len(times) - 1))


def keep_on(writer, goes_on):
    """Publishes one after the other, and now and then attaches to a name that is not open, as long as that is wanted."""
    published, attached = [], []
    while goes_on():
        before = time.perf_counter()
        publish(writer)
        published.append(time.perf_counter() - before)
        if len(published) % EVERY == 0:
            before = time.perf_counter()
            producer(port, f'small-{time.monotonic_ns()}').leave()
            attached.append(time.perf_counter() - before)
    return published, attached


def wait_for(number, waited):
    before = time.perf_counter()
    consumer(port, 'big', f's{number}', '?subscriptionType=Shared').close()
    waited.append(time.perf_counter() - before)


broker = Broker(program, port)
try:
    broker.kill()
    fill(broker.database, SIZE, PAYLOAD)
    broker.start()
    writer = producer(port, 'other')
    for _ in range(200):
        publish(writer)
    end = time.perf_counter() + QUIET
    published, attached = keep_on(writer, lambda: time.perf_counter() < end)
    print(f'before: {len(published)} publishes {shares(published)} ms, {len(attached)} attaches {shares(attached)} ms')
    waited = []
    threads = [threading.Thread(target=wait_for, args=(number, waited)) for number in range(WAITERS)]
    for thread in threads:
        thread.start()
    published, attached = keep_on(writer, lambda: any(thread.is_alive() for thread in threads))
    print(f'meanwhile: {len(published)} publishes {shares(published)} ms, {len(attached)} attaches {shares(attached)} ms')
    assert len(waited) == WAITERS
    print(f'{WAITERS} waited {min(waited):.2f} to {max(waited):.2f} s')
    last = producer(port, 'big')
    print(f'the next message: {publish(last)["messageId"]}, memory {broker.memory() / 1048576:.0f} MiB', flush=True)
finally:
    broker.kill()
    for name in os.listdir(broker.folder):
        os.remove(f'{broker.folder}/{name}')
    os.rmdir(broker.folder)
