#!/usr/bin/env python3
# What it costs a publish that somebody looks each second: p50 and p99 of publishes that wait for their answers, beside 200
# topics with a subscription each, without looks and with them, in turns. It wants Python's own library alone.
# scrapes.py PROGRAM [port] [-topics N] [-count N] [-turns N]
import argparse
import http.client
import threading
import time

from client import Broker, consumer, middle, producer, text_of, timed

words = argparse.ArgumentParser()
words.add_argument('program')
words.add_argument('port', nargs='?', type=int, default=18104)
words.add_argument('-topics', type=int, default=200)
words.add_argument('-count', type=int, default=20000)
words.add_argument('-turns', type=int, default=5)
given = words.parse_args()
BODY = text_of(b'x' * 1024)


def publish(client):
    client.send(BODY)
    assert client.receive()['result'] == 'ok'


class Looks:
    """Somebody who asks for the metrics each second."""

    def __init__(self, every=1.0):
        self.every, self.took, self.size = every, [], 0
        self.ends = threading.Event()
        self.thread = threading.Thread(target=self.look)
        self.thread.start()

    def look(self):
        while not self.ends.wait(self.every):
            before = time.perf_counter()
            conn = http.client.HTTPConnection('127.0.0.1', given.port, timeout=30)
            conn.request('GET', '/metrics')
            answer = conn.getresponse()
            assert answer.status == 200
            self.size = len(answer.read())
            conn.close()
            self.took.append((time.perf_counter() - before) * 1e6)

    def end(self):
        self.ends.set()
        self.thread.join()


broker = Broker(given.program, given.port)
try:
    clients = []
    for number in range(given.topics):
        clients.append(consumer(given.port, f't{number}', 's'))
        writer = producer(given.port, f't{number}')
        publish(writer)
        writer.close()
    writer = producer(given.port, 'measured')
    for _ in range(200):
        publish(writer)
    times = {False: [], True: []}
    for turn in range(2 * given.turns):
        looks = Looks() if turn % 2 else None
        times[bool(looks)] += timed(lambda _: publish(writer), given.count)
        if looks:
            looks.end()
    for looked, each in times.items():
        each.sort()
        print(f'{"with" if looked else "without"} a look each second: p50 {middle(each):.0f} us, '
              f'p99 {each[len(each) * 99 // 100]:.0f} us')
    print(f'a look takes {middle(looks.took) / 1000:.1f} ms and has {looks.size} bytes; '
          f'p50 grows by {100 * (middle(times[True]) / middle(times[False]) - 1):.1f} %')
finally:
    broker.kill()
