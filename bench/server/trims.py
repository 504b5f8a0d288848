#!/usr/bin/env python3
# What it costs a publish that messages go: a consumer acknowledges each message, and publishes wait for their ok, with a broker
# that keeps all and with one that keeps nothing, in turn.
# trims.py PROGRAM [port] [-count N] [-rounds N]
import argparse
import json
import os
import threading

from client import Broker, consumer, middle, producer, text_of, timed

words = argparse.ArgumentParser()
words.add_argument('program')
words.add_argument('port', nargs='?', type=int, default=18102)
words.add_argument('-count', type=int, default=10_000)
words.add_argument('-rounds', type=int, default=5)
given = words.parse_args()
BODY = text_of(os.urandom(1024))


def acknowledge(client, count):
    for _ in range(count):
        client.send(json.dumps({'messageId': client.receive()['messageId']}))


def measured(keep):
    broker = Broker(given.program, given.port, more=[f'keep={keep}'])
    reader = consumer(given.port, 'trims', 's')
    thread = threading.Thread(target=acknowledge, args=(reader, given.count))
    thread.start()
    writer = producer(given.port, 'trims')

    def step(_):
        writer.send(BODY)
        assert writer.receive()['result'] == 'ok'

    times = sorted(timed(step, given.count))
    thread.join()
    broker.kill()
    return times[len(times) // 2], times[len(times) * 99 // 100]


found = {keep: [] for keep in ('all', '0')}
for _ in range(given.rounds):
    for keep, each in found.items():
        each.append(measured(keep))
for keep, each in found.items():
    print(f'keep={keep}: p50 {middle([p50 for p50, _ in each]):.0f} µs, p99 {middle([p99 for _, p99 in each]):.0f} µs')
