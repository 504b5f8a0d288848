#!/usr/bin/env python3
# One topic that is used without an end: endless.c publishes and consumes, while the broker is killed once a minute. At the end
# the file, the memory and a start are looked at. It wants gcc and Debian's sqlite3.
# endless.py PROGRAM [port] [-count N] [-keep RULE] [-subs N] [-type T] [-consumers N] [-keys N] [-dead N] [-slow US] [-every SECONDS]
import argparse
import os
import subprocess
import sys
import tempfile
import time

from client import Broker, producer, text_of

words = argparse.ArgumentParser()
words.add_argument('program')
words.add_argument('port', nargs='?', type=int, default=18101)
words.add_argument('-count', type=int, default=1_000_000)
words.add_argument('-keep', default='0')
words.add_argument('-subs', type=int, default=1)
words.add_argument('-type', default='Exclusive')
words.add_argument('-consumers', type=int, default=1)
words.add_argument('-keys', type=int, default=0)
words.add_argument('-dead', type=int, default=0)
words.add_argument('-slow', type=int, default=0)
words.add_argument('-every', type=float, default=60)
given = words.parse_args()
HERE = os.path.dirname(os.path.abspath(__file__))


def size(broker):
    return sum(os.path.getsize(f'{broker.folder}/{name}') for name in os.listdir(broker.folder))


with tempfile.TemporaryDirectory() as room:
    client = f'{room}/endless'
    subprocess.run(['gcc', '-O2', '-pthread', '-o', client, f'{HERE}/endless.c'], check=True)
    broker = Broker(given.program, given.port, more=[f'keep={given.keep}'])
    load = subprocess.Popen([client, str(given.port), str(given.count), str(given.subs), given.type, str(given.consumers),
                             str(given.keys), str(given.dead), str(given.slow)])
    kills, most, since, starts = 0, 0, time.time(), []
    while load.poll() is None:
        time.sleep(0.5)
        if broker.process.poll() is not None:
            sys.exit(f'the broker ended by itself: {broker.process.returncode}')
        most = max(most, broker.memory() or 0)
        if time.time() - since >= given.every:
            broker.kill()
            broker.start()
            starts.append(broker.took)
            kills, since = kills + 1, time.time()
    time.sleep(2)
    at_end = broker.memory()
    broker.kill()
    broker.start()
    writer = producer(broker.port, 'endless')       # the topic is loaded
    writer.send(text_of(b'AAAA'))
    assert writer.receive()['result'] == 'ok'
    after = broker.memory()
    broker.kill()
    print(f'{kills} kills; memory at most {most >> 20} MiB, at the end {at_end >> 20}, after a start {after >> 20}; '
          f'the files {size(broker) >> 20} MiB; the last start {broker.took:.2f} s')
    assert load.returncode == 0, load.returncode
