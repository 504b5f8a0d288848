#!/usr/bin/env python3
# The database's files are taken away, cut or replaced under a broker that serves: it notices within a few seconds, says which file
# and why, ends its sessions (F16) and ends with status 3. The gate runs it.
# gone.py PROGRAM [port]
import os
import shutil
import sys
import tempfile
import time

from client import consumer, frame, producer, text_of
from said import Said

program = sys.argv[1]
port = int(sys.argv[2]) if len(sys.argv) > 2 else 18133


def publishes(count):
    client = producer(port, 't')
    for _ in range(count):
        client.send(text_of(b'x' * 1000))
        assert client.receive()['result'] == 'ok'
    client.leave()


def lost(what, words, does):
    """The broker ends with these words once that was done to the file and its log."""
    with tempfile.TemporaryDirectory(dir=os.environ.get('ROOM')) as room:
        broker = Said(program, room, port)
        try:
            publishes(300)
            time.sleep(2.2)
            idle = consumer(port, 't', 's')
            does(f'{room}/broker.db', f'{room}/broker.db-wal')
            begun = time.monotonic()
            assert idle.receive() == (4008, 'F16')
            assert broker.process.wait(30) == 3
            took = time.monotonic() - begun
            assert took < 5, took
            time.sleep(0.2)
            assert any(words in line for line in broker.lines), broker.lines
            print(f'ok {what}: noticed after {took:.1f} s')
        finally:
            broker.end()


def replace(name, log):
    shutil.copy(name, f'{name}.other')
    os.rename(f'{name}.other', name)


def many(seconds):
    """Publishes without waiting, so that the log begins anew again and again. How often it was seen to get shorter."""
    client, log, before, times = producer(port, 't'), f'{room}/broker.db-wal', 0, 0
    text, end = frame(1, text_of(b'x' * 10_000)), time.monotonic() + seconds
    while time.monotonic() < end:
        client.sock.sendall(text * 100)
        for _ in range(100):
            assert client.receive()['result'] == 'ok'
        length = os.stat(log).st_size
        times, before = times + (length < before), length
    client.leave()
    return times


def stays():
    """Who makes a copy, or only touches the files, hinders nothing, and no log that begins anew counts as one that was cut."""
    global room
    with tempfile.TemporaryDirectory(dir=os.environ.get('ROOM')) as room:
        broker = Said(program, room, port, 'keep=0')
        try:
            for _ in range(3):
                publishes(100)
                shutil.copy(f'{room}/broker.db', f'{room}/copy')
                os.utime(f'{room}/broker.db')
                time.sleep(1.1)
            times = many(6)
            time.sleep(1.5)
            assert broker.process.poll() is None, broker.lines
            print(f'ok a copy is no loss, and a log that got shorter {times} times is none')
        finally:
            broker.end()


stays()
lost('the file is gone', "the database's file is gone", lambda name, log: os.remove(name))
lost('the log is gone', "the database's log is gone", lambda name, log: os.remove(log))
lost('the log is cut', "the database's log is shorter than what was written", lambda name, log: os.truncate(log, 0))
lost('the log is cut in two', "the database's log is shorter than what was written", lambda name, log: os.truncate(log, os.stat(log).st_size // 2))
lost('the file is cut', "the database's file is shorter than what was written", lambda name, log: os.truncate(name, 0))
lost('the file is another one', "the database's file is another one", replace)
