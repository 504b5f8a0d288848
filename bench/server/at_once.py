#!/usr/bin/env python3
# Two topics are served at once: while one topic is held for long by one command, publishes to others are answered. Each message
# of a large topic is skipped by one command under that topic's lock, after a seek back, again and again. A broker that had one
# lock round all topics, or whose workers served one after the other, would answer one publish at most (which was on its way) for
# as long as such a command takes at least; so none of its turns would have answers less than a third of that apart. Of this one
# some have to, while a loaded machine may be slow in others. The gate runs it.
# at_once.py PROGRAM [port] [messages] [turns]
import json
import os
import sys
import tempfile
import threading
import time

from client import Broker, Client, middle, producer, text_of
from filled import fill

program = sys.argv[1]
port = int(sys.argv[2]) if len(sys.argv) > 2 else 18113
messages = int(sys.argv[3]) if len(sys.argv) > 3 else 1_000_000
turns = int(sys.argv[4]) if len(sys.argv) > 4 else 40
WANTED, PUBLISHERS, LEAST = 3, 2, 0.02
ADMIN = '/ws/v2/admin/persistent/public/default/big'


class Publisher(threading.Thread):
    """Publishes at a topic of its own until the end, one after the other, and notes when each was answered."""

    def __init__(self, number):
        super().__init__()
        self.client, self.answered, self.ended = producer(port, f'other-{number}'), [], False
        self.start()

    def run(self):
        while not self.ended:
            self.client.send(text_of(b'x'))
            assert self.client.receive()['result'] == 'ok'
            self.answered.append(time.monotonic())

    def gap(self, begun, ended):
        """The longest time without an answer while the command was under way."""
        moments = [begun, *(it for it in list(self.answered) if begun < it < ended), ended]
        return max(later - former for former, later in zip(moments, moments[1:]))


def ask(**said):
    boss.send(json.dumps(said))
    answer = boss.receive()
    assert isinstance(answer, dict) and answer.get('result', 'ok') == 'ok', answer
    return answer


def skip():
    """When the command was sent, and when it was answered."""
    begun = time.monotonic()
    ask(type='skip', subscription='s', messages=messages)
    ended = time.monotonic()
    assert ask(type='stats', subscription='s')['live'] == 0
    return begun, ended


def back():
    """All messages are live again, and that is stored: so nobody but the next command comes to the topic."""
    ask(type='seek', subscription='s', position='earliest')
    wanted = [len(each.answered) + 3 for each in publishers]
    while any(len(each.answered) < least for each, least in zip(publishers, wanted)):
        time.sleep(0.005)


def middle_gap():
    """How long a publish takes, mostly."""
    return middle([later - former for each in publishers for former, later in zip(each.answered, each.answered[1:])])


def served():
    """In how many turns answers came as one lock would not let them: as long as the command took at least, it had the lock."""
    return sum(gap < min(took) / 3 for gap in gaps)


folder = tempfile.mkdtemp(prefix='broker-', dir=os.environ.get('ROOM', '.'))
Broker(program, port, 2, folder).kill()
fill(f'{folder}/broker.db', messages, 1)
broker = Broker(program, port, 2, folder)
publishers = []
try:
    boss = Client(port, ADMIN, 120)
    took, gaps = [], []
    for _ in range(5):
        begun, ended = skip()
        took.append(ended - begun)
        back()
    assert min(took) > LEAST, f'a command takes {1000 * min(took):.1f} ms only'
    publishers = [Publisher(number) for number in range(PUBLISHERS)]
    while len(gaps) < turns and served() < WANTED:
        back()
        begun, ended = skip()
        took.append(ended - begun)
        gaps.append(min(each.gap(begun, ended) for each in publishers))
    said = (f'a command takes {1000 * min(took):.0f} ms at least, a publish {1000 * middle_gap():.1f}; '
            f'without an answer meanwhile: {", ".join(f"{1000 * gap:.0f}" for gap in gaps)} ms')
    assert served() >= WANTED, said
    print(f'ok {said}')
finally:
    for each in publishers:
        each.ended = True
    for each in publishers:
        each.join()
    broker.kill()
