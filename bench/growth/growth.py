#!/usr/bin/env python3
"""How the fast topic's calls grow with what it holds.

usage: growth.py PROGRAM [-turns N] [-only WORD] [-most N] [-times N]

PROGRAM is tools/topic_replay, once pulsar_replay is built. Each case makes a topic by lines, and then asks the same few events again and
again. What a turn costs is the program's processor time over these lines, less that over as many lines of the
same words that are refused at once (nobody has the number, nothing has the name): so reading and writing lines
does not count, and 0 is no more than a refusal. Where a message is collected, its copy is written out with its
payload, which no refusal is; what that takes is measured apart, at many copies of one answer, and taken off too.
Each case has topics of its own, several of them, and the median is printed. Where one topic has room for few
turns, as a small one has, more topics of the same making are asked, until so many turns are measured together.
"""
import argparse
import base64
import os
import statistics
import subprocess
import sys
import threading
import time

LEDGER = 50_000
PAYLOAD = base64.b64encode(bytes(100)).decode()
SIZES = [1_000, 10_000, 100_000, 1_000_000]
# Enough replies for the program to write what it has gathered before them.
PADS = 8_000
PAD = "progress\n" * PADS
NOBODY = 999_999_999


def varint(number):
    out = bytearray()
    while number > 127:
        out.append(number & 127 | 128)
        number >>= 7
    out.append(number)
    return bytes(out)


def position(index):
    """The id of the message at the index of a topic that was never restarted."""
    ledger, entry = divmod(index, LEDGER)
    return base64.b64encode(b"\x08" + varint(ledger) + b"\x10" + varint(entry)).decode()


class Replay:
    """The program, with what was asked and answered."""

    def __init__(self, program):
        self.process = subprocess.Popen([program], stdin=subprocess.PIPE, stdout=subprocess.PIPE, bufsize=0)
        self.asked = self.answered = 0
        self.refused = 0
        threading.Thread(target=self.read, daemon=True).start()
        self.pad = 0
        self.pad = min([self.cost("") for _ in range(4)][1:])

    def read(self):
        while block := os.read(self.process.stdout.fileno(), 1 << 20):
            self.refused += block.count(b"refused") + block.count(b"idle")
            self.answered += block.count(b"\n")

    def cpu(self):
        with open(f"/proc/{self.process.pid}/schedstat") as file:
            return int(file.read().split()[0])

    def rest(self):
        """Waits until the program waits for more lines, and answers the processor time that it has used."""
        before = -1
        while not self.sleeps() or before != (before := self.cpu()):
            time.sleep(0.002)
        return before

    def sleeps(self):
        with open(f"/proc/{self.process.pid}/stat") as file:
            return file.read().rsplit(")", 1)[1].split()[0] == "S"

    def ask(self, lines):
        text = lines.encode()
        self.process.stdin.write(text)
        self.asked += text.count(b"\n")
        want = self.asked
        self.process.stdin.write(PAD.encode())
        self.asked += PADS
        while self.answered < want:
            if self.process.poll() is not None:
                sys.exit("the program has ended: a bad line, or no memory")
            time.sleep(0.0005)

    def cost(self, lines):
        """The nanoseconds that the lines take."""
        before = self.rest()
        self.ask(lines)
        return self.rest() - before - self.pad

    def end(self):
        self.process.stdin.close()
        self.process.wait()


class Topic:
    """A topic by lines: its size, and who is there."""

    def __init__(self, program, messages=1_000, pending=0, members=1, subscriptions=1, kind="Shared", keys=0, halved=True):
        self.replay = Replay(program)
        self.count, self.kind, self.keys = 0, kind, keys
        self.joined = 0
        self.make(messages, pending, members, subscriptions, halved)

    def key(self):
        return f"key-{self.count % self.keys}" if self.keys else "-"

    def publish(self, producer=1):
        line = f"publish {producer} {self.count} {self.key()} {PAYLOAD} {1_000 + self.count}\n"
        self.count += 1
        return line

    def subscribe(self, name, flow, kind=None):
        return f"subscribe {name} {kind or self.kind} 0 {flow} 0 0 0 - Earliest\n"

    def make(self, messages, pending, members, subscriptions, halved):
        lines = ["producer p -\n"]
        for number in range(1, subscriptions):
            lines.append(self.subscribe(f"s{number:02}", "push:1", "Shared"))
        all_have_room = self.kind != "Shared"
        crowd = [self.subscribe("s", "pull" if all_have_room else "push:1")] * (members - 1)
        lines += crowd + [self.subscribe("s", "pull")]
        self.joined = subscriptions - 1 + members
        # who is asked: of a Failover subscription the active member
        self.consumer = subscriptions if self.kind == "Failover" else self.joined
        first = subscriptions if all_have_room else self.joined
        lines += [f"permit {number} 2000000000\n" for number in range(first, self.joined + 1)]
        lines += [self.publish() for _ in range(messages)]
        lines.append("stored\n")
        lines += [f"dispatch s{number:02} 1000\n" for number in range(1, subscriptions)]
        if halved:
            lines += [f"ack {self.consumer} {position(index)}\n" for index in range(1, messages, 2)]
        self.waiting = iter(range(0, messages, 2) if halved else range(messages))
        if not all_have_room:
            # each member gets one, so that all but the last are full
            lines += ["dispatch s 1000\n"] * (members - 1)
            for _ in range(members - 1):
                self.next_waiting()
        lines += ["dispatch s 1000\n"] * pending
        self.pending = [self.next_waiting() for _ in range(pending)]
        lines.append(f"collect {self.consumer}\n")
        self.replay.ask("".join(lines))
        if self.replay.refused:
            sys.exit(f"{self.replay.refused} lines were refused, or found nothing to send, while a topic was made")

    def next_waiting(self):
        """The index of the message that is sent next."""
        return next(self.waiting)

    def measure(self, turn, times):
        """The nanoseconds of a turn, of so many."""
        asked = "".join(turn(self, step, self.consumer, 1, "s") for step in range(times))
        count = self.count
        refused = "".join(turn(self, step, NOBODY, NOBODY, "z") for step in range(times))
        self.count = count
        cost = self.replay.cost(asked)
        if self.replay.refused:
            sys.exit(f"{self.replay.refused} lines were refused, or found nothing to send: {asked[:400]}")
        cost -= self.replay.cost(refused)
        self.replay.refused = 0
        return cost / times


COPIES = 5_000


def writing(program):
    """The nanoseconds in which a copy is written out: so many are collected by one call, soon after they were sent."""
    topic = Topic(program, messages=9 * COPIES, halved=False)
    costs = []
    for _ in range(9):
        topic.replay.ask("dispatch s 1000\n" * COPIES)
        costs.append(topic.replay.cost(f"collect {topic.consumer}\n"))
    topic.replay.end()
    return statistics.median(costs) / COPIES


# ---- what is asked in a turn, by whom


def publishes(topic, step, consumer, producer, name):
    return topic.publish(producer)


def cycle(topic, step, consumer, producer, name):
    """A message is published, and the first of the backlog is sent, collected and acknowledged."""
    line = topic.publish(producer)
    index = topic.next_waiting() if consumer != NOBODY else 0
    return line + f"dispatch {name} 1000\ncollect {consumer}\nack {consumer} {position(index)}\n"


def sends(topic, step, consumer, producer, name):
    return f"dispatch {name} 1000\n"


def acknowledges(topic, step, consumer, producer, name):
    """Of a backlog with every second message acknowledged the next one, so that two ranges become one."""
    return f"ack {consumer} {position(2 * step)}\n"


def acknowledges_apart(topic, step, consumer, producer, name):
    """Of a backlog every second message, so that a range comes."""
    return f"ack {consumer} {position(2 * step + 1)}\n"


def acknowledges_up_to(topic, step, consumer, producer, name):
    return f"ackupto {consumer} {position(2 * step)}\n"


def gives_back(topic, step, consumer, producer, name):
    """A message that is pending is given back, falls due, and is sent again."""
    index = topic.pending[step % len(topic.pending)]
    return f"nack {consumer} {position(index)} 2000\ntick {name} 2000\ndispatch {name} 2000\n"


def ticks(topic, step, consumer, producer, name):
    """Nothing is due."""
    return f"tick {name} 1000\n"


def seeks(topic, step, consumer, producer, name):
    """The subscription goes on from the beginning, and its first message is sent."""
    return f"seek {name} earliest\ndispatch {name} 1000\n"


def seeks_by_time(topic, step, consumer, producer, name):
    return f"seektime {name} {1_000 + topic.count // 3 * (1 + step % 2)}\n"


def skips(topic, step, consumer, producer, name):
    return f"skip {name} 1\n"


def counts(topic, step, consumer, producer, name):
    return f"stats {name}\n"


def permits(topic, step, consumer, producer, name):
    return f"permit {consumer} 1\n"


def rejoins(topic, step, consumer, producer, name):
    """The last member leaves, and another one joins."""
    if consumer == NOBODY:
        return f"leave {NOBODY}\nleave {NOBODY}\n"
    topic.joined += 1
    return f"leave {topic.joined - 1}\n" + topic.subscribe(name, "pull")


def reconnects(topic, step, consumer, producer, name):
    """A producer of a new name comes and goes."""
    if consumer == NOBODY:
        return f"drop {NOBODY}\ndrop {NOBODY}\n"
    return f"producer q{step} -\ndrop {step + 2}\n"


def resubscribes(topic, step, consumer, producer, name):
    """Another subscription comes with a member, which leaves, and goes."""
    if consumer == NOBODY:
        return f"leave {NOBODY}\n" * 3
    topic.joined += 1
    return topic.subscribe("other", "pull", "Exclusive") + f"leave {topic.joined}\ndropsub other\n"


MESSAGES = [
    ("publish", publishes, {}),
    ("publish, send, collect, acknowledge", cycle, {}),
    ("send", sends, {}),
    ("acknowledge: two ranges become one", acknowledges, {}),
    ("acknowledge: a range apart", acknowledges_apart, {"halved": False}),
    ("acknowledge up to the next, in Exclusive", acknowledges_up_to, {"kind": "Exclusive"}),
    ("give back, fall due, send again", gives_back, {"pending": 100}),
    ("tick, with nothing due", ticks, {"pending": 100}),
    ("seek to the beginning, send", seeks, {}),
    ("seek by time", seeks_by_time, {}),
    ("skip one", skips, {}),
    ("statistics", counts, {}),
    ("permit", permits, {}),
    ("a member leaves, another joins", rejoins, {}),
    ("a producer comes and goes", reconnects, {}),
    ("a subscription comes and goes", resubscribes, {}),
]

PENDING = [
    ("publish, send, collect, acknowledge", cycle, {}),
    ("give back, fall due, send again", gives_back, {}),
    ("tick, with nothing due", ticks, {}),
    ("statistics", counts, {}),
]

CROWD = [
    ("publish", publishes, {}),
    ("publish, send, collect, acknowledge", cycle, {}),
    ("give back, fall due, send again", gives_back, {"pending": 100}),
    ("statistics", counts, {}),
    ("a member leaves, another joins", rejoins, {}),
]

KEYED = [
    ("publish", publishes, {}),
    ("publish, send, collect, acknowledge", cycle, {}),
    ("a member leaves, another joins", rejoins, {}),
]

# A table: what grows, the columns, and what a topic of a column is made with.
TABLES = [
    ("messages, every second one acknowledged", SIZES, lambda n: {"messages": n}, MESSAGES),
    ("pending messages", [1_000, 10_000, 100_000, 400_000], lambda n: {"messages": 2 * n + 20_000, "pending": n}, PENDING),
    ("members of a Shared subscription, all full but one", [1, 64], lambda n: {"messages": 20_000, "members": n}, CROWD),
    ("members of a Failover subscription", [1, 64], lambda n: {"messages": 20_000, "members": n, "kind": "Failover"}, KEYED),
    ("subscriptions", [1, 64], lambda n: {"messages": 20_000, "subscriptions": n}, CROWD),
    ("keys in Key_Shared, two members", [1, 100, 10_000, 100_000], lambda n: {"messages": 200_000, "pending": 1, "members": 2, "kind": "Key_Shared", "keys": n}, KEYED),
    ("members in Key_Shared, 10,000 keys", [1, 64], lambda n: {"messages": 200_000, "pending": 1, "members": n, "kind": "Key_Shared", "keys": 10_000}, KEYED),
]


def times_of(turn, made):
    """How many turns are measured: fewer where they use up what there is, or take long."""
    if turn in (cycle, sends, acknowledges, acknowledges_apart, acknowledges_up_to, skips):
        return min(made["messages"] // 2 - 100, 5_000)
    if turn is rejoins and "keys" in made:
        return 100
    return 2_000


# How many turns are measured together, where they are short.
TURNS = 5_000


def turns_of_a_topic(asked, turn, made, times):
    """The nanoseconds of a turn, of so many at a topic of its own."""
    topic = Topic(asked.program, **made)
    if turn in (seeks, seeks_by_time):
        # what the first one drops is not measured
        topic.measure(turn, 2)
    cost = topic.measure(turn, times)
    topic.replay.end()
    return cost


def cell(asked, turn, made):
    times = min(times_of(turn, made), asked.times)
    is_long = turn is rejoins and "keys" in made
    topics = 1 if is_long else -(-min(TURNS, asked.times) // times)
    costs = []
    for _ in range(asked.turns):
        cost = statistics.mean(turns_of_a_topic(asked, turn, made, times) for _ in range(topics))
        costs.append(cost - asked.writing if turn is cycle else cost)
    return statistics.median(costs)


def main():
    words = argparse.ArgumentParser(description="how the fast topic's calls grow")
    words.add_argument("program")
    words.add_argument("-turns", type=int, default=5)
    words.add_argument("-only", default="")
    words.add_argument("-times", type=int, default=1_000_000, help="no more turns than these are measured")
    words.add_argument("-most", type=int, default=1_000_000, help="no column above this")
    asked = words.parse_args()
    asked.writing = statistics.median(writing(asked.program) for _ in range(asked.turns))
    print(f"A copy of a message is written out in {asked.writing:,.0f} ns.")
    for what, sizes, made_with, cases in TABLES:
        sizes = [size for size in sizes if size <= asked.most]
        if asked.only not in what:
            continue
        print(f"\nns a turn, by {what}:\n\n| | {' | '.join(f'{size:,}' for size in sizes)} | last / first |")
        print("|---|" + "---:|" * (len(sizes) + 1))
        for title, turn, more in cases:
            row = [cell(asked, turn, {**made_with(size), **more}) for size in sizes]
            row = [max(it, 0) for it in row]
            growth = f"{row[-1] / row[0]:.2f}" if row[0] >= 100 else ""
            print(f"| {title} | {' | '.join(f'{it:,.0f}' for it in row)} | {growth} |", flush=True)


main()
