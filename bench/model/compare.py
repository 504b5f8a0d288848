#!/usr/bin/env python3
"""Compares a replay with a model of its own: the same lines, the same replies, the same status.

usage: compare.py PROGRAM [-lists N] [-events N] [-first N] [-spoil]

PROGRAM is a built pulsar_replay; each list is fed to its plain topic and to its fast one. The lines are drawn from a row of
numbers, list after list; -first says with which list to begin. With -spoil one line of each list is made another one, which
mostly stands for nothing. Which of several allowed replies is given is compared too, since both topics choose alike.
A hundred lists or more are to bring replies of each kind.
"""
import argparse
import collections
import random
import subprocess
import sys

from lines import BadLine, MOST_MOMENT, MOST_U64, NAMES, answer, id_text, replay
from topic import Topic
from unasked import LEDGER_SIZE, unasked

TOPICS = ("plain", "fast")
REPLIES = [
    "producer", "published", "duplicate", "durable", "progress", "consumer", "done", "released", "died", "rewound", "quiet", "sent",
    "idle", "copies", "dead", "nodead", "stats", "trimmed", "untrimmed", "refused", "restarted",
]

KINDS = ["Exclusive", "Failover", "Shared", "Key_Shared"]
KEYS = ["-", "a", "b", "k1", "k2", "test", "Hello,%20world!", "%2D"]
SUBSCRIPTIONS = ["s", "t%20x", "u"]
RANGES = [
    "0-65535", "0-32767", "32768-65535", "0-0", "65535-65535", "0-20000,40000-65535", "40000-65535,0-20000", "20001-39999",
    "10000-19999", "32767-32768", "0-9999,10000-19999,20000-29999", "30000-65535", "0-29999",
]
NO_IDS = ["CIAAEAM=", "CAAQAw", "CAAQAA===", "xx", "-"]
ODD_WORDS = [
    "", "-", "-1", "01", "+1", "18446744073709551616", "9223372036854775808", "4611686018427387905", "2147483648",
    "253402300799999", "253402300800000", "100001", "1000001", "%FF", "%", "%2", "%zz", "%00", "%41", "a%2Fb", "push:0", "push:", "push:01",
    "Push:1", "pull:1", "earliest", "Earliest", "LATEST", "é", "persistent://a/b", "persistent://a/b/c/d",
    "persistent://a//c", "x" * 300, "0-65536", "5-4", "0-5,5-9", "0-5,", ",0-5", "0-5,,7-8", "00-5", "0--5", "0-+5", "7", "3-3",
    ",".join(f"{n}-{n}" for n in range(64)), ",".join(f"{n}-{n}" for n in range(65)),
]


class Draw:
    """Lines for a topic, most of which it does not refuse: it is asked beside, so that numbers and ids are its own."""

    def __init__(self, dice, ledger_size):
        self.dice, self.topic, self.lines = dice, Topic(NAMES, ledger_size), []
        self.now = 1_000
        self.kind = dice.choice([*KINDS, "Shared", "Key_Shared"])
        self.sticky = dice.random() < 0.5

    def say(self, *words):
        line = " ".join(map(str, words))
        self.lines.append(line)
        try:
            answer(self.topic, line)
        except BadLine:
            pass

    def producer(self):
        return self.dice.choice([*self.topic.producers] * 9 + [1, 99])

    def consumer(self):
        return self.dice.choice([*self.topic.members] * 9 + [1, 99])

    def id(self):
        pending = [it for sub in self.topic.subscriptions.values() for it in sub.pending]
        log = [message.position for message in self.topic.log]
        among = self.dice.choices([pending or log, log, [(0, 0), (0, 99)]], [5, 4, 1])[0]
        return id_text(self.dice.choice(among or [(0, 0)])) if self.dice.random() < 0.96 else self.dice.choice(NO_IDS)

    def subscribe(self, name):
        pick = self.dice.choice
        kind = self.kind if self.dice.random() < 0.85 else pick(KINDS)
        dead = pick(["-", "-", "persistent://public/default/t", "persistent://a/b/c"])
        ranges = [pick(RANGES)] if self.sticky and self.dice.random() < 0.9 or self.dice.random() < 0.05 else []
        self.say(
            "subscribe", name, kind, pick([0, 0, 1, 2]), pick(["push:1", "push:2", "push:10", "pull"]), pick([0, 0, 50, 100]),
            pick([0, 0, 10, 100]), pick([0, 1, 1, 2]), dead, pick(["Earliest", "Earliest", "Latest"]), *ranges,
        )

    def publish(self):
        pick, count = self.dice.choice, self.topic.had()
        sequence = max(0, count + pick([-2, -1, 0, 0, 0, 1, 5]))
        self.say("publish", self.producer(), sequence, pick(KEYS), pick(["-", "aGk=", "YQ==", "YWJj"]), self.now - pick([0, 0, 50]))

    def fill(self, count):
        """So many messages of a few names, most of which a subscription has done with, or all."""
        for name in ("q", "-", "-"):
            self.say("producer", name, "-")
        for _ in range(count):
            self.now += self.dice.choice([0, 1])
            self.publish()
        self.say("stored")
        self.say("skip", "s", self.dice.choice([count, self.dice.randrange(count)]))

    def trim(self):
        pick, some = self.dice.choice, self.dice.randrange(150)
        self.say("trim", pick([0, 0, 0, some]), pick([MOST_MOMENT, MOST_MOMENT, self.now - some]), pick([1_000, MOST_U64, 64 + some]))

    def step(self):
        pick, say, now = self.dice.choice, self.say, self.now
        self.now += pick([0, 0, 1, 5, 50, 100])
        name = pick(SUBSCRIPTIONS[:pick([1, 1, 1, 3])])
        steps = {
            "producer": lambda: say("producer", pick(["p", "q", "-", "%2D", "a/b"]), pick(["-", "-", 0, 3, 7])),
            "drop": lambda: say("drop", self.producer()),
            "publish": self.publish,
            "stored": lambda: say("stored"),
            "progress": lambda: say("progress"),
            "subscribe": lambda: self.subscribe(name),
            "leave": lambda: say("leave", self.consumer()),
            "permit": lambda: say("permit", self.consumer(), pick([1, 2, 5, 2_147_483_647])),
            "ack": lambda: say("ack", self.consumer(), self.id()),
            "ackupto": lambda: say("ackupto", self.consumer(), self.id()),
            "nack": lambda: say("nack", self.consumer(), self.id(), now),
            "tick": lambda: say("tick", name, now + pick([0, 0, 100, 200])),
            "seek": lambda: say("seek", name, pick(["earliest", "latest", self.id(), self.id()])),
            "seektime": lambda: say("seektime", name, max(0, now - self.dice.randrange(200))),
            "skip": lambda: say("skip", name, self.dice.randrange(pick([4, 4, 100]))),
            "dropsub": lambda: say("dropsub", name),
            "dispatch": lambda: say("dispatch", name, now),
            "collect": lambda: say("collect", self.consumer()),
            "deadnext": lambda: say("deadnext", name),
            "deaddone": lambda: say("deaddone", name, pick([0, 0, 1, max(0, self.topic.ordinal - 1)])),
            "stats": lambda: say("stats", name),
            "trim": self.trim,
            "restart": lambda: say("restart"),
        }
        often = {"publish": 16, "stored": 7, "subscribe": 5, "ack": 6, "nack": 9, "tick": 11, "dispatch": 14, "collect": 3, "producer": 2, "trim": 3, "restart": 0.4}
        steps[self.dice.choices([*steps], [often.get(it, 1) for it in steps])[0]]()


def drawn(dice, ledger_size, events):
    draw = Draw(dice, ledger_size)
    draw.say("producer", "p", "-")
    draw.subscribe("s")
    if dice.random() < 0.3:
        draw.fill(dice.randrange(100, 300))
    for _ in range(events):
        draw.step()
    return draw.lines


def spoiled(dice, line):
    """The line with a word left out, added or changed, or with a space, a tab or another sign too many."""
    words = line.split(" ")
    at = dice.randrange(len(words))
    changed = dice.choice([*ODD_WORDS, words[at].upper(), words[at][:-1], words[at] + "=", "0" + words[at]])
    return dice.choice([
        " ".join([*words[:at], changed, *words[at + 1:]]), " ".join([*words[:at], changed, *words[at + 1:]]),
        " ".join([*words[:at], *words[at + 1:]]), f"{line} x", f"{line} ", f" {line}", f"{line}\r", f"{line}\0",
        line.replace(" ", "  ", 1), line.replace(" ", "\t", 1), "",
    ])


def listed(dice, list_number, events):
    """The list of the number, and the size of its ledgers: every second one is drawn without a topic beside."""
    if list_number % 2 == 0:
        ledger_size = dice.choice([1, 2, 3, 10])
        return drawn(dice, ledger_size, events), ledger_size
    return unasked(dice, events, 200 if list_number % 8 == 7 else 0), LEDGER_SIZE


def difference(program, topic, ledger_size, data, wanted, status):
    """Where the program's replies begin to differ from the model's, in words; none where they do not."""
    ran = subprocess.run([program, topic, str(ledger_size)], input=data, stdout=subprocess.PIPE, check=False)
    given = ran.stdout.decode().split("\n")[:-1]
    if (given, ran.returncode) == (wanted, status):
        return None
    at = next((at for at, (one, other) in enumerate(zip(given, wanted)) if one != other), min(len(given), len(wanted)))
    return f"line {at + 1}: {given[at:at + 1]}, status {ran.returncode}, and not {wanted[at:at + 1]}, {status}"


def main():
    words = argparse.ArgumentParser(description="compares a replay with a model")
    words.add_argument("program")
    words.add_argument("-lists", type=int, default=1_000)
    words.add_argument("-events", type=int, default=100)
    words.add_argument("-first", type=int, default=1)
    words.add_argument("-spoil", action="store_true")
    asked = words.parse_args()
    differ, seen = 0, collections.Counter()
    for list_number in range(asked.first, asked.first + asked.lists):
        dice = random.Random(list_number)
        lines, ledger_size = listed(dice, list_number, asked.events)
        if asked.spoil:
            at = dice.randrange(len(lines))
            lines[at] = spoiled(dice, lines[at])
        data = "\n".join(lines).encode() + dice.choice([b"\n", b""])
        wanted, status = replay(ledger_size, data)
        seen.update(" ".join(it.split()[:2 if it.startswith(("refused", "bad")) else 1]) for it in wanted)
        for topic in TOPICS:
            found = difference(asked.program, topic, ledger_size, data, wanted, status)
            if found:
                differ += 1
                print(f"list {list_number}, ledgers of {ledger_size}, {topic} topic: {found}")
    print(", ".join(f"{count} {word}" for word, count in seen.most_common() if not word.startswith("bad")))
    came = {it.split()[0] for it in seen}
    # (lists with a bad line end at it, and are short)
    lacking = [it for it in REPLIES if it not in came] if asked.lists >= 100 and not asked.spoil else []
    if lacking:
        print(f"no reply is {', '.join(lacking)}")
    print(f"{asked.lists} lists, each over {' and '.join(TOPICS)}: {differ} differ")
    return 1 if differ or lacking else 0


sys.exit(main())
