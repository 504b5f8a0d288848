"""Lists of lines that are drawn without a topic beside: what they ask for mostly comes, since few names are used, and since
many consumers are asked at once of whom one may have the message. Each ledger has three messages."""
from lines import MOST_MOMENT, MOST_U64, id_text

KINDS = {"shared": "Shared", "keyed": "Key_Shared", "failover": "Failover", "exclusive": "Exclusive"}
SUBSCRIPTIONS = ["shared"] * 5 + ["keyed"] * 5 + ["failover"] * 3 + ["exclusive"] * 2 + ["none"]
LEDGER_SIZE = 3
JOINS = (
    "subscribe shared Shared 0 push:100 0 0 1 - Earliest",
    "subscribe keyed Key_Shared 0 push:100 200 0 1 - Earliest",
)


def position(index):
    return divmod(index, LEDGER_SIZE)


class Lines:
    def __init__(self, dice):
        self.dice, self.lines = dice, []
        self.published = self.joined = 0
        self.front = 0  # what stands before so many messages is mostly done with
        self.now = 1_000

    def say(self, *words):
        self.lines.append(" ".join(map(str, words)))

    def roll(self, sides):
        return self.dice.randrange(sides)

    # ---- what a line names, which mostly is there

    def subscription(self):
        return self.dice.choice(SUBSCRIPTIONS)

    def consumer(self):
        return max(0, self.joined - self.roll(6))

    def last_joined(self):
        return [max(0, self.joined - back) for back in range(4)]

    def message(self):
        first = self.front // LEDGER_SIZE
        ledgers = max(0, self.published // LEDGER_SIZE - first)
        return id_text((first + self.roll(min(ledgers, 4) + 2), self.roll(LEDGER_SIZE)))

    # ---- events

    def step(self):
        self.now = max(0, self.now - 700) if self.roll(16) == 0 else self.now + self.roll(300)
        steps = {
            self.publish: 18, self.send: 20, self.join_or_leave: 12, self.answer: 18, self.turn_clock: 6, self.wear_out: 7,
            self.go_elsewhere: 11, self.connect_or_restart: 8,
        }
        self.dice.choices([*steps], [*steps.values()])[0]()

    def publish(self):
        self.publish_by(2 if self.roll(8) == 0 else 1)
        if self.roll(4) != 0:
            self.say("stored")

    def publish_by(self, producer):
        back = self.roll(4) if self.roll(8) == 0 else 0
        self.say("publish", producer, max(0, self.published - back), self.dice.choice("-abcde"), "aGk=", self.now)
        self.published += 1

    def send(self):
        self.send_in(self.subscription())

    def send_in(self, name):
        for _ in range(self.roll(3) + 1):
            self.say("dispatch", name, self.now)

    def join_or_leave(self):
        if self.roll(4) == 0:
            self.say("leave", self.consumer())
        else:
            self.join()

    def join(self):
        name, pick = self.subscription(), self.dice.choice
        kind = pick([*KINDS.values()]) if self.roll(6) == 0 else KINDS.get(name, "Exclusive")
        flow = pick(["push:1", "push:2", "push:100", "push:100", "pull", "pull"])
        ranges = pick(["0-65535", "0-20000", "20001-50000,60000-65535", "50001-59999", "60000-65535,0-20000", *[""] * 7])
        self.say(
            "subscribe", name, kind, self.roll(3), flow, self.roll(4) * 200, self.roll(2) * 300, self.roll(3), "-",
            pick(["Latest", "Earliest", "Earliest", "Earliest"]), *ranges.split(),
        )
        self.joined += 1
        if flow == "pull":
            self.say("permit", self.joined, 5)

    def answer(self):
        """Those who joined last say what they did with a message, or ask for more: mostly one of them has it."""
        message = self.message()
        words = self.dice.choices(["ack", "ackupto", "nack", "collect", "permit"], [4, 1, 5, 1, 1])[0]
        for consumer in self.last_joined():
            self.say(words, consumer, *{"nack": [message, self.now], "collect": [], "permit": [3]}.get(words, [message]))

    def turn_clock(self):
        """What is due comes again, or dies; then a dead letter may be moved."""
        name = self.subscription()
        for _ in range(self.roll(4) + 1):
            self.say("tick", name, self.now)
        if self.roll(2) == 0:
            self.move_letter(name)

    def wear_out(self):
        """One message is sent and given back until it dies, where it comes first."""
        name, message = self.subscription(), self.message()
        self.now += 1_000
        for _ in range(3):
            self.say("dispatch", name, self.now)
            for consumer in self.last_joined():
                self.say("nack", consumer, message, self.now)
            for _ in range(3):
                self.say("tick", name, self.now)
        self.move_letter(name)

    def move_letter(self, name):
        self.say("stored")
        self.say("deadnext", name)
        self.say("deaddone", name, self.roll(3))

    def go_elsewhere(self):
        """A subscription goes on elsewhere, is looked at, or goes; or messages go."""
        name = self.subscription()
        chances = {
            lambda: self.say("seek", name, "earliest"): 1,
            lambda: self.say("seek", name, "latest"): 1,
            lambda: self.say("seek", name, self.message()): 2,
            lambda: self.say("seektime", name, max(0, self.now - self.roll(2_000))): 2,
            lambda: self.say("skip", name, self.roll(3)): 2,
            lambda: self.say("dropsub", name): 1,
            self.trim: 1,
            lambda: self.say("stats", name): 6,
        }
        self.dice.choices([*chances], [*chances.values()])[0]()

    def connect_or_restart(self):
        words = ["producer p -", "producer - -", "producer q 1", "producer p 5", "drop 1", "drop 2", "progress", "stored", None]
        line = self.dice.choices(words, [4, 3, 1, 1, 1, 1, 2, 2, 1])[0]
        if line is None:
            self.restart()
        else:
            self.say(line)

    def restart(self):
        self.joined = 0
        self.say("restart")
        self.say("producer p -")

    # ---- many messages, the first of which may go

    def begin(self, messages):
        for line in ("producer p -", "producer q 1", "producer - -"):
            self.say(line)
        self.join_both()
        self.fill(messages)

    def join_both(self):
        for line in JOINS:
            self.joined += 1
            self.say(line)

    def fill(self, messages):
        for _ in range(messages):
            self.now += self.roll(3)
            self.publish_by(self.roll(3) + 1)
        self.say("stored")

    def step_or_trim(self, messages):
        """One more event, or what lets messages go; or so many messages more."""
        chances = {
            self.get_done: 7, self.trim: 3, self.send_both: 6, lambda: self.fill(messages): 2, self.come_back: 1, self.step: 29,
        }
        self.dice.choices([*chances], [*chances.values()])[0]()

    def send_both(self):
        self.send_in("shared")
        self.send_in("keyed")

    def come_back(self):
        """The topic goes on from what is stored, and the consumers join again."""
        self.restart()
        self.join_both()

    def get_done(self):
        """Mostly all subscriptions go on to the same message; then those before it may go."""
        further = self.roll(self.published - self.front + 1)
        self.front += further
        for name in KINDS:
            self.go_on(name, further)
        self.trim()

    def go_on(self, name, further):
        chance = self.roll(12)
        if 1 <= chance <= 3:
            self.say("seek", name, id_text(position(self.front)))
        elif chance == 4:
            self.say("seek", name, "latest")
        elif chance > 4:
            self.say("skip", name, further)

    def trim(self):
        keep = self.roll(200) if self.roll(4) == 0 else 0
        before = max(0, self.now - self.roll(300)) if self.roll(4) == 0 else MOST_MOMENT
        self.say("trim", keep, before, self.dice.choice([self.roll(200), 1_000, MOST_U64]))


def unasked(dice, events, messages=0):
    """The lines of so many events; where there are messages, after those of so many."""
    drawn = Lines(dice)
    if messages:
        drawn.begin(messages)
    for _ in range(events):
        drawn.step_or_trim(messages // 2) if messages else drawn.step()
    return drawn.lines
