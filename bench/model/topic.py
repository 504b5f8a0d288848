"""A topic as docs/MACHINE.md has it, by whole lists and sets: slow, and written without a look at the broker's code."""
import itertools
from dataclasses import dataclass, field

ALL_HASHES = 65_536
MOST_CREDIT = MOST_COUNT = 2**31 - 1
MOST_LEDGER = MOST_ORDINALS = 2**62
MOST_MESSAGES = 1_048_576
MOST_PRODUCERS = 256
MOST_GONE = 2**62
AT_ONCE = 64
FORGETTABLE = 4_096
MOST_SUBSCRIPTIONS = MOST_MEMBERS = 64
IN_ORDER = ("Exclusive", "Failover")


class Refused(Exception):
    """The event is refused, by the number of its fault."""

    def __init__(self, number):
        self.number = number


def require(holds, number):
    if not holds:
        raise Refused(number)


def murmur3(data, seed=0):
    """Murmur3, x86, 32 bits."""
    word = 0xFFFFFFFF

    def turned(number, by):
        return (number << by | number >> (32 - by)) & word

    def mixed(block):
        return turned(int.from_bytes(block, "little") * 0xCC9E2D51 & word, 15) * 0x1B873593 & word

    whole = len(data) // 4 * 4
    value = seed
    for at in range(0, whole, 4):
        value = (turned(value ^ mixed(data[at:at + 4]), 13) * 5 + 0xE6546B64) & word
    if data[whole:]:
        value ^= mixed(data[whole:])
    value ^= len(data)
    value = (value ^ value >> 16) * 0x85EBCA6B & word
    value = (value ^ value >> 13) * 0xC2B2AE35 & word
    return value ^ value >> 16


@dataclass(frozen=True)
class Message:
    position: tuple
    producer: str
    sequence: int
    key: str | None
    payload: bytes
    time: int

    def hash(self):
        key = "NONE_KEY" if self.key is None else self.key
        return murmur3(key.encode()) % ALL_HASHES


@dataclass
class Member:
    subscription: str
    level: int
    window: int | None  # none where it pulls
    ack_timeout: int
    nack_delay: int
    max_redeliver: int
    dead_topic: tuple
    credit: int = 0
    out: list = field(default_factory=list)


@dataclass(frozen=True)
class Letter:
    position: tuple
    target: tuple
    ordinal: int


@dataclass
class Subscription:
    kind: str
    acknowledged: set
    dead: list = field(default_factory=list)
    safe: int = 0
    pending: dict = field(default_factory=dict)  # position: (consumer, due moment or none)
    counts: dict = field(default_factory=dict)
    members: list = field(default_factory=list)
    shares: list = field(default_factory=list)  # (hashes, consumer)
    sticky: bool = False  # the members said which hashes they take
    served: int = 0  # who was sent a message last

    def share_for(self, consumer, ranges):
        """The joiner gets what it asks for; else the lower half of the largest share, rounded up; of equal ones, of that with the least hash."""
        if ranges is not None:
            self.shares.append((ranges, consumer))
            self.sticky = True
            return
        if not self.shares:
            self.shares = [(set(range(ALL_HASHES)), consumer)]
            return
        largest = max(self.shares, key=lambda share: (len(share[0]), -min(share[0])))
        hashes = sorted(largest[0])
        half = (len(hashes) + 1) // 2
        self.shares.remove(largest)
        self.shares += [(set(hashes[half:]), largest[1]), (set(hashes[:half]), consumer)]

    def join_share(self, consumer):
        """A leaver's share joins the one that has the hash behind it, or before it where there is none behind; sticky, it is nobody's."""
        own = next(hashes for hashes, owner in self.shares if owner == consumer)
        rest = [share for share in self.shares if share[1] != consumer]
        if self.sticky:
            self.shares, self.sticky = rest, bool(rest)
            return
        beside = max(own) + 1 if max(own) < ALL_HASHES - 1 else min(own) - 1
        self.shares = [(hashes | own if beside in hashes else hashes, owner) for hashes, owner in rest]

    def owner(self, number):
        return next((owner for hashes, owner in self.shares if number in hashes), None)


class Topic:
    """Each event is a method, and answers the words of its reply; `last`, what is live and the like are looked for anew."""

    def __init__(self, names, ledger_size):
        self.names, self.ledger_size = names, ledger_size
        self.ledger = self.ordinal = self.durable = self.gone = 0
        self.log = []
        self.authors = {}  # of what is gone: name: the greatest sequence number; whose message was the last comes last
        self.producers, self.members, self.subscriptions = {}, {}, {}
        self.next_producer = self.next_consumer = 1
        self.kept = self.snapshot()

    # ---- snapshots

    def snapshot(self):
        kept = {name: (it.kind, set(it.acknowledged), list(it.dead), dict(it.counts)) for name, it in self.subscriptions.items()}
        return self.ledger, self.ordinal, self.gone, dict(self.authors), list(self.log), kept

    def restart(self):
        ledger, self.ordinal, self.gone, authors, log, kept = self.kept
        self.ledger = min(ledger + 1, MOST_LEDGER + 1)
        self.authors, self.log, self.durable = dict(authors), list(log), len(log)
        self.producers, self.members = {}, {}
        self.next_producer = self.next_consumer = 1
        self.subscriptions = {
            name: Subscription(kind, set(acknowledged), list(dead), len(dead), counts=dict(counts))
            for name, (kind, acknowledged, dead, counts) in kept.items()
        }
        return ["restarted", self.ledger]

    # ---- producers and the log

    def had(self):
        return self.gone + len(self.log)

    def last(self, name, base):
        known = [it.sequence for it in self.log if it.producer == name]
        if name in self.authors:
            known.append(self.authors[name])
        return max(known, default=base)

    def connected(self):
        return {name for name, _ in self.producers.values()}

    def add_producer(self, name, base):
        connected = self.connected()
        require(name is None or name not in connected, 2)
        require(len(self.producers) < MOST_PRODUCERS, 7)
        if name is None:
            used = connected | {it.producer for it in self.log} | set(self.authors)
            number = next(n for n in range(len(used) + 1) if f"auto-{n}" not in used)
            name = f"auto-{number}"
        producer, self.next_producer = self.next_producer, self.next_producer + 1
        self.producers[producer] = name, base
        return ["producer", producer, name, self.last(name, base)]

    def drop_producer(self, producer):
        require(producer in self.producers, 3)
        del self.producers[producer]
        return ["done"]

    def publish(self, producer, sequence, key, payload, now):
        require(producer in self.producers, 3)
        name, base = self.producers[producer]
        if sequence <= self.last(name, base):
            return ["duplicate", self.had()]
        ledger, entry = self.log[-1].position if self.log else (None, 0)
        entries = entry + 1 if ledger == self.ledger else 0
        position = (self.ledger, entries) if entries < self.ledger_size else (self.ledger + 1, 0)
        require(len(self.log) < MOST_MESSAGES and position[0] <= MOST_LEDGER, 4)
        self.ledger = position[0]
        self.log.append(Message(position, name, sequence, key, payload, now))
        return ["published", position, self.had()]

    def stored(self):
        self.durable = len(self.log)
        for it in self.subscriptions.values():
            it.safe = len(it.dead)
        self.kept = self.snapshot()
        return ["durable", self.gone + self.durable]

    def progress(self):
        return ["progress", self.gone + self.durable, self.had()]

    # ---- trimming

    def is_done(self, message):
        """Every subscription has done with the message, and there is one."""
        at = message.position
        return bool(self.subscriptions) and all(
            at in it.acknowledged and at not in it.pending and all(letter.position != at for letter in it.dead)
            for it in self.subscriptions.values()
        )

    def trim(self, keep, before, most):
        may_go = (message.time <= before and self.is_done(message) for message in self.visible())
        free = sum(itertools.takewhile(bool, may_go))
        count = max(0, min(free - 1, len(self.log) - keep, most, MOST_GONE - self.gone)) // AT_ONCE * AT_ONCE
        if count == 0:
            return ["untrimmed"]
        for message in self.log[:count]:
            self.let_go(message)
        self.forget_names()
        return ["trimmed", self.gone]

    def let_go(self, message):
        self.log.remove(message)
        self.gone += 1
        self.durable -= 1
        for it in self.subscriptions.values():
            it.acknowledged.discard(message.position)
            it.counts.pop(message.position, None)
        self.authors[message.producer] = max(message.sequence, self.authors.pop(message.producer, message.sequence))

    def forget_names(self):
        lasting = self.connected() | {message.producer for message in self.log}
        for name in [*self.authors][:-FORGETTABLE]:
            if name not in lasting and not name.startswith("dlq/"):
                del self.authors[name]

    # ---- what is asked of the state

    def visible(self):
        return self.log[:self.durable]

    def is_visible(self, position):
        return any(it.position == position for it in self.visible())

    def message(self, position):
        return next(it for it in self.log if it.position == position)

    def subscription(self, name):
        require(name in self.subscriptions, 11)
        return self.subscriptions[name]

    def member(self, consumer):
        require(consumer in self.members, 3)
        member = self.members[consumer]
        return member, self.subscriptions[member.subscription]

    def active(self, it):
        return min(it.members, key=lambda consumer: (self.members[consumer].level, consumer), default=None)

    def live(self, it):
        dead = {letter.position for letter in it.dead}
        return [m for m in self.visible() if m.position not in it.acknowledged and m.position not in dead]

    def has_room(self, it, consumer):
        member = self.members[consumer]
        if member.window is None:
            return member.credit > 0
        return sum(holder == consumer for holder, _ in it.pending.values()) < member.window

    # ---- what leaves the pending messages

    def release(self, it, position):
        if position in it.pending:
            holder, _ = it.pending.pop(position)
            self.members[holder].out.remove(position) if position in self.members[holder].out else None

    def release_all(self, it):
        for position in list(it.pending):
            self.release(it, position)

    def acknowledge(self, it, position):
        it.acknowledged.add(position)
        it.counts.pop(position, None)
        self.release(it, position)

    def count(self, it, position):
        it.counts[position] = min(it.counts.get(position, 0) + 1, MOST_COUNT)
        self.release(it, position)

    # ---- members

    def subscribe(self, name, kind, level, window, ack_timeout, nack_delay, max_redeliver, dead_topic, initial, ranges=None):
        it = self.subscriptions.get(name)
        if it is not None and it.members:
            require(it.kind == kind, 5)
            require(kind != "Exclusive", 6)
            if kind == "Key_Shared":
                require(it.sticky == (ranges is not None), 24)
                require(not any(hashes & (ranges or set()) for hashes, _ in it.shares), 23)
        require(len(self.subscriptions) < MOST_SUBSCRIPTIONS if it is None else len(it.members) < MOST_MEMBERS, 7)
        require(kind in IN_ORDER or max_redeliver == 0 or dead_topic != self.names, 14)
        if it is None:
            known = {m.position for m in self.log} if initial == "Latest" else set()
            it = self.subscriptions[name] = Subscription(kind, known)
        if not it.members:
            it.kind = kind
        before = self.active(it)
        consumer, self.next_consumer = self.next_consumer, self.next_consumer + 1
        self.members[consumer] = Member(name, level, window, ack_timeout, nack_delay, max_redeliver, dead_topic)
        if kind == "Key_Shared":
            it.share_for(consumer, ranges)
        it.members.append(consumer)
        self.take_over(it, before)
        return ["consumer", consumer]

    def take_over(self, it, before):
        if it.kind == "Failover" and before is not None and self.active(it) != before:
            self.release_all(it)

    def leave(self, consumer):
        _, it = self.member(consumer)
        before = self.active(it)
        for position in [position for position, (holder, _) in it.pending.items() if holder == consumer]:
            self.release(it, position)
        if it.kind == "Key_Shared":
            it.join_share(consumer)
        it.members.remove(consumer)
        del self.members[consumer]
        self.take_over(it, before)
        return ["done"]

    def permit(self, consumer, permits):
        member, _ = self.member(consumer)
        require(member.window is None, 22)
        require(member.credit + permits <= MOST_CREDIT, 13)
        member.credit += permits
        return ["done"]

    # ---- acknowledgement and release

    def ack(self, consumer, position):
        _, it = self.member(consumer)
        require(self.is_visible(position), 8)
        self.acknowledge(it, position)
        return ["done"]

    def ack_up_to(self, consumer, position):
        _, it = self.member(consumer)
        require(it.kind in IN_ORDER, 9)
        require(self.is_visible(position), 8)
        for message in self.log:
            if message.position <= position:
                self.acknowledge(it, message.position)
        return ["done"]

    def nack(self, consumer, position, now):
        member, it = self.member(consumer)
        require(it.pending.get(position, (None, None))[0] == consumer, 10)
        it.pending[position] = consumer, now + member.nack_delay
        return ["done"]

    def tick(self, name, now):
        it = self.subscription(name)
        due = [(moment, position) for position, (_, moment) in it.pending.items() if moment is not None and moment <= now]
        if not due:
            return ["quiet"]
        if it.kind in IN_ORDER:
            pending = list(it.pending)
            for position in pending:
                self.count(it, position)
            return ["rewound", len(pending)]
        _, position = min(due)
        member = self.members[it.pending[position][0]]
        if 0 < member.max_redeliver <= it.counts.get(position, 0) and self.ordinal < MOST_ORDINALS:
            return self.die(it, position, member.dead_topic)
        self.count(it, position)
        return ["released", position]

    def die(self, it, position, target):
        ordinal, self.ordinal = self.ordinal, self.ordinal + 1
        self.release(it, position)
        it.counts.pop(position, None)
        it.dead.append(Letter(position, target, ordinal))
        return ["died", position, ordinal]

    # ---- seeks, skips and the end of a subscription

    def go_on_from(self, it, index):
        self.release_all(it)
        it.counts = {}
        it.acknowledged = {m.position for m in self.log[:index]}
        return ["done"]

    def seek(self, name, target):
        it = self.subscription(name)
        if target == "earliest":
            return self.go_on_from(it, 0)
        if target == "latest":
            return self.go_on_from(it, len(self.log))
        require(self.is_visible(target), 8)
        return self.go_on_from(it, [m.position for m in self.log].index(target))

    def seek_time(self, name, time):
        it = self.subscription(name)
        late = (index for index, m in enumerate(self.visible()) if m.time >= time)
        return self.go_on_from(it, next(late, self.durable))

    def skip(self, name, count):
        it = self.subscription(name)
        for message in self.live(it)[:count]:
            self.acknowledge(it, message.position)
        return ["done"]

    def drop_subscription(self, name):
        it = self.subscription(name)
        require(not it.members and not it.dead, 12)
        del self.subscriptions[name]
        return ["done"]

    def stats(self, name):
        it = self.subscription(name)
        mark_delete = None
        for message in self.log:
            if message.position not in it.acknowledged:
                break
            mark_delete = message.position
        sizes = len(it.acknowledged), len(self.live(it)), len(it.pending), len(it.dead)
        return ["stats", it.kind, len(it.members), mark_delete, *sizes]

    # ---- delivery and dead letters

    def offers(self, it):
        """Who may be sent which message, the first of them by the shipped choice."""
        waiting = [m for m in self.live(it) if m.position not in it.pending]
        with_room = [consumer for consumer in it.members if self.has_room(it, consumer)]
        if it.kind in IN_ORDER:
            active = self.active(it)
            return [(m, active) for m in waiting[:1] if active in with_room]
        if it.kind == "Shared":
            best = min((self.members[consumer].level for consumer in with_room), default=None)
            may = sorted(consumer for consumer in with_room if self.members[consumer].level == best)
            in_turn = [c for c in may if c > it.served] + [c for c in may if c <= it.served]
            return [(m, consumer) for m in waiting[:1] for consumer in in_turn]
        return self.offers_by_key(it, waiting, with_room)

    def offers_by_key(self, it, waiting, with_room):
        holders = {}
        for position, (holder, _) in it.pending.items():
            holders.setdefault(self.message(position).hash(), set()).add(holder)
        first = {}
        for message in waiting:
            first.setdefault(message.hash(), message)
        return [
            (message, it.owner(number))
            for number, message in first.items()
            if it.owner(number) in with_room and holders.get(number, set()) <= {it.owner(number)}
        ]

    def dispatch(self, name, now):
        it = self.subscription(name)
        offers = self.offers(it)
        if not offers:
            return ["idle"]
        message, consumer = offers[0]
        member = self.members[consumer]
        it.pending[message.position] = consumer, now + member.ack_timeout if member.ack_timeout else None
        it.served = consumer
        member.out.append(message.position)
        if member.window is None:
            member.credit -= 1
        return ["sent", consumer, message.position, it.counts.get(message.position, 0)]

    def collect(self, consumer):
        member, it = self.member(consumer)
        out, member.out = member.out, []
        copies = [(position, it.counts.get(position, 0), self.message(position).payload) for position in out]
        return ["copies", len(out), *copies]

    def dead_next(self, name):
        it = self.subscription(name)
        if it.safe == 0:
            return ["nodead"]
        return ["dead", it.dead[0].ordinal, it.dead[0].position, it.dead[0].target]

    def dead_done(self, name, ordinal):
        it = self.subscription(name)
        require(it.safe > 0 and it.dead[0].ordinal == ordinal, 8)
        letter = it.dead.pop(0)
        it.safe -= 1
        self.acknowledge(it, letter.position)
        return ["done"]
