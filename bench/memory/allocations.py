# Runs the broker with count.so, which allocations.sh makes, and prints what its operations take of the allocator.
# allocations.py ROOM PROGRAM [COUNT [BYTES [sites]]]
import collections
import json
import os
import re
import struct
import subprocess
import sys
import time

HERE = os.path.dirname(os.path.abspath(__file__))
sys.path.insert(0, f'{HERE}/../server')
from client import Broker, consumer, frame, producer, text_of

room, program = sys.argv[1:3]
COUNT = int(sys.argv[3]) if len(sys.argv) > 3 else 2000
BYTES = int(sys.argv[4]) if len(sys.argv) > 4 else 1024
TELLS_SITES = sys.argv[5:] == ['sites']
PORT = int(os.environ.get('PORT', 18381))
# As count.c has them.
FUNCTIONS, SITES, NONE = 1 << 16, 1 << 16, 0xffffff
NUMBER, FUNCTION, SITE = struct.Struct('<Q'), struct.Struct('<QQ'), struct.Struct('<QQQ')
# Those that ask for others: collections, and what stands between them and the C library.
PASS_ON = {'core', 'std', 'std_alloc', 'std_collections', 'std_heap', 'libc', ''}

Taken = collections.namedtuple('Taken', 'mallocs reallocs bytes')


def crate_of(function):
    """The crate of a function, or nothing where it is C's."""
    return function.split('::', 1)[0].lstrip('<') if '::' in function else ''


def functions_of(program):
    """Where each function begins, and its name, in order."""
    said = subprocess.run(['nm', '--defined-only', program], capture_output=True, text=True, check=True).stdout
    found = {}
    for line in said.splitlines():
        words = line.split(' ', 2)
        if len(words) == 3 and words[1] in 'tTwW':
            found[int(words[0], 16)] = re.sub(r'::<#\w+>', '', words[2])
    assert 0 < len(found) <= FUNCTIONS, f'{len(found)} functions: was the program stripped?'
    return sorted(found.items())


def write_counts(path, functions):
    with open(path, 'wb') as file:
        file.write(NUMBER.pack(len(functions)))
        for start, name in functions:
            file.write(FUNCTION.pack(start, crate_of(name) in PASS_ON))
        file.truncate(NUMBER.size + FUNCTIONS * FUNCTION.size + SITES * SITE.size)


def read_counts(path):
    """The count and the bytes of each site so far."""
    with open(path, 'rb') as file:
        file.seek(NUMBER.size + FUNCTIONS * FUNCTION.size)
        rows = file.read(SITES * SITE.size)
    return {key: (count, size) for key, count, size in SITE.iter_unpack(rows) if key}


class Topic:
    """Clients of one topic, which do each operation so often."""

    def __init__(self):
        self.writer = producer(PORT, 't')
        self.reader = consumer(PORT, 't', 's', '?pullMode=true&subscriptionInitialPosition=Earliest')
        self.text = text_of(os.urandom(BYTES))
        self.ids = []

    def answered(self):
        assert self.writer.receive()['result'] == 'ok'

    def wait(self, count):
        for _ in range(count):
            self.writer.send(self.text)
            self.answered()

    def pipe(self, count):
        """With up to 1,000 unanswered, 500 in one write."""
        asked = answered = 0
        while answered < count:
            if asked < count and asked - answered <= 500:
                some = min(500, count - asked)
                self.writer.sock.sendall(frame(1, self.text) * some)
                asked += some
            else:
                self.answered()
                answered += 1

    def deliver(self, count):
        self.reader.send(json.dumps({'type': 'permit', 'permitMessages': count}))
        self.ids += [self.reader.receive()['messageId'] for _ in range(count)]

    def acknowledge(self, count):
        """One after the other, and then one question, whose answer tells that all were taken."""
        for _ in range(count):
            self.reader.send(json.dumps({'messageId': self.ids.pop(0)}))
        self.reader.send('{"type":"isEndOfTopic"}')
        assert self.reader.receive()['endOfTopic'] == 'false'


def counted(path, operation):
    """What was taken while the operation was done, by site, after it was done as often uncounted."""
    operation(COUNT)
    time.sleep(0.5)
    before = read_counts(path)
    operation(COUNT)
    time.sleep(0.5)
    taken = {}
    for key, (count, size) in read_counts(path).items():
        had = before.get(key, (0, 0))
        if count > had[0]:
            taken[key] = ((count - had[0]) / COUNT, (size - had[1]) / COUNT)
    return taken


class Names:
    def __init__(self, functions):
        self.functions = [name for _, name in functions]
        with open(f'{HERE}/../../crates.txt') as lines:
            self.ours = {re.split(r'[\s:]', line, maxsplit=1)[0] for line in lines if not line.startswith('#')}

    def name(self, index):
        return '-' if index == NONE else self.functions[index]

    def parts(self, key):
        """What was called, and the names of the function that did and of its caller."""
        return 'realloc' if key >> 48 == 2 else 'malloc', self.name(key >> 24 & NONE), self.name(key & NONE)

    def owner(self, site):
        crate = crate_of(site) or 'C'
        return ('ours' if crate in self.ours else 'kit'), crate


def by_crate(names, taken):
    sums = collections.defaultdict(lambda: [0, 0, 0])
    for key, (count, size) in taken.items():
        kind, site, _ = names.parts(key)
        whose, crate = names.owner(site)
        for owner in ((whose, crate), (whose, '**all**')):
            sums[owner][kind == 'realloc'] += count
            sums[owner][2] += size
    return {owner: Taken(*found) for owner, found in sums.items()}


def shown(taken):
    return f'{taken.mallocs:.2f}+{taken.reallocs:.2f}, {taken.bytes:.0f} B' if taken else ''


def print_crates(names, measured):
    columns = {operation: by_crate(names, taken) for operation, taken in measured.items()}
    print('mallocs + reallocs, bytes, of one operation:\n')
    print('| | crate |', ' | '.join(columns), '|')
    print('|---|---|' + '---|' * len(columns))
    calls = collections.Counter()
    for column in columns.values():
        for owner, taken in column.items():
            calls[owner] += taken.mallocs + taken.reallocs
    # Ours before the kit's, and each one's sum behind its crates.
    for owner in sorted(calls, key=lambda owner: (owner[0] != 'ours', owner[1] == '**all**', -calls[owner])):
        print(f'| {owner[0]} | {owner[1]} |', ' | '.join(shown(column.get(owner)) for column in columns.values()), '|')


def print_sites(names, measured):
    for operation, taken in measured.items():
        print(f'\n{operation}:\n\n| call | of one | bytes | | site < caller |\n|---|---|---|---|---|')
        for key, (count, size) in sorted(taken.items(), key=lambda entry: -entry[1][0]):
            kind, site, caller = names.parts(key)
            print(f'| {kind} | {count:.2f} | {size:.0f} | {names.owner(site)[0]} | `{site}` < `{caller}` |')


functions = functions_of(program)
counts = f'{room}/counts'
write_counts(counts, functions)
os.environ.update(LD_PRELOAD=f'{room}/count.so', COUNTS=counts)
broker = Broker(os.path.abspath(program), PORT, workers=2, folder=room)
os.environ.pop('LD_PRELOAD')
try:
    topic = Topic()
    operations = {'waiting publish': topic.wait, 'piped publish': topic.pipe, 'delivery': topic.deliver,
                  'acknowledgement': topic.acknowledge}
    measured = {name: counted(counts, operation) for name, operation in operations.items()}
finally:
    broker.kill()
assert any(measured.values()), 'nothing was counted: the program has an allocator of its own'
names = Names(functions)
print_crates(names, measured)
if TELLS_SITES:
    print_sites(names, measured)
