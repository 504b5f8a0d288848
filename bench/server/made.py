#!/usr/bin/env python3
# The file of a new database: pages of 1,024 bytes, its owner's alone, one name; also where a start was killed while it made one,
# and where two programs start at once. A file that is there keeps its pages, and sqlite3 gives it others while the broker is
# stopped, as docs/OPERATING.md says: each topic stays. The gate runs it.
# made.py PROGRAM [port]
import base64
import os
import sqlite3
import stat
import struct
import subprocess
import sys
import tempfile

from client import Broker, consumer, producer, text_of

program = sys.argv[1]
port = int(sys.argv[2]) if len(sys.argv) > 2 else 18134
SMALL, LARGE = 1024, 4096


def head(database):
    with open(database, 'rb') as file:
        return file.read(SMALL)


def page_size(database):
    return struct.unpack('>H', head(database)[16:18])[0]


def is_private(database):
    found = os.stat(database)
    return stat.S_IMODE(found.st_mode) == 0o600 and found.st_nlink == 1


def serves(folder, size):
    """The broker serves there, and the file's pages have this size."""
    broker = Broker(program, port, workers=1, folder=folder)
    try:
        assert is_private(broker.database)
        writer = producer(port, 't')
        for at in range(20):
            writer.send(text_of(str(at).encode() * 300))
            assert writer.receive()['result'] == 'ok'
        writer.leave()
    finally:
        broker.kill()
    rows = sqlite3.connect(broker.database)
    assert rows.execute('PRAGMA integrity_check').fetchall() == [('ok',)]
    assert rows.execute('PRAGMA page_size').fetchone() == (size,)
    assert rows.execute('PRAGMA wal_checkpoint(TRUNCATE)').fetchone()[0] == 0
    rows.close()
    assert page_size(broker.database) == size


def makes(what, size, before=lambda database: None, after=lambda database: not os.path.exists(f'{database}.new')):
    """Serves where that was done before to a place with no database, and that is so afterwards."""
    with tempfile.TemporaryDirectory(dir=os.environ.get('ROOM')) as room:
        database = f'{room}/broker.db'
        before(database)
        serves(room, size)
        assert after(database), os.listdir(room)
        print(f'ok {what}: pages of {size} bytes')


def first_page():
    """What a new file is before anything is stored."""
    with tempfile.TemporaryDirectory(dir=os.environ.get('ROOM')) as room:
        broker = Broker(program, port, workers=1, folder=room)
        broker.kill()
        assert os.path.getsize(broker.database) == SMALL
        return head(broker.database)


def write(name, content, mode=0o600):
    with open(os.open(name, os.O_CREAT | os.O_WRONLY, mode), 'wb') as file:
        file.write(content)


def two_names(database):
    write(database, first_page())
    os.link(database, f'{database}.new')


def begun(database):
    return subprocess.Popen([program, database, '127.0.0.1:0', '1'], stdout=subprocess.PIPE, stderr=subprocess.PIPE, text=True)


def at_once(times):
    """Two programs start over one new path: one serves, and the other finds that it does."""
    sizes = []
    for _ in range(times):
        with tempfile.TemporaryDirectory(dir=os.environ.get('ROOM')) as room:
            database = f'{room}/broker.db'
            both = [begun(database), begun(database)]
            lines = [process.stdout.readline() for process in both]
            assert sorted(line[:9] for line in lines) == ['', 'listening'], lines
            other = both[lines.index('')]
            assert other.stderr.readline() == f'{database}: in use by another process\n'
            assert other.wait(10) == 3
            assert is_private(database) and os.listdir(room).count('broker.db.new') == 0
            for process in both:
                process.kill()
                process.wait()
            sizes.append(page_size(database))
    # Rarely one comes upon the other's page while it is written: then neither gets it.
    assert all(size in (SMALL, LARGE) for size in sizes), sizes
    print(f'ok two at once: one serves, {times} times, {sizes.count(SMALL)} of them in small pages')


def converted(database, size):
    rows = sqlite3.connect(database, isolation_level=None)
    for ask in ['journal_mode = DELETE', f'page_size = {size}']:
        rows.execute(f'PRAGMA {ask}').fetchall()
    rows.execute('VACUUM')
    assert rows.execute('PRAGMA journal_mode = WAL').fetchone() == ('wal',)
    rows.close()
    assert page_size(database) == size


def keeps():
    """A file keeps the size that it has, and each message where it gets another."""
    with tempfile.TemporaryDirectory(dir=os.environ.get('ROOM')) as room:
        for size in [SMALL, LARGE, SMALL]:
            if os.path.exists(f'{room}/broker.db'):
                converted(f'{room}/broker.db', size)
            serves(room, size)
        broker = Broker(program, port, workers=1, folder=room)
        try:
            reader = consumer(port, 't', 's', '?subscriptionInitialPosition=Earliest&receiverQueueSize=100')
            found = [base64.b64decode(reader.receive()['payload']) for _ in range(60)]
            assert found == [str(at).encode() * 300 for at in range(20)] * 3
        finally:
            broker.kill()
        print('ok a file keeps its pages, or gets others while the broker is stopped, with all messages')


makes('a new file', SMALL)
makes('a page without its name', SMALL, lambda database: write(f'{database}.new', first_page()))
makes('half a page without its name', LARGE, lambda database: write(f'{database}.new', first_page()[:100]))
makes('a file of two names', SMALL, two_names)
makes('an empty file', LARGE, lambda database: write(database, b''))
makes("somebody's file of that name", LARGE, lambda database: write(f'{database}.new', b'x' * 2000),
      lambda database: os.path.getsize(f'{database}.new') == 2000)
makes("somebody's folder of that name", LARGE, lambda database: os.mkdir(f'{database}.new'),
      lambda database: os.path.isdir(f'{database}.new'))
at_once(10)
keeps()
