#!/usr/bin/env python3
# Copies of the database while the broker serves: asked for under load, of one broker after another, since two copies of one are a
# minute apart. Each copy is whole for sqlite3, has each message that was answered before it was asked for, and starts a broker
# that delivers them. It is its owner's alone, and goes where no link leads it. Nobody gets one from another machine's address.
# Whoever connects while a slow one is made is served. The gate runs it; it wants gcc.
# backup.py PROGRAM [times] [port]
import base64
import json
import os
import shutil
import socket
import sqlite3
import subprocess
import sys
import tempfile
import threading
import time

from client import Broker, Client, consumer, producer, text_of

program = sys.argv[1]
times = int(sys.argv[2]) if len(sys.argv) > 2 else 20
port = int(sys.argv[3]) if len(sys.argv) > 3 else 18098
TOPICS = 4
counts = [0] * TOPICS


def admin(host='127.0.0.1'):
    return Client(port, '/ws/v2/admin/persistent/public/default/t0') if host == '127.0.0.1' else FarClient(host)


class FarClient(Client):
    """A client whose address is another one of this machine's."""

    def __init__(self, host):
        create = socket.create_connection
        socket.create_connection = lambda address, timeout: create((host, address[1]), timeout=timeout)
        try:
            super().__init__(port, '/ws/v2/admin/persistent/public/default/t0')
        finally:
            socket.create_connection = create


def asked(client, **said):
    client.send(json.dumps(said))
    return client.receive()


def publish(number, ended):
    """Publishes until the end, and counts what was answered."""
    client = producer(port, f't{number}')
    while not ended.is_set():
        for _ in range(10):
            client.send(text_of(os.urandom(1000)))
        for _ in range(10):
            answer = client.receive()
            assert answer['result'] == 'ok', answer
            counts[number] += 1


def copy(client):
    """Asks for a copy, and gives its name once it is whole."""
    before = asked(client, type='overview')['backups']
    assert asked(client, type='backup') == {'result': 'ok'}
    end = time.time() + 60
    while (now := asked(client, type='overview')['backups'])['made'] == before['made']:
        assert now['failed'] == before['failed'] and time.time() < end, now
        time.sleep(0.02)
    return f'{folder}/broker.db.{now["last"]}'


def placed(name):
    """A folder with a copy of the copy, by the names of a database."""
    place = tempfile.mkdtemp(dir=folder)
    shutil.copy(name, f'{place}/broker.db')
    shutil.copy(f'{name}-wal', f'{place}/broker.db-wal')
    return place


def check(name, least):
    """The copy is whole, and has so many messages of each topic at least."""
    place = placed(name)
    with sqlite3.connect(f'{place}/broker.db') as base:
        assert base.execute('PRAGMA integrity_check').fetchall() == [('ok',)]
        for number, count in enumerate(least):
            has, = base.execute('SELECT count(*) FROM entry WHERE topic = ?', [f'persistent://public/default/t{number}']).fetchone()
            assert has >= count, (number, has, count)
    base.close()
    shutil.rmtree(place)


def starts(name):
    """A broker starts over the copy, and delivers its messages in the order of their rows."""
    with sqlite3.connect(f'{placed(name)}/broker.db') as base:
        rows = base.execute('SELECT payload FROM entry WHERE topic = ? ORDER BY idx LIMIT 100', ['persistent://public/default/t0']).fetchall()
    base.close()
    other = Broker(program, port + 1, 2, placed(name))
    reader = Client(port + 1, '/ws/v2/consumer/persistent/public/default/t0/check?subscriptionInitialPosition=Earliest')
    got = [base64.b64decode(reader.receive()['payload']) for _ in range(100)]
    assert got == [payload for payload, in rows] and len(set(got)) == 100
    other.kill()


def far():
    """An address of this machine that is not the loopback, if it has one."""
    with socket.socket(socket.AF_INET, socket.SOCK_DGRAM) as probe:
        try:
            probe.connect(('192.0.2.1', 9))
        except OSError:
            return None
        host = probe.getsockname()[0]
        return None if host.startswith('127.') else host


def under_load():
    """A copy while all topics are published to, and how many messages of each had been answered when it was asked for."""
    broker.start()
    ended = threading.Event()
    threads = [threading.Thread(target=publish, args=[number, ended]) for number in range(TOPICS)]
    goal = min(counts) + 500
    for thread in threads:
        thread.start()
    while min(counts) < goal:
        time.sleep(0.01)
    least = list(counts)
    name = copy(admin())
    ended.set()
    for thread in threads:
        thread.join()
    broker.kill()
    return name, least


def is_private(name):
    """Nobody but its owner may read or write it."""
    for each in (name, f'{name}-wal'):
        assert os.stat(each).st_mode & 0o777 == 0o600, (each, oct(os.stat(each).st_mode))


def waits(client):
    """A second copy is not made within a second of the first; a third is refused meanwhile."""
    made = asked(client, type='overview')['backups']
    assert asked(client, type='backup') == {'result': 'ok'}
    assert asked(client, type='backup') == {'fault': 12, 'result': 'refused'}
    time.sleep(1.5)
    assert asked(client, type='overview')['backups'] == made


def leads_nowhere():
    """Links under the names that a copy may get lead it to no other file."""
    stranger = f'{folder}/stranger'
    with open(stranger, 'w') as it:
        it.write('of somebody else')
    broker.start()
    client = admin()
    now = int(time.time() * 1000)
    links = [f'{folder}/broker.db.{millis}{end}' for millis in range(now, now + 4000) for end in ('.part', '.part-wal', '', '-wal')]
    for link in links:
        os.symlink(stranger, link)
    name = copy(client)
    assert name in links, 'the copy came too late for the links'
    assert not os.path.islink(name) and not os.path.islink(f'{name}-wal')
    is_private(name)
    with open(stranger) as it:
        assert it.read() == 'of somebody else'
    check(name, counts)
    for link in links:
        if os.path.islink(link):
            os.remove(link)
    broker.kill()


def serves_meanwhile():
    """Clients that connect while a copy is made, which takes seconds."""
    shim = f'{folder}/slow_copy.so'
    subprocess.run(['gcc', '-O2', '-shared', '-fPIC', '-o', shim, f'{os.path.dirname(os.path.abspath(__file__))}/slow_copy.c'], check=True)
    process = subprocess.Popen([program, broker.database, f'127.0.0.1:{port}', '2', f'backup={folder}'], stdout=subprocess.PIPE,
                               env={**os.environ, 'LD_PRELOAD': shim, 'SLOW_COPY': '5'})
    assert process.stdout.readline().startswith(b'listening')
    boss = admin()
    assert asked(boss, type='backup') == {'result': 'ok'}
    time.sleep(1.5)
    begun = time.time()
    for _ in range(20):
        client = producer(port, 't1')
        client.send(text_of(b'meanwhile'))
        assert client.receive()['result'] == 'ok'
        client.leave()
    took = time.time() - begun
    assert asked(boss, type='overview')['backups']['made'] == 0, took
    while asked(boss, type='overview')['backups']['made'] == 0:
        assert time.time() < begun + 30
        time.sleep(0.05)
    process.kill()
    process.wait()
    print(f'ok 20 clients that connect while a copy is made are served in {took:.1f} s')


host = far()
folder = tempfile.mkdtemp(prefix='broker-', dir=os.environ.get('ROOM', '.'))
broker = Broker(program, port, 4, folder, ['keep=all', f'backup={folder}'])
first = producer(port, 't0')
first.send(text_of(b'first'))
assert first.receive()['result'] == 'ok'
boss = admin()
name = copy(boss)
check(name, [1])
is_private(name)
for line in ('X-Forwarded-For: 192.0.2.1', 'forwarded: for=127.0.0.1', 'X-Real-IP: 127.0.0.1'):
    handed_on = Client(port, '/ws/v2/admin/persistent/public/default/t0', lines=line + '\r\n')
    assert asked(handed_on, type='backup') == {'fault': 20, 'result': 'refused'}, line
    handed_on.close()
print('ok no copy for whom a proxy handed on')
waits(boss)
broker.kill()
print('ok a copy of a broker that rests, a minute before the next')

copies = [under_load() for _ in range(times)]
for name, least in copies:
    check(name, least)
starts(copies[-1][0])
left = [each for each in os.listdir(folder) if '.part' in each]
assert not left, left
print(f'ok {times} copies under load, with {sum(counts)} messages at the end: each is whole, has what was answered before, and starts')
leads_nowhere()
print('ok no link leads a copy elsewhere')
serves_meanwhile()

broker.more = ['backup=/nowhere/at/all']
broker.start()
boss = admin()
assert asked(boss, type='backup') == {'result': 'ok'}
while asked(boss, type='overview')['backups']['failed'] == 0:
    time.sleep(0.05)
sender = producer(port, 't0')
sender.send(text_of(b'on'))
assert sender.receive()['result'] == 'ok'
broker.kill()
print('ok where the folder is gone no copy is made, and all else goes on')

if host:
    process = subprocess.Popen([program, broker.database, f'0.0.0.0:{port}', '2', f'backup={folder}'], stdout=subprocess.PIPE)
    assert process.stdout.readline().startswith(b'listening')
    assert asked(FarClient(host), type='backup') == {'fault': 20, 'result': 'refused'}
    assert asked(admin(), type='backup') == {'result': 'ok'}
    process.kill()
    process.wait()
    print('ok no copy for an address that is not the loopback')

# A client of IPv4 comes as one of IPv6, where the broker listens for both.
process = subprocess.Popen([program, broker.database, f'[::]:{port}', '2', f'backup={folder}'], stdout=subprocess.PIPE)
if process.stdout.readline().startswith(b'listening'):
    assert asked(admin(), type='backup') == {'result': 'ok'}
    print('ok a copy for the loopback address of IPv4 as one of IPv6')
process.kill()
process.wait()
shutil.rmtree(folder)
