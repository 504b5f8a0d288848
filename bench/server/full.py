#!/usr/bin/env python3
# The disk takes no more while sessions are open: each session is closed with 4008 and F16, the program says why and ends
# with status 3, and after a start with room each publish that was answered ok is there, in its order. The disk is made to
# fail by a limit on the size of files, which is another one each time, so that it fails in another call. The gate runs it.
# full.py PROGRAM [times] [port]
import base64
import http.client
import os
import resource
import signal
import sqlite3
import subprocess
import sys
import tempfile
import threading
import time

from client import Client, consumer, producer, text_of

program = sys.argv[1]
times = int(sys.argv[2]) if len(sys.argv) > 2 else 20
port = int(sys.argv[3]) if len(sys.argv) > 3 else 18088
BODY, LEAST, STEP = b'x' * 3000, 1_000_000, 40_093


def start(folder, most):
    """The program, whose files may have so many bytes, or any number."""
    def limited():
        if most:
            signal.signal(signal.SIGXFSZ, signal.SIG_IGN)
            resource.setrlimit(resource.RLIMIT_FSIZE, (most, most))
    process = subprocess.Popen([program, f'{folder}/broker.db', f'127.0.0.1:{port}', '2'],
                               stdout=subprocess.PIPE, stderr=subprocess.PIPE, preexec_fn=limited)
    assert process.stdout.readline().startswith(b'listening'), process.stderr.read()
    return process


def last(client):
    """What the session is closed with."""
    got = client.receive()
    while isinstance(got, dict):
        got = client.receive()
    return got


def publish(topic, found):
    """Publishes until the session is closed, and notes what was answered ok."""
    client = producer(port, topic)
    while True:
        client.send(text_of(f'{len(found)} '.encode() + BODY))
        got = client.receive()
        if not isinstance(got, dict):
            assert got == (4008, 'F16'), got
            return
        assert got['result'] == 'ok', got
        found.append(got['messageId'])


def health():
    """The status of /health; none where nobody answers."""
    conn = http.client.HTTPConnection('127.0.0.1', port, timeout=5)
    try:
        conn.request('GET', '/health')
        return conn.getresponse().status
    except (OSError, http.client.HTTPException):
        return None
    finally:
        conn.close()


def watch(seen):
    """Asks for the health until nobody answers, and notes when each question was begun."""
    while not seen or seen[-1][1]:
        begun = time.time()
        seen.append((begun, health()))


def fill(folder, most):
    """How many publishes of two topics were answered ok before the disk failed."""
    process = start(folder, most)
    quiet = [consumer(port, 'a', 's'), consumer(port, 'c', 's'), Client(port, '/ws/v2/admin/persistent/public/default/c')]
    found = {'a': [], 'b': []}
    threads = [threading.Thread(target=publish, args=(topic, found[topic])) for topic in found]
    assert health() == 200
    seen, failed = [], []
    watcher = threading.Thread(target=watch, args=(seen,))
    for thread in [watcher, *threads]:
        thread.start()
    for thread in threads:
        thread.join()
        failed.append(time.time())
    for client in quiet:
        got = last(client)
        assert got == (4008, 'F16'), got
    assert process.wait(30) == 3
    watcher.join()
    # (whoever asks once a session was told of the failure is told too)
    late = [status for begun, status in seen if begun > failed[0]]
    assert 200 not in late, late
    unwell.append([status for _, status in seen].count(503))
    said = [line for line in process.stderr.read().decode().splitlines() if not line.startswith('level=')]
    assert len(said) == 2 and said[0].startswith(f'{folder}/broker.db: ') and said[1] == 'store failed', said
    return found, said[0].split(': ', 1)[1]


def look(folder, found):
    """Each publish that was answered ok is delivered, in its order."""
    process = start(folder, None)
    for topic, ids in found.items():
        client = consumer(port, topic, 'late', '?subscriptionInitialPosition=Earliest&receiverQueueSize=100000')
        for place, wanted in enumerate(ids):
            got = client.receive()
            assert got['messageId'] == wanted, (topic, place, got['messageId'], wanted)
            assert base64.b64decode(got['payload']).startswith(f'{place} '.encode())
        client.close()
    process.kill()
    process.wait()
    file = sqlite3.connect(f'{folder}/broker.db')
    whole = file.execute('PRAGMA integrity_check').fetchall()
    file.close()
    assert whole == [('ok',)], whole


def starts_not(folder):
    """Where the disk has no room a start says so, and nothing else."""
    def limited():
        signal.signal(signal.SIGXFSZ, signal.SIG_IGN)
        resource.setrlimit(resource.RLIMIT_FSIZE, (300_000, 300_000))
    ended = subprocess.run([program, f'{folder}/broker.db', f'127.0.0.1:{port}', '2'], capture_output=True, timeout=30,
                           preexec_fn=limited)
    assert ended.returncode == 3 and ended.stdout == b'', ended
    assert ended.stderr.decode() == f'{folder}/broker.db: no room on the disk\nstore failed\n', ended
    assert os.listdir(folder).count('broker.db-room') == 0


count, whys, unwell = 0, set(), []
for turn in range(times):
    folder = tempfile.mkdtemp(prefix='broker-', dir=os.environ.get('ROOM', '.'))
    found, why = fill(folder, LEAST + turn * STEP)
    starts_not(folder)
    look(folder, found)
    count += sum(len(ids) for ids in found.values())
    whys.add(why)
print(f'{times} disks took no more: {count} publishes were answered ok, each is found; it said {sorted(whys)}; '
      f'/health was answered 503 {sum(unwell)} times, and never 200 once a session was told')
