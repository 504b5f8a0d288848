#!/usr/bin/env python3
# A consumer that is stopped with messages that it has not acknowledged is noticed: its messages are at another consumer
# of its subscription, and its seat is free, within 80 seconds. One of each type of subscription, at once.
# hangs.py PROGRAM [port]
import base64
import os
import signal
import subprocess
import sys
import threading
import time

from client import Broker, consumer, producer, text_of

COUNT, MOST = 10, 80


def query(kind):
    return f'?subscriptionType={kind}&subscriptionInitialPosition=Earliest'


def hold(port, kind):
    """A consumer that acknowledges nothing, in a process of its own."""
    reader = consumer(port, kind, 's', query(kind))
    for _ in range(COUNT):
        reader.receive()
    print('holds', flush=True)
    try:
        while True:
            reader.receive()
    except (OSError, ConnectionError, AssertionError):
        print('closed', flush=True)


if sys.argv[1] == '--hold':
    hold(int(sys.argv[2]), sys.argv[3])
    sys.exit()

program = sys.argv[1]
port = int(sys.argv[2]) if len(sys.argv) > 2 else 18087
failed = []


def other(kind, holder, stopped):
    """Another consumer, which is refused at first where the subscription is Exclusive."""
    while True:
        reader = consumer(port, kind, 's', query(kind))
        reader.sock.settimeout(MOST + 20)
        got = reader.receive()
        if isinstance(got, dict):
            break
        assert kind == 'Exclusive' and got == (4002, 'F6'), got
        reader.close()
        time.sleep(0.5)
    seen = {base64.b64decode(got['payload']).decode()}
    while len(seen) < COUNT:
        seen.add(base64.b64decode(reader.receive()['payload']).decode())
    took = time.monotonic() - stopped
    print(f'{kind}: all {COUNT} at another consumer after {took:.1f} s', flush=True)
    if took > MOST:
        failed.append(kind)
    reader.leave()
    reader.close()


def check(kind):
    try:
        teller = producer(port, kind)
        for number in range(COUNT):
            teller.send(text_of(f'{number}'.encode()))
            assert teller.receive()['result'] == 'ok'
        teller.close()
        holder = subprocess.Popen([sys.executable, __file__, '--hold', str(port), kind], stdout=subprocess.PIPE)
        assert holder.stdout.readline() == b'holds\n'
        os.kill(holder.pid, signal.SIGSTOP)
        other(kind, holder, time.monotonic())
        os.kill(holder.pid, signal.SIGCONT)
        assert holder.stdout.readline() == b'closed\n'
        holder.wait()
    except BaseException as error:
        failed.append(f'{kind}: {error!r}')


broker = Broker(program, port)
try:
    kinds = ('Exclusive', 'Failover', 'Shared', 'Key_Shared')
    threads = [threading.Thread(target=check, args=(kind,)) for kind in kinds]
    for thread in threads:
        thread.start()
    for thread in threads:
        thread.join()
finally:
    broker.kill()
if failed:
    sys.exit(f'failed: {failed}')
