#!/usr/bin/env python3
# Clients that send without end, or nothing: a message has at most 1,024 frames; a flood of frames leaves the others of its worker
# served; a session ends once a ping was not answered, whatever else its client sends, and none ends that was not pinged, also
# where the machine stood still. The gate runs it.
# floods.py PROGRAM [port]
import os
import signal
import subprocess
import sys
import threading
import time

from client import Broker, Client, frame, producer, text_of

program = sys.argv[1]
port = int(sys.argv[2]) if len(sys.argv) > 2 else 18127
PATH = '/ws/v2/producer/persistent/public/default/'
# A frame that is not the last of its message, with no bytes: the first of a text, and one that goes on.
FIRST, MORE = b'\x01\x80\0\0\0\0', b'\x00\x80\0\0\0\0'


def message_of(frames, text):
    """The text as a message of so many frames, of which all but the last are empty."""
    last = frame(0, text)
    return FIRST + MORE * (frames - 2) + last


def frames():
    text = text_of(b'hi')
    for count in (2, 1000, 1024):
        client = producer(port, 't')
        client.sock.sendall(message_of(count, text))
        assert client.receive()['result'] == 'ok', count
        # a ping between the frames is answered, and counts for nothing
        client.sock.sendall(FIRST + MORE * 500 + frame(9, 'ping') + MORE * (count - 502 if count > 502 else 0) + frame(0, text))
        kind, body = client.frame()
        assert (kind, body) == (10, b'ping'), (kind, body)
        assert client.receive()['result'] == 'ok', count
        client.close()
    client = producer(port, 't')
    client.sock.sendall(message_of(1025, text))
    assert client.receive()[0] == 1009
    client.close()
    print('ok a message has at most 1,024 frames')


# Floods a broker from a process of its own, which reads what it is answered: messages of a thousand frames without bytes.
FLOOD = '''
import sys, threading
sys.path.insert(0, sys.argv[1])
from client import Client, frame
client = Client(int(sys.argv[2]), sys.argv[3])
def read():
    while client.sock.recv(1 << 20):
        pass
threading.Thread(target=read, daemon=True).start()
chunk = (b'\\x01\\x80\\0\\0\\0\\0' + b'\\x00\\x80\\0\\0\\0\\0' * 1000 + frame(0, '{}')) * 10
print('floods', flush=True)
while True:
    client.sock.sendall(chunk)
'''


def pinged(client):
    """A ping of the client's is answered; so is one of the broker's, which may come first."""
    client.sock.sendall(frame(9, 'x'))
    while (got := client.frame()) != (10, b'x'):
        assert got[0] == 9, got
        client.sock.sendall(frame(10, got[1]))


def flooded():
    """Each of four clients, of which two are served by the flooded worker, has its pings answered meanwhile."""
    clients = [producer(port, 'calm') for _ in range(4)]
    here = os.path.dirname(os.path.abspath(__file__))
    flood = subprocess.Popen([sys.executable, '-c', FLOOD, here, str(port), PATH + 'wild'], stdout=subprocess.PIPE)
    try:
        assert flood.stdout.readline() == b'floods\n'
        for attempt in range(5):
            times = []
            for _ in range(100):
                for client in clients:
                    began = time.perf_counter()
                    pinged(client)
                    times.append(time.perf_counter() - began)
            late = sorted(times)[len(times) * 99 // 100]
            if late < 0.02:
                break
        # 20 ms are the aim on a machine that does nothing else
        assert late < 0.2, f'one in a hundred waited {late * 1000:.0f} ms'
        assert flood.poll() is None
        writer = producer(port, 'calm')
        writer.send(text_of(b'still'))
        assert writer.receive()['result'] == 'ok'
        writer.close()
    finally:
        flood.kill()
        flood.wait()
    for client in clients:
        client.close()
    print(f'ok beside a flood 99 of 100 pings are answered within {late * 1000:.1f} ms')


class Quiet(Client):
    """A client that answers no ping."""

    def ended(self, most, says=None):
        """After how many seconds the broker ended it; None where it did not within so many. It says something each moment."""
        began = time.monotonic()
        self.sock.settimeout(0.2)
        while time.monotonic() - began < most:
            try:
                if says is not None:
                    self.sock.sendall(says)
                if not self.sock.recv(1 << 16):
                    return time.monotonic() - began
            except TimeoutError:
                pass
            except OSError:
                return time.monotonic() - began
        return None


def listens(client, seconds):
    """Answers pings for so long, and then is there still."""
    client.sock.settimeout(0.2)
    end = time.monotonic() + seconds
    while time.monotonic() < end:
        try:
            client.receive()
        except TimeoutError:
            pass
    client.sock.settimeout(30)
    client.send(text_of(b'there'))
    assert client.receive()['result'] == 'ok'


def silence():
    """Pinged after a second, and ended two seconds later; each is looked at every two seconds."""
    broker.kill()
    broker.more = ['silence=1000ms,2000ms']
    broker.start()
    # the first bytes of a text that is long, and a byte of it each moment
    slow = Quiet(port, PATH + 'slow')
    slow.sock.sendall(b'\x81\xfe\xff\xff\0\0\0\0')
    found = {}

    def waits(name, client, says):
        found[name] = client.ended(15, says)

    threads = [threading.Thread(target=waits, args=args) for args in [
        ('silent', Quiet(port, PATH + 'silent'), None), ('a byte at a time', slow, b' '),
        ('with pings of its own', Quiet(port, PATH + 'pings'), frame(9, 'mine')), ('with texts', Quiet(port, PATH + 'texts'), frame(1, 'x'))]]
    fine = producer(port, 'fine')
    for thread in threads:
        thread.start()
    listens(fine, 14)
    for thread in threads:
        thread.join()
    assert found.pop('with texts') is None, found
    for name, took in found.items():
        assert took is not None and 2.5 < took < 9, (name, took)
    print('ok ' + ', '.join(f'{name}: {took:.1f} s' for name, took in found.items()) + '; one that answers stays')


def stood_still():
    """The broker stands still for much longer than a client may be silent: nobody is ended who answers then."""
    clients = [producer(port, f'still{number}') for number in range(20)]
    time.sleep(1.5)
    broker.process.send_signal(signal.SIGSTOP)
    time.sleep(16)
    broker.process.send_signal(signal.SIGCONT)
    threads = [threading.Thread(target=listens, args=(client, 5)) for client in clients]
    failed = []
    threading.excepthook = lambda args: failed.append(args.exc_value)
    for thread in threads:
        thread.start()
    for thread in threads:
        thread.join()
    assert not failed, failed
    print('ok none of 20 is ended after the machine stood still')


broker = Broker(program, port, 2)
try:
    frames()
    flooded()
    silence()
    stood_still()
finally:
    broker.kill()
