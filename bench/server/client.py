# A small client of the broker over raw sockets, so that a measurement has little of the client in it.
import base64
import json
import os
import socket
import struct
import subprocess
import tempfile
import time


class Client:
    def __init__(self, port, target, timeout=30, lines=''):
        """The request has these lines too, each with its end."""
        self.sock = socket.create_connection(('127.0.0.1', port), timeout=timeout)
        self.sock.setsockopt(socket.IPPROTO_TCP, socket.TCP_NODELAY, 1)
        key = base64.b64encode(os.urandom(16)).decode()
        self.sock.sendall((f'GET {target} HTTP/1.1\r\nHost: 127.0.0.1:{port}\r\nUpgrade: websocket\r\n'
                           f'Connection: Upgrade\r\nSec-WebSocket-Key: {key}\r\n'
                           f'Sec-WebSocket-Version: 13\r\n{lines}\r\n').encode())
        self.rest = b''
        while b'\r\n\r\n' not in self.rest:
            self.rest += self.more()
        head, self.rest = self.rest.split(b'\r\n\r\n', 1)
        assert head.startswith(b'HTTP/1.1 101'), head

    def more(self):
        got = self.sock.recv(1 << 20)
        if not got:
            raise ConnectionError('closed')
        return got

    def need(self, count):
        while len(self.rest) < count:
            self.rest += self.more()

    def send(self, text):
        self.sock.sendall(frame(1, text))

    def frame(self):
        """The kind and the bytes of the next frame. A server's frames are not masked."""
        self.need(2)
        length, at = self.rest[1] & 127, 2
        if length == 126:
            self.need(4)
            length, at = struct.unpack('>H', self.rest[2:4])[0], 4
        elif length == 127:
            self.need(10)
            length, at = struct.unpack('>Q', self.rest[2:10])[0], 10
        self.need(at + length)
        kind, body = self.rest[0] & 15, self.rest[at:at + length]
        self.rest = self.rest[at + length:]
        return kind, body

    def receive(self):
        """The next text, as JSON; or the code and the reason with which the session was closed."""
        while True:
            kind, body = self.frame()
            if kind == 1:
                return json.loads(body)
            if kind == 8:
                return struct.unpack('>H', body[:2])[0], body[2:].decode()
            if kind == 9:
                self.sock.sendall(frame(10, body))

    def close(self):
        self.sock.close()

    def leave(self):
        """Closes as RFC 6455 has it, and waits until the broker has answered."""
        self.sock.sendall(frame(8, struct.pack('>H', 1000)))
        while self.frame()[0] != 8:
            pass


def frame(kind, body):
    """A client's frame, whose mask is all zeros."""
    if isinstance(body, str):
        body = body.encode()
    if len(body) < 126:
        head = struct.pack('>BB', 128 | kind, 128 | len(body))
    elif len(body) < 65536:
        head = struct.pack('>BBH', 128 | kind, 254, len(body))
    else:
        head = struct.pack('>BBQ', 128 | kind, 255, len(body))
    return head + b'\0\0\0\0' + body


def producer(port, topic, query=''):
    return Client(port, f'/ws/v2/producer/persistent/public/default/{topic}{query}')


def consumer(port, topic, subscription, query=''):
    return Client(port, f'/ws/v2/consumer/persistent/public/default/{topic}/{subscription}{query}')


def text_of(payload, context=None):
    said = {'payload': base64.b64encode(payload).decode()}
    if context is not None:
        said['context'] = context
    return json.dumps(said)


class Broker:
    """The program, over a database in a folder of its own, with more words after the number of workers."""

    def __init__(self, program, port, workers=4, folder=None, more=()):
        self.program, self.port, self.workers, self.more = program, port, workers, more
        self.folder = folder or tempfile.mkdtemp(prefix='broker-', dir=os.environ.get('ROOM', '.'))
        self.database = f'{self.folder}/broker.db'
        self.start()

    def start(self):
        self.process = subprocess.Popen(
            [self.program, self.database, f'127.0.0.1:{self.port}', str(self.workers), *self.more],
            stdout=subprocess.PIPE)
        before = time.time()
        assert self.process.stdout.readline().startswith(b'listening')
        self.took = time.time() - before

    def kill(self):
        self.process.kill()
        self.process.wait()

    def memory(self):
        """How much of it is in memory, in bytes."""
        with open(f'/proc/{self.process.pid}/status') as lines:
            for line in lines:
                if line.startswith('VmRSS:'):
                    return int(line.split()[1]) * 1024

    def processor(self):
        """The processor time that it has used, in seconds."""
        with open(f'/proc/{self.process.pid}/stat') as line:
            words = line.read().rsplit(')', 1)[1].split()
        return (int(words[11]) + int(words[12])) / os.sysconf('SC_CLK_TCK')


def middle(times):
    return sorted(times)[len(times) // 2]


def timed(step, count):
    """How long each of so many calls took, in microseconds."""
    times = []
    for number in range(count):
        before = time.perf_counter()
        step(number)
        times.append((time.perf_counter() - before) * 1e6)
    return times
