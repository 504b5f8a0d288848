#!/usr/bin/env python3
# Requests that ask for no WebSocket: each is answered with its status and its body, and then its connection ends. One that
# comes in pieces is answered too, and a producer is answered meanwhile. The gate runs it.
# plain.py PROGRAM [port]
import base64
import hashlib
import http.client
import os
import re
import socket
import sys
import time

from client import Broker, producer, text_of

program = sys.argv[1]
port = int(sys.argv[2]) if len(sys.argv) > 2 else 18089
TEXT = 'text/plain; charset=utf-8'
UPGRADE = {'Connection': 'Upgrade', 'Upgrade': 'websocket', 'Sec-WebSocket-Version': '13'}


def said(pieces, pause=0.0):
    """All that comes back until the broker ends the connection."""
    with socket.create_connection(('127.0.0.1', port), timeout=10) as sock:
        for piece in pieces:
            sock.sendall(piece)
            time.sleep(pause)
        got = b''
        while more := sock.recv(1 << 16):
            got += more
    return got


def whole(status, body):
    return (f'HTTP/1.1 {status}\r\nContent-Type: {TEXT}\r\nContent-Length: {len(body)}\r\nConnection: close\r\n'
            'Cache-Control: no-store\r\nX-Content-Type-Options: nosniff\r\nCross-Origin-Resource-Policy: same-origin\r\n'
            f"Content-Security-Policy: default-src 'none'; frame-ancestors 'none'\r\n\r\n{body}").encode()


def asks(what, status, body, pieces, pause=0.0):
    got = said(pieces, pause)
    assert got == whole(status, body), f'{what}: {got}'
    print(f'{status[:3]} {what}')


def is_read(method, path, status, body, headers={}):
    """The same, as a client of HTTP reads it."""
    conn = http.client.HTTPConnection('127.0.0.1', port, timeout=10)
    conn.request(method, path, headers=headers)
    answer = conn.getresponse()
    assert (answer.status, answer.read()) == (status, body), (method, path, answer.status)
    conn.close()
    print(f'{status} {method} {path} {" ".join(headers)}')


def page_runs_its_own():
    """The page's policy names its one script and its one style, and lets it ask nobody but the broker."""
    conn = http.client.HTTPConnection('127.0.0.1', port, timeout=10)
    conn.request('GET', '/')
    answer = conn.getresponse()
    text = answer.read().decode()
    policy = dict(part.split(' ', 1) for part in answer.headers['Content-Security-Policy'].split('; '))
    for tag in ('script', 'style'):
        inner, = re.findall(f'<{tag}>(.*?)</{tag}>', text, re.S)
        digest = base64.b64encode(hashlib.sha256(inner.encode()).digest()).decode()
        assert policy[f'{tag}-src'] == f"'sha256-{digest}'", policy
    assert (policy['default-src'], policy['connect-src'], policy['frame-ancestors']) == ("'none'", "'self'", "'none'"), policy
    assert answer.headers['X-Content-Type-Options'] == 'nosniff'
    assert answer.headers['Cross-Origin-Resource-Policy'] == 'same-origin'
    conn.close()
    print('200 the page, with a policy for its own script')


def head(line, size=0):
    """A head of that size, or as short as can be."""
    begun = line + b'\r\nHost: localhost\r\n'
    if size:
        begun += b'X: ' + b'x' * (size - len(begun) - 7) + b'\r\n'
    return begun + b'\r\n'


broker = Broker(program, port)
try:
    HEALTH = head(b'GET /health HTTP/1.1')
    asks('health', '200 OK', 'ok\n', [HEALTH])
    asks('health, byte by byte', '200 OK', 'ok\n', [bytes([byte]) for byte in HEALTH], 0.002)
    asks('health, of HTTP/1.0', '200 OK', 'ok\n', [head(b'GET /health HTTP/1.0')])
    asks('a head of 8,192 bytes', '200 OK', 'ok\n', [head(b'GET /health HTTP/1.1', 8192)])
    asks('a head of 8,193 bytes', '400 Bad Request', 'bad request\n', [head(b'GET /health HTTP/1.1', 8193)])
    asks('101 lines', '400 Bad Request', 'bad request\n', [b'GET /health HTTP/1.1\r\n' + b'a: b\r\n' * 101 + b'\r\n'])
    asks('no head', '400 Bad Request', 'bad request\n', [b'\x16\x03\x01\x02\0\x01\0'])
    asks('another host', '403 Forbidden', 'forbidden\n', [b'GET /health HTTP/1.1\r\nHost: a\r\n\r\n'])
    asks('no host', '400 Bad Request', 'bad request\n', [b'GET /health HTTP/1.1\r\n\r\n'])
    page_runs_its_own()
    is_read('GET', '/nothing', 404, b'not found\n')
    is_read('GET', '/ws/v2/producer/persistent/public/default/t', 404, b'not found\n')
    is_read('GET', '/health', 400, b'bad request\n', UPGRADE)
    is_read('GET', '/health', 400, b'bad request\n', UPGRADE | {'Sec-WebSocket-Key': 'short'})
    is_read('POST', '/health', 400, b'bad request\n')
    is_read('DELETE', '/', 400, b'bad request\n')
    writer = producer(port, 't')
    waiting = [socket.create_connection(('127.0.0.1', port)) for _ in range(50)]
    for sock in waiting:
        sock.sendall(HEALTH[:-1])
    for _ in range(200):
        writer.send(text_of(b'hi'))
        assert writer.receive()['result'] == 'ok'
        assert said([HEALTH]) == whole('200 OK', 'ok\n')
    for sock in waiting:
        sock.sendall(HEALTH[-1:])
        assert sock.recv(4096) == whole('200 OK', 'ok\n')
        assert sock.recv(4096) == b''
        sock.close()
    print('200 250 among a producer\'s 200 messages')
    late = socket.create_connection(('127.0.0.1', port), timeout=10)
    late.sendall(HEALTH[:-1])
    begun = time.monotonic()
    assert late.recv(4096) == b''
    assert 4 < time.monotonic() - begun < 8
    print('    a head that does not come whole ends')
    time.sleep(0.2)
    left = [at for at in os.listdir(f'/proc/{broker.process.pid}/fd')
            if os.readlink(f'/proc/{broker.process.pid}/fd/{at}').startswith('socket:')]
    assert len(left) == 2, left
finally:
    broker.kill()
