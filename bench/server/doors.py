#!/usr/bin/env python3
# Who is let in: paths that a proxy might read otherwise are no endpoint's and no page's, pages of other origins and hosts that
# nobody named are turned away before a session begins, and a request with two hosts, none, or bare line ends is none. The gate
# runs it.
# doors.py PROGRAM [port]
import base64
import os
import socket
import struct
import sys

from client import Broker, producer, text_of

program = sys.argv[1]
port = int(sys.argv[2]) if len(sys.argv) > 2 else 18121
ADMIN = '/ws/v2/admin/persistent/shop/orders/new'
TOPIC = '/ws/v2/producer/persistent/a/b/'
# The first two got past a proxy that chose by the path as it decoded it.
TWO_READINGS = [
    '/ws/v2/producer/persistent/shop/bills/a%2fb%2fc%2fd%2fe%2ff/../../../../..' + ADMIN[len('/ws/v2'):],
    '/ws/v2/producer/persistent/shop/bills/..\\..\\..\\..\\admin\\persistent\\shop\\bills\\t',
    '/ws/v2/x/../producer/persistent/a/b/c', '/ws/v2/./producer/persistent/a/b/c', '/ws/v2/%2e%2e/v2/producer/persistent/a/b/c',
    '/ws/v2/%2E/producer/persistent/a/b/c', '/ws/v2/.%2e/v2/producer/persistent/a/b/c', '//ws/v2/producer/persistent/a/b/c',
    TOPIC + 'c/..', TOPIC + '.', TOPIC + '..?x=1', TOPIC + '%2e', TOPIC + 'c%2fd', TOPIC + 'c%2Fd', TOPIC + '/c', TOPIC + 'c\\d',
    TOPIC + 'c\td', TOPIC + 'c#d', TOPIC + 'c?d#e', TOPIC + 'c?d\te', '/ws/v2/producer//persistent/a/b/c',
]
ONE_READING = [TOPIC + 'caf%C3%A9', TOPIC + 'a.b..c', TOPIC + '..a', TOPIC + '...', TOPIC + '%2ea', TOPIC + 'c%5Cd', TOPIC + 'c%23d',
               TOPIC + 'c?x=/../%2f//\\']


def said(head):
    """The head that a head is answered with."""
    with socket.create_connection(('127.0.0.1', port), timeout=30) as sock:
        sock.sendall(head)
        answer = b''
        while b'\r\n\r\n' not in answer:
            got = sock.recv(1 << 16)
            if not got:
                break
            answer += got
        return answer


def head(target, *lines, host=f'127.0.0.1:{port}', asks=True, end='\r\n'):
    begun = [f'GET {target} HTTP/1.1'] + ([f'Host: {host}'] if host is not None else []) + list(lines)
    if asks:
        key = base64.b64encode(os.urandom(16)).decode()
        begun += ['Upgrade: websocket', 'Connection: Upgrade', f'Sec-WebSocket-Key: {key}', 'Sec-WebSocket-Version: 13']
    return (end.join(begun) + end + end).encode()


def status(*args, **named):
    return int(said(head(*args, **named)).split(b' ')[1])


def closed(target):
    """The code and the reason that a WebSocket is closed with, or the status where it is not opened; 101 where it stays open."""
    with socket.create_connection(('127.0.0.1', port), timeout=30) as sock:
        # a ping, whose answer says that the connection stays
        sock.sendall(head(target) + b'\x89\x80\0\0\0\0')
        rest = b''
        while b'\r\n\r\n' not in rest or len(rest.split(b'\r\n\r\n', 1)[1]) < 2:
            got = sock.recv(1 << 16)
            assert got, rest
            rest += got
        begun, frame = rest.split(b'\r\n\r\n', 1)
        if not begun.startswith(b'HTTP/1.1 101'):
            return int(begun.split(b' ')[1])
        if frame[0] & 15 != 8:
            return 101
        while len(frame) < 2 + frame[1]:
            frame += sock.recv(1 << 16)
        return struct.unpack('>H', frame[2:4])[0], frame[4:2 + frame[1]].decode()


def paths():
    for target in TWO_READINGS:
        if '\t' in target:
            # no target of a request has a tab
            assert closed(target) in (400, (4008, 'F20')), target
            assert status(target, asks=False) == 400, target
            continue
        got = closed(target)
        assert got[0] == 4008 and got[1].startswith('F20'), (target, got)
        assert status(target, asks=False) == 400, target
    for target in ONE_READING:
        assert closed(target) == 101, (target, closed(target))
    for target, wanted in [('/health', 200), ('/health/', 400), ('/health?x=1', 404), ('//health', 400), ('/./health', 400), ('/x/../health', 400),
                           ('/%2e/health', 400), ('/health#x', 400), ('\\health', 400)]:
        assert status(target, asks=False) == wanted, (target, status(target, asks=False))
    print(f'ok {len(TWO_READINGS)} paths of two readings, {len(ONE_READING)} of one')


def origins():
    own = f'127.0.0.1:{port}'
    target = TOPIC + 'c'
    tries = [
        ((), own, 101), (('Origin: http://' + own,), own, 101), (('Origin: https://' + own,), own, 101), (('origin: wss://' + own,), own, 101),
        (('Origin: http://evil.example',), own, 403), (('Origin: null',), own, 403), (('Origin: ',), own, 403),
        (('Origin: http://127.0.0.1',), own, 403), (('Origin: http://127.0.0.1:1',), own, 403), (('Origin: http://evil.localhost',), 'localhost', 403),
        (('Origin: http://localhost',), 'localhost', 101), (('Origin: http://LOCALHOST',), 'localhost', 101),
        (('Origin: https://page.example',), own, 101), (('Origin: https://page.example:8443',), own, 403), (('Origin: http://page.example',), own, 403),
        ((), 'localhost:1', 101), ((), 'LocalHost', 101), ((), '[::1]:8080', 101), ((), '10.1.2.3', 101), ((), 'broker.example', 101),
        ((), 'broker.example:8080', 101), (('Origin: https://broker.example:8080',), 'broker.example:8080', 101),
        ((), 'evil.example', 403), ((), 'evil.example:8080', 403), ((), '127.0.0.1.evil.example', 403), ((), '256.1.1.1', 403), ((), '', 403),
        ((), 'localhost:', 403), ((), 'localhost:x', 403), ((), '[::1', 403), ((), 'a@localhost', 403),
    ]
    for lines, host, wanted in tries:
        got = status(target, *lines, host=host)
        assert got == wanted, (lines, host, got)
        for page in ('/overview', '/metrics', '/health', '/'):
            got = status(page, *lines, host=host, asks=False)
            assert got == (403 if wanted == 403 else 200), (page, lines, host, got)
    print(f'ok {len(tries)} hosts and origins')


def heads():
    own = f'127.0.0.1:{port}'
    for asks in (True, False):
        target = TOPIC + 'c' if asks else '/health'
        assert status(target, host=None, asks=asks) == 400
        assert status(target, f'Host: {own}', asks=asks) == 400
        assert status(target, f'host: {own}', asks=asks) == 400
        assert status(target, f'Origin: http://{own}', f'Origin: http://{own}', asks=asks) == 400
        assert status(target, asks=asks, end='\n') == 400
        assert int(said(head(target, asks=asks).replace(b'\r\n', b'\n', 1)).split(b' ')[1]) == 400
    print('ok heads with two hosts, none, two origins or bare line ends')


def letters():
    """With letters=own no consumer has messages moved to where it may not write."""
    broker.kill()
    broker.more = ['letters=own']
    broker.start()
    begun = '/ws/v2/consumer/persistent/shop/bills/open/clerk?subscriptionType=Shared&maxRedeliverCount=1'
    for name, wanted in [('', 101), ('&deadLetterTopic=persistent://shop/bills/dead', 101), ('&deadLetterTopic=shop/bills/dead', 101),
                         ('&deadLetterTopic=persistent://shop/orders/new', 4002), ('&%64eadLetterTopic=shop/orders/new', 4002),
                         ('&deadLetterTopic=other/bills/dead', 4002), ('&deadLetterTopic=dead', 4002)]:
        got = closed(begun + name)
        assert got == 101 if wanted == 101 else got[0] == wanted and got[1].startswith('F20'), (name, got)
    assert closed('/ws/v2/consumer/persistent/shop/bills/open/other?subscriptionType=Exclusive&maxRedeliverCount=1&deadLetterTopic=shop/orders/new') == 101
    print('ok dead letters stay where their topic is')


broker = Broker(program, port, 2, more=['hosts=broker.example', 'origins=https://page.example'])
try:
    paths()
    origins()
    heads()
    letters()
    for name in ('broker.db', 'broker.db-wal'):
        assert os.stat(f'{broker.folder}/{name}').st_mode & 0o777 == 0o600, name
    print('ok the database is its owner\'s alone')
    writer = producer(port, 'c')
    writer.send(text_of(b'on'))
    assert writer.receive()['result'] == 'ok'
finally:
    broker.kill()
