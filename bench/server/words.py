#!/usr/bin/env python3
# Refusals in words: whoever asks for a status with the header gets one, with the words of FORMATS.md and what is wrong; whoever comes
# to a broker that was started with refusals=http gets it without the header; and nobody else does, and nothing is opened for whoever
# is refused. The gate runs it.
# words.py PROGRAM [port]
import base64
import json
import os
import re
import socket
import sys

from client import Broker, Client, consumer, producer, text_of

program = sys.argv[1]
port = int(sys.argv[2]) if len(sys.argv) > 2 else 18127
T = '/persistent/public/default/t'
ASKS = 'X-Refusals: http\r\n'
STATUS = {400: 'Bad Request', 404: 'Not Found', 409: 'Conflict', 503: 'Service Unavailable'}
HEAD = '''HTTP/1.1 {status} {name}\r
Content-Type: application/json\r
X-Refusal: {refusal}\r
Content-Length: {length}\r
Connection: close\r
Cache-Control: no-store\r
X-Content-Type-Options: nosniff\r
Cross-Origin-Resource-Policy: same-origin\r
Content-Security-Policy: default-src 'none'; frame-ancestors 'none'\r
\r
'''


def said_in_formats():
    """What each refusal says by the page."""
    page = os.path.join(os.path.dirname(os.path.abspath(__file__)), '..', '..', 'docs', 'FORMATS.md')
    with open(page) as lines:
        rows = re.findall(r'^\| F(\d+) \| \w+ \| (.*?) \|', lines.read(), re.M)
    plain = {int(number): re.sub(r'\[([^]]*)\]\([^)]*\)', r'\1', when).replace('`', '') for number, when in rows}
    assert sorted(plain) == list(range(1, 25)), plain
    return plain


WORDS = said_in_formats()


def answered(target, lines=''):
    """All that a request for a WebSocket is answered, up to the end of the connection."""
    with socket.create_connection(('127.0.0.1', port), timeout=30) as sock:
        key = base64.b64encode(os.urandom(16)).decode()
        sock.sendall((f'GET /ws/v2{target} HTTP/1.1\r\nHost: 127.0.0.1:{port}\r\nUpgrade: websocket\r\nConnection: Upgrade\r\n'
                      f'Sec-WebSocket-Key: {key}\r\nSec-WebSocket-Version: 13\r\n{lines}\r\n').encode())
        got = b''
        while piece := sock.recv(1 << 16):
            got += piece
        return got


def response(status, fault, wrong):
    text = json.dumps({'fault': fault, 'reason': WORDS[fault], **({'wrong': wrong} if wrong else {})}, separators=(',', ':')) + '\n'
    refusal = f'F{fault}' + (f' {wrong}' if wrong else '')
    return (HEAD.format(status=status, name=STATUS[status], refusal=refusal, length=len(text)) + text).encode()


def is_told(what, target, status, fault, wrong, lines):
    got = answered(target, lines)
    assert got == response(status, fault, wrong), f'{what}: {got}'


def is_closed(what, target, code, fault, lines=''):
    """It is opened and then closed, and that is all."""
    got = answered(target, lines)
    head, frame = got.split(b'\r\n\r\n', 1)
    reason = f'F{fault}'.encode()
    assert re.fullmatch(rb'HTTP/1.1 101 Switching Protocols\r\nConnection: Upgrade\r\nUpgrade: websocket\r\nSec-WebSocket-Accept: \S{28}', head), f'{what}: {got}'
    assert frame == bytes([0x88, 2 + len(reason)]) + code.to_bytes(2, 'big') + reason, f'{what}: {got}'


# What is refused, by which target, and how that is told: a status, the refusal, what is wrong; and the code of the close.
BAD = [
    ('an unknown path', '/reader' + T + '/s', 400, 20, 'path', 4008),
    ('a path of two readings', '/producer' + T + '/', 400, 20, 'path', 4008),
    ('a name with a control', '/producer/persistent/public/default/a%00b', 400, 20, 'name', 4001),
    ('a subscription with a control', '/consumer' + T + '/a%00b', 400, 20, 'name', 4002),
    ('a query that is no UTF-8', '/producer' + T + '?a=%ff', 400, 20, 'query', 4001),
    ('keys', '/producer' + T + '?encryptionKeys=k', 400, 20, 'encryptionKeys', 4001),
    ('a name of the broker\'s own', '/producer' + T + '?producerName=dlq%2Fx', 400, 20, 'producerName', 4001),
    ('a number that is none', '/producer' + T + '?initialSequenceId=x', 400, 20, 'initialSequenceId', 4001),
    *[(f'another {name}', f'/consumer{T}/s?{more}{name}=x', 400, 20, name, 4002) for more, name in (
        ('', 'subscriptionType'), ('', 'priorityLevel'), ('', 'pullMode'), ('', 'receiverQueueSize'), ('', 'ackTimeoutMillis'),
        ('', 'negativeAckRedeliveryDelay'), ('subscriptionType=Shared&', 'maxRedeliverCount'), ('', 'subscriptionInitialPosition'),
        ('subscriptionType=Key_Shared&', 'keySharedRanges'), ('', 'subscriptionMode'))],
    ('the first of two that are wrong', f'/consumer{T}/s?subscriptionInitialPosition=x&priorityLevel=x', 400, 20, 'priorityLevel', 4002),
    ('a dead-letter topic that is none', f'/consumer{T}/s?subscriptionType=Shared&maxRedeliverCount=1&deadLetterTopic=a%2Fb', 400, 20, 'deadLetterTopic', 4002),
    ('a dead-letter topic that is the topic', f'/consumer{T}/own?subscriptionType=Shared&maxRedeliverCount=1&deadLetterTopic=t', 400, 14, None, 4002),
    ('an administrator of no topic', '/admin/persistent/public/default/none', 404, 11, None, 4008),
]
TAKEN = [
    ('a name that is taken', f'/producer{T}?producerName=one', 409, 2, None, 4001),
    ('a second Exclusive consumer', f'/consumer{T}/sole', 409, 6, None, 4002),
    ('another type than the subscription has', f'/consumer{T}/sole?subscriptionType=Shared', 409, 5, None, 4002),
    ('a hash that another consumer has', f'/consumer{T}/keys?subscriptionType=Key_Shared&keySharedRanges=100-200', 409, 23, None, 4002),
    ('no ranges beside a consumer that has some', f'/consumer{T}/keys?subscriptionType=Key_Shared', 409, 24, None, 4002),
    ('a member beyond the 64 of a subscription', f'/consumer{T}/many?subscriptionType=Shared', 503, 7, None, 4002),
]


def each(refusals, told):
    """Each is told by a status, or is not, with none of these lines and with these that ask for nothing."""
    for what, target, status, fault, wrong, code in refusals:
        is_told(what, target, status, fault, wrong, ASKS)
        is_told(what, target, status, fault, wrong, 'x-refusals:http\r\n')
        for lines in ('', 'X-Refusals: close\r\n', 'X-Refusals: HTTP\r\n', ASKS + 'X-Refusals: \r\n'):
            if told:
                is_told(what, target, status, fault, wrong, lines)
            else:
                is_closed(what, target, code, fault, lines)
        print(f'{status} F{fault:<3} {what}')


def guests():
    """Those who take what others want."""
    held = [producer(port, 't', '?producerName=one'), consumer(port, 't', 'sole'),
            consumer(port, 't', 'keys', '?subscriptionType=Key_Shared&keySharedRanges=0-199')]
    return held + [consumer(port, 't', 'many', '?subscriptionType=Shared') for _ in range(64)]


def goes_on(lines):
    """Whoever is not refused is served, whatever is asked for, and one who was is as if it had never come."""
    client = Client(port, f'/ws/v2/producer{T}?producerName=two', lines=lines)
    client.send(text_of(b'a'))
    assert client.receive()['result'] == 'ok'
    is_told('its own name', f'/producer{T}?producerName=two', 409, 2, None, ASKS)
    client.send(text_of(b'b'))
    assert client.receive()['result'] == 'ok'
    client.leave()
    client.close()


for told, more in ((False, ()), (True, ('refusals=http',))):
    broker = Broker(program, port, more=more)
    try:
        each(BAD, told)
        held = guests()
        each(TAKEN, told)
        goes_on('')
        goes_on(ASKS)
        for client in held:
            client.leave()
            client.close()
        # What was refused took nothing: all names and places are free.
        for client in guests():
            client.leave()
            client.close()
        # The header asks for nothing else: no page changes, and a session that ends is closed as ever.
        admin = Client(port, '/ws/v2/admin' + T, lines=ASKS)
        admin.send('[]')
        assert admin.receive() == (4003, 'F18')
        admin.close()
    finally:
        broker.kill()
    print('each of them without the header too' if told else 'and none without the header')
