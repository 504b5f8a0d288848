#!/usr/bin/env python3
# Connections that send what no client would: frames of every kind, broken, cut off and out of place, and texts that stand
# for nothing. Whatever comes back is whole frames with nothing behind a close; a quiet producer is answered meanwhile, and
# in the end no descriptor is left, and each topic still takes a message and delivers it.
# garbage.py PROGRAM [seconds] [port] [first number]
import json
import os
import random
import socket
import struct
import sys
import time
from concurrent.futures import ThreadPoolExecutor

from client import Broker, Client, consumer, frame, middle, producer, text_of, timed

program = sys.argv[1]
seconds = float(sys.argv[2]) if len(sys.argv) > 2 else 30
port = int(sys.argv[3]) if len(sys.argv) > 3 else 18088
first = int(sys.argv[4]) if len(sys.argv) > 4 else 0
TOPICS, THREADS = 3, 4
UNSAID = [1004, 1005, 1006, 1015]
PLACES = [
    'producer/persistent/public/default/{}', 'consumer/persistent/public/default/{}/s?subscriptionType=Shared',
    'consumer/persistent/public/default/{}/k?subscriptionType=Key_Shared&pullMode=true',
    'consumer/persistent/public/default/{}/e', 'admin/persistent/public/default/{}', 'producer/persistent/public/default',
    'consumer/persistent/a/b/c/d?receiverQueueSize=x', 'consumer/persistent/a/b/%zz/d', '', 'reader/persistent/a/b/c',
]
TEXTS = [
    text_of(b'hi'), text_of(b'hi', 5), '{"payload":"aGk=","properties":{"a":1}}', '{"payload":"%%%"}', '{"payload":null}',
    '{"payload":"aGk=","key":"\\ud800"}', '{"type":"permit","permitMessages":3}', '{"type":"permit","permitMessages":-1}',
    '{"type":"permit","permitMessages":1e400}', '{"messageId":"CAAQAA=="}', '{"messageId":"CAAQ"}',
    '{"type":"negativeAcknowledge","messageId":"CAAQAA=="}', '{"type":"isEndOfTopic"}', '{"type":"stats","subscription":"s"}',
    '{', '[]', 'null', '"\\u0000"', ' ', '\ufeff{}', '{"a":' * 200 + '1' + '}' * 200, '[' * 5000,
]


def drawn(dice):
    """Bytes for the broker, of some kind."""
    text = dice.choice(TEXTS).encode()
    cut = dice.randrange(len(text) + 1)
    noise = dice.randbytes(dice.randrange(100))
    begun = bytearray(frame(1, text[:cut]))
    begun[0] &= 127
    odd = bytearray(frame(dice.randrange(16), noise))
    odd[0] ^= dice.randrange(8) << 4
    return dice.choices([
        frame(1, text),
        frame(1, text) * dice.randrange(20),
        bytes(begun) + frame(9, b'ping') + frame(0, text[cut:]),
        bytes(begun) + frame(1, text),
        frame(0, text),
        frame(dice.choice([9, 10]), noise),
        frame(8, struct.pack('>H', dice.choice([0, 999, 1000, 1005, 1011, 2999, 4000, 65535])) + noise),
        frame(1, noise),
        frame(2, text),
        bytes(odd),
        bytes([129, len(noise)]) + noise,
        noise,
        b'\x81\xff' + struct.pack('>Q', dice.choice([5_000_000, 2**31, 2**62, 2**63])) + noise,
        frame(1, text)[:cut],
    ], [50, 10, 10, 2, 2, 8, 4, 4, 4, 2, 2, 2, 1, 2])[0]


def is_answered(client):
    """Reads to the end. Whether it ended with a close, behind which nothing came. Where the broker has reset the
    connection, what it sent may be cut off; else there are whole frames, and it ends before long."""
    try:
        while True:
            kind, body = client.frame()
            assert kind in [1, 8, 9, 10], kind
            if kind == 1:
                json.loads(body)
            if kind == 8:
                break
    except (ConnectionResetError, BrokenPipeError):
        return False
    except ConnectionError:
        assert not client.rest, client.rest
        return False
    code = struct.unpack('>H', body[:2])[0] if body else 1000
    assert 1000 <= code < 5000 and code not in UNSAID, code
    try:
        client.rest += client.more()
    except ConnectionError:
        pass
    assert not client.rest, client.rest
    return True


def come_and_go(number, until):
    """How many connections were told their close, and how many were not."""
    dice, told, untold = random.Random(number), 0, 0
    while time.time() < until:
        place = dice.choice(PLACES).format(f'garbage-{dice.randrange(TOPICS)}')
        client = Client(port, f'/ws/v2/{place}', 10)
        try:
            for _ in range(dice.randrange(20)):
                client.sock.sendall(drawn(dice))
            client.sock.shutdown(socket.SHUT_WR)
        except OSError:
            pass
        if is_answered(client):
            told += 1
        else:
            untold += 1
        client.close()
    return told, untold


def look(topic):
    """A message goes through the topic, behind all that is in it."""
    reader, writer = consumer(port, topic, 'last'), producer(port, topic)
    writer.send(text_of(topic.encode()))
    told = writer.receive()
    assert told['result'] == 'ok' and reader.receive()['messageId'] == told['messageId'], told
    reader.close()
    writer.close()


def publish(client):
    client.send(text_of(b'quiet'))
    assert client.receive()['result'] == 'ok'


def descriptors():
    return len(os.listdir(f'/proc/{broker.process.pid}/fd'))


broker = Broker(program, port)
try:
    quiet = producer(port, 'quiet')
    publish(quiet)
    before, until, times = descriptors(), time.time() + seconds, []
    with ThreadPoolExecutor(THREADS) as threads:
        gone = [threads.submit(come_and_go, first + number, until) for number in range(THREADS)]
        while time.time() < until:
            times += timed(lambda _: publish(quiet), 10)
            time.sleep(0.05)
        told, untold = map(sum, zip(*(one.result() for one in gone)))
    for number in range(TOPICS):
        look(f'garbage-{number}')
    until = time.time() + 10
    while descriptors() > before and time.time() < until:
        time.sleep(0.1)
    assert descriptors() == before, f'{descriptors()} descriptors are open, and there were {before}'
    print(f'{told + untold} connections sent garbage, of which {told} were told their close; '
          f'a quiet producer was answered {len(times)} times meanwhile, p50 {middle(times):.0f} us')
finally:
    broker.kill()
