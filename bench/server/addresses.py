#!/usr/bin/env python3
# One address, and what its clients may use: connections, topics, and sessions begun within a second. Behind a proxy of this machine
# the last X-Forwarded-For is the address, in the limits, the overview and the log; what a client of another machine says of itself
# counts for nothing. The gate runs it.
# addresses.py PROGRAM [port]
import http.client
import json
import os
import socket
import sys
import tempfile
import time

from client import Client, frame
from said import Said

program = sys.argv[1]
port = int(sys.argv[2]) if len(sys.argv) > 2 else 18135
PATH = '/ws/v2/consumer/persistent/public/default/'


def of(address, topic='t', path=None):
    """A client that the proxy of this machine says comes from the address."""
    lines = f'X-Forwarded-For: {address}\r\n' if address else ''
    return Client(port, path or f'{PATH}{topic}/s?subscriptionType=Shared', lines=lines)


def is_in(client):
    """Whether its session goes on: then a ping is answered, and else it is closed before that."""
    client.sock.sendall(frame(9, ''))
    kind, body = client.frame()
    assert kind == 10 or (kind, body) == (8, b'\x0f\xa2F7'), (kind, body)
    return kind == 10


def sessions():
    """The addresses of all consumers."""
    conn = http.client.HTTPConnection('127.0.0.1', port, timeout=30)
    conn.request('GET', '/overview')
    seen = json.loads(conn.getresponse().read())
    conn.close()
    return [one.get('address') for topic in seen['topics'] for one in topic['sessions'] if one['role'] == 'consumer']


def addresses():
    """Whose address is seen."""
    told = [
        ('192.0.2.1', '192.0.2.1'), ('10.0.0.1, 192.0.2.2', '192.0.2.2'), ('2001:db8::5', '2001:db8::5'),
        ('unknown', None), ('192.0.2.1:80', None), ('', None), ('192.0.2.300', None),
    ]
    clients = [of(said, 'seen') for said, _ in told]
    got = sorted(str(each) for each in sessions())
    own = [each for each in got if each.startswith('127.0.0.1:')]
    assert len(own) == 4 and set(got) - set(own) == {address for _, address in told if address}, got
    for client in clients:
        client.leave()
    print('ok behind a proxy the last address that it says is seen')


def until_left(count):
    end = time.time() + 10
    while len(sessions()) > count:
        assert time.time() < end
        time.sleep(0.05)


def connections():
    first = [of('192.0.2.9') for _ in range(10)]
    assert all(is_in(each) for each in first)
    assert not is_in(of('192.0.2.9')) and not is_in(of('203.0.113.4, 192.0.2.9'))
    assert is_in(other := of('192.0.2.10')) and is_in(own := of(None))
    first.pop().leave()
    until_left(11)
    assert is_in(again := of('192.0.2.9')) and not is_in(of('192.0.2.9'))
    for each in first + [other, own, again]:
        each.leave()
    print('ok ten connections of one address at once')


def networks():
    """Of IPv6 a network is one address."""
    many = [of(f'2001:db8:1:2::{number}') for number in range(10)]
    assert all(is_in(each) for each in many) and not is_in(of('2001:db8:1:2:ffff::1'))
    assert is_in(other := of('2001:db8:1:3::1'))
    for each in many + [other]:
        each.leave()
    print('ok a network of IPv6 is one address')


def topics():
    each = [of('192.0.2.20', f'own-{number}') for number in range(4)]
    assert all(is_in(one) for one in each)
    assert not is_in(of('192.0.2.20', 'own-4')) and is_in(more := of('192.0.2.20', 'own-0'))
    assert is_in(other := of('192.0.2.21', 'own-4'))
    each.pop().leave()
    until_left(5)
    assert is_in(new := of('192.0.2.20', 'own-5'))
    for one in each + [more, other, new]:
        one.leave()
    print('ok four topics of one address at once')


def begun():
    """Sessions that begin and end at once: no more than so many within a second."""
    end, refused, came = time.time() + 3, 0, 0
    while time.time() < end:
        client = of('192.0.2.30')
        if is_in(client):
            came += 1
            client.leave()
        else:
            refused += 1
        client.close()
    assert refused > 0 and 20 <= came <= 5 * 20, (came, refused)
    print(f'ok of one address {came} sessions began in 3 s, and {refused} were refused')


def far():
    """An address of this machine that is not the loopback, if it has one."""
    with socket.socket(socket.AF_INET, socket.SOCK_DGRAM) as probe:
        try:
            probe.connect(('192.0.2.1', 9))
        except OSError:
            return None
        host = probe.getsockname()[0]
        return None if host.startswith('127.') else host


def strangers(host):
    """Whoever comes from another address is there, whatever the request says."""
    with tempfile.TemporaryDirectory(dir=os.environ.get('ROOM')) as room:
        broker = Said(program, room, port, 'open', address=f'0.0.0.0:{port}')
        create = socket.create_connection
        try:
            socket.create_connection = lambda address, timeout: create((host, address[1]), timeout=timeout)
            stranger = of('192.0.2.40')
            socket.create_connection = create
            assert is_in(stranger)
            got, = sessions()
            assert got.startswith(f'{host}:'), got
        finally:
            socket.create_connection = create
            broker.end()
    print('ok who comes from another machine is there, whatever the request says')


with tempfile.TemporaryDirectory(dir=os.environ.get('ROOM')) as room:
    broker = Said(program, room, port, 'per-address=10,4,20')
    try:
        addresses()
        for each in (connections, networks, topics, begun):
            each()
            time.sleep(1.1)
        told = [line for line in broker.lines if 'sessions of one address refused' in line]
        assert 4 <= len(told) <= 30, told
        assert any('address=192.0.2.9 ' in line for line in told) and any('address=2001:db8:1:2:: ' in line for line in told), told
    finally:
        broker.end()
    broker = Said(program, room, port, 'silence=1000ms,1000ms')
    try:
        silent = of('192.0.2.50')
        broker.until(r'level=info msg="ended by silence" address=192\.0\.2\.50 millis=\d+')
        print('ok the log has the address')
    finally:
        broker.end()
if host := far():
    strangers(host)
