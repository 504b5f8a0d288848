#!/usr/bin/env python3
# The targets of handshakes: each is the endpoint that it is, with its topic, its subscription, its kind and its window as the
# overview shows them, and its dead-letter topic, as far as it may not be the topic itself; or it is refused with its code. The
# gate runs it.
# targets.py PROGRAM [port]
import http.client
import json
import sys
import time

from client import Broker, Client

program = sys.argv[1]
port = int(sys.argv[2]) if len(sys.argv) > 2 else 18115
T = 'persistent/public/default/t'
PRODUCER, CONSUMER = f'/ws/v2/producer/{T}?', f'/ws/v2/consumer/{T}/s?'

# Each target with the topic's three names.
TOPICS = [
    ('/ws/v2/producer/' + T, 'public/default/t'), ('/ws/v2/producer/persistent/a+b/%20/%C3%A9%25', 'a+b/ /\u00e9%'),
    ('/ws/v2/producer/persistent/a/b/c?', 'a/b/c'), ('/ws/v2/producer/persistent/a.b..c/..a/%2e..', 'a.b..c/..a/...'),
    ('/ws/v2/producer/persistent/a/b/%252e%5C%23', 'a/b/%2e\\#'), ('/ws/v2/producer/persistent/a/b/' + 'n' * 255, 'a/b/' + 'n' * 255),
]
PATHS_OF_NONE = [
    '/', 'ws/v2/admin/persistent/a/b/c', '@host/ws/v2/admin/persistent/a/b/c', '//ws/v2/admin/persistent/a/b/c', '\\ws\\v2/admin/persistent/a/b/c',
    '/ws/v2/admin/non-persistent/a/b/c', '/ws/v2/Admin/persistent/a/b/c', '/ws/v2/%61dmin/persistent/a/b/c', '/ws/v2/reader/persistent/a/b/c',
    '/ws/v2/admin/persistent/a/b', '/ws/v2/admin/persistent/a/b/c/', '/ws/v2/admin/persistent/a/b/c/d', '/ws/v2/producer/persistent/a/b/c/',
    '/ws/v2/producer/persistent/a/b/%FF/?x=%FF', f'/ws/v2/consumer/{T}', f'/ws/v2/consumer/{T}?pullMode=no', '/ws/v2/consumer/persistent/a/b/c/d/',
    '/ws/v2/producer/persistent/a/b/', '/ws/v2/producer/persistent/a/b/?producerName=', f'/ws/v2/consumer/{T}/',
    # Paths that a proxy and a URL could read in two ways.
    '/ws/v2/producer/persistent/a/b/c#d/e', '/ws/v2/producer/persistent/a/b/c?x#y', '/ws\\v2/producer/persistent/a/b/c',
    '/ws/v2/x/../producer/persistent/a/b/c', '/ws/v2/./producer/persistent/a/b/c', '/ws/v2/producer/persistent/a/x/%2e%2E/b/c',
    '/ws/v2/producer/persistent/a/b/c%2fd%2fe/../../../admin/persistent/x/y/z', '/ws/v2/producer/persistent/a/b/..\\..\\..\\..\\admin\\persistent\\a\\b\\c',
    '/ws/v2/producer/persistent/public/default/a%2Fb', '/ws/v2/consumer/persistent/public/%2f/t/s?pullMode=no', '/ws/v2/producer/persistent/public//t',
]
NAMES_OF_NONE = [
    ('producer/persistent/%00/default/t', 4001),
    ('producer/persistent/a/b/%7F?encryptionKeys=k', 4001), (f'consumer/{T}/%FF', 4002), (f'consumer/{T}/%1f', 4002),
    ('consumer/persistent/public/%0a/t/s?pullMode=no', 4002), ('admin/persistent/a/b/%C3', 4008),
    ('consumer/persistent/a/b/' + 'n' * 256 + '/s', 4002), ('consumer/persistent/a/b/' + 'n' * 250 + '/s?subscriptionType=Shared&maxRedeliverCount=1', 4002),
]

PRODUCERS = [
    '', 'producerName=p', 'producerName=a+b%2B%2F%C3%A9', 'producerName=dlq', 'producerName=DLQ/p', 'producerName=p=q', 'producer%4eame=p', 'producername=',
    '&&producerName=p&', 'producerName=p&producerName=dlq/p', 'token=x&batchingEnabled=maybe&sendTimeoutMillis=-', 'producerName=' + 'p' * 255,
    *(f'initialSequenceId={value}' for value in ('-1', '-001', '-0', '0', '007', '0' * 32 + '5', '4611686018427387904')),
]
NO_PRODUCERS = [
    'producerName=', 'producerName', 'producerName=dlq/p', 'producerName=dlq%2Fp', 'producerName=dlq/p&producerName=p', 'producerName=%FF', '%FF', '%FF=x',
    'x=%C3', 'producerName=p&producerName=%FF', 'producerName=' + 'p' * 256, 'encryptionKeys=k', 'encryptionKeys', 'encryptionKeys=&producerName=p',
    'encryptionKeys=k&producerName=', 'encryptionKeys=k&x=%FF', 'encryptionKeys=%FF',
    *(f'initialSequenceId={value}' for value in (
        '', '-', '--1', '-2', '-18446744073709551617', '4611686018427387905', '9223372036854775808', '18446744073709551616', '18446744073709551617',
        '+1', '%2B1', '1+', '1.0', '0x1', '%d9%a1')),
]
# Two names of producers that are one.
SAME = [('producerName=a+b%2B%2F%C3%A9', 'producerName=%61%20b%2b/%c3%a9'), ('producerName=p=q', 'producerName=p%3Dq'), ('&&producerName=p&', 'producer%4eame=p')]

# The kind and how many messages may be sent.
CONSUMERS = [
    ('', 'Exclusive', 1000), ('subscriptionType=Shared&receiverQueueSize=1&token=x', 'Shared', 1), ('subscriptionType=Shared&receiverQueueSize=0&token=x', 'Shared', 1),
    ('subscriptionType=Exclusive&receiverQueueSize=100000&encryptionKeys=k', 'Exclusive', 100_000),
    ('subscriptionType=Failover&priorityLevel=2147483647&consumerName=%00', 'Failover', 1000),
    ('ackTimeoutMillis=2147483647&negativeAckRedeliveryDelay=2147483647', 'Exclusive', 1000), ('ackTimeoutMillis=01&negativeAckRedeliveryDelay=00', 'Exclusive', 1000),
    ('pullMode=true&receiverQueueSize=many', 'Exclusive', 0), ('pullMode=TRUE&subscriptionInitialPosition=Earliest', 'Exclusive', 0),
    ('pullMode=False&subscriptionInitialPosition=Latest', 'Exclusive', 1000), ('receiverQueueSize=7&receiverQueueSize=many', 'Exclusive', 7),
    ('subscriptionType=Shared&maxRedeliverCount=1000000', 'Shared', 1000), ('subscriptionType=Shared&maxRedeliverCount=0&deadLetterTopic=/', 'Shared', 1000),
    ('subscriptionType=Shared&deadLetterTopic=dead', 'Shared', 1000), ('subscriptionType=Failover&maxRedeliverCount=many&deadLetterTopic=dead', 'Failover', 1000),
    ('subscriptionType=Key_Shared&maxRedeliverCount=3&deadLetterTopic=persistent://a/b/c', 'Key_Shared', 1000),
    ('subscriptionType=Shared&keySharedRanges=x', 'Shared', 1000), ('subscriptionMode=Durable', 'Exclusive', 1000),
    ('subscriptionType=Shared&subscriptionMode=NonDurable', 'Shared', 1000),
    *((f'subscriptionType=Key_Shared{ranges}', 'Key_Shared', 1000) for ranges in (
        '', '&keySharedRanges=0-65535', '&keySharedRanges=300-400,007-0009,10-10', '&keySharedRanges=5-5&keySharedRanges=x', '&keySharedRanges=0%2D9%2C20-29')),
]
NO_CONSUMERS = [
    'subscriptionType=shared', 'subscriptionType=KeyShared', 'subscriptionType=', 'subscriptionType=+Shared', 'receiverQueueSize=100001', 'receiverQueueSize=-1',
    'receiverQueueSize=', 'receiverQueueSize=many&receiverQueueSize=7', 'receiverQueueSize=18446744073709551617', 'ackTimeoutMillis=2147483648',
    'ackTimeoutMillis=4294967296', 'ackTimeoutMillis=-0', 'negativeAckRedeliveryDelay=2147483648', 'priorityLevel=2147483648', 'priorityLevel=-1', 'pullMode=yes',
    'pullMode=', 'pullMode', 'subscriptionInitialPosition=earliest', 'subscriptionInitialPosition=Middle', 'subscriptionType=Shared&maxRedeliverCount=1000001',
    'subscriptionType=Key_Shared&maxRedeliverCount=-1', 'x=%FF', 'subscriptionMode=', 'subscriptionMode=durable', 'subscriptionMode=Nondurable',
    *(f'subscriptionType=Shared&maxRedeliverCount=1&deadLetterTopic={name}' for name in (
        '', '/', 'a/b', 'a/b/c/d', 'a//c', '/a/b/c', 'persistent://', 'persistent://c', 'persistent://a/b', 'persistent://a/b/c/d', 'non-persistent://a/b/c', 'a%00')),
    *(f'subscriptionType=Key_Shared&keySharedRanges={ranges}' for ranges in (
        '', '7', '9-8', '0-65536', '0-9,9-10', '0-9,', '0-9,+10-11', '-1-9', '0-18446744073709551617')),
]
# Hashes that somebody has who asked for the ranges, and one that nobody has.
TAKEN = [('300-400,007-0009,10-10', ['7', '9', '10', '300', '400'], '11'), ('0%2D9%2C20-29', ['0', '9', '20', '29'], '10')]
# Forms of a dead-letter topic that is the topic itself.
ITSELF = [('public/default/t', name) for name in ('t', 'persistent://public/default/t', 'public/default/t', 'public%2Fdefault%2ft', '%74')]
ITSELF += [('public/default/x%2525', 'x%2525'), ('a/b/c+d', 'a%2Fb%2fc%2Bd'), ('a/b/c%20d', 'a/b/c+d')]


def overview():
    conn = http.client.HTTPConnection('127.0.0.1', port, timeout=60)
    conn.request('GET', '/overview')
    seen = json.loads(conn.getresponse().read())
    conn.close()
    return seen


def found(client):
    """The topic and the session of the client, once they are seen."""
    address = '{}:{}'.format(*client.sock.getsockname())
    end = time.time() + 30
    while True:
        for topic in overview()['topics']:
            for session in topic['sessions']:
                if session['address'] == address:
                    return topic, session
        assert time.time() < end, address
        time.sleep(0.01)


def gone(client):
    client.leave()
    client.close()


def closes(target, *wanted):
    """The session is closed so, or, where it is no target of HTTP, no session is opened."""
    try:
        client = Client(port, target)
    except AssertionError as head:
        assert not target.startswith('/ws') and head.args[0].startswith(b'HTTP/1.1 4'), (target, head)
        return
    got = client.receive()
    assert got == wanted, f'{target}: {got}, and not {wanted}'
    client.close()


def topics():
    for target, name in TOPICS:
        client = Client(port, target)
        topic, session = found(client)
        assert (topic['name'], session['role']) == ('persistent://' + name, 'producer'), (target, topic)
        admin = Client(port, target.replace('producer', 'admin', 1))
        topic, session = found(admin)
        assert (topic['name'], session['role']) == ('persistent://' + name, 'admin'), (target, topic)
        gone(admin)
        gone(client)
    for target in PATHS_OF_NONE:
        closes(target, 4008, 'F20')
    for path, code in NAMES_OF_NONE:
        closes('/ws/v2/' + path, code, 'F20')
    print(f'ok {len(TOPICS)} paths, and {len(PATHS_OF_NONE) + len(NAMES_OF_NONE)} of none')


def producers():
    for query in PRODUCERS:
        client = Client(port, PRODUCER + query)
        assert found(client)[1]['role'] == 'producer', query
        gone(client)
    for query in NO_PRODUCERS:
        closes(PRODUCER + query, 4001, 'F20')
    for one, other in SAME:
        client = Client(port, PRODUCER + one)
        closes(PRODUCER + other, 4001, 'F2')
        gone(client)
    print(f'ok {len(PRODUCERS)} producers, and {len(NO_PRODUCERS)} that are refused')


def consumers():
    for query, kind, room in CONSUMERS:
        client = Client(port, CONSUMER + query)
        topic, session = found(client)
        sub = next(each for each in topic['subscriptions'] if each['name'] == 's')
        got = session['role'], session.get('subscription'), sub['kind'], session['pending'], session['room']
        assert got == ('consumer', 's', kind, 0, room), (query, got)
        gone(client)
    for query in NO_CONSUMERS:
        closes(CONSUMER + query, 4002, 'F20')
    keyed = CONSUMER + 'subscriptionType=Key_Shared&keySharedRanges='
    for ranges, taken, free in TAKEN:
        client = Client(port, keyed + ranges)
        for number in taken:
            closes(f'{keyed}{number}-{number}', 4002, 'F23')
        other = Client(port, f'{keyed}{free}-{free}')
        assert found(other)[1]['role'] == 'consumer'
        gone(other)
        gone(client)
    for topic, name in ITSELF:
        closes(f'/ws/v2/consumer/persistent/{topic}/s?subscriptionType=Shared&maxRedeliverCount=3&deadLetterTopic={name}', 4002, 'F14')
    print(f'ok {len(CONSUMERS)} consumers, and {len(NO_CONSUMERS) + len(ITSELF)} that are refused')


broker = Broker(program, port, 2)
try:
    topics()
    producers()
    consumers()
finally:
    broker.kill()
