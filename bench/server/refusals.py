#!/usr/bin/env python3
# Every refusal of a handshake and of an attach, with the code and the reason that the session is closed with, and what
# breaks the protocol of WebSockets. The gate runs it.
# refusals.py PROGRAM [port]
import json
import sys

from client import Broker, Client, consumer, producer, text_of

program = sys.argv[1]
port = int(sys.argv[2]) if len(sys.argv) > 2 else 18085
T = '/persistent/public/default/t'


def target(path):
    return lambda: Client(port, f'/ws/v2{path}')


def closes(what, open_it, code, reason, texts=()):
    client = open_it()
    for text in texts:
        client.send(text)
    got = client.receive()
    while isinstance(got, dict):
        got = client.receive()
    assert got == (code, reason), f'{what}: {got}'
    print(f'{code} {reason:4} {what}')
    client.close()


def answers(what, client, text, wanted):
    client.send(text)
    got = client.receive()
    assert got == wanted, f'{what}: {got}'
    print(f'answer    {what}')


def breaks(what, bytes_sent, code):
    """Whoever breaks the protocol is told so, and its name is free then."""
    client = producer(port, 'broken', '?producerName=one')
    client.sock.sendall(bytes_sent)
    got = client.receive()
    assert isinstance(got, tuple) and got[0] == code, f'{what}: {got}'
    print(f'{code}      {what}')
    client.close()


broker = Broker(program, port)
try:
    closes('an unknown path', target('/reader' + T + '/s'), 4008, 'F20')
    closes('a trailing slash', target('/producer' + T + '/'), 4008, 'F20')
    closes('a producer at a name with a slash', target('/producer/persistent/public/default/a%2Fb'), 4008, 'F20')
    closes('a producer at a name with a control', target('/producer/persistent/public/default/a%00b'), 4001, 'F20')
    closes('a consumer at a name with a control', target('/consumer/persistent/public/default/t/a%00b'), 4002, 'F20')
    closes('encryption keys', target('/producer' + T + '?encryptionKeys=k'), 4001, 'F20')
    closes('a producer of the name of a dead-letter producer', target('/producer' + T + '?producerName=dlq%2Fx'), 4001, 'F20')
    closes('another type of subscription', target('/consumer' + T + '/s?subscriptionType=Some'), 4002, 'F20')
    closes('a window that is too large', target('/consumer' + T + '/s?receiverQueueSize=100001'), 4002, 'F20')
    for ranges in ('', '5-4', '0-65536', '0-5,5-9', '7', ','.join(f'{n}-{n}' for n in range(65))):
        closes(f'ranges that are none: {ranges[:12]}', target('/consumer' + T + '/s?subscriptionType=Key_Shared&keySharedRanges=' + ranges), 4002, 'F20')
    closes('a dead-letter topic that is none', target('/consumer' + T + '/s?subscriptionType=Shared&maxRedeliverCount=1&deadLetterTopic=a%2Fb'), 4002, 'F20')
    closes('an administrator of an unknown topic', target('/admin/persistent/public/default/none'), 4008, 'F11')

    # RFC 6455, sections 5.1, 5.6 and 7.4.1
    breaks('a text that is not masked', b'\x81\x01a', 1002)
    breaks('a text that is no UTF-8', b'\x81\x81\0\0\0\0\xff', 1007)
    breaks('the head of a message of 5 MiB', b'\x82\xff\0\0\0\0\0\x50\0\0\0\0\0\0', 1009)

    first = producer(port, 't', '?producerName=one')
    first.send(text_of(b'a'))
    assert first.receive()['result'] == 'ok'
    closes('a producer name that is taken', lambda: producer(port, 't', '?producerName=one'), 4001, 'F2')
    sole = consumer(port, 't', 'sole')
    sole.send('{"type":"isEndOfTopic"}')
    assert sole.receive() == {'endOfTopic': 'false'}
    closes('a second Exclusive consumer', lambda: consumer(port, 't', 'sole'), 4002, 'F6')
    closes('another type than the subscription has', lambda: consumer(port, 't', 'sole', '?subscriptionType=Shared'), 4002, 'F5')
    closes('a dead-letter topic that is the topic itself', lambda: consumer(
        port, 't', 'own', '?subscriptionType=Shared&maxRedeliverCount=1&deadLetterTopic=t'), 4002, 'F14')
    closes('the same at a topic that is not there', lambda: consumer(
        port, 'vain', 'own', '?subscriptionType=Shared&maxRedeliverCount=1&deadLetterTopic=vain'), 4002, 'F14')
    closes('an administrator of a topic where all were refused', target('/admin/persistent/public/default/vain'), 4008, 'F11')
    made = producer(port, 'vain')
    made.send(text_of(b'a'))
    assert made.receive()['result'] == 'ok'

    keys = lambda ranges='': consumer(port, 't', 'keys', '?subscriptionType=Key_Shared' + ranges)
    low = keys('&keySharedRanges=200-299,0-00099')
    low.send('{"type":"isEndOfTopic"}')
    assert low.receive() == {'endOfTopic': 'false'}
    closes('a hash that another consumer has', lambda: keys('&keySharedRanges=100-200'), 4002, 'F23')
    closes('no ranges beside a consumer that has some', keys, 4002, 'F24')
    low.leave()
    low.close()
    passed = consumer(port, 't', 'shared', '?subscriptionType=Shared&keySharedRanges=x')
    passed.send('{"type":"isEndOfTopic"}')
    assert passed.receive() == {'endOfTopic': 'false'}

    members = [consumer(port, 't', 'many', '?subscriptionType=Shared') for _ in range(64)]
    closes('a member beyond the 64 of a subscription', lambda: consumer(port, 't', 'many', '?subscriptionType=Shared'), 4002, 'F7')
    for member in members:
        member.leave()
        member.close()

    one = lambda: consumer(port, 't', 'texts', '?subscriptionType=Shared')
    closes('a text that is no JSON', one, 4003, 'F18', ['{'])
    closes('an unknown command', one, 4003, 'F18', ['{"type":"some"}'])
    closes('an id that is none', one, 4003, 'F17', ['{"messageId":"x"}'])
    closes('acknowledging up to a message in Shared', one, 4008, 'F9',
           ['{"type":"acknowledgeCumulative","messageId":"CAAQAA=="}'])
    closes('an administrator\'s text that cannot be read', target('/admin' + T), 4003, 'F18', ['[]'])

    answers('a publish that is no JSON', first, 'x', {'errorMsg': 'Failed to deserialize from JSON', 'result': 'send-error:3'})
    answers('a payload that is no base64', first, '{"payload":"*","context":"c"}',
            {'context': 'c', 'errorMsg': 'Invalid payload encoding', 'result': 'send-error:7'})
    admin = target('/admin' + T)()
    answers('the statistics of an unknown subscription', admin, '{"type":"stats","subscription":"none"}',
            {'fault': 11, 'result': 'refused'})
    answers('dropping a subscription that has members', admin, '{"type":"dropSubscription","subscription":"sole"}',
            {'fault': 12, 'result': 'refused'})
finally:
    broker.kill()
