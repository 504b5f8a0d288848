#!/usr/bin/env python3
# A subscription that is not durable goes with its last consumer, however that ends; one that a durable consumer was in stays, and so
# does one that was there before. The log of a broker that was started at port 0 says which it took. The gate runs it.
# passing.py PROGRAM [port]
import json
import os
import re
import sys
import tempfile
import time
import urllib.request

from client import Broker, Client, consumer, producer, text_of
from said import Said

program = sys.argv[1]
port = int(sys.argv[2]) if len(sys.argv) > 2 else 18141
FULL = 'persistent://public/default/'
SHARED, PASSING = '?subscriptionType=Shared', '&subscriptionMode=NonDurable'


def subscriptions(topic):
    """What is seen of each, by its name."""
    with urllib.request.urlopen(f'http://127.0.0.1:{port}/overview', timeout=10) as answer:
        seen = json.loads(answer.read())['topics']
    return {sub['name']: sub for one in seen if one['name'] == FULL + topic for sub in one['subscriptions']}


def waits_for(what, holds):
    until = time.time() + 20
    while not holds():
        assert time.time() < until, what
        time.sleep(0.05)


def publish(topic, *bodies):
    client = producer(port, topic)
    for body in bodies:
        client.send(text_of(body.encode()))
        assert client.receive()['result'] == 'ok'
    client.leave()


def passing(topic, name, more=''):
    return consumer(port, topic, name, SHARED + PASSING + more)


def admin(topic, **said):
    client = Client(port, f'/ws/v2/admin/persistent/public/default/{topic}')
    client.send(json.dumps(said))
    answer = client.receive()
    client.close()
    return answer


with tempfile.TemporaryDirectory(dir=os.environ.get('ROOM')) as folder:
    broker = Said(program, folder, 0)
    started = broker.until(r'level=info msg="started" .*')
    consumer(int(re.search(r'address=127\.0\.0\.1:([1-9][0-9]*) ', started)[1]), 't', 's').leave()
    broker.end()

broker = Broker(program, port)
try:
    publish('t', 'first')
    # However it ends: by a close, or with its connection.
    for ends in (Client.leave, Client.close):
        client = passing('t', 'goes')
        assert subscriptions('t')['goes']['consumers'] == 1
        ends(client)
        waits_for('it goes with its consumer', lambda: 'goes' not in subscriptions('t'))

    # With the last of several, and its messages wait until then.
    one, other = passing('t', 'both', '&subscriptionInitialPosition=Earliest'), passing('t', 'both')
    assert 'messageId' in one.receive()
    one.leave()
    again = other.receive()
    assert again['redeliveryCount'] == 0 and subscriptions('t')['both']['consumers'] == 1
    other.leave()
    waits_for('it goes with the last', lambda: 'both' not in subscriptions('t'))

    # A durable consumer makes it stay, and one that was there before stays too, with its place.
    one, other = passing('t', 'stays'), consumer(port, 't', 'stays', SHARED)
    one.leave()
    other.leave()
    durable = consumer(port, 't', 'before', SHARED + '&subscriptionInitialPosition=Earliest')
    client = durable.receive()
    durable.send(json.dumps({'messageId': client['messageId']}))
    durable.leave()
    publish('t', 'second')
    passing('t', 'before').leave()
    assert admin('t', type='createSubscription', subscription='made', position='earliest') == {'result': 'ok'}
    passing('t', 'made').leave()
    time.sleep(0.5)
    kept = subscriptions('t')
    assert set(kept) == {'stays', 'before', 'made'}, kept
    assert kept['before']['acknowledged'] == 1 and kept['before']['waiting'] == 1, kept

    # Those that went are gone in the rows too. One that is in use when the broker is killed stays, and is durable from then on.
    client = passing('t', 'used')
    publish('t', 'third')
    broker.kill()
    broker.start()
    waits_for('topics are counted after a start', lambda: subscriptions('t'))
    assert set(subscriptions('t')) == {'stays', 'before', 'made', 'used'}, subscriptions('t')
    passing('t', 'used').leave()
    time.sleep(0.5)
    assert 'used' in subscriptions('t')
    assert admin('t', type='dropSubscription', subscription='used') == {'result': 'ok'}
finally:
    broker.kill()
print('subscriptions that are not durable go with their consumers, and no others')
