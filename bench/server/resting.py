#!/usr/bin/env python3
# Topics that are not in memory are seen still: after a start, and once others came in their place. A deleted one is not. The gate runs it.
# resting.py PROGRAM [topics] [port]
import json
import sys
import time
import urllib.request

from client import Broker, Client, consumer, producer, text_of

program = sys.argv[1]
count = int(sys.argv[2]) if len(sys.argv) > 2 else 300
port = int(sys.argv[3]) if len(sys.argv) > 3 else 18097
FULL = 'persistent://public/default/'


def page(path):
    with urllib.request.urlopen(f'http://127.0.0.1:{port}/{path}', timeout=10) as answer:
        return answer.read().decode()


def topics():
    """What is seen of each topic, by its name; no name comes twice."""
    seen = json.loads(page('overview'))['topics']
    found = {topic['name'].removeprefix(FULL): topic for topic in seen}
    assert len(found) == len(seen), 'a topic is shown twice'
    return found


def waits_for(what, holds):
    until = time.time() + 20
    while not holds():
        assert time.time() < until, what
        time.sleep(0.1)


def admin(topic, **said):
    client = Client(port, f'/ws/v2/admin/persistent/public/default/{topic}')
    client.send(json.dumps(said))
    answer = client.receive()
    client.close()
    return answer


def publish(topic, number):
    client = producer(port, topic)
    for each in range(number):
        client.send(text_of(f'm{each}'.encode()))
        assert client.receive()['result'] == 'ok'
    client.leave()


broker = Broker(program, port)
try:
    consumer(port, 'waits', 's', '?subscriptionType=Shared').leave()
    consumer(port, 'waits', 'done').leave()
    publish('waits', 5)
    client = consumer(port, 'waits', 'done')
    for _ in range(2):
        client.send(json.dumps({'messageId': client.receive()['messageId']}))
    client.leave()
    assert admin('waits', type='keep', messages=3) == {'result': 'ok'}
    publish('goes', 2)
    waits_for('it is left', lambda: admin('goes', type='deleteTopic') == {'result': 'ok'})
    publish('goes-on', 1)
    before = topics()['waits']
    assert before['resting'] is False and 'goes' not in topics()
    broker.kill()

    broker.start()
    waits_for('topics are counted after a start', lambda: 'waits' in topics())
    after = topics()['waits']
    assert after['resting'] is True
    for name in ('kept', 'gone', 'durable', 'oldest', 'rule'):
        assert after.get(name) == before.get(name), (name, before, after)
    for was, now in zip(before['subscriptions'], after['subscriptions']):
        for name in ('name', 'kind', 'acknowledged', 'dead', 'oldest'):
            assert was.get(name) == now.get(name), (name, was, now)
        assert was['waiting'] + was['pending'] == now['waiting'] and now['consumers'] == now['pending'] == 0, (was, now)
    waits_for('all are', lambda: 'goes-on' in topics())
    assert 'goes' not in topics(), 'a deleted topic is shown'
    text = page('metrics')
    assert f'pulsar_broker_topic_is_resting{{topic="{FULL}waits"}} 1' in text
    lines = [line for line in text.splitlines() if line.startswith('pulsar_broker_subscription_waiting_messages{') and f'"{FULL}waits"' in line]
    assert sorted(line.rsplit(' ', 1)[1] for line in lines) == ['3', '5'], lines
    print('after a start the topics are seen that nobody has asked for')

    assert admin('waits', type='stats', subscription='s')['live'] == 5
    assert topics()['waits']['resting'] is False
    for number in range(count):
        publish(f't{number}', 1)
    found = topics()
    resting = [name for name, topic in found.items() if topic['resting']]
    assert len(found) == count + 2 and len(resting) >= count + 2 - 256, (len(found), len(resting))
    assert all(topic['kept'] == 1 for name, topic in found.items() if name.startswith('t'))
    began = time.time()
    page('overview')
    print(f'{len(found)} topics are seen, of which {len(resting)} rest, in {(time.time() - began) * 1000:.0f} ms')
finally:
    broker.kill()
