#!/usr/bin/env python3
# What the broker tells of itself at /overview and /metrics, beside what was done: all kinds of subscriptions, messages that
# are given back, that die and that are moved, duplicates, a seek, trims, bytes of clients, clients that come and go. Once all
# rests, each message of a subscription is acknowledged, waits, is pending or dead. The gate runs it.
# seen.py PROGRAM [port]
import calendar
import http.client
import json
import re
import shutil
import subprocess
import sys
import time

from client import Broker, Client, consumer, frame, producer, text_of

program = sys.argv[1]
port = int(sys.argv[2]) if len(sys.argv) > 2 else 18096
FULL = 'persistent://public/default/'
COUNT = 40
NACK = '&negativeAckRedeliveryDelay=1'
SAMPLE = re.compile(r'(?:pulsar_broker_)?([a-z_]+)(?:\{(.*)\})? ([0-9.]+)')
LABEL = re.compile(r'([a-z]+)="((?:[^"\\]|\\.)*)"')


def page(path):
    conn = http.client.HTTPConnection('127.0.0.1', port, timeout=60)
    conn.request('GET', path)
    answer = conn.getresponse()
    assert answer.status == 200, (path, answer.status)
    body = answer.read().decode()
    conn.close()
    return body


def overview():
    return json.loads(page('/overview'))


def topic_of(seen, name):
    return next((each for each in seen['topics'] if each['name'] == FULL + name), None)


def in_memory(seen):
    return [each for each in seen['topics'] if not each['resting']]


def sub_of(topic, name):
    return next(each for each in topic['subscriptions'] if each['name'] == name)


def until(what, test, most=30):
    """Looks until the test holds of what is seen, and gives that."""
    end = time.time() + most
    while True:
        seen = overview()
        if test(seen):
            print(f'ok {what}')
            return seen
        assert time.time() < end, f'{what}: {json.dumps(seen, indent=1)}'
        time.sleep(0.02)


def shows(what, topic, name=None, **wanted):
    """The topic, or its subscription of the name, comes to have these numbers, and they stay."""
    def test(seen):
        found = topic_of(seen, topic)
        if found is not None and name is not None:
            found = next((each for each in found['subscriptions'] if each['name'] == name), None)
        return found is not None and all(found[key] == value for key, value in wanted.items())
    until(what, test)
    time.sleep(0.05)
    assert test(overview()), f'{what}: it did not stay'


def publish(client, count, first=0):
    for number in range(first, first + count):
        said = json.loads(text_of(f'{number}'.encode()))
        client.send(json.dumps(said | {'key': f'key {number % 5}'}))
        assert client.receive()['result'] == 'ok'


def take(client, count):
    return [client.receive() for _ in range(count)]


def ack(client, message):
    client.send(json.dumps({'messageId': message['messageId']}))


def give_back(client, message):
    client.send(json.dumps({'type': 'negativeAcknowledge', 'messageId': message['messageId']}))


def ends(*clients):
    for client in clients:
        client.leave()
        client.close()


def admin(topic, **command):
    client = Client(port, f'/ws/v2/admin/persistent/public/default/{topic}')
    client.send(json.dumps(command))
    answer = client.receive()
    ends(client)
    return answer


def millis_of(text):
    """A moment such as 2026-11-28T09:00:00.000Z, in milliseconds since 1970."""
    whole = time.strptime(text[:19], '%Y-%m-%dT%H:%M:%S')
    return calendar.timegm(whole) * 1000 + int(text[20:23])


def nothing_yet():
    seen = overview()
    assert seen['topics'] == [] and seen['sessions'] == 0 and seen['closed'] is seen['full'] is seen['open'] is False, seen
    assert seen['connections'] == 1 and seen['loads'] == seen['unloads'] == 0, seen
    assert abs(seen['now'] - time.time() * 1000) < 5000 and 0 <= seen['now'] - seen['started'] < 30000, seen
    assert seen['memory'] > 1 << 20 and seen['stores'] == {'count': 0, 'micros': 0}, seen
    assert seen['rows'] == {'deleted': 0, 'inserted': 0, 'updated': 0}, seen
    assert seen['refusals'] == [] and seen['silenced'] == seen['received'] == seen['sent'] == 0, seen
    assert 0 < seen['descriptors'] < seen['mostDescriptors'] and seen.get('cpu', 0) >= 0, seen
    print('ok nothing was done')


def who_is_there():
    """Each session with its client's address, since when, and at what."""
    before = int(time.time() * 1000)
    writer = producer(port, 'who', '?producerName=w')
    reader = consumer(port, 'who', 'r')
    looker = Client(port, '/ws/v2/admin/persistent/public/default/who')
    wanted = {(f'127.0.0.1:{client.sock.getsockname()[1]}', role, subscription) for client, role, subscription in
              [(writer, 'producer', None), (reader, 'consumer', 'r'), (looker, 'admin', None)]}
    seen = until('who is there', lambda seen: seen['sessions'] == 3 and seen['connections'] == 4)
    got = topic_of(seen, 'who')['sessions']
    assert {(each['address'], each['role'], each.get('subscription')) for each in got} == wanted, got
    assert all(before <= each['since'] <= seen['now'] for each in got), (before, got, seen['now'])
    assert [each['number'] for each in got] == [1, 2, 3], got
    assert [each.get('producerName') for each in got] == ['w', None, None], got
    publish(writer, 3)
    ids = [message['messageId'] for message in take(reader, 3)]
    reader.send(json.dumps({'messageId': ids[0]}))
    until('what a consumer has', lambda seen: [(each.get('pending'), each.get('room')) for each in topic_of(seen, 'who')['sessions']]
          == [(None, None), (2, 998), (None, None)])
    ends(looker, reader, writer)
    seen = until('all have gone', lambda seen: seen['sessions'] == 0 and seen['connections'] == 1)
    assert topic_of(seen, 'who')['sessions'] == [] and topic_of(seen, 'who')['producers'] == 0, seen


class Tallied(Client):
    """A client that counts the bytes that come to it, and those that go behind the head of its request."""

    def __init__(self, *given):
        self.came = self.gone = 0
        super().__init__(*given)

    def more(self):
        got = super().more()
        self.came += len(got)
        return got

    def send(self, text):
        self.gone += len(frame(1, text))
        super().send(text)

    def leave(self):
        self.gone += len(frame(8, b'..'))
        super().leave()


def bytes_of_clients():
    """Some MB are published and consumed: the broker counts as many bytes as its clients."""
    before = overview()
    writer = Tallied(port, '/ws/v2/producer/persistent/public/default/much')
    reader = Tallied(port, '/ws/v2/consumer/persistent/public/default/much/s')
    body, count = text_of(b'x' * 100000), 30
    for _ in range(count):
        writer.send(body)
        assert writer.receive()['result'] == 'ok'
        ack(reader, reader.receive())
    ends(reader, writer)
    received, sent = writer.gone + reader.gone, writer.came + reader.came
    assert all(count * len(body) <= each < 2 * count * len(body) for each in (received, sent)), (received, sent)
    until(f'{received} bytes came and {sent} went', lambda seen: seen['sessions'] == 0 and seen['connections'] == 1
          and (seen['received'] - before['received'], seen['sent'] - before['sent']) == (received, sent))


def published_twice(writer):
    publish(writer, COUNT)
    shows('publishes', 'all', published=COUNT, duplicates=0, kept=COUNT, durable=COUNT, gone=0, producers=1,
          room=1048576 - COUNT)
    ends(writer)
    again = producer(port, 'all', '?producerName=one&initialSequenceId=-1')
    publish(again, 7)
    shows('duplicates', 'all', published=COUNT, duplicates=7, kept=COUNT, producers=1)
    ends(again)
    shows('the producer has gone', 'all', producers=0)


def exclusive():
    """A window of ten, an acknowledgement of the first four, and a seek back."""
    reader = consumer(port, 'all', 'sole', '?subscriptionInitialPosition=Earliest&receiverQueueSize=10')
    taken = take(reader, 10)
    shows('a full window', 'all', 'sole', kind='Exclusive', consumers=1, pending=10, waiting=COUNT - 10, acknowledged=0,
          delivered=10, dead=0, oldest=millis_of(taken[0]['publishTime']))
    for message in taken[:4]:
        ack(reader, message)
    taken += take(reader, 4)
    shows('acknowledgements', 'all', 'sole', pending=10, waiting=COUNT - 14, acknowledged=4, delivered=14,
          acknowledgements=4, redelivered=0, oldest=millis_of(taken[4]['publishTime']))
    told = admin('all', type='stats', subscription='sole')
    assert (told['acknowledged'], told['live'], told['pending']) == (4, COUNT - 4, 10), told
    assert admin('all', type='seek', subscription='sole', position='earliest') == {'result': 'ok'}
    take(reader, 10)
    shows('a seek back', 'all', 'sole', pending=10, waiting=COUNT - 10, acknowledged=0, delivered=24,
          oldest=millis_of(taken[0]['publishTime']))
    ends(reader)
    shows('the consumer has gone', 'all', 'sole', consumers=0, pending=0, waiting=COUNT)


def failover():
    first = consumer(port, 'all', 'spare', '?subscriptionType=Failover&subscriptionInitialPosition=Earliest')
    second = consumer(port, 'all', 'spare', '?subscriptionType=Failover')
    taken = take(first, COUNT)
    shows('a spare consumer', 'all', 'spare', kind='Failover', consumers=2, pending=COUNT, waiting=0)
    first.send(json.dumps({'type': 'acknowledgeCumulative', 'messageId': taken[COUNT - 5]['messageId']}))
    shows('up to a message', 'all', 'spare', pending=4, waiting=0, acknowledged=COUNT - 4, acknowledgements=1)
    ends(first)
    assert [each['messageId'] for each in take(second, 4)] == [each['messageId'] for each in taken[-4:]]
    shows('the spare one takes over', 'all', 'spare', consumers=1, pending=4, delivered=COUNT + 4, redelivered=0)
    second.send(json.dumps({'type': 'acknowledgeCumulative', 'messageId': taken[-1]['messageId']}))
    seen = until('nothing is left', lambda seen: sub_of(topic_of(seen, 'all'), 'spare')['acknowledged'] == COUNT)
    assert 'oldest' not in sub_of(topic_of(seen, 'all'), 'spare'), seen
    ends(second)


def shared():
    """Some messages are given back, and come again."""
    query = f'?subscriptionType=Shared&subscriptionInitialPosition=Earliest&receiverQueueSize={COUNT // 2}{NACK}'
    readers = [consumer(port, 'all', 'many', query) for _ in range(2)]
    # Each has its half before any is acknowledged: else one who acknowledges first takes of the other's half as well.
    halves = [take(reader, COUNT // 2) for reader in readers]
    for reader, half in zip(readers, halves):
        for number, message in enumerate(half):
            if number < 3:
                give_back(reader, message)
            else:
                ack(reader, message)
    shows('messages come again', 'all', 'many', kind='Shared', consumers=2, acknowledged=COUNT - 6, pending=6,
          waiting=0, redelivered=6, delivered=COUNT + 6)
    for reader in readers:
        reader.sock.settimeout(0.3)
        try:
            while True:
                message = reader.receive()
                assert message['redeliveryCount'] == 1, message
                ack(reader, message)
        except TimeoutError:
            pass
    shows('and are done', 'all', 'many', acknowledged=COUNT, pending=0, waiting=0)
    ends(*readers)


def keyed():
    query = '?subscriptionType=Key_Shared&subscriptionInitialPosition=Earliest'
    first = consumer(port, 'all', 'keys', query)
    taken = take(first, COUNT)
    second = consumer(port, 'all', 'keys', query)
    shows('by keys', 'all', 'keys', kind='Key_Shared', consumers=2, pending=COUNT, waiting=0)
    for message in taken:
        ack(first, message)
    shows('all are done', 'all', 'keys', pending=0, acknowledged=COUNT)
    ends(first, second)


def dying():
    """Letters lie while their topic takes no further producer, and are moved once it does."""
    holders = [producer(port, 'grave') for _ in range(256)]
    shows('a topic without room for a producer', 'grave', producers=256, refused=0)
    query = f'?subscriptionType=Shared&subscriptionInitialPosition=Earliest&maxRedeliverCount=1&deadLetterTopic=grave{NACK}'
    reader = consumer(port, 'all', 'dying', query)
    taken = take(reader, COUNT)
    for message in taken[:5]:
        give_back(reader, message)
    for message in take(reader, 5):
        give_back(reader, message)
    shows('letters', 'all', 'dying', dead=5, deaths=5, pending=COUNT - 5, acknowledged=0, redelivered=5, delivered=COUNT + 5)
    seen = overview()
    assert topic_of(seen, 'grave')['refused'] > 0, seen
    ends(*holders)
    shows('are moved', 'all', 'dying', dead=0, deaths=5, acknowledged=5, pending=COUNT - 5)
    shows('and stand there', 'grave', published=5, kept=5)
    ends(reader)


def refused():
    reader = consumer(port, 'all', 'sole')
    before = topic_of(overview(), 'all')['refused']
    for _ in range(3):
        reader.send(json.dumps({'type': 'negativeAcknowledge', 'messageId': 'CP///////////wEQ////////////AQ=='}))
    shows('refusals', 'all', refused=before + 3)
    ends(reader)


def trimmed():
    """What all have done with goes by the topic's rule."""
    writer = producer(port, 'short')
    reader = consumer(port, 'short', 's', '?subscriptionInitialPosition=Earliest')
    assert admin('short', type='keep', messages=0) == {'result': 'ok'}
    for first in range(0, 200, 50):
        publish(writer, 50, first)
        for message in take(reader, 50):
            ack(reader, message)
    seen = until('messages go', lambda seen: topic_of(seen, 'short')['gone'] == 192)
    topic = topic_of(seen, 'short')
    assert (topic['kept'], topic['published'], topic['durable']) == (8, 200, 200), topic
    assert topic['rule'] == {'messages': 0} and 'rule' not in topic_of(seen, 'all'), seen
    assert admin('short', type='stats', subscription='s')['gone'] == 192
    ends(reader, writer)


def come_and_go():
    for _ in range(10):
        clients = [producer(port, 'short'), consumer(port, 'short', 't', '?subscriptionType=Shared')]
        ends(*clients)
    shows('clients that came and went', 'short', 't', consumers=0)
    shows('none is left', 'short', producers=0, sessions=[])


def adds_up(seen):
    """Each message of a subscription is acknowledged, waits, is pending, or is dead."""
    for topic in seen['topics']:
        assert topic['durable'] == topic['gone'] + topic['kept'], topic
        assert topic['room'] == 1048576 - topic['kept'], topic
        for sub in topic['subscriptions']:
            assert topic['kept'] == sub['acknowledged'] + sub['waiting'] + sub['pending'] + sub['dead'], (topic, sub)
    assert seen['sessions'] == sum(len(each['sessions']) for each in seen['topics']), seen
    assert seen['loads'] - seen['unloads'] == len(in_memory(seen)), seen
    print(f'ok {sum(len(each["subscriptions"]) for each in seen["topics"])} subscriptions add up')


def samples(text):
    """The numbers of the text by name and labels; each name has its help and its type before."""
    found, described = {}, set()
    for line in text.splitlines():
        if line.startswith('# '):
            described.add(line.split(' ')[2])
            continue
        name, labels, value = SAMPLE.fullmatch(line).groups()
        base = re.sub(r'_(bucket|sum|count)$', '', name)
        assert (name if name.startswith('process_') else 'pulsar_broker_' + base) in described, line
        found[(name, tuple(sorted(LABEL.findall(labels or ''))))] = float(value)
    return found


OF_TOPIC = {'messages': 'kept', 'trimmed_messages_total': 'gone', 'room_messages': 'room', 'producers': 'producers',
            'published_total': 'published', 'duplicates_total': 'duplicates', 'refused_total': 'refused'}
OF_SUBSCRIPTION = {'waiting_messages': 'waiting', 'pending_messages': 'pending', 'acknowledged_messages': 'acknowledged',
                   'dead_letters': 'dead', 'consumers': 'consumers', 'delivered_total': 'delivered',
                   'redelivered_total': 'redelivered', 'acknowledgements_total': 'acknowledgements', 'deaths_total': 'deaths'}
# What another look changes, or the system.
CHANGES = {'connections', 'resident_memory_bytes', 'database_bytes', 'log_bytes',
           'topic_journal_lines', 'store_duration_seconds_bucket', 'process_cpu_seconds_total', 'process_open_fds',
           'process_resident_memory_bytes'}


def wanted_of(seen):
    """The same numbers, by the overview."""
    found = {('is_storing', ()): 1, ('is_full', ()): 0, ('info', (('version', seen['version']),)): 1, ('sessions', ()): seen['sessions'],
             ('backups_total', ()): seen['backups']['made'], ('backup_failures_total', ()): seen['backups']['failed'],
             ('open_topics', ()): len(in_memory(seen)), ('resting_topics', ()): len(seen['topics']) - len(in_memory(seen)),
             ('start_time_seconds', ()): seen['started'] / 1000, ('process_start_time_seconds', ()): seen['started'] / 1000,
             ('sessions_ended_by_silence_total', ()): seen['silenced'], ('received_bytes_total', ()): seen['received'],
             ('sent_bytes_total', ()): seen['sent'], ('process_max_fds', ()): seen['mostDescriptors'],
             ('topic_loads_total', ()): seen['loads'], ('topic_unloads_total', ()): seen['unloads']}
    found |= {(f'rows_{key}_total', ()): value for key, value in seen['rows'].items()}
    found |= {('refusals_total', (('fault', f'F{each["fault"]}'),)): each['count'] for each in seen['refusals']}
    found[('store_duration_seconds_count', ())] = seen['stores']['count']
    found[('store_duration_seconds_sum', ())] = seen['stores']['micros'] / 1e6
    for topic in seen['topics']:
        at = (('topic', topic['name']),)
        found |= {(f'topic_{name}', at): topic[key] for name, key in OF_TOPIC.items()}
        found[('topic_durable_messages', at)] = topic['durable'] - topic['gone']
        found[('topic_sessions', at)] = len(topic['sessions'])
        found[('topic_is_resting', at)] = int(topic['resting'])
        for sub in topic['subscriptions']:
            at = tuple(sorted([('topic', topic['name']), ('subscription', sub['name']), ('kind', sub['kind'])]))
            found |= {(f'subscription_{name}', at): sub[key] for name, key in OF_SUBSCRIPTION.items()}
            found[('subscription_backlog_messages', at)] = sub['waiting'] + sub['pending']
    return found


def metrics_agree(seen):
    text = page('/metrics')
    got, wanted = samples(text), wanted_of(seen)
    for key, value in wanted.items():
        assert abs(got[key] - value) < 1e-6, (key, got[key], value)
    buckets = [value for (name, _), value in got.items() if name == 'store_duration_seconds_bucket']
    assert buckets == sorted(buckets) and buckets[-1] == seen['stores']['count'] > 0, buckets
    ages = {key: value for key, value in got.items() if key[0] == 'subscription_oldest_message_age_seconds'}
    for (_, labels), value in ages.items():
        labels = dict(labels)
        topic = next(each for each in seen['topics'] if each['name'] == labels['topic'])
        oldest = sub_of(topic, labels['subscription']).get('oldest')
        age = (seen['now'] - oldest) / 1000 if oldest else 0
        assert age - 0.001 <= value < age + 5, (labels, value, age)
    unused = {key for key in got if key[0] == 'subscription_unused_seconds'}
    assert len(unused) == sum('unused' in sub for topic in seen['topics'] for sub in topic['subscriptions']), unused
    rest = set(got) - set(wanted) - set(ages) - unused
    assert got[('connections', ())] in (1, 2), got
    assert {name for name, _ in rest} == CHANGES, {name for name, _ in rest} ^ CHANGES
    print(f'ok {len(got)} numbers of /metrics')
    if shutil.which('promtool'):
        told = subprocess.run(['promtool', 'check', 'metrics'], input=text, capture_output=True, text=True)
        assert (told.returncode, told.stdout + told.stderr) == (0, ''), told
        print('ok promtool finds nothing')


LOOKS = 4200


def lasting(name):
    """What is seen of the topic, but for how long nobody is in its subscriptions; and how many lines its journal has."""
    seen = topic_of(overview(), name)
    for sub in seen['subscriptions']:
        sub.pop('unused', None)
    return seen, seen.pop('journal')


def looks_leave_nothing():
    """More looks than a topic's journal has lines: it begins anew each time, nothing else changes, and the topic goes on."""
    reader = consumer(port, 'all', 'sole')
    take(reader, COUNT)
    shows('what looks find', 'all', 'sole', pending=COUNT)
    (before, _), most = lasting('all'), 0
    for _ in range(LOOKS):
        found, journal = lasting('all')
        most = max(most, journal)
        assert found == before, (before, found)
    assert most < LOOKS and topic_of(overview(), 'all')['journal'] < most, most
    ends(reader)
    print(f'ok {LOOKS} looks leave nothing')


def open_to_others():
    """A broker at an address that others than its machine's own may reach says so, unless it was told that this is meant."""
    for more, is_open in ([], True), (['open'], False):
        process = subprocess.Popen([program, ':memory:', f'0.0.0.0:{port}', '1', *more], stdout=subprocess.PIPE,
                                   stderr=subprocess.PIPE, text=True)
        assert process.stdout.readline().startswith('listening')
        assert overview()['open'] is is_open, more
        process.kill()
        said = process.communicate()[1]
        assert ('level=warn msg="open to everybody who reaches this address"' in said) is is_open, said
    print('ok a broker that is open to others says so')


def again(broker):
    """A topic that is not in memory is not loaded by a look, and is told as it is at rest, once it was counted."""
    broker.kill()
    broker.start()
    until = time.monotonic() + 10
    while topic_of(overview(), 'all') is None:
        assert time.monotonic() < until, 'the topic is not counted'
        time.sleep(0.01)
    for _ in range(3):
        seen = overview()
        assert in_memory(seen) == [] and seen['loads'] == 0, seen
        topic = topic_of(seen, 'all')
        assert (topic['kept'], topic['durable'], topic['published'], topic['sessions']) == (COUNT, COUNT, 0, []), topic
        assert (sub_of(topic, 'sole')['waiting'], sub_of(topic, 'sole')['pending']) == (COUNT, 0), topic
    reader = consumer(port, 'all', 'sole')
    take(reader, COUNT)
    shows('after a start', 'all', kept=COUNT, durable=COUNT, published=0, duplicates=0)
    shows('with its subscriptions', 'all', 'sole', pending=COUNT, waiting=0, delivered=COUNT)
    seen = overview()
    assert (seen['loads'], len(in_memory(seen))) == (1, 1), seen
    ends(reader)


open_to_others()
broker = Broker(program, port)
try:
    nothing_yet()
    who_is_there()
    bytes_of_clients()
    published_twice(producer(port, 'all', '?producerName=one'))
    exclusive()
    failover()
    shared()
    keyed()
    dying()
    refused()
    trimmed()
    come_and_go()
    seen = until('all rest', lambda seen: seen['sessions'] == 0 and seen['connections'] == 1)
    time.sleep(0.5)
    seen = overview()
    adds_up(seen)
    metrics_agree(seen)
    looks_leave_nothing()
    assert '<!doctype html>' in page('/')
    again(broker)
finally:
    broker.kill()
