#!/usr/bin/env python3
# What an administrator asks for beside moves of subscriptions: one is made, once, from a position of any kind; it is looked at,
# and what is shown is what a consumer gets; its consumer is ended by its number; the broker is seen at the administrator's own
# endpoint; a copy of the database is refused where no folder is there for it; and what was answered is there after a kill. The
# gate runs it.
# administer.py PROGRAM [port]
import json
import shutil
import sys
import time

from client import Broker, Client, consumer, producer, text_of

program = sys.argv[1]
port = int(sys.argv[2]) if len(sys.argv) > 2 else 18097


def admin(topic):
    return Client(port, f'/ws/v2/admin/persistent/public/default/{topic}')


def asked(client, **said):
    client.send(json.dumps(said))
    return client.receive()


def payloads(answer):
    assert answer['result'] == 'ok', answer
    return [(message['payload'], message['redeliveryCount']) for message in answer['messages']]


broker = Broker(program, port, 2)
maker = producer(port, 'news')
texts = [json.loads(text_of(f'{number}'.encode()))['payload'] for number in range(5)]
for number in range(5):
    maker.send(text_of(f'{number}'.encode()))
    assert maker.receive()['result'] == 'ok'
boss = admin('news')

assert asked(boss, type='peek', subscription='later', messages=3) == {'fault': 11, 'result': 'refused'}
assert asked(boss, type='createSubscription', subscription='later', position='latest') == {'result': 'ok'}
assert asked(boss, type='createSubscription', subscription='later', position='earliest') == {'fault': 12, 'result': 'refused'}
assert payloads(asked(boss, type='peek', subscription='later', messages=3)) == []
assert asked(boss, type='createSubscription', subscription='work', position='earliest') == {'result': 'ok'}
assert payloads(asked(boss, type='peek', subscription='work', messages=3)) == [(text, 0) for text in texts[:3]]
assert payloads(asked(boss, type='peek', subscription='work', messages=100)) == [(text, 0) for text in texts]
REFUSED = {fault: {'fault': fault, 'result': 'refused'} for fault in (3, 8, 11, 12, 20)}


def numbers(name):
    told = asked(boss, type='stats', subscription=name)
    return told['members'], told['acknowledged'], told['live']


def makes(position, wanted):
    answer = asked(boss, type='createSubscription', subscription='lost', position=position)
    assert answer == wanted, (position, answer)


makes('CAAQZA==', REFUSED[8])
assert asked(boss, type='stats', subscription='lost') == REFUSED[11]
makes('CAAQAQ==', {'result': 'ok'})
assert numbers('lost') == (0, 1, 4)
for position in ('latest', 'CAAQZA=='):
    makes(position, REFUSED[12])
    assert numbers('lost') == (0, 1, 4)
assert asked(boss, type='dropSubscription', subscription='lost') == {'result': 'ok'}
makes('latest', {'result': 'ok'})
assert numbers('lost') == (0, 5, 0)
holder = consumer(port, 'news', 'lost')
while numbers('lost')[0] < 1:
    time.sleep(0.01)
makes('earliest', REFUSED[12])
holder.leave()
print('ok a subscription is made before its first consumer, once, and looked at')

worker = consumer(port, 'news', 'work', '?subscriptionType=Shared&negativeAckRedeliveryDelay=1')
got = [worker.receive() for _ in range(5)]
worker.send(json.dumps({'messageId': got[1]['messageId']}))
while asked(boss, type='stats', subscription='work')['acknowledged'] < 1:
    time.sleep(0.01)
assert payloads(asked(boss, type='peek', subscription='work', messages=2)) == [(texts[0], 0), (texts[2], 0)]
worker.send(json.dumps({'type': 'negativeAcknowledge', 'messageId': got[0]['messageId']}))
back = worker.receive()
assert (back['payload'], back['redeliveryCount']) == (texts[0], 1), back
shown = asked(boss, type='peek', subscription='work', messages=9)
assert payloads(shown) == [(texts[0], 1), *((text, 0) for text in texts[2:])], shown
assert numbers('work') == (1, 1, 4)
print('ok a look leaves what is pending, and passes over what is acknowledged')

seen = asked(boss, type='overview')
topic = next(each for each in seen['topics'] if each['name'].endswith('/news'))
number = next(one['number'] for one in topic['sessions'] if one['role'] == 'consumer')
assert seen['connections'] == 3 and len(topic['sessions']) == 3, seen
for wrong in (0, 999):
    assert asked(boss, type='disconnect', session=wrong) == REFUSED[3]
assert asked(boss, type='disconnect', session=number) == {'result': 'ok'}
assert worker.receive() == (4008, 'F3')
assert payloads(asked(boss, type='peek', subscription='work', messages=9)) == [(texts[0], 1), *((text, 0) for text in texts[2:])]
while any(each['number'] == number for each in asked(boss, type='overview')['topics'][0]['sessions']):
    time.sleep(0.01)
# Its number is nobody's until the next one has it, who stays.
assert asked(boss, type='disconnect', session=number) == REFUSED[3]
other = consumer(port, 'news', 'work', '?subscriptionType=Shared')
again = [other.receive() for _ in range(4)]
assert [message['payload'] for message in again] == [texts[0], *texts[2:]], again
other.send('{"type":"isEndOfTopic"}')
assert other.receive() == {'endOfTopic': 'false'}
print('ok a consumer is ended by its number, and its messages go to the next')

sessions = next(each for each in asked(boss, type='overview')['topics'] if each['name'].endswith('/news'))['sessions']
mine = next(one['number'] for one in sessions if one['role'] == 'admin')
assert asked(boss, type='disconnect', session=mine) == {'result': 'ok'}
assert boss.receive() == (4008, 'F3')
boss = admin('news')
assert asked(boss, type='backup') == {'fault': 20, 'result': 'refused'}
maker.send(text_of(b'on'))
assert maker.receive()['result'] == 'ok'
print('ok an administrator ends his own session; without a folder no copy is made')


def is_there_after_a_kill(wanted, **said):
    """What an administrator is answered `ok` is stored: it is there, though the broker is killed right then."""
    global boss
    assert asked(boss, **said) == {'result': 'ok'}, said
    broker.kill()
    broker.start()
    boss = admin('news')
    assert numbers('kept') == wanted, said


is_there_after_a_kill((0, 2, 4), type='createSubscription', subscription='kept', position='CAAQAg==')
is_there_after_a_kill((0, 4, 2), type='skip', subscription='kept', messages=2)
is_there_after_a_kill((0, 6, 0), type='seek', subscription='kept', position='latest')
is_there_after_a_kill((0, 0, 6), type='seekTime', subscription='kept', time=0)
is_there_after_a_kill((0, 0, 6), type='keep', messages=3)
topic = next(each for each in asked(boss, type='overview')['topics'] if each['name'].endswith('/news'))
assert topic['rule'] == {'messages': 3}, topic['rule']
is_there_after_a_kill((0, 0, 6), type='dropSubscription', subscription='lost')
assert asked(boss, type='stats', subscription='lost') == REFUSED[11]
print('ok what an administrator was answered is there after a kill')

broker.kill()
shutil.rmtree(broker.folder)
