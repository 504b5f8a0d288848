#!/usr/bin/env python3
# What has a bound of bytes: the text of a peek, and the messages of a topic where there is a most. Many who ask for the overview at
# once all get it. The gate runs it.
# bounds.py PROGRAM [port]
import base64
import json
import sys
import threading

from client import Broker, Client, consumer, producer, text_of

program = sys.argv[1]
port = int(sys.argv[2]) if len(sys.argv) > 2 else 18137
MOST_TEXT = 2_097_152
MOST, SIZE = 3_000_000, 20_000


def admin(topic):
    return Client(port, f'/ws/v2/admin/persistent/public/default/{topic}')


def peeked(topic, count):
    """The text of a peek, and the payloads that it shows."""
    boss = admin(topic)
    boss.send(json.dumps({'type': 'peek', 'subscription': 's', 'messages': count}))
    kind, text = boss.frame()
    assert kind == 1
    boss.close()
    return text, [base64.b64decode(one['payload']) for one in json.loads(text)['messages']]


def filled(topic, sizes):
    reader = consumer(port, topic, 's', '?pullMode=true')
    writer = producer(port, topic)
    for number, size in enumerate(sizes):
        writer.send(text_of(bytes([number]) * size))
        assert writer.receive()['result'] == 'ok', number
    writer.leave()
    reader.leave()


def peeks():
    filled('large', [700_000] * 5)
    text, shown = peeked('large', 5)
    assert len(shown) == 2 and [one[0] for one in shown] == [0, 1] and len(text) <= MOST_TEXT, (len(shown), len(text))
    filled('largest', [1_048_576] * 3)
    text, shown = peeked('largest', 3)
    assert len(shown) == 1 and shown[0] == bytes(1_048_576), len(shown)
    filled('small', [100] * 100)
    text, shown = peeked('small', 100)
    assert len(shown) == 100
    # to the byte: all of a text that is as long as may be, and one less of one that is longer by three or more
    each = len(text_of_one(300_000))
    most = (MOST_TEXT - len('{"messages":[],"result":"ok"}') + 1) // (each + 1)
    filled('even', [300_000] * 10)
    text, shown = peeked('even', 10)
    assert len(shown) == most and MOST_TEXT - each - 1 < len(text) <= MOST_TEXT, (len(shown), most, len(text))
    print('ok a peek ends at 2 MiB of text')


def text_of_one(size):
    """How one message of so many bytes is written."""
    filled(f'one-{size}', [size])
    text, _ = peeked(f'one-{size}', 1)
    return text[len('{"messages":['):-len('],"result":"ok"}')]


def fills():
    writer = producer(port, 'full', '?producerName=p&initialSequenceId=-1')
    count = 0
    while True:
        writer.send(text_of(bytes(SIZE)))
        answer = writer.receive()
        if answer['result'] != 'ok':
            break
        count += 1
    assert answer['result'] == 'send-error:8' and count == MOST // SIZE, (answer, count)
    # not a byte more has room
    writer.send(text_of(b'x'))
    assert writer.receive()['result'] == 'send-error:8'
    writer.leave()
    # what was sent before is known again, although the topic is full
    again = producer(port, 'full', '?producerName=p&initialSequenceId=-1')
    again.send(text_of(bytes(SIZE)))
    answer = again.receive()
    assert answer['result'] == 'ok' and answer['messageId'] == 'CP///////////wEQ////////////AQ==', answer
    again.leave()
    return count


def drains(count):
    """What every subscription has acknowledged goes, by sixty-fours, and there is room again."""
    reader = consumer(port, 'full', 's', '?subscriptionInitialPosition=Earliest')
    for _ in range(100):
        reader.send(json.dumps({'messageId': reader.receive()['messageId']}))
    writer = producer(port, 'full')
    for _ in range(200):
        writer.send(text_of(bytes(SIZE)))
        answer = writer.receive()
        if answer['result'] == 'ok':
            break
    assert answer['result'] == 'ok', answer
    writer.leave()
    reader.leave()
    print(f'ok a topic is full at its most of bytes, with {count} messages; duplicates are known, and room comes again')


def restarts(broker):
    """After a restart the bytes are those that were stored."""
    broker.kill()
    broker.start()
    writer = producer(port, 'full')
    answers = []
    for _ in range(80):
        writer.send(text_of(bytes(SIZE)))
        answers.append(writer.receive()['result'])
    assert answers[0] == 'ok' and 'send-error:8' in answers, answers
    writer.leave()
    print('ok after a restart too')


def looks():
    """Many who look at once."""
    seen = []

    def look():
        boss = admin('small')
        for _ in range(10):
            boss.send(json.dumps({'type': 'overview'}))
            seen.append(len(boss.receive()['topics']))
        boss.close()

    threads = [threading.Thread(target=look) for _ in range(16)]
    for thread in threads:
        thread.start()
    for thread in threads:
        thread.join()
    assert len(seen) == 160 and min(seen) > 0
    print('ok 160 looks at once')


broker = Broker(program, port, 4, more=['keep=0', f'most={MOST}'])
try:
    drains(fills())
    restarts(broker)
    broker.kill()
    broker.more = []
    broker.start()
    peeks()
    looks()
finally:
    broker.kill()
