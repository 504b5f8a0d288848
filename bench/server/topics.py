#!/usr/bin/env python3
# Topics come and go: so many one after another, with a message and a subscription each, of which more than may be in
# use at once; all are found again, a look at the broker brings none back, and one where somebody is stays all the while.
# Then more names at once than may be in use, of which some wait their turn. Then the broker is killed again and again
# while topics leave memory and come back: nothing that was answered ok is missing. The gate runs it.
# topics.py PROGRAM [topics] [kills] [port]
import base64
import random
import sys
import threading
import time

from client import Broker, Client, consumer, producer, text_of

program = sys.argv[1]
count = int(sys.argv[2]) if len(sys.argv) > 2 else 10000
kills = int(sys.argv[3]) if len(sys.argv) > 3 else 200
port = int(sys.argv[4]) if len(sys.argv) > 4 else 18088
MOST, AT_ONCE, NAMES = 256, 300, 400


def payload_of(message):
    assert isinstance(message, dict), f'closed: {message}'
    return base64.b64decode(message['payload']).decode()


def refusal(client):
    """The close of a session that was refused; None where it is open still."""
    client.sock.settimeout(0.05)
    try:
        return client.receive()
    except TimeoutError:
        client.sock.settimeout(30)
        return None


def overview():
    """What an administrator sees, who sits at a topic of his own."""
    admin = Client(port, '/ws/v2/admin/persistent/public/default/held')
    admin.send('{"type":"overview"}')
    seen = admin.receive()
    admin.leave()
    admin.close()
    return seen


def said(teller, payload):
    teller.send(text_of(payload.encode()))
    answer = teller.receive()
    assert isinstance(answer, dict) and answer['result'] == 'ok', f'{payload}: {answer}'


def published(topic, payload):
    teller = producer(port, topic)
    said(teller, payload)
    teller.leave()
    teller.close()


def one_after_another(broker):
    for number in range(count):
        reader = consumer(port, f'one-{number}', 's')
        published(f'one-{number}', f'message {number}')
        assert payload_of(reader.receive()) == f'message {number}'
        reader.leave()
        reader.close()
        if number + 1 in (count // 10, count):
            print(f'{number + 1} topics: {broker.memory() >> 20} MiB')


def found_again(broker):
    for number in random.sample(range(count), count):
        reader = consumer(port, f'one-{number}', 's')
        assert payload_of(reader.receive()) == f'message {number}'
        reader.leave()
        reader.close()
    print(f'all found again: {broker.memory() >> 20} MiB')


def held(step):
    """A topic where somebody is stays in memory while others come and go."""
    teller = producer(port, 'held')
    said(teller, 'before')
    step()
    said(teller, 'after')
    teller.leave()
    reader = consumer(port, 'held', 's', '?subscriptionInitialPosition=Earliest')
    assert [payload_of(reader.receive()) for _ in range(2)] == ['before', 'after']
    reader.leave()
    print('a topic where somebody is stays')


def looks():
    """A look brings no topic into memory: as many as came and have not left are there. The others are told of, too."""
    first, second = overview(), overview()
    for seen in (first, second):
        assert sum(not each['resting'] for each in seen['topics']) == seen['loads'] - seen['unloads'] <= MOST, seen
        assert any(each['name'].endswith('/held') and each['published'] == 1 for each in seen['topics']), seen
    assert first['loads'] == second['loads'] and first['unloads'] == second['unloads'], (first, second)
    assert count < MOST or first['unloads'] > 0, first
    print(f'{first["loads"]} times a topic came, {first["unloads"]} times one left')


def as_many_as_may_be():
    """Somebody sits at each of as many topics as may be in use: two more are refused, until one of them is left."""
    tellers = []
    for number in range(MOST):
        tellers.append(producer(port, f'full-{number}'))
        said(tellers[-1], 'x')
    for number in range(2):
        teller = producer(port, f'more-{number}')
        closed = refusal(teller)
        assert closed == (4001, 'F7'), closed
    tellers.pop().leave()
    published('more-0', 'x')
    for teller in tellers:
        teller.leave()
    print(f'{MOST} topics are in use, and no more')


def in_turn(number, waited):
    """Publishes at a name of its own, as soon as there is room for it."""
    for _ in range(2000):
        teller = producer(port, f'many-{number}')
        closed = refusal(teller)
        if closed is None:
            teller.send(text_of(b'in turn'))
            assert teller.receive()['result'] == 'ok'
            time.sleep(1)
            teller.leave()
            teller.close()
            return
        assert closed == (4001, 'F7'), closed
        waited.add(number)
        teller.close()
        time.sleep(0.05)
    raise AssertionError(f'{number} had no turn')


def many_at_once():
    waited, faults = set(), []

    def work(number):
        try:
            in_turn(number, waited)
        except BaseException as fault:
            faults.append(repr(fault))

    workers = [threading.Thread(target=work, args=(number,)) for number in range(AT_ONCE)]
    for worker in workers:
        worker.start()
    for worker in workers:
        worker.join()
    assert not faults, faults[:3]
    print(f'{AT_ONCE} names at once: {len(waited)} waited their turn')


def killed(broker, dice):
    """Publishes at names at random, until the broker is killed; looks for all that was answered ok in the end."""
    stored = {}
    for cycle in range(kills):
        until = time.time() + dice.uniform(0.05, 0.5)
        while time.time() < until:
            number = dice.randrange(NAMES)
            text = f'{cycle} {len(stored.setdefault(number, []))}'
            published(f'kill-{number}', text)
            stored[number].append(text)
        broker.kill()
        broker.start()
    for number, texts in stored.items():
        reader = consumer(port, f'kill-{number}', 's', '?subscriptionInitialPosition=Earliest&receiverQueueSize=1000')
        got = [payload_of(reader.receive()) for _ in texts]
        assert got == texts, f'{number}: {got} {texts}'
        reader.leave()
        reader.close()
    print(f'{kills} kills: {sum(map(len, stored.values()))} publishes answered ok, all found in order')


broker = Broker(program, port)
try:
    held(lambda: (one_after_another(broker), found_again(broker), looks()))
    as_many_as_may_be()
    many_at_once()
    killed(broker, random.Random(7))
finally:
    broker.kill()
