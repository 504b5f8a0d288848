#!/usr/bin/env python3
# What a topic has is what it has after a kill: random lists of publishes, acknowledgements, deaths, seeks, skips, subscriptions
# that come and go, rules of what is kept and messages that go; then a publish, with which all before it is stored, and a kill.
# How far each subscription is, and the messages that come next with their counts, are the same. The gate runs it.
# restarts.py PROGRAM [kills] [port] [first number]
import base64
import collections
import json
import random
import sys
import time

from client import Broker, Client, consumer, producer, text_of

program = sys.argv[1]
times = int(sys.argv[2]) if len(sys.argv) > 2 else 200
port = int(sys.argv[3]) if len(sys.argv) > 3 else 18112
first = int(sys.argv[4]) if len(sys.argv) > 4 else 1
NAMES = ['a', 'b', 'c']
KINDS = ['Shared', 'Key_Shared', 'Failover', 'Exclusive']
STATS = ['kind', 'live', 'dead', 'markDelete']

tally = collections.Counter()


class Player:
    """A topic, with whoever is there until the next kill."""

    def __init__(self, dice):
        self.dice, self.published, self.ids = dice, 0, []
        self.here()

    def here(self):
        self.writer = producer(port, 'played', '?producerName=p')
        self.admin = Client(port, '/ws/v2/admin/persistent/public/default/played')

    def ask(self, **said):
        self.admin.send(json.dumps(said))
        answer = self.admin.receive()
        assert isinstance(answer, dict), answer
        tally['refused' if answer['result'] != 'ok' else said['type']] += 1
        return answer

    def publish(self, count):
        for _ in range(count):
            said = json.loads(text_of(f'{self.published}'.encode()))
            self.writer.send(json.dumps(said | {'key': f'key {self.dice.randrange(5)}', 'properties': {'n': self.published}}))
            self.published += 1
        for _ in range(count):
            answer = self.writer.receive()
            assert answer['result'] == 'ok', answer
            self.ids.append(answer['messageId'])
        tally['published'] += count

    def serve(self, name):
        """A consumer comes, acknowledges some messages, gives back others, which may die, and leaves."""
        kind = self.dice.choice(KINDS)
        query = f'?subscriptionType={kind}&subscriptionInitialPosition={self.dice.choice(["Earliest", "Latest"])}&receiverQueueSize=10'
        if kind in KINDS[:2]:
            query += '&negativeAckRedeliveryDelay=1&maxRedeliverCount=2'
        client = consumer(port, 'played', name, query)
        client.sock.settimeout(0.05)
        for _ in range(self.dice.randrange(30)):
            try:
                message = client.receive()
            except TimeoutError:
                break
            assert isinstance(message, dict), (name, kind, message)
            word = self.dice.choice(['acknowledge', 'acknowledge', 'negativeAcknowledge', 'nothing', 'up to'])
            tally[word] += 1
            if word == 'acknowledge':
                client.send(json.dumps({'messageId': message['messageId']}))
            elif word == 'negativeAcknowledge':
                client.send(json.dumps({'type': 'negativeAcknowledge', 'messageId': message['messageId']}))
            elif word == 'up to' and kind in KINDS[2:]:
                client.send(json.dumps({'type': 'acknowledgeCumulative', 'messageId': message['messageId']}))
        client.sock.settimeout(30)
        client.leave()
        client.close()

    def order(self, name):
        target = self.dice.choice(['earliest', 'latest', *self.ids[-30:]])
        said = self.dice.choice([
            {'type': 'seek', 'position': target}, {'type': 'seek', 'position': 'earliest'}, {'type': 'skip', 'messages': self.dice.randrange(40)},
            {'type': 'seekTime', 'time': int(time.time() * 1000) - self.dice.randrange(5000)}, {'type': 'dropSubscription'},
            {'type': 'createSubscription', 'position': target},
        ])
        self.ask(subscription=name, **said)

    def step(self):
        choice, name = self.dice.randrange(10), self.dice.choice(NAMES)
        if choice < 3:
            self.publish(self.dice.randrange(1, 30))
        elif choice < 7:
            self.serve(name)
        elif choice < 9:
            self.order(name)
        else:
            self.ask(type='keep', **self.dice.choice([{'messages': 0}, {'messages': 100}, {'keep': 'all'}, {'keep': 'default'}, {'millis': 86_400_000}]))

    def stats(self, name):
        return self.ask(type='stats', subscription=name)

    def next_of(self, name):
        """The messages that come next, with their counts."""
        answer = self.ask(type='peek', subscription=name, messages=100)
        return [(it['messageId'], it['payload'], it['key'], str(it['properties']), it['publishTime'], it['redeliveryCount']) for it in answer['messages']]

    def seen(self):
        """What the topic has: each subscription and its next messages. What is done with may go at any time, and counts with what has gone."""
        found = {}
        for name in NAMES:
            told = self.stats(name)
            if told['result'] == 'ok':
                assert told['pending'] == told['members'] == 0, told
                done = told['acknowledged'] + told.get('gone', 0)
                found[name] = {key: told.get(key) for key in STATS} | {'done': done, 'next': self.next_of(name)}
        return found

    def rests(self):
        """Nobody sits at a subscription, no letter is on its way, and all is stored: what the topic has then."""
        end = time.time() + 30
        while any(it.get('pending') or it.get('members') or it.get('dead') for it in map(self.stats, NAMES)):
            assert time.time() < end
            time.sleep(0.005)
        # What is published is stored with all that came before it.
        self.publish(1)
        return self.seen()


broker = Broker(program, port, 2)
player = Player(random.Random(first))
try:
    for number in range(times):
        for _ in range(player.dice.randrange(5, 15)):
            player.step()
        before = player.rests()
        broker.kill()
        broker.start()
        player.here()
        after = player.seen()
        for name in NAMES:
            assert after.get(name) == before.get(name), f'list {number}, {name}: {after.get(name)}, and not {before.get(name)}'
        tally['subscriptions'] += len(after)
    print(f'ok {times} kills, and nothing is another after one: {dict(tally)}')
finally:
    broker.kill()
