#!/usr/bin/env python3
# Clients of all kinds come and go, read or do not, acknowledge, give back or forget: in the end a quiet consumer of
# each subscription gets all that is left, so no wake-up was lost on the way. Each message was acknowledged then, or
# stands in the topic of dead letters, once. Meanwhile somebody looks at the overview and the metrics each second; once all
# rests, the overview has each message, acknowledged or dead.
# churn.py PROGRAM [rounds] [port] [first round]
import http.client
import json
import random
import socket
import sys
import threading
import time

from client import Broker, Client, consumer, producer, text_of

program = sys.argv[1]
rounds = int(sys.argv[2]) if len(sys.argv) > 2 else 10
port = int(sys.argv[3]) if len(sys.argv) > 3 else 18087
first = int(sys.argv[4]) if len(sys.argv) > 4 else 0
TOPICS, PRODUCERS, CONSUMERS, CHURN = 3, 2, 4, 4.0
# How many messages a quiet consumer forgets, and how many seconds it may be sent nothing although some are left.
FORGOTTEN, STILL = 20, 3.0
IN_ORDER = ['Exclusive', 'Failover']
KINDS = [*IN_ORDER, 'Shared', 'Key_Shared']


def page(path):
    conn = http.client.HTTPConnection('127.0.0.1', port, timeout=10)
    conn.request('GET', path)
    answer = conn.getresponse()
    assert answer.status == 200, (path, answer.status)
    body = answer.read()
    conn.close()
    return body


def sum_of(sub):
    return sub['acknowledged'] + sub['waiting'] + sub['pending'] + sub['dead']


class Round:
    def __init__(self, number):
        self.number = number
        self.until = time.time() + CHURN
        self.lock = threading.Lock()
        # What was published, by topic, and what was acknowledged, by topic and subscription.
        self.published, self.acknowledged, self.letters = {}, {}, 0
        self.faults = []

    def note(self, table, key, value):
        with self.lock:
            table.setdefault(key, set()).add(value)

    def acknowledge(self, client, place, kind, message):
        self.note(self.acknowledged, (place, kind), message['payload'])
        client.send(json.dumps({'messageId': message['messageId']}))

    def topic(self, place):
        return f'churn-{self.number}-{place}'

    def goes_on(self):
        return time.time() < self.until

    def publish(self, place, dice):
        """Publishes in bursts, and waits for the answers of each."""
        while self.goes_on():
            client = producer(port, self.topic(place))
            client.sock.settimeout(10)
            for _ in range(dice.randint(1, 8)):
                texts = [self.text(dice) for _ in range(dice.choice([1, 1, 3, 20, 200]))]
                for text in texts:
                    client.send(json.dumps(text))
                for text in texts:
                    answer = client.receive()
                    assert answer['result'] == 'ok', answer
                    self.note(self.published, place, text['payload'])
                time.sleep(dice.choice([0, 0, 0.01, 0.1]))
                if not self.goes_on():
                    break
            client.close()

    def text(self, dice):
        """A publish whose payload is like no other."""
        text = json.loads(text_of(dice.randbytes(dice.choice([16, 16, 1000]))))
        if dice.random() < 0.7:
            text['key'] = f'key-{dice.randint(0, 9)}'
        return text

    def consume(self, place, kind, dice):
        """Joins, takes for a while what comes, and goes."""
        while self.goes_on():
            pulls = dice.random() < 0.3
            query = (f'?subscriptionType={kind}&subscriptionInitialPosition=Earliest'
                     f'&receiverQueueSize={dice.choice([1, 3, 100, 1000])}&pullMode={str(pulls).lower()}'
                     f'&ackTimeoutMillis={dice.choice([0, 50, 300])}'
                     f'&negativeAckRedeliveryDelay={dice.choice([0, 20, 200])}'
                     f'&priorityLevel={dice.choice([0, 0, 1])}&maxRedeliverCount={dice.choice([0, 0, 1, 3])}')
            client = consumer(port, self.topic(place), kind, query)
            client.sock.settimeout(0.1)
            end = min(self.until, time.time() + dice.choice([0.01, 0.2, 1.0]))
            try:
                while time.time() < end:
                    if pulls and dice.random() < 0.3:
                        client.send(json.dumps({'type': 'permit', 'permitMessages': dice.choice([1, 10, 100])}))
                    if dice.random() < 0.01:
                        time.sleep(dice.choice([0.1, 0.5]))
                    self.take(client, place, kind, dice)
            except (ConnectionError, BrokenPipeError):
                pass
            client.close()

    def take(self, client, place, kind, dice):
        try:
            message = client.receive()
        except socket.timeout:
            return
        if isinstance(message, tuple):
            # Somebody else has the exclusive subscription.
            if message[1] != 'F6':
                self.faults.append(message)
            time.sleep(0.02)
            raise ConnectionError
        which, at = dice.random(), message['messageId']
        if which < 0.7:
            self.acknowledge(client, place, kind, message)
        elif which < 0.8:
            client.send(json.dumps({'type': 'negativeAcknowledge', 'messageId': at}))
        elif which < 0.85 and kind in IN_ORDER:
            client.send(json.dumps({'type': 'acknowledgeCumulative', 'messageId': at}))

    def drain(self, place, kind, dice):
        """One consumer takes and acknowledges all that is left; it forgets some of it where that comes again."""
        timeout = dice.choice([0, 200])
        query = (f'?subscriptionType={kind}&subscriptionInitialPosition=Earliest'
                 f'&ackTimeoutMillis={timeout}&receiverQueueSize={dice.choice([1, 10, 1000])}')
        client = consumer(port, self.topic(place), kind, query)
        client.sock.settimeout(0.2)
        admin = Client(port, f'/ws/v2/admin/persistent/public/default/{self.topic(place)}')
        end, forgotten, dead = time.time() + STILL, set(), None
        while True:
            try:
                message = client.receive()
                end = time.time() + STILL
                if timeout and len(forgotten) < FORGOTTEN and dice.random() < 0.2:
                    forgotten.add(message['messageId'])
                else:
                    self.acknowledge(client, place, kind, message)
                continue
            except socket.timeout:
                pass
            admin.send(json.dumps({'type': 'stats', 'subscription': kind}))
            stats = admin.receive()
            if stats['dead'] != dead:
                end, dead = time.time() + STILL, stats['dead']
            if stats['live'] == stats['dead'] == 0 or time.time() > end:
                break
        client.close()
        admin.close()
        count = len(self.published.get(place, ()))
        if stats['live'] or stats['dead'] or stats['acknowledged'] != count:
            self.faults.append((self.topic(place), kind, stats, count))
        elif kind not in IN_ORDER:
            self.account(place, kind)

    def account(self, place, kind):
        """Each message was acknowledged, or is a dead letter; each of these is there once."""
        letters = []
        client = consumer(port, f'{self.topic(place)}-{kind}-DLQ', 's', '?subscriptionInitialPosition=Earliest')
        client.sock.settimeout(0.5)
        try:
            while True:
                message = client.receive()
                client.send(json.dumps({'messageId': message['messageId']}))
                letters.append(message['payload'])
        except socket.timeout:
            client.close()
        lost = self.published.get(place, set()) - self.acknowledged.get((place, kind), set()) - set(letters)
        if lost or len(letters) > len(set(letters)):
            apart = f'{len(letters)} letters, {len(set(letters))} of them apart'
            self.faults.append((self.topic(place), kind, f'{len(lost)} are lost', apart))
        with self.lock:
            self.letters += len(letters)

    def all_do(self, jobs):
        def guarded(job, *words):
            try:
                job(*words)
            except Exception as fault:
                self.faults.append((job.__name__, words[:2], repr(fault)))
        threads = [threading.Thread(target=guarded, args=job) for job in jobs]
        for thread in threads:
            thread.start()
        for thread in threads:
            thread.join()

    def look(self):
        """Looks each second, as Prometheus does and the page: no subscription has more messages than its topic."""
        while self.goes_on():
            page('/metrics')
            for topic in json.loads(page('/overview'))['topics']:
                for sub in topic['subscriptions']:
                    # (a message that is dead may be acknowledged too, until its letter is moved)
                    assert sum_of(sub) - sub['dead'] <= topic['kept'], (topic, sub)
            time.sleep(1)

    def check_rest(self):
        """All rests: what was published is in each subscription, to the message."""
        for topic in json.loads(page('/overview'))['topics']:
            place = topic['name'].rsplit('-', 1)[-1]
            if f'/churn-{self.number}-' in topic['name'] and place.isdigit():
                count = len(self.published.get(int(place), ()))
                for sub in topic['subscriptions']:
                    if not sum_of(sub) == topic['kept'] == count:
                        self.faults.append((topic['name'], sub, topic['kept'], count))

    def play(self):
        dice = random.Random(self.number)
        jobs = [(self.look,)]
        for place in range(TOPICS):
            for _ in range(PRODUCERS):
                jobs.append((self.publish, place, random.Random(dice.random())))
            for kind in KINDS:
                for _ in range(CONSUMERS):
                    jobs.append((self.consume, place, kind, random.Random(dice.random())))
        self.all_do(jobs)
        self.all_do([(self.drain, place, kind, random.Random(dice.random()))
                     for place in range(TOPICS) for kind in KINDS])
        self.check_rest()
        return sum(len(texts) for texts in self.published.values())


broker = Broker(program, port)
try:
    for number in range(first, first + rounds):
        if number > first and (number - first) % 20 == 0:
            # A round opens nine topics, and 256 are open at most.
            broker.kill()
            broker.start()
        play = Round(number)
        count = play.play()
        assert not play.faults, play.faults
        print(f'round {number}: {count} messages were published, {play.letters} letters died, and nothing is left',
              flush=True)
finally:
    broker.kill()
