#!/usr/bin/env python3
# What idle consumers cost: many connections at once, their processor time and their memory. They answer pings, as
# clients do, and all of them are there in the end.
# crowd.py PROGRAM [port] [connections] [seconds]
import resource
import selectors
import sys
import time

from client import Broker, consumer, frame, producer, text_of

program = sys.argv[1]
port = int(sys.argv[2]) if len(sys.argv) > 2 else 18082
count = int(sys.argv[3]) if len(sys.argv) > 3 else 1000
seconds = int(sys.argv[4]) if len(sys.argv) > 4 else 20
TOPICS, SUBSCRIPTIONS = 20, 10

hard = resource.getrlimit(resource.RLIMIT_NOFILE)[1]
resource.setrlimit(resource.RLIMIT_NOFILE, (min(hard, 20000), hard))


def answer_pings(them, until):
    """Answers the pings that come until the moment. How many came."""
    pings = 0
    with selectors.DefaultSelector() as ready:
        for one in them:
            ready.register(one.sock, selectors.EVENT_READ, one)
        while time.monotonic() < until:
            for key, _ in ready.select(0.5):
                kind, body = key.data.frame()
                assert kind == 9, (kind, body)
                key.data.sock.sendall(frame(10, body))
                pings += 1
    return pings


broker = Broker(program, port)
try:
    for topic in range(TOPICS):
        producer(port, f'crowd-{topic}').close()
    before = broker.memory()
    them = []
    for number in range(count):
        topic, each = number % TOPICS, number // TOPICS
        them.append(consumer(port, f'crowd-{topic}', f's-{each % SUBSCRIPTIONS}', '?subscriptionType=Shared'))
    answer_pings(them, time.monotonic() + 2)
    print(f'{len(them)} idle consumers: {(broker.memory() - before) / len(them) / 1024:.1f} KiB each')
    used = broker.processor()
    pings = answer_pings(them, time.monotonic() + seconds)
    share = (broker.processor() - used) / seconds
    print(f'and {share * 100:.2f} % of a processor, with {pings} pings in {seconds} s')
    client = producer(port, 'crowd-0')
    client.send(text_of(b'wake'))
    assert client.receive()['result'] == 'ok'
    time.sleep(0.5)
    woken = 0
    for one in them[::TOPICS]:
        one.sock.setblocking(False)
        try:
            one.receive()
            woken += 1
        except BlockingIOError:
            pass
    print(f'one message woke {woken} consumers, one of each of {min(SUBSCRIPTIONS, len(them[::TOPICS]))} subscriptions')
finally:
    broker.kill()
