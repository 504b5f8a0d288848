#!/usr/bin/env python3
# What is given back, or not acknowledged in time, comes again at its moment: not before, and soon after. The gate runs it.
# returns.py PROGRAM [times] [port]
import json
import sys
import time

from client import Broker, consumer, producer, text_of

program = sys.argv[1]
times = int(sys.argv[2]) if len(sys.argv) > 2 else 10
port = int(sys.argv[3]) if len(sys.argv) > 3 else 18111
DELAY, SOON = 200, 3000  # milliseconds; a machine that does other things is late
EARLY = 2  # two clocks, of which one is read in whole milliseconds


def comes_back(what, query, gives_back):
    """A message comes again and again, each time the delay after it was given back, or after it was sent."""
    begun = time.monotonic()
    reader = consumer(port, 'returns', what, f'?subscriptionType=Shared&subscriptionInitialPosition=Earliest&{query}={DELAY}')
    sent, since = reader.receive(), time.monotonic()
    for count in range(times):
        assert sent['redeliveryCount'] == count, sent
        if gives_back:
            since = time.monotonic()
            reader.send(json.dumps({'type': 'negativeAcknowledge', 'messageId': sent['messageId']}))
        sent, before, since = reader.receive(), since, time.monotonic()
        waited, least = 1000 * (since - before), 1000 * (since - begun) / (count + 1)
        # What was sent is known here a little later, so all delays together are looked at then.
        assert (waited if gives_back else least) >= DELAY - EARLY, f'{what}: after {waited:.0f} ms'
        assert waited < DELAY + SOON, f'{what}: after {waited:.0f} ms'
    reader.leave()
    print(f'ok {what}: {times} times after {DELAY} ms')


broker = Broker(program, port, 2)
try:
    writer = producer(port, 'returns')
    writer.send(text_of(b'a'))
    assert writer.receive()['result'] == 'ok'
    comes_back('given-back', 'negativeAckRedeliveryDelay', True)
    comes_back('not-acknowledged', 'ackTimeoutMillis', False)
finally:
    broker.kill()
