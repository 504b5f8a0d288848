#!/usr/bin/env python3
# Three workers of a Key_Shared subscription, each with a range of hashes of its own. One is away for a while: nothing of
# its range goes to another, and it finds all in order when it is back.
# sticky.py [address] [topic]
import base64
import json
import sys

import websocket

from answers import connect, receive, run

address = sys.argv[1] if len(sys.argv) > 1 else 'localhost:8080'
topic = sys.argv[2] if len(sys.argv) > 2 else 'readings'
place = f'persistent/public/default/{topic}'
RANGES = {'a': '0-21845', 'b': '21846-43690', 'c': '43691-65535'}
KEYS, ROUNDS = 12, 5

steps = {}      # of each key, how many messages were received
worker_of = {}  # of each key, the worker that receives its messages


def join(name):
    return connect(
        f'ws://{address}/ws/v2/consumer/{place}/by-range?subscriptionType=Key_Shared&keySharedRanges={RANGES[name]}',
        timeout=1)


def publish(producer, rounds):
    for step in rounds:
        for key in range(KEYS):
            producer.send(json.dumps({
                'key': f'sensor-{key}',
                'payload': base64.b64encode(f'step {step}'.encode()).decode(),
            }))
            response = receive(producer)
            if response['result'] != 'ok':
                sys.exit(f'refused: {response["result"]}, {response["errorMsg"]}')


def take(name, ws):
    """Receives and acknowledges until nothing comes any more; each key's messages come in order, and to one worker."""
    count = 0
    while True:
        try:
            message = receive(ws)
        except websocket.WebSocketTimeoutException:
            return count
        key, body = message['key'], base64.b64decode(message['payload']).decode()
        if worker_of.setdefault(key, name) != name or body != f'step {steps.get(key, 0)}':
            sys.exit(f'{body} of {key} came to {name}')
        steps[key] = steps.get(key, 0) + 1
        count += 1
        ws.send(json.dumps({'messageId': message['messageId']}))


def main():
    workers = {name: join(name) for name in RANGES}
    producer = connect(f'ws://{address}/ws/v2/producer/{place}', timeout=60)
    publish(producer, range(ROUNDS))
    taken = {name: take(name, ws) for name, ws in workers.items()}
    print('taken:', ', '.join(f'{count} by {name}' for name, count in taken.items()))

    workers.pop('b').close()
    publish(producer, range(ROUNDS, 2 * ROUNDS))
    others = {name: take(name, ws) for name, ws in workers.items()}
    print('while b is away:', ', '.join(f'{count} by {name}' for name, count in others.items()))

    workers['b'] = join('b')
    found = take('b', workers['b'])
    print(f'b is back, and finds {found}, each key in order')
    if others != {'a': taken['a'], 'c': taken['c']} or found != taken['b'] or sum(taken.values()) != KEYS * ROUNDS:
        sys.exit('a message is missing, or came to another worker')
    for ws in (producer, *workers.values()):
        ws.close()


run(main)
