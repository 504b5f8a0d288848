#!/usr/bin/env python3
# Three consumers share a Key_Shared subscription: the messages of one key go to one of them, in their order.
# key_shared.py [address] [topic]
import base64
import json
import sys
import threading

import websocket

from answers import Closed, connect, receive, run

address = sys.argv[1] if len(sys.argv) > 1 else 'localhost:8080'
topic = sys.argv[2] if len(sys.argv) > 2 else 'orders'
place = f'persistent/public/default/{topic}'
KEYS, ROUNDS = 12, 5

lock = threading.Lock()
got = {}
left = threading.Semaphore(0)


def consume(name, ws):
    while True:
        try:
            message = receive(ws)
        except Closed as closed:
            if closed.code != 1000:      # not closed by this program
                print(f'consumer {name} was refused: {closed}', file=sys.stderr)
            return
        except (websocket.WebSocketException, OSError):
            return
        body = base64.b64decode(message['payload']).decode()
        with lock:
            got.setdefault(message['key'], []).append((name, body))
        ws.send(json.dumps({'messageId': message['messageId']}))
        left.release()


def main():
    consumers = []
    for name in ('a', 'b', 'c'):
        ws = connect(
            f'ws://{address}/ws/v2/consumer/{place}/by-key?subscriptionType=Key_Shared')
        consumers.append(ws)
        threading.Thread(target=consume, args=(name, ws), daemon=True).start()

    producer = connect(f'ws://{address}/ws/v2/producer/{place}', timeout=60)
    for step in range(ROUNDS):
        for key in range(KEYS):
            producer.send(json.dumps({
                'key': f'order-{key}',
                'payload': base64.b64encode(f'step {step}'.encode()).decode(),
            }))
            response = receive(producer)
            if response['result'] != 'ok':
                sys.exit(f'refused: {response["result"]}, {response["errorMsg"]}')

    for _ in range(KEYS * ROUNDS):
        if not left.acquire(timeout=10):
            sys.exit('a message did not come')
    for key, messages in sorted(got.items()):
        names = {name for name, _ in messages}
        steps = [body for _, body in messages]
        print(key, 'went to', ', '.join(sorted(names)), 'in this order:', '; '.join(steps))
        if len(names) > 1 or steps != [f'step {step}' for step in range(ROUNDS)]:
            sys.exit('one key went to two consumers, or out of order')
    for ws in (producer, *consumers):
        ws.close()


run(main)
