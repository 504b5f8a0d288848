#!/usr/bin/env python3
# Receives messages, and acknowledges each, as Pulsar's page on the WebSocket API has it.
# consumer.py [address] [topic] [subscription] [count]
import base64
import json
import sys

from answers import connect, receive, run

address = sys.argv[1] if len(sys.argv) > 1 else 'localhost:8080'
topic = sys.argv[2] if len(sys.argv) > 2 else 'my-topic'
subscription = sys.argv[3] if len(sys.argv) > 3 else 'my-sub'
count = int(sys.argv[4]) if len(sys.argv) > 4 else None


def main():
    ws = connect(
        f'ws://{address}/ws/v2/consumer/persistent/public/default/{topic}/{subscription}'
        '?subscriptionInitialPosition=Earliest')
    print('Waiting for messages', flush=True)
    received = 0
    while received != count:
        message = receive(ws)
        print('Received', base64.b64decode(message['payload']).decode(), 'as', message['messageId'], flush=True)
        ws.send(json.dumps({'messageId': message['messageId']}))
        received += 1
    ws.close()


run(main)
