#!/usr/bin/env python3
# Publishes messages, and waits for the answer of each, as Pulsar's page on the WebSocket API has it.
# producer.py [address] [topic] [count]
import base64
import json
import sys

from answers import connect, receive, run

address = sys.argv[1] if len(sys.argv) > 1 else 'localhost:8080'
topic = sys.argv[2] if len(sys.argv) > 2 else 'my-topic'
count = int(sys.argv[3]) if len(sys.argv) > 3 else 10


def main():
    ws = connect(f'ws://{address}/ws/v2/producer/persistent/public/default/{topic}', timeout=60)
    for number in range(1, count + 1):
        payload = f'Hello World {number}'
        ws.send(json.dumps({
            'payload': base64.b64encode(payload.encode()).decode(),
            'properties': {'number': number},
            'context': number,
        }))
        response = receive(ws)
        if response['result'] != 'ok':
            sys.exit(f'refused: message {number}: {response["result"]}, {response["errorMsg"]}')
        print('Published', payload, 'as', response['messageId'])
    ws.close()


run(main)
