#!/usr/bin/env python3
# A message that is given back too often goes to the dead-letter topic of its subscription.
# dead_letters.py [address] [topic]
import base64
import json
import sys

from answers import connect, receive, run

address = sys.argv[1] if len(sys.argv) > 1 else 'localhost:8080'
topic = sys.argv[2] if len(sys.argv) > 2 else 'jobs'
base = f'ws://{address}/ws/v2'


def main():
    letters = connect(
        f'{base}/consumer/persistent/public/default/{topic}-workers-DLQ/letters', timeout=10)
    worker = connect(
        f'{base}/consumer/persistent/public/default/{topic}/workers'
        '?subscriptionType=Shared&negativeAckRedeliveryDelay=100&maxRedeliverCount=2', timeout=10)
    producer = connect(f'{base}/producer/persistent/public/default/{topic}', timeout=10)

    producer.send(json.dumps({'payload': base64.b64encode(b'cannot be done').decode()}))
    print('Published:', receive(producer)['result'])

    for _ in range(3):
        message = receive(worker)
        print('The worker was sent', message['messageId'], 'and gives it back; given back before:',
              message['redeliveryCount'])
        worker.send(json.dumps({'type': 'negativeAcknowledge', 'messageId': message['messageId']}))

    letter = receive(letters)
    print('The dead-letter topic has it:', base64.b64decode(letter['payload']).decode())
    letters.send(json.dumps({'messageId': letter['messageId']}))
    for ws in (producer, worker, letters):
        ws.close()


run(main)
