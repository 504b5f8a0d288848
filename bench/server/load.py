#!/usr/bin/env python3
# Loads the broker for minutes without making its topics longer, and prints its memory: consumers give every message
# back, so that it is released, dispatched and sent again.
# load.py PROGRAM [seconds] [port]
import json
import multiprocessing
import sys
import time

from client import Broker, consumer, producer, text_of

program = sys.argv[1]
seconds = int(sys.argv[2]) if len(sys.argv) > 2 else 600
port = int(sys.argv[3]) if len(sys.argv) > 3 else 18084
TOPICS, MESSAGES = 4, 50


def give_back(topic, count):
    client = consumer(port, topic, 'again',
                      '?subscriptionType=Shared&negativeAckRedeliveryDelay=0&subscriptionInitialPosition=Earliest')
    while True:
        message = client.receive()
        client.send(json.dumps({'type': 'negativeAcknowledge', 'messageId': message['messageId']}))
        with count.get_lock():
            count.value += 1


broker = Broker(program, port)
count = multiprocessing.Value('l', 0)
workers = []
try:
    for number in range(TOPICS):
        client = producer(port, f'load-{number}')
        for _ in range(MESSAGES):
            client.send(text_of(b'x' * 1024))
            assert client.receive()['result'] == 'ok'
        client.close()
        worker = multiprocessing.Process(target=give_back, args=(f'load-{number}', count), daemon=True)
        worker.start()
        workers.append(worker)
    for minute in range(max(1, seconds // 30) + 1):
        print(f'{minute * 30} s: {count.value} deliveries, {broker.memory() / 1048576:.1f} MiB', flush=True)
        time.sleep(min(30, seconds))
finally:
    for worker in workers:
        worker.terminate()
    broker.kill()
