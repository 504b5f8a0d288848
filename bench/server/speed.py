#!/usr/bin/env python3
# How fast the broker is: publishes, deliveries, eight topics at once, and connections that do nothing.
# speed.py PROGRAM [port]
import multiprocessing
import os
import sys
import threading
import time

from client import Broker, Client, consumer, frame, middle, producer, text_of, timed

program = sys.argv[1]
port = int(sys.argv[2]) if len(sys.argv) > 2 else 18081
BODY = os.urandom(1024)


def syncs(folder, count=500):
    """A write of a frame of the journal, and the disk's answer: what each commit waits for at least."""
    file = os.open(f'{folder}/sync', os.O_CREAT | os.O_WRONLY)
    at = [0]

    def step(_):
        os.pwrite(file, b'x' * 4120 * 3, at[0])
        at[0] += 4120 * 3
        os.fdatasync(file)

    times = timed(step, count)
    os.close(file)
    return times


def publishes(topic, count):
    client = producer(port, topic)
    text = text_of(BODY)

    def step(_):
        client.send(text)
        assert client.receive()['result'] == 'ok'

    times = timed(step, count)
    client.close()
    return times


def deliveries(count=600, pause=0.005):
    """From the sending of a publish until its message has come to a consumer."""
    came = {}
    to = consumer(port, 'through', 's', '?subscriptionType=Shared')
    done = threading.Event()

    def receive():
        for number in range(count):
            message = to.receive()
            came[number] = time.perf_counter()
            to.send('{"messageId":"%s"}' % message['messageId'])
        done.set()

    threading.Thread(target=receive, daemon=True).start()
    client = producer(port, 'through')
    text = text_of(BODY)
    sent = {}
    for number in range(count):
        sent[number] = time.perf_counter()
        client.send(text)
        assert client.receive()['result'] == 'ok'
        time.sleep(pause)
    assert done.wait(30)
    client.close()
    to.close()
    return [(came[number] - sent[number]) * 1e6 for number in range(count)]


def rate(topics, count=800):
    """Publishes a second, of one publisher to each topic, that wait for their answers."""
    publishers = [multiprocessing.Process(target=publishes, args=(topic, count)) for topic in topics]
    before = time.perf_counter()
    for publisher in publishers:
        publisher.start()
    for publisher in publishers:
        publisher.join()
    return len(topics) * count / (time.perf_counter() - before)


def at_once(topic, count=900):
    """Publishes a second that do not wait for their answers."""
    client = producer(port, topic)
    text = frame(1, text_of(BODY))
    before = time.perf_counter()

    def send():
        for _ in range(count):
            client.sock.sendall(text)

    sender = threading.Thread(target=send)
    sender.start()
    for _ in range(count):
        assert client.receive()['result'] == 'ok'
    sender.join()
    client.close()
    return count / (time.perf_counter() - before)


def lame():
    """100 connections that send nothing, half a frame, or never read."""
    them = []
    for number in range(100):
        client = Client(port, f'/ws/v2/producer/persistent/public/default/lame-{number % 10}')
        if number % 3 == 1:
            client.sock.sendall(frame(1, text_of(BODY))[:700])
        if number % 3 == 2:
            client.sock.setblocking(False)
            try:
                for _ in range(50):
                    client.sock.sendall(frame(1, text_of(BODY)))
            except BlockingIOError:
                pass
        them.append(client)
    return them


broker = Broker(program, port)
try:
    disk = middle(syncs(broker.folder))
    print(f'fdatasync: p50 {disk:.0f} us')
    publishes('warm', 100)
    alone = middle(publishes('alone', 800))
    print(f'publish of 1 KiB, answered: p50 {alone:.0f} us, {alone - disk:.0f} us more than fdatasync')
    through = sorted(deliveries())
    print(f'end to end at 200 a second: p50 {through[300]:.0f} us, p99 {through[594]:.0f} us')
    print(f'publishes that do not wait: {at_once("pipe"):.0f} a second')
    one = rate(['one'])
    eight = rate([f'of-eight-{number}' for number in range(8)], 400)
    print(f'1 publisher: {one:.0f} a second; 8 publishers on 8 topics: {eight:.0f} a second, {eight / one:.1f} times')
    before = middle(publishes('before', 800))
    them = lame()
    time.sleep(1)
    beside = middle(publishes('beside', 800))
    print(f'beside 100 that send nothing, half a frame or never read: p50 {beside:.0f} us, {beside / before:.2f} times')
finally:
    broker.kill()
