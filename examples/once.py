#!/usr/bin/env python3
# Publishes the numbers from 0 on, so that each stands in the log exactly once, however often the connection is lost.
# once.py [address] [topic] [producer's name] [count]
import base64
import collections
import sys
import uuid

from answers import run
from session import Session

DUPLICATE = 'CP///////////wEQ////////////AQ=='      # the id in the answer to a message that is in the log already


class Refused(Exception):
    """A message was refused, and nothing was sent after that. Messages behind it may be in the log."""

    def __init__(self, number, answer):
        super().__init__(f'message {number}: {answer["result"]}, {answer["errorMsg"]}')
        self.number = number


class Producer(Session):
    """Publishes messages under numbers that rise by 1, with up to `window` of them unanswered. What was not answered when
    a connection is lost is sent again, with the numbers that it had, and so stands in the log once.

    Without a name it takes a new one, and what it publishes is new. A name is for messages that have numbers of their own
    from 0 on: the first to be published is the one after `answered`, the last that is known to be answered. Whoever begins
    at -1 publishes all again in the same order; under a name of before, other messages count as duplicates and are lost.
    """

    def __init__(self, address, topic, name=None, answered=-1, window=100):
        super().__init__(address, 'producer', topic)
        self.name, self.answered, self.window = name or uuid.uuid4().hex, answered, window
        self.unanswered = collections.deque()
        self.duplicates = 0

    def __enter__(self):
        self.reader.start()
        return self

    def __exit__(self, kind, error, trace):
        try:
            if error is None:
                self.flush()
        finally:
            self.close()

    def publish(self, payload, **fields):
        """Takes over a message, with `key` and `properties` if it has them, and returns its number. Waits while the window
        is full. What refused an earlier one is raised."""
        text = {'payload': base64.b64encode(payload).decode(), **fields}
        with self.changed:
            self.wait_until(lambda: len(self.unanswered) < self.window)
            self.unanswered.append(text)
            # under the lock, as the order counts; the answers of a window wait in the socket meanwhile
            self.send(text)
            return self.answered + len(self.unanswered)

    def flush(self):
        """Waits until everything is answered."""
        with self.changed:
            self.wait_until(lambda: not self.unanswered)

    def query(self):
        return {'producerName': self.name, 'initialSequenceId': self.answered}

    def opened(self):
        for text in self.unanswered:
            self.send(text)

    def came(self, answer):
        if answer['result'] != 'ok':
            raise Refused(self.answered + 1, answer)
        self.unanswered.popleft()
        self.answered += 1
        self.duplicates += answer['messageId'] == DUPLICATE

    def lost(self):
        pass


def main():
    address = sys.argv[1] if len(sys.argv) > 1 else 'localhost:8080'
    topic = sys.argv[2] if len(sys.argv) > 2 else 'numbers'
    name = sys.argv[3] if len(sys.argv) > 3 else 'counter'
    count = int(sys.argv[4]) if len(sys.argv) > 4 else 1000
    try:
        with Producer(address, topic, name) as producer:
            for number in range(count):
                producer.publish(str(number).encode())
    except Refused as refused:
        sys.exit(f'refused: {refused}')
    print(f'{count} messages over {producer.connections} connections; '
          f'{producer.duplicates} of those sent again were in the log already')


if __name__ == '__main__':
    run(main)
