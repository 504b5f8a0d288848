#!/usr/bin/env python3
# Works on the messages of a subscription, one after another, each for as long as it takes.
# worker.py [address] [topic] [subscription] [seconds of work for each message] [count]
import base64
import collections
import logging
import sys
import time

from answers import run
from session import Session

log = logging.getLogger(__name__)


class Worker(Session):
    """Calls `work(payload, message)` for each message, and acknowledges the message when the work is done.

    Work that raises gives the message back. At least once: an acknowledgement that may not have come to the broker is
    sent again by the next connection, and its message, which comes again there, is not worked on a second time. Two cases
    are left. The broker is killed before it has stored the acknowledgement; or the connection is lost and the message goes
    to another worker. Then the message is worked on again, since nobody can know better.
    """

    def __init__(self, address, topic, subscription, work, **query):
        super().__init__(address, 'consumer', topic, subscription)
        self.work = work
        self.parameters = {
            'subscriptionType': 'Shared', 'receiverQueueSize': 10, 'subscriptionInitialPosition': 'Earliest', **query}
        self.kept = {}                        # by id, what came and was not begun: as many as the receiver queue at most
        self.in_hand = None                   # the id of the message that is worked on
        self.unsure = set()                   # ids whose acknowledgement may not have been taken
        self.asked = collections.deque()      # for each question without an answer, the ids acknowledged before it
        self.stopping = False

    def run(self, count=None):
        """Works until so many messages are done, or `stop` was called, and then until the acknowledgements were taken."""
        self.reader.start()
        done = 0
        try:
            while done != count and (message := self._begin()):
                done += self._work(message)
            with self.changed:
                self.wait_until(lambda: not self.unsure)
        finally:
            self.close()

    def stop(self):
        """Lets `run` end after the message in hand. It may be called by another thread."""
        with self.changed:
            self.stopping = True
            self.changed.notify_all()

    def _begin(self):
        with self.changed:
            self.wait_until(lambda: self.kept or self.stopping)
            if self.stopping:
                return None
            self.in_hand = next(iter(self.kept))
            return self.kept.pop(self.in_hand)

    def _work(self, message):
        """Whether the work was done."""
        try:
            self.work(base64.b64decode(message['payload']), message)
        except Exception:
            log.exception('message %s is given back', self.in_hand)
            with self.changed:
                # without a connection it comes again in any case
                self.send({'type': 'negativeAcknowledge', 'messageId': self.in_hand})
                self.in_hand = None
            return False
        with self.changed:
            self.unsure.add(self.in_hand)
            self._acknowledge([self.in_hand])
            self.in_hand = None
        return True

    def _acknowledge(self, ids):
        """An acknowledgement has no answer. A question behind it has one, and then all before it was taken."""
        for message_id in ids:
            self.send({'messageId': message_id})
        self.send({'type': 'isEndOfTopic'})
        self.asked.append(ids)

    def query(self):
        return self.parameters

    def opened(self):
        self.asked.clear()
        self._acknowledge(list(self.unsure))

    def came(self, text):
        if 'endOfTopic' in text:
            self.unsure.difference_update(self.asked.popleft())
        elif text['messageId'] != self.in_hand and text['messageId'] not in self.unsure:
            self.kept[text['messageId']] = text

    def lost(self):
        self.kept.clear()      # all of them come again


def main():
    address = sys.argv[1] if len(sys.argv) > 1 else 'localhost:8080'
    topic = sys.argv[2] if len(sys.argv) > 2 else 'my-topic'
    subscription = sys.argv[3] if len(sys.argv) > 3 else 'workers'
    seconds = float(sys.argv[4]) if len(sys.argv) > 4 else 1
    count = int(sys.argv[5]) if len(sys.argv) > 5 else None

    def work(payload, message):
        print('Begun', payload.decode(), 'as', message['messageId'], flush=True)
        time.sleep(seconds)
        print('Done', payload.decode(), 'as', message['messageId'], flush=True)

    Worker(address, topic, subscription, work).run(count)


if __name__ == '__main__':
    run(main)
