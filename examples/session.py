# A session with the broker that lasts: a thread reads it and answers pings, whatever the program does meanwhile, and
# opens it again after each loss, with growing pauses.
import json
import logging
import random
import socket
import threading
from urllib.parse import quote, urlencode

import websocket

from answers import Closed, connect, text_of

FIRST_PAUSE, LONGEST_PAUSE = 0.1, 30      # seconds before a further try
OPENING = 90      # seconds for the handshake: a topic of many messages is read first
SILENCE = 30      # seconds without a word of the broker: it is pinged then, and after as many more it is gone
FINAL = {'F5', 'F9', 'F13', 'F14', 'F17', 'F18', 'F20', 'F24', 1002, 1007, 1009}      # no further try mends these
LIMITS = {'F7', 'F21'}                    # these pass when somebody ends something

log = logging.getLogger(__name__)


class Session:
    """What is said over it is a subclass's part: `query`, `opened`, `came` and `lost`, called with `changed` held."""

    def __init__(self, address, kind, topic, *last):
        names = topic.split('/') if '/' in topic else ('public', 'default', topic)
        path = '/'.join(quote(name, safe='') for name in (kind, 'persistent', *names, *last))
        self.place = f'ws://{address}/ws/v2/{path}'
        self.changed = threading.Condition()      # guards all that follows
        self.ws = None             # the connection, while there is one
        self.failure = None        # why no further one is tried
        self.closing = False
        self.connections = self.tries = 0
        self.reader = threading.Thread(target=self._keep, daemon=True)

    def send(self, text):
        """Sends a text, if there is a connection."""
        if self.ws is None:
            return
        try:
            self.ws.send(json.dumps(text))
        except (OSError, websocket.WebSocketException):
            cut(self.ws)
            self.ws = None

    def wait_until(self, condition):
        """Waits for a condition. What ended the session is raised."""
        self.changed.wait_for(lambda: condition() or self.failure or self.closing)
        if self.failure:
            raise self.failure
        if not condition():
            raise RuntimeError('the session was closed')

    def close(self):
        """Ends the session. What was sent before was taken, where the broker is there to answer the close."""
        with self.changed:
            self.closing = True
            self.changed.notify_all()
            if self.ws:
                try:
                    self.ws.send_close()
                except (OSError, websocket.WebSocketException):
                    pass
        if self.reader.is_alive():
            self.reader.join(timeout=5)

    def _keep(self):
        while not self.closing and not self.failure:
            try:
                self._serve()
            except Exception as error:
                with self.changed:
                    if not self.closing and not may_pass(error):
                        self.failure = error
                        self.changed.notify_all()
                    elif not self.closing:
                        self.changed.wait_for(lambda: self.closing, self._pause(error))

    def _serve(self):
        """One connection, to its end."""
        ws = connect(f'{self.place}?{urlencode(self.query())}', timeout=OPENING)
        try:
            ws.settimeout(SILENCE)
            with self.changed:
                if self.closing:
                    return
                self.connections += 1
                self.ws = ws
                self.opened()
            while True:
                self._take(next_text(ws))
        finally:
            with self.changed:
                self.ws = None
                self.lost()
            ws.shutdown()

    def _take(self, text):
        with self.changed:
            self.tries = 0
            self.came(text)
            self.changed.notify_all()

    def _pause(self, error):
        """The pause before the next try. By chance it is up to a half shorter: not all clients come back at once."""
        refused = isinstance(error, Closed) and error.reason
        pause = LONGEST_PAUSE if refused in LIMITS else min(LONGEST_PAUSE, FIRST_PAUSE * 2 ** min(self.tries, 10))
        pause *= random.uniform(0.5, 1)
        self.tries += 1
        # F2: the lost connection still has the name
        told = self.tries > 5 or refused and refused != 'F2'
        log.log(logging.WARNING if told else logging.INFO, 'trying again in %.1f s: %s', pause, error)
        return pause


def may_pass(error):
    """Whether a further try may do better."""
    if isinstance(error, Closed):
        return error.reason not in FINAL and error.code not in FINAL
    if isinstance(error, websocket.WebSocketBadStatusException):
        return error.status_code >= 500      # a proxy whose broker is away
    return isinstance(error, (OSError, websocket.WebSocketException))


def next_text(ws):
    """The next text. Where the broker is silent for too long it is pinged, and then the connection is lost."""
    pinged = False
    while True:
        try:
            kind, data = ws.recv_data(control_frame=True)
        except websocket.WebSocketTimeoutException:
            if pinged:
                raise
            ws.ping()
            pinged = True
            continue
        pinged = False
        if kind not in (websocket.ABNF.OPCODE_PING, websocket.ABNF.OPCODE_PONG):
            return text_of(kind, data)


def cut(ws):
    """Lets the reader of a connection see its end."""
    try:
        if ws.sock:
            ws.sock.shutdown(socket.SHUT_RDWR)
    except OSError:
        pass
