# What the examples in Python share: the next text of a connection, and why the broker closed one.
import json
import os
import sys

import websocket

with open(os.path.join(os.path.dirname(os.path.abspath(__file__)), 'refusals.json')) as file:
    MEANING = json.load(file)


class Closed(Exception):
    """The broker closed the session with a code, or did not begin it and answered with a status, and why."""

    def __init__(self, code, reason, wrong='', how='closed with'):
        meaning = ': '.join(filter(None, (MEANING.get(reason, 'see docs/FORMATS.md'), wrong)))
        super().__init__(f'{how} {code} {reason}: {meaning}')
        self.code, self.reason = code, reason


def connect(url, timeout=None):
    """An open connection, whose session has begun: the header asks for a status where the broker refuses it."""
    try:
        return websocket.create_connection(url, timeout=timeout, header={'X-Refusals': 'http'})
    except websocket.WebSocketBadStatusException as error:
        reason, _, wrong = (error.resp_headers or {}).get('x-refusal', '').partition(' ')
        if not reason:
            raise
        raise Closed(error.status_code, reason, wrong, 'answered with') from None


def receive(ws):
    """The next text, as an object."""
    return text_of(*ws.recv_data())


def text_of(kind, data):
    """The text that came, as an object."""
    if kind == websocket.ABNF.OPCODE_CLOSE:
        raise Closed(int.from_bytes(data[:2], 'big'), data[2:].decode())
    return json.loads(data)


def run(main):
    """Runs a program, which ends with one line where the broker refuses it or is not there."""
    try:
        main()
    except Closed as closed:
        sys.exit(f'refused: {closed}')
    except websocket.WebSocketTimeoutException:
        sys.exit('nothing came for too long')
    except (OSError, websocket.WebSocketException) as error:
        sys.exit(f'no connection: {error}')
