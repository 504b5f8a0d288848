#!/usr/bin/env python3
# What brokerctl shows on a terminal of a message and of a topic's name that would rule it. It wants Debian's python3-websocket.
# terminal.py PROGRAM [port]
import os
import pty
import subprocess
import sys

from client import Broker, Client, producer, text_of

program = sys.argv[1]
port = int(sys.argv[2]) if len(sys.argv) > 2 else 18124
TOOL = os.path.join(os.path.dirname(os.path.abspath(__file__)), '../../tools/brokerctl')
RULES = '\x1b]0;title\x07 a\x9b31mb\u202ec'


def on_terminal(*words):
    """What the command writes to a terminal."""
    ours, theirs = pty.openpty()
    child = subprocess.Popen(['/usr/bin/python3', TOOL, '--broker', f'ws://127.0.0.1:{port}', *words], stdout=theirs, stderr=theirs, close_fds=True)
    os.close(theirs)
    said = b''
    try:
        while got := os.read(ours, 1 << 16):
            said += got
    except OSError:
        # the other end is closed
        pass
    os.close(ours)
    assert child.wait() == 0, said
    return said.decode()


broker = Broker(program, port)
try:
    writer = producer(port, 'shown')
    writer.send(text_of(RULES.encode()))
    assert writer.receive()['result'] == 'ok'
    shown = on_terminal('consume', 'shown', 's', '--initial', 'earliest', '--count', '1')
    assert shown == '\\x1b]0;title\\x07 a\\x9b31mb\\u202ec\r\n'.replace('\\u202e', '\\x202e'), repr(shown)
    named = Client(port, '/ws/v2/producer/persistent/public/default/a%C2%9B31m')
    listed = on_terminal('topics')
    assert 'a\\x9b31m' in listed and '\x9b' not in listed, repr(listed)
    print('ok a terminal is not ruled')
finally:
    broker.kill()
