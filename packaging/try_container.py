#!/usr/bin/env python3
"""Runs the program as a container does, with the words of the Containerfile, of compose.yaml and of statefulset.yaml: as process 1
of its own, whose health is asked, and which is stopped by the image's signal. It makes no image. It runs as root.
packaging/try_container.py [program] [port]"""
import http.client
import json
import os
import re
import signal
import subprocess
import sys
import tempfile
import time

HERE = os.path.dirname(os.path.abspath(__file__))
PROGRAM = os.path.abspath(sys.argv[1] if len(sys.argv) > 1 else os.path.join(HERE, '../crates/pulsar_broker/out/pulsar_broker'))
PORT = int(sys.argv[2]) if len(sys.argv) > 2 else 18790


def text_of(name):
    with open(os.path.join(HERE, name)) as file:
        return file.read().replace('\\\n', '')


def words_in(text, name):
    """The list behind the name, which is JSON in each of the files."""
    return json.loads(re.search(rf'^\s*(?:.* )?{name} ?(\[.*?\])\s*$', text, re.MULTILINE | re.DOTALL)[1])


IMAGE = text_of('Containerfile')
STOP = signal.Signals[re.search(r'^STOPSIGNAL (\w+)$', IMAGE, re.MULTILINE)[1]]
HEALTH = [word.replace('8080', str(PORT)) for word in words_in(IMAGE, 'HEALTHCHECK .* CMD')]
COMMANDS = {
    'Containerfile': words_in(IMAGE, '^CMD'),
    'compose.yaml': words_in(text_of('compose.yaml'), 'command:'),
    'statefulset.yaml': words_in(text_of('statefulset.yaml'), 'command:'),
}


def started(command, room):
    """The command over the room instead of the volume, as process 1 of its own; and its number among ours."""
    words = [word.replace('/var/lib/pulsar-broker', room).replace('8080', str(PORT)) for word in command[1:]]
    with open(os.path.join(room, 'log'), 'w+') as log:
        outer = subprocess.Popen(['unshare', '--pid', '--fork', '--kill-child', PROGRAM, *words],
                                 stdout=subprocess.PIPE, stderr=log, text=True)
        if not outer.stdout.readline().startswith('listening'):
            log.seek(0)
            sys.exit(f'it does not listen: {" ".join(words)}\n{log.read()}')
    with open(f'/proc/{outer.pid}/task/{outer.pid}/children') as file:
        return outer, int(file.read())


def is_healthy():
    return subprocess.run(HEALTH, stderr=subprocess.DEVNULL).returncode == 0


def status(host):
    connection = http.client.HTTPConnection('127.0.0.1', PORT, timeout=10)
    connection.request('GET', '/overview', headers={'Host': host})
    return connection.getresponse().status


def try_words(name, command, room):
    outer, inner = started(command, room)
    assert is_healthy(), f'{name}: it serves, and is not healthy'
    for host in ['127.0.0.1', *[host for word in command if word.startswith('hosts=') for host in word[6:].split(',')]]:
        assert status(f'{host}:{PORT}') == 200, f'{name}: {host} is turned away'
    assert status('elsewhere.example') == 403, f'{name}: a name is taken that it was not told'
    os.kill(inner, signal.SIGTERM)
    time.sleep(0.5)
    assert outer.poll() is None, 'process 1 takes SIGTERM: STOPSIGNAL need not be SIGKILL'
    began = time.monotonic()
    os.kill(inner, STOP)
    outer.wait(10)
    took = time.monotonic() - began
    assert took < 1, f'{name}: the stop took {took:.1f} s'
    assert not is_healthy(), f'{name}: it ended, and is healthy'
    print(f'{name}: {len(command) - 1} words are taken, health is told, and {STOP.name} ends it at once')


def main():
    with tempfile.TemporaryDirectory() as room:
        for name, command in COMMANDS.items():
            assert command[0] == '/usr/bin/pulsar_broker', name
            try_words(name, command, room)


main()
