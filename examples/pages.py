#!/usr/bin/env python3
# Runs what README.md and docs/GUIDE.md show: the commands of their blocks marked `sh`, the programs of those marked
# `python` or `js`, and the texts of their blocks that begin with `open`. Each page has a broker of its own, over an empty
# file.
# pages.py program port
import json
import os
import re
import shlex
import signal
import subprocess
import sys
import tempfile
import time

import websocket

program, port = os.path.abspath(sys.argv[1]), sys.argv[2]
root = os.path.dirname(os.path.dirname(os.path.abspath(__file__)))
PLACE = 'crates/pulsar_broker/out/pulsar_broker'
CALLS = {'python': ['/usr/bin/python3', '-c'], 'js': ['node', '-e']}      # in the folder of the examples
PROVES = ('(cd crates/', 'bash .ci/run')      # these want the kit, and an hour


def alike(shown, came):
    """A text is the one that is shown, but for the moment of a publish."""
    moment = re.compile(r'"publishTime":"[^"]*"')
    return moment.sub('', shown) == moment.sub('', came)


class Page:
    def __init__(self, name, room):
        self.name, self.room = name, room
        self.links, self.running = {}, []
        self.commands = self.programs = self.texts = 0

    def start(self, command, folder=root):
        said = open(os.path.join(self.room, f'said-{len(self.running)}'), 'w+')
        process = subprocess.Popen(command, cwd=folder, stdin=subprocess.PIPE, stdout=said, stderr=said,
                                   env={'NODE_PATH': '/usr/share/nodejs', **os.environ}, start_new_session=True)
        self.running.append(process)
        return process, said

    def broker(self):
        _, said = self.start([program, os.path.join(self.room, 'broker.db'), f'127.0.0.1:{port}', '4'])
        for _ in range(6000):
            said.seek(0)
            if 'listening' in said.read():
                return
            time.sleep(0.05)
        sys.exit('the broker did not start')

    def command(self, line):
        """A command ends well, or waits for messages."""
        if line.startswith(PROVES) or line.startswith(PLACE):
            return
        words = shlex.split(line.replace('127.0.0.1:8080', f'127.0.0.1:{port}'), comments=True)
        words = ['/usr/bin/python3' if word == 'python3' else word for word in words]
        process, said = self.start(words)
        try:
            status = process.wait(timeout=4 if words[0] == 'wsdump' or 'consumer' in line else 300)
        except subprocess.TimeoutExpired:
            status = 0
        said.seek(0)
        if status != 0:
            sys.exit(f'{self.name}: {line}\nended with {status}: {said.read()}')
        self.commands += 1

    def example(self, kind, block):
        """A program that is shown prints something, and ends well or waits for messages."""
        block = block.replace('127.0.0.1:8080', f'127.0.0.1:{port}')
        process, said = self.start([*CALLS[kind], block], os.path.join(root, 'examples'))
        try:
            status = process.wait(timeout=4)
        except subprocess.TimeoutExpired:
            status = 0
        said.seek(0)
        text = said.read()
        if status != 0 or not text:
            sys.exit(f'{self.name}: a program in {kind} ended with {status}: {text}')
        self.programs += 1

    def step(self, line):
        words = line.split(None, 2)
        self.texts += 1
        if words[0] == 'open':
            self.links[words[1]] = websocket.create_connection(f'ws://127.0.0.1:{port}{words[2]}', timeout=60)
        elif words[0] == 'close':
            self.links.pop(words[1]).close()
        elif words[1] == '>':
            self.links[words[0]].send(words[2])
        else:
            kind, data = self.links[words[0]].recv_data()
            if kind == websocket.ABNF.OPCODE_CLOSE:
                came = f'closed {int.from_bytes(data[:2], "big")} {data[2:].decode()}'
            else:
                came = f'< {data.decode()}'
            shown = f'{words[1]} {words[2]}'
            if not alike(shown, came):
                sys.exit(f'{self.name}: shown: {shown}\n{" " * len(self.name)}   came: {came}')

    def run(self):
        with open(os.path.join(root, self.name)) as page:
            blocks = re.findall(r'^```(\w*)\n(.*?)^```$', page.read(), re.M | re.S)
        self.broker()
        for kind, block in blocks:
            lines = [line for line in block.splitlines() if line.strip()]
            if kind == 'sh':
                for line in lines:
                    self.command(line)
                self.rest()
            elif kind in CALLS:
                self.example(kind, block)
                self.rest()
            elif lines and lines[0].startswith('open '):
                for line in lines:
                    self.step(line)
        print(f'{self.name}: {self.commands} commands, {self.programs} programs and {self.texts} lines of texts '
              'do as they are shown')

    def rest(self, broker=False):
        for process in self.running[0 if broker else 1:]:
            if process.poll() is None:
                os.killpg(process.pid, signal.SIGKILL)
                process.wait()
        del self.running[0 if broker else 1:]


for name in ('README.md', 'docs/GUIDE.md'):
    with tempfile.TemporaryDirectory() as room:
        page = Page(name, room)
        try:
            page.run()
        finally:
            page.rest(broker=True)
