#!/usr/bin/env python3
# What brokerctl does beside a slow input, a slow output and a broker that ends; what it says where something goes wrong, each time one
# line and a status; and what its commands make, and leave behind. It wants Debian's python3-websocket, which it runs brokerctl with.
# ctl.py PROGRAM [port]
import json
import os
import pty
import re
import signal
import socket
import subprocess
import sys
import tempfile
import threading
import time
import urllib.request

from client import Broker, Client, consumer, producer, text_of

program = sys.argv[1]
port = int(sys.argv[2]) if len(sys.argv) > 2 else 18450
TOOL = ['/usr/bin/python3', os.path.join(os.path.dirname(os.path.abspath(__file__)), '../../tools/brokerctl')]
PLAIN = {**os.environ, 'BROKER': f'127.0.0.1:{port}', 'PYTHONUNBUFFERED': '1'}


started = []


def start(*words, **more):
    pipes = {'stdin': subprocess.PIPE, 'stdout': subprocess.PIPE, 'stderr': subprocess.PIPE}
    started.append(subprocess.Popen([*TOOL, *words], env=PLAIN, **{**pipes, **more}))
    return started[-1]


def said(*words, given=b'', status=0):
    """What the command writes, where it ends with the status; what it says of that is one line, or nothing."""
    done = subprocess.run([*TOOL, *words], input=given, env=PLAIN, capture_output=True, timeout=120)
    assert done.returncode == status, (words, done)
    assert done.stderr.count(b'\n') == (status != 0) and b'Traceback' not in done.stderr, (words, done.stderr.decode())
    return done.stdout if status == 0 else done.stderr.decode()


def lines(*words, **more):
    return said(*words, **more).decode().splitlines()


def overview():
    with urllib.request.urlopen(f'http://127.0.0.1:{port}/overview') as answer:
        return json.load(answer)


def topics():
    return {topic['name'].rsplit('/', 1)[1]: topic for topic in overview()['topics']}


def subscriptions(topic):
    return {sub['name']: sub for sub in topics()[topic]['subscriptions']}


def ok(words):
    print('ok', words, flush=True)


def pings_are_answered():
    """Longer than a silent client may be, nothing comes in, or nothing goes out. No second connection is tried."""
    writer = start('publish', 'quiet', '--again', '0')
    writer.stdin.write(b'a\n')
    writer.stdin.flush()
    time.sleep(5)
    out, error = writer.communicate(b'b\n')
    assert writer.returncode == 0 and len(out.splitlines()) == 2 and not error, (out, error)
    assert lines('consume', 'quiet', 's', '--wait', '0.5') == ['a', 'b']

    said('publish', 'much', given=b''.join(b'%03d' % number + b'x' * 1000 + b'\n' for number in range(120)))
    comes_slowly(start('consume', 'much', 's', '--again', '0', '--count', '120'), lambda: time.sleep(5))
    ok('pings are answered beside a quiet input and a slow output')


def comes_slowly(reader, meanwhile):
    """The 120 messages are in the pipe, and behind it, while something else is done; each comes once and is acknowledged."""
    meanwhile()
    out, error = reader.communicate()
    assert reader.returncode == 0 and not error, error
    assert [one[:3] for one in out.decode().splitlines()] == ['%03d' % number for number in range(120)]
    assert json.loads(said('stats', 'much', 's', '--json'))['live'] == 0


def comes_again(broker):
    """The broker is killed and started again under those who publish and consume."""
    said('create', 'over', 's', 'earliest')
    writer, reader = start('publish', 'over'), start('consume', 'over', 's')
    for letter in b'abc':
        writer.stdin.write(bytes([letter, 10]))
        writer.stdin.flush()
        assert writer.stdout.readline().endswith(b'=\n')
        assert reader.stdout.readline() == bytes([letter, 10])
        if letter != ord('c'):
            broker.kill()
            time.sleep(0.5)
            broker.start()
    out, error = writer.communicate()
    assert writer.returncode == 0 and not error, error
    reader.send_signal(signal.SIGINT)
    out, error = reader.communicate()
    assert reader.returncode == 130 and not out and not error, (out, error)
    assert lines('tail', 'over', '--all', '--wait', '1') == ['a', 'b', 'c']
    numbers = [str(number) for number in range(300)]
    said('create', 'midway', 's', 'earliest')
    writer, reader, looker = start('publish', 'midway'), start('consume', 'midway', 's'), start('tail', 'midway', '--all')
    writer.stdin.write('\n'.join(numbers).encode())
    writer.stdin.close()
    shown = [reader.stdout.readline()]
    broker.kill()
    broker.start()
    assert writer.wait() == 0 and len(writer.stdout.read().splitlines()) == 300, writer.stderr.read()
    while len(shown) < 300:
        shown.append(reader.stdout.readline())
    def killed():
        time.sleep(3)
        broker.kill()
        time.sleep(1)
        broker.start()
        time.sleep(2)
    said('seek', 'much', 's', 'earliest')
    comes_slowly(start('consume', 'much', 's', '--count', '120'), killed)
    said('seek', 'much', 's', 'earliest')
    comes_slowly(start('consume', 'much', 's', '--wait', '3'), killed)
    reader.send_signal(signal.SIGTERM)
    shown += reader.communicate()[0].splitlines()
    looked = [looker.stdout.readline().decode().strip() for _ in range(300)]
    looker.send_signal(signal.SIGTERM)
    assert looked == numbers and not looker.communicate()[0], looked
    assert reader.returncode == 143 and [one.decode().strip() for one in shown] == numbers == lines('tail', 'midway', '--all', '--wait', '2')
    ok('they come again after a broker that was killed')

    writer, reader = start('publish', 'over', '--again', '1s'), start('consume', 'over', 's', '--again', '0')
    looker = start('tail', 'over', '--again', '0')
    time.sleep(2)
    broker.kill()
    for one in (writer, reader, looker):
        if one is writer:
            out, error = b'', one.stderr.readline()
            one.stdin.close()
            one.wait()
        else:
            out, error = one.communicate()
        assert one.returncode == 1 and error.count(b'\n') == 1 and b'Traceback' not in error, error
    broker.start()
    for name in subscriptions_of('over'):
        if name.startswith('brokerctl-'):
            said('drop', 'over', name)
    ok('they end with one line where it stays away')


def subscriptions_of(topic):
    """Those of a topic that may be out of memory."""
    visitor = Client(port, f'/ws/v2/admin/persistent/public/default/{topic}')
    try:
        return list(subscriptions(topic))
    finally:
        visitor.close()


def goes_wrong():
    """Each ends with one line and a status."""
    said('publish', 'wrong', 'x')
    said('create', 'wrong', 's')
    about = [['publish', 'wrong', 'x'], ['consume', 'wrong', 's'], ['tail', 'wrong'], ['topics'], ['stats', 'wrong', 's'],
             ['seek', 'wrong', 's', '1h'],
             ['skip', 'wrong', 's', '1'], ['drop', 'wrong', 's'], ['create', 'wrong', 's'], ['peek', 'wrong', 's'], ['sessions', 'wrong'],
             ['disconnect', 'wrong', '1'], ['delete', 'wrong'], ['backup', 'wrong'], ['backup'], ['keep', 'wrong', 'all'],
             ['dead', 'list', 'wrong', 's'], ['dead', 'requeue', 'wrong', 's']]
    with socket.create_server(('127.0.0.1', 0)) as free:
        closed = f'127.0.0.1:{free.getsockname()[1]}'
    with strange_server() as strange:
        for words in about:
            assert 'refused' in said(*words, '--broker', closed, status=1)
            assert 'no broker' in said(*words, '--broker', strange, status=1)
    for address in ('127.0.0.1:notaport', 'http://127.0.0.1', 'ws://', '[::1'):
        said('publish', 'wrong', 'x', '--broker', address, status=1)
    assert 'not known' in said('stats', 'wrong', 's', '--broker', 'no-such-host.invalid:1', status=1)
    assert 'F11' in said('stats', 'wrong', 'nosuch', status=1)
    assert 'F20' in said('publish', 'a\tb', 'x', status=1)
    assert 'F17' in said('seek', 'wrong', 's', 'nonsense', status=1)
    assert 'F8' in said('seek', 'wrong', 's', 'CAAQBw==', status=1)
    assert 'F3' in said('disconnect', 'wrong', '999', status=1)
    assert 'No such file' in said('publish', 'wrong', '--file', '/no/such', status=1)
    assert '1,048,576' in said('publish', 'wrong', '--file', '/dev/zero', status=1)
    assert 'message 1 ' in said('publish', 'wrong', given=b'fits\n' + b'x' * 1048577 + b'\n', status=1)
    said('offline', 'list', '/no/such', status=1)
    said('offline', 'check', '/dev/null', status=1)
    said('offline', 'list', '/', status=1)
    for words in (['publish'], ['nosuch'], [], ['publish', 'a/b', 'x'], ['publish', 'a', 'x', '--property', 'bad'], ['skip', 'wrong', 's', '-1'],
                  ['peek', 'wrong', 's', '0'], ['peek', 'wrong', 's', '101'], ['keep', 'wrong', 'x'], ['keep', 'wrong', '1048577'],
                  ['consume', 'wrong', 's', '--wait', '1y'],
                  ['consume', 'wrong', ''], ['publish', b'a\xff', 'x'], ['publish', 'wrong', 'x', '--key', b'\xff'],
                  ['publish', 'wrong', 'x', '--file', 'f'], ['publish', 'wrong', 'x', '--name', 'dlq/n'], ['--json', 'peek', 'wrong', 's', '--raw'], ['stats', 'wrong', b'\xff'],
                  ['seek', 'wrong', 's', '99999999999999999'], ['offline', 'trim', 'file', '--older', 'soon']):
        said(*words, status=2)
    ok('what goes wrong is said in one line')


class strange_server:
    """Answers in a way that is no broker's."""

    def __enter__(self):
        self.listener = socket.create_server(('127.0.0.1', 0))
        threading.Thread(target=self.serve, daemon=True).start()
        return f'127.0.0.1:{self.listener.getsockname()[1]}'

    def serve(self):
        while True:
            try:
                client, _ = self.listener.accept()
            except OSError:
                return
            client.recv(4096)
            client.sendall(b'SSH-2.0-OpenSSH_9.2\r\n\r\n')
            client.close()

    def __exit__(self, *_):
        self.listener.shutdown(socket.SHUT_RDWR)
        self.listener.close()


def output_goes_wrong():
    """The output is full, closed, or nobody reads it."""
    def shell(line):
        done = subprocess.run(['bash', '-c', f'ctl() {{ {" ".join(TOOL)} "$@"; }}; {line}'], env=PLAIN, capture_output=True, timeout=60)
        assert b'Traceback' not in done.stderr and b'Exception' not in done.stderr, done.stderr.decode()
        return done.returncode, done.stderr.decode()
    said('publish', 'out', given=b'x\n' * 20)
    for command in ('topics', 'tail out --all --wait 5', 'publish out x', 'create out full'):
        status, error = shell(f'ctl {command} > /dev/full')
        assert status == 1 and error == 'brokerctl: standard output: No space left on device\n', (command, status, error)
        status, error = shell(f'ctl {command} >&-')
        assert status == 1 and error == 'brokerctl: standard output is closed\n', (command, status, error)
    status, error = shell('{ ctl tail out --all; echo $? >&2; } | head -1')
    assert error == 'brokerctl: nobody reads the output any more\n141\n', error
    assert shell('{ sleep 3; echo x; } | ctl publish out | true')[1] == 'brokerctl: nobody reads the output any more\n'
    assert shell('ctl publish out <&-') == (0, '')
    assert shell('ctl publish out < /')[0] == 1
    assert shell('ctl nosuch 2>&-') == (2, '')
    assert shell('ctl --help | true')[1] in ('', 'brokerctl: nobody reads the output any more\n')
    until(lambda: not any(name.startswith('brokerctl-') for name in subscriptions('out')))
    ok('an output that is full, closed or not read is said')


def signals_end_it():
    """Nothing stays of a look that a signal ends, whichever that is."""
    said('create', 'ends', 's')
    for number in (signal.SIGINT, signal.SIGTERM, signal.SIGHUP, signal.SIGKILL):
        looker = start('tail', 'ends')
        until(lambda: len(subscriptions('ends')) == 2)
        looker.send_signal(number)
        out, error = looker.communicate(timeout=20)
        ended = -number if number == signal.SIGKILL else 128 + number
        assert looker.returncode == ended and not error, (number, looker.returncode, error)
        until(lambda: list(subscriptions('ends')) == ['s'])
    ok('a signal ends a look without a trace')


def until(is_so):
    for _ in range(400):
        if is_so():
            return
        time.sleep(0.05)
    raise AssertionError('it never came')


def names_and_many():
    """A name and numbers store each message once. Many are stored by one commit."""
    said('publish', 'once', '--name', 'n', 'a', 'b')
    assert lines('publish', 'once', '--name', 'n', 'a', 'b', 'c')[:2] == ['duplicate'] * 2
    said('publish', 'once', '--name', 'n', '--first', '3', given=b'd\n')
    assert lines('tail', 'once', '--all', '--wait', '1') == ['a', 'b', 'c', 'd']
    before = overview()['stores']['count']
    ids = lines('publish', 'many', given=b''.join(b'%d\n' % number for number in range(400)))
    assert len(set(ids)) == 400 and overview()['stores']['count'] - before < 100
    assert lines('tail', 'many', '--all', '--wait', '2') == [str(number) for number in range(400)]
    ok('a name stores once, and many are under way')


def bytes_as_they_are(room):
    content = bytes(range(256)) + b'\n\n' + b'\xff' * 70_000
    with open(f'{room}/content', 'wb') as file:
        file.write(content)
    said('create', 'binary', 's', 'earliest')
    said('publish', 'binary', '--file', f'{room}/content')
    said('publish', 'binary', '--file', '-', given=content)
    assert said('peek', 'binary', 's', '1', '--raw') == content
    assert said('consume', 'binary', 's', '--raw', '--count', '2') == content * 2
    said('publish', 'binary', b'\xff\x01')
    assert said('consume', 'binary', 's', '--raw', '--count', '1') == b'\xff\x01'
    ok('bytes come as they are')


def before_and_after():
    said('publish', 'json', 'x')
    said('create', 'json', 's', 'earliest')
    for words in (['--json', 'stats', 'json', 's'], ['stats', '--json', 'json', 's'], ['stats', 'json', 's', '--json']):
        assert json.loads(said(*words))['live'] == 1
    letter = ['--wait', '1', 'dead', 'list', 'json', 's', '--letters', 'json']
    assert json.loads(said('--json', *letter[2:]))['payload'] == json.loads(said(*letter[2:], '--json', '--wait', '1s'))['payload']
    ok('--json stands before or after the command')


def times_of_all_kinds():
    said('publish', 'times', 'x')
    said('create', 'times', 's')
    live = lambda: json.loads(said('stats', 'times', 's', '--json'))['live']
    for moment, left in (('1h', 1), ('0s', 0), ('7d', 1), ('2999-01-01', 0), ('2020-01-01T08:00', 1),
                         ('2999-12-31T23:59:59Z', 0), ('2020-01-01T08:00:00+02:00', 1), ('latest', 0), ('0', 1)):
        said('seek', 'times', 's', moment)
        assert live() == left, moment
    ok('times are ages, moments by ISO 8601, or milliseconds')


def looks_make_nothing():
    before = set(topics())
    for words in (['consume', 'misspelt', 's'], ['tail', 'misspelt'], ['dead', 'list', 'misspelt', 's'], ['dead', 'requeue', 'misspelt', 's'],
                  ['stats', 'misspelt', 's'], ['peek', 'misspelt', 's'], ['delete', 'misspelt']):
        said(*words, status=1)
    assert 'there is no topic' in said('sessions', 'misspelt', status=1)
    assert set(topics()) == before
    assert lines('consume', 'misspelt', 's', '--create', '--wait', '0.2') == [] and list(subscriptions('misspelt')) == ['s']
    said('create', 'first', 's')
    assert list(subscriptions('first')) == ['s']
    said('publish', 'first', 'x')
    assert lines('consume', 'first', 's', '--count', '1') == ['x']
    assert any(line.startswith('first: ') for line in lines('topics'))
    ok('a look makes nothing, and create makes the topic too')


def asks_first():
    """On a terminal."""
    def on_terminal(answer, *words):
        ours, theirs = pty.openpty()
        child = start(*words, stdin=theirs, stdout=theirs, stderr=theirs)
        os.close(theirs)
        if answer:
            os.write(ours, answer + b'\n')
        heard = b''
        try:
            while got := os.read(ours, 4096):
                heard += got
        except OSError:
            pass  # the other end is closed
        os.close(ours)
        return child.wait(), heard
    said('create', 'asked', 's')
    for words, gone in ((['drop', 'asked', 's'], lambda: not subscriptions('asked')), (['delete', 'asked'], lambda: 'asked' not in topics())):
        for answer in (b'n', b''):
            status, heard = on_terminal(answer or b'\x04', *words)
            assert status == 1 and b'y/N' in heard and not gone(), heard
        status, heard = on_terminal(b'y', *words)
        assert status == 0 and gone(), heard
    said('create', 'asked', 's')
    status, heard = on_terminal(None, 'delete', 'asked', '--yes')
    assert status == 0 and b'y/N' not in heard and 'asked' not in topics()
    ok('it asks before it deletes')


def takes_no_more():
    said('publish', 'few', '1', '2', '3', '4', '5')
    said('create', 'few', 's', 'earliest')
    assert lines('consume', 'few', 's', '--type', 'Shared', '--count', '2') == ['1', '2']
    seen = subscriptions('few')['s']
    assert (seen['delivered'], seen['waiting'], seen['acknowledged']) == (2, 3, 2), seen
    ok('a number of messages is all that it takes')


def letters_come_back():
    reader = consumer(port, 'letters', 's', '?subscriptionType=Shared&maxRedeliverCount=1&negativeAckRedeliveryDelay=10')
    said('publish', 'letters', 'l')
    for _ in range(2):
        reader.send(json.dumps({'type': 'negativeAcknowledge', 'messageId': reader.receive()['messageId']}))
    until(lambda: 'letters-s-DLQ' in topics() and topics()['letters-s-DLQ']['durable'] == 1)
    moved = r'\d{4}-\d\d-\d\dT\d\d:\d\d:\d\d\.\d{3}Z letters s l'
    for more in ([], ['--count', '1']):
        shown = lines('dead', 'list', 'letters', 's', *more)
        assert len(shown) == 1 and re.fullmatch(moved, shown[0]), shown
    letter = json.loads(said('dead', 'list', 'letters', 's', '--json'))
    assert (letter['topic'], letter['subscription'], letter['sequenceId']) == ('public/default/letters', 's', 0), letter
    assert letter['producerName'] == 'dlq/public/default/letters/s', letter
    assert said('dead', 'list', 'letters', 's', '--raw') == b'l'
    assert subscriptions('letters-s-DLQ') == {}
    assert lines('dead', 'requeue', 'letters', 's') == ['1 letter is published to letters again, so that every subscription gets it']
    ok('dead letters are listed, and published again')


def copies_have_paths(folder):
    path = lines('backup', '--folder', folder)[0]
    assert os.path.isfile(path) and os.path.isfile(path + '-wal'), path
    ok('a copy has its path')


with tempfile.TemporaryDirectory(dir=os.environ.get('ROOM')) as room:
    broker = Broker(program, port, folder=room, more=('silence=1000ms,1000ms', f'backup={room}'))
    try:
        pings_are_answered()
        comes_again(broker)
        goes_wrong()
        output_goes_wrong()
        signals_end_it()
        names_and_many()
        bytes_as_they_are(room)
        before_and_after()
        times_of_all_kinds()
        looks_make_nothing()
        asks_first()
        takes_no_more()
        letters_come_back()
        copies_have_paths(room)
    finally:
        for one in started:
            one.kill()
        broker.kill()
