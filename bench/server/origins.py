#!/usr/bin/env python3
# A web page of another origin in a browser: it neither publishes, nor reads, nor looks at a broker of its machine, while the
# broker's own page works; and it does all of that once its origin is named. Debian's package: chromium.
# origins.py PROGRAM [port]      It also uses the port after that one.
import http.server
import sys
import threading
import time

from browser import Browser
from client import Broker, producer, text_of

program = sys.argv[1]
port = int(sys.argv[2]) if len(sys.argv) > 2 else 18130
foreign = f'http://evil.localhost:{port + 1}'
# What a page tries; each gives `let in` or `refused`.
TRIES = '''
const opened = path => new Promise(resolve => {
    const socket = new WebSocket('ws://127.0.0.1:PORT/ws/v2/' + path);
    socket.onopen = () => resolve('let in');
    socket.onerror = () => resolve('refused');
});
const fetched = async path => {
    try { return (await fetch('http://127.0.0.1:PORT' + path)).ok ? 'let in' : 'refused'; } catch { return 'refused'; }
};
const tries = async () => ({
    producer: await opened('producer/persistent/public/default/t'), consumer: await opened('consumer/persistent/public/default/t/page'),
    admin: await opened('admin/persistent/public/default/t'), overview: await fetched('/overview'), metrics: await fetched('/metrics'),
});
'''.replace('PORT', str(port))


class Empty(http.server.BaseHTTPRequestHandler):
    def do_GET(self):
        self.send_response(200)
        self.send_header('Content-Type', 'text/html')
        self.end_headers()
        self.wfile.write(b'<!doctype html><title>foreign</title>')

    def log_message(self, *_):
        pass


def waits(what, found, wanted, patience=20):
    ends = time.monotonic() + patience
    while (has := found()) != wanted:
        assert time.monotonic() < ends, (what, has)
        time.sleep(0.2)


server = http.server.ThreadingHTTPServer(('127.0.0.1', port + 1), Empty)
threading.Thread(target=server.serve_forever, daemon=True).start()
broker = Broker(program, port, 2)
browser = Browser()
try:
    writer = producer(port, 't')
    writer.send(text_of(b'a secret'))
    assert writer.receive()['result'] == 'ok'
    browser.open(foreign)
    waits('the foreign page', lambda: browser.evaluate('location.origin'), foreign)
    found = browser.evaluate(TRIES + 'tries()')
    assert set(found.values()) == {'refused'}, found
    print(f'ok {foreign}: {found}')
    browser.open(f'http://127.0.0.1:{port}/')
    waits('the page shows the topic', lambda: browser.evaluate('document.querySelector("#topics tbody bdi")?.textContent'), 't')
    assert 'Everybody' not in browser.evaluate('document.querySelector("#wrong").textContent')
    assert not browser.errors, browser.errors
    print('ok the page of the broker works')
    broker.kill()
    broker.more = [f'origins={foreign}']
    broker.start()
    browser.open(foreign)
    waits('the foreign page', lambda: browser.evaluate('location.origin'), foreign)
    found = browser.evaluate(TRIES + 'tries()')
    assert {name: found[name] for name in ('producer', 'consumer', 'admin')} == dict.fromkeys(('producer', 'consumer', 'admin'), 'let in'), found
    print(f'ok once it is named: {found}')
finally:
    browser.close()
    broker.kill()
