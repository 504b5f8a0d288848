#!/usr/bin/env python3
# The page that the broker serves, in a browser: makes traffic, compares the numbers on the page with what was published, takes
# pictures, kills the broker and starts it again; and shows the page what no broker of a test has, as 200 topics of 64
# subscriptions. Debian's package: chromium.
# page.py PROGRAM [port] [seconds of traffic] [folder for pictures]
import contextlib
import http.server
import json
import os
import sys
import threading
import time
import urllib.parse

from browser import Browser
from client import Broker, consumer, producer, text_of

program = sys.argv[1]
port = int(sys.argv[2]) if len(sys.argv) > 2 else 18094
seconds = float(sys.argv[3]) if len(sys.argv) > 3 else 20
pictures = sys.argv[4] if len(sys.argv) > 4 else None
PAGE = os.path.join(os.path.dirname(os.path.abspath(__file__)), '../../crates/status_pages/page/index.html')

# Names that do harm where a page takes them for its own text. A name has no slash.
EVIL_TOPIC, EVIL_SUB = '<img src=x onerror="window.hurt=1">', '<b onmouseover=alert(1)>&amp;"\''
HARM = 'window.hurt === undefined && !document.querySelector("img, td b, li b, [onerror]")'


# ---- what is read off the page


def number(text):
    return float(text.replace(',', ''))


def rows_of(browser, table):
    """The rows by name, each with its numbers by the titles of their columns."""
    rows = browser.evaluate(f'''[...document.querySelectorAll("#{table} > tbody > tr:not(.more)")].map(row => [row.querySelector("bdi").textContent,
        [...row.cells].slice(2).map(cell => [cell.title, cell.textContent])])''')
    return {name: dict(cells) for name, cells in rows}


def tile(browser, place):
    return number(browser.evaluate(f'document.querySelectorAll("section b")[{place}].textContent').split()[0])


def wrong(browser):
    return browser.evaluate('[...document.querySelectorAll("#wrong li")].map(one => one.textContent)')


def until(what, found, wanted, patience=20):
    """What is found becomes what is wanted."""
    ends = time.monotonic() + patience
    while (has := found()) != wanted and time.monotonic() < ends:
        time.sleep(0.2)
    assert has == wanted, f'{what}: {has}, and not {wanted}'
    print(f'    {what}')


# ---- traffic


class Reader(threading.Thread):
    """A consumer that acknowledges what comes, all but so many of each ten messages, which it gives back for ever or keeps."""

    def __init__(self, topic, subscription, kind, refuses=0, keeps=0, pause=0.0, query=''):
        super().__init__(daemon=True)
        self.refuses, self.keeps, self.pause = refuses, keeps, pause
        self.client = consumer(port, topic, subscription, f'?subscriptionType={kind}&subscriptionInitialPosition=Earliest{query}')
        self.client.sock.settimeout(None)
        self.start()

    def run(self):
        with contextlib.suppress(OSError, ConnectionError, TypeError):
            while True:
                self.answer(self.client.receive())

    def answer(self, message):
        time.sleep(self.pause)
        place = int(message['properties']['number']) % 10
        if place >= self.keeps:
            said = {'type': 'negativeAcknowledge'} if place < self.refuses else {}
            self.client.send(json.dumps(said | {'messageId': message['messageId']}))


class Writer:
    """A producer, and how many messages it has published."""

    def __init__(self, topic):
        self.client, self.count = producer(port, topic), 0

    def publish(self, count):
        said = json.loads(text_of(b'hello'))
        for number in range(self.count, self.count + count):
            self.client.send(json.dumps(said | {'key': f'k{number % 16}', 'properties': {'number': number}}))
        for _ in range(count):
            assert self.client.receive()['result'] == 'ok'
        self.count += count


def begin():
    """The consumers, and the producers by topic."""
    consumer(port, 'orders', 'audit', '?subscriptionType=Shared').leave()  # a subscription that nobody reads
    again = '&negativeAckRedeliveryDelay=1&maxRedeliverCount=2'
    for topic, subscription, kind, more in [
            ('orders', 'billing', 'Exclusive', {'pause': 0.07}), ('orders', 'ledger', 'Failover', {}), ('orders', 'ledger', 'Failover', {}),
            ('orders', 'mail', 'Shared', {}), ('orders', 'mail', 'Shared', {}), ('orders', 'stock', 'Key_Shared', {}),
            ('orders', 'stock', 'Key_Shared', {}), ('payments', 'reports', 'Shared', {'refuses': 1, 'query': again}),
            ('payments', 'held', 'Shared', {'keeps': 10, 'query': '&receiverQueueSize=7'})]:
        Reader(topic, subscription, kind, **more)
    return {'orders': Writer('orders'), 'payments': Writer('payments')}


def do_evil(writers):
    """A topic and a subscription with names that do harm."""
    topic = urllib.parse.quote(EVIL_TOPIC, safe='')
    Reader(topic, urllib.parse.quote(EVIL_SUB, safe=''), 'Exclusive', keeps=10, query='&receiverQueueSize=1')
    writers[EVIL_TOPIC] = Writer(topic)
    writers[EVIL_TOPIC].publish(3)


def traffic(writers):
    """Publishes for so many seconds, now more and now less; gives how many a second in the last ten."""
    begun, counts = time.monotonic(), []
    while (passed := time.monotonic() - begun) < seconds:
        before = time.monotonic()
        writers['orders'].publish(6)
        writers['payments'].publish(2)
        counts.append((time.monotonic(), sum(one.count for one in writers.values())))
        pause = 0.3 if passed / seconds % 0.5 < 0.2 else 0.8
        time.sleep(max(0.0, before + pause - time.monotonic()))
    late = [one for one in counts if one[0] > counts[-1][0] - 10]
    return (late[-1][1] - late[0][1]) / (late[-1][0] - late[0][0])


def compare(browser, writers):
    """Once all is still, the page shows what was published, and what became of it."""
    orders, payments = writers['orders'].count, writers['payments'].count
    dead = (payments + 9) // 10
    wanted = {'orders / billing': (0, 0, 1, 0), 'orders / ledger': (0, 0, 2, 0), 'orders / mail': (0, 0, 2, 0),
              'orders / stock': (0, 0, 2, 0), 'orders / audit': (orders, 0, 0, 0), 'payments / reports': (0, 0, 1, dead),
              'payments / held': (payments, 7, 1, 0), f'{EVIL_TOPIC} / {EVIL_SUB}': (3, 1, 1, 0)}
    titles = ('Backlog', 'Pending', 'Consumers', 'Dead letters')
    until(f'{len(wanted)} subscriptions with their backlogs, consumers and dead letters', lambda: {
        name: tuple(int(number(row[title])) for title in titles) for name, row in rows_of(browser, 'subs').items()}, wanted, 120)
    kept = {'orders': orders, 'payments': payments, EVIL_TOPIC: 3, 'payments-reports-DLQ': dead}
    until(f'{len(kept)} topics with what they keep', lambda: {
        name: int(number(row['Kept'])) for name, row in rows_of(browser, 'topics').items()}, kept)
    until('the backlog of all', lambda: tile(browser, 2), orders + payments + 3)
    # (names stand between marks that keep their direction to them)
    words = [line.replace('\u2068', '').replace('\u2069', '') for line in wrong(browser)]
    assert any(line.startswith('orders / audit: no consumer') and f'and {orders:,} waiting' in line for line in words), words
    assert f'payments / reports: {dead:,} dead letter{"s"[dead == 1:]} in payments-reports-DLQ' in words, words
    print('    what is wrong, in words')


def take_pictures(browser):
    """Of the whole page, and of what a phone shows of it."""
    if not pictures:
        return
    os.makedirs(pictures, exist_ok=True)
    for name, dark in (('wide', False), ('dark', True)):
        browser.resize(1150, browser.evaluate('document.documentElement.scrollHeight') + 20, dark=dark)
        browser.picture(f'{pictures}/{name}.png')
    browser.resize(390, 844, phone=True)
    browser.picture(f'{pictures}/phone.png')
    browser.resize(1150, 800)


def gone_and_back(browser, broker):
    """The page says since when the broker has not answered, and goes on when it is back."""
    gone = 'document.getElementById("gone").textContent'
    before = browser.evaluate('pasts.get("persistent://public/default/orders\\naudit").line.findLastIndex(value => value >= 0)')
    assert before == 299, before
    broker.kill()
    until('the broker is gone', lambda: browser.evaluate(f'{gone}.startsWith("The broker has not answered since ")'), True, 30)
    broker.start()
    until('the broker is back', lambda: browser.evaluate(gone), '', 30)
    consumer(port, 'orders', 'audit', '?subscriptionType=Shared').leave()
    until('the line goes on behind a gap', lambda: browser.evaluate(
        'document.querySelector("#subs path:last-child")?.getAttribute("d").split("M").length'), 3)


def with_broker(browser):
    broker = Broker(program, port)
    try:
        browser.open(f'http://127.0.0.1:{port}/')
        until('nothing is wrong with a fresh broker', lambda: browser.evaluate(
            'document.getElementById("wrong")?.textContent'), 'Nothing looks wrong.')
        writers = begin()
        rate = traffic(writers)
        shown = tile(browser, 0)
        assert rate / 2 < shown < rate * 2, (rate, shown)
        print(f'    {shown} published a second, and {rate:.1f} were')
        take_pictures(browser)
        do_evil(writers)
        compare(browser, writers)
        assert browser.evaluate(HARM)
        gone_and_back(browser, broker)
        assert browser.requests == {f'http://127.0.0.1:{port}/', f'http://127.0.0.1:{port}/overview'}, browser.requests
    finally:
        broker.kill()


# ---- what no broker of a test has


class Stand(http.server.BaseHTTPRequestHandler):
    """Serves the page, and an overview that is made up."""
    seen = {}

    def do_GET(self):
        with open(PAGE, 'rb') as page:
            body, kind = (page.read(), 'text/html') if self.path == '/' else (json.dumps(Stand.seen).encode(), 'application/json')
        self.send_response(200)
        self.send_header('Content-Type', f'{kind}; charset=utf-8')
        self.send_header('Content-Length', str(len(body)))
        self.end_headers()
        self.wfile.write(body)

    def log_message(self, *words):
        pass


def made_up(topics, now, **more):
    return {'closed': False, 'full': False, 'loads': 0, 'now': now, 'open': False, 'refusals': [], 'sessions': 0, 'silenced': 0,
            'started': now - 7200000, 'stores': {'count': 0, 'micros': 0}, 'topics': topics, 'unloads': 0, 'version': '0'} | more


def topic_of(name, kept, subs, **more):
    return {'duplicates': 0, 'durable': kept, 'gone': 0, 'kept': kept, 'name': f'persistent://public/default/{name}', 'producers': 0,
            'published': kept, 'refused': 0, 'resting': False, 'room': 1048576 - kept, 'sessions': [], 'subscriptions': subs} | more


def sub_of(name, waiting, consumers, oldest=1, **more):
    return {'acknowledged': 0, 'acknowledgements': 0, 'consumers': consumers, 'dead': 0, 'deaths': 0, 'delivered': 0, 'kind': 'Shared',
            'name': name, 'oldest': oldest, 'pending': 0, 'redelivered': 5, 'waiting': waiting} | more


def seen_now(browser, now):
    until(f'a look at {now}', lambda: browser.evaluate('typeof seen === "object" && seen.now'), now)


def full_and_alone(browser, url):
    """A topic that is nearly full, and a subscription whose consumer went three minutes ago. The clock is the broker's."""
    start = 1800000000000
    for after, consumers in ((0, 1), (2000, 0), (182000, 0)):
        Stand.seen = made_up([topic_of(EVIL_TOPIC, 943719, [sub_of(EVIL_SUB, 12000, consumers, start - 7200000)])], start + after)
        if after == 0:
            browser.open(url)
        seen_now(browser, start + after)
    name = f'{EVIL_TOPIC} / {EVIL_SUB}'
    until('what is wrong', lambda: wrong(browser), [f'{EVIL_TOPIC} is 90 % full', f'{name}: no consumer for 3 minutes and 12,000 waiting, '
                                                  'the oldest for 2 hours'])
    row = rows_of(browser, 'subs')[name]
    assert (row['Backlog'], row['Oldest'], row['Redelivered']) == ('12,000', '2 hours', '5'), row
    assert browser.evaluate(HARM)
    Stand.seen = made_up([], start + 300000, closed=True)
    until('a store that failed', lambda: wrong(browser), ['Nothing is stored any more: the broker wrote to its standard error why'])


def at_rest(browser, url):
    """A broker without topics says what to do; one whose topics are out of memory does not say that nothing is wrong."""
    start = 1800000000000
    Stand.seen = made_up([], start)
    browser.open(url)
    seen_now(browser, start)
    assert browser.evaluate('document.getElementById("empty").hidden === false && document.getElementById("all").hidden === true')
    days = start - 3 * 86400000
    letters = topic_of('mail-late-DLQ', 4, [], resting=True)
    Stand.seen = made_up([topic_of('clicks', 219, [sub_of('archive', 219, 0, days)], resting=True), letters,
                          topic_of('mail', 9, [sub_of('late', 0, 1)]), topic_of('alone', 7, [], resting=True)], start + 2000)
    seen_now(browser, start + 2000)
    until('what waits at rest', lambda: wrong(browser), ['clicks / archive: nobody is at it and 219 waiting, the oldest for 3 days',
                                                         'mail / late: 4 dead letters in \u2068mail-late-DLQ\u2069'])
    assert tile(browser, 2) == 219 and 'at rest' in browser.evaluate('document.querySelector("#subs tbody tr").textContent')
    Stand.seen = made_up([topic_of('alone', 7, [], resting=True)], start + 4000)
    seen_now(browser, start + 4000)
    assert browser.evaluate('document.getElementById("wrong").textContent').endswith('but 1 topic keeps messages that none is to get.')


def opened(browser, url):
    """A row that opens tells of its sessions and its rule, and how to ask for more, and stays open. No letter turns others about."""
    start, name = 1800000000000, 'a\u202eb'
    session = {'address': '192.0.2.1:5', 'number': 7, 'pending': 2, 'role': 'consumer', 'room': 9, 'since': start - 60000, 'subscription': "it's"}
    topics = [topic_of(name, 3, [sub_of("it's", 3, 1, unused=3 * 86400000)], rule={'messages': 1000}, sessions=[session])]
    Stand.seen = made_up(topics, start)
    browser.open(url)
    seen_now(browser, start)
    assert list(rows_of(browser, 'subs')) == ["a[U+202E]b / it's"]
    browser.evaluate('document.querySelector("#subs tbody button").click()')
    Stand.seen = made_up(topics, start + 2000)
    seen_now(browser, start + 2000)
    lines = browser.evaluate('[...document.querySelectorAll(".more div")].map(one => one.textContent)')
    assert any('the last 1,000 messages' in line for line in lines), lines
    assert any('unused for 3 days' in line for line in lines), lines
    begun = "brokerctl disconnect $'a\\U0000202Eb' 7session 7, a consumer, from 192.0.2.1:5, for 62 seconds, 2 pending, room for 9"
    assert begun in lines, lines
    assert "brokerctl peek $'a\\U0000202Eb' 'it'\\''s'its next messages" in lines, lines
    print('    an open row')


def slow_once(browser, url):
    """A disk is slow while it is: what was before the first look counts for nothing, and what is over fades."""
    start, slow = 1800000000000, 'The disk is slow: a store takes 400 ms'
    for after, count, micros, told in ((0, 1000, 900000000, []), (2000, 1010, 904000000, [slow]), (30000, 1010, 904000000, [])):
        Stand.seen = made_up([], start + after, stores={'count': count, 'micros': micros})
        if after == 0:
            browser.open(url)
        seen_now(browser, start + after)
        until('what is said of the disk', lambda: wrong(browser), told)


def crowded(browser, url):
    """200 topics of 64 subscriptions: the slowest are shown, the others when asked for, and the page keeps the processor free."""
    now = int(time.time() * 1000)
    topics = [topic_of(f't{one}', 1000 * one, [sub_of(f's{two}', one * 64 + two, 1) for two in range(64)]) for one in range(200)]
    Stand.seen = made_up(topics, now)
    browser.open(url)
    count = 'document.querySelectorAll("#subs tbody tr").length'
    until('twenty rows', lambda: browser.evaluate(count), 20)
    assert list(rows_of(browser, 'subs'))[:2] == ['t199 / s63', 't199 / s62']
    before, looks = browser.worked(), browser.evaluate('times.length')
    time.sleep(12)
    each = (browser.worked() - before) / (browser.evaluate('times.length') - looks)
    print(f'    {each * 1000:.0f} ms of the processor for each look at 12,800 subscriptions, and {len(json.dumps(Stand.seen)):,} bytes')
    assert each < 0.5, each
    browser.evaluate('document.querySelector("#subs + button").click()')
    assert browser.evaluate(count) == 120
    browser.evaluate('document.getElementById("find").value = "T7 / S1"; document.getElementById("find").oninput()')
    assert list(rows_of(browser, 'subs')) == [f't7 / s{one}' for one in (19, 18, 17, 16, 15, 14, 13, 12, 11, 10, 1)]
    print('    more rows, and those that are sought')


def with_stand(browser):
    server = http.server.ThreadingHTTPServer(('127.0.0.1', 0), Stand)
    threading.Thread(target=server.serve_forever, daemon=True).start()
    url = f'http://127.0.0.1:{server.server_address[1]}/'
    full_and_alone(browser, url)
    at_rest(browser, url)
    opened(browser, url)
    slow_once(browser, url)
    crowded(browser, url)
    server.shutdown()


browser = Browser()
try:
    browser.resize(1150, 800)
    print('beside a broker')
    with_broker(browser)
    print('beside what stands in for one')
    with_stand(browser)
    assert not browser.errors, browser.errors
finally:
    browser.close()
