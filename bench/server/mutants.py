#!/usr/bin/env python3
# Texts, message ids and routes that were mutated at random: each text is answered, or closes its session with a number, and
# each route opens a session or is refused by number. In the end a message goes through.
# mutants.py PROGRAM [texts] [port] [first number]
import json
import random
import re
import sys
from concurrent.futures import ProcessPoolExecutor

from client import Broker, Client, consumer, frame, producer, text_of

program = sys.argv[1]
count = int(sys.argv[2]) if len(sys.argv) > 2 else 1_000_000
port = int(sys.argv[3]) if len(sys.argv) > 3 else 18089
first = int(sys.argv[4]) if len(sys.argv) > 4 else 0
LANES, BATCH = 4, 100
ALPHABET = '{}[]":,\\ \t\n0123456789.-+eEtrufalsn/=AZaz_%&?\u00e9\u2028\U0001f600\x00\x7f'
NUMBERS = ['0', '-1', '2147483647', '2147483648', '9223372036854775807', '18446744073709551616', '1e3', '-0', '1.5', '00']
PUBLISHES = [
    '{"payload":"aGk=","context":"7"}', '{"payload":"","properties":{"a":"b","n":3,"t":true},"key":"k","context":12}',
    '{"context":null,"payload":"AAECAwQ=","replicationClusters":["x"]}', '{"key":"\\u00e9","payload":"aGk"}',
]
COMMANDS = [
    '{"messageId":"CAAQAA=="}', '{"type":"acknowledgeCumulative","messageId":"CAAQAQ=="}',
    '{"type":"negativeAcknowledge","messageId":"CAAQrAI="}', '{"type":"permit","permitMessages":3}', '{"type":"isEndOfTopic"}',
]
ORDERS = [
    '{"type":"seek","subscription":"s","position":"earliest"}', '{"type":"seek","subscription":"s","position":"CAAQAA=="}',
    '{"type":"seekTime","subscription":"s","time":253402300799999}', '{"type":"skip","subscription":"s","messages":3}',
    '{"type":"dropSubscription","subscription":"t"}', '{"type":"stats","subscription":"s"}', '{"type":"deleteTopic"}',
]
ROUTES = [
    '/ws/v2/producer/persistent/public/default/m?producerName=p&initialSequenceId=7',
    '/ws/v2/consumer/persistent/public/default/m/s?subscriptionType=Shared&receiverQueueSize=10&ackTimeoutMillis=100',
    '/ws/v2/consumer/persistent/a/b/m/k?subscriptionType=Key_Shared&maxRedeliverCount=3&deadLetterTopic=d&pullMode=true',
    '/ws/v2/admin/persistent/public/default/mutants', '/ws/v2/producer/persistent/public/default/a%2Fb',
]
CLOSES = {4001, 4002, 4003, 4008}


def mutated(dice, text):
    """The text with one to four changes."""
    letters = list(text)
    for _ in range(dice.randrange(1, 5)):
        at = dice.randrange(len(letters) + 1)
        kind = dice.randrange(7)
        if kind == 0:
            letters.insert(at, dice.choice(ALPHABET))
        elif kind == 1 and letters:
            del letters[at % len(letters)]
        elif kind == 2 and letters:
            letters[at % len(letters)] = dice.choice(ALPHABET)
        elif kind == 3:
            letters = letters[:at]
        elif kind == 4:
            other = dice.randrange(len(letters) + 1)
            letters[at:at] = letters[min(at, other):max(at, other)][:2000]
        elif kind == 5:
            letters = list(re.sub(r'\d+', lambda _: dice.choice(NUMBERS), ''.join(letters), count=1))
        elif letters:
            one, other = at % len(letters), dice.randrange(len(letters))
            letters[one], letters[other] = letters[other], letters[one]
    return ''.join(letters).encode('utf-8', 'surrogatepass')


def is_number(close):
    return close[0] in CLOSES and re.fullmatch(r'F([1-9]|1\d|2[0-4])', close[1])


def publishes(dice, wanted):
    """Each is answered, in order, and none closes the session."""
    client = producer(port, 'mutants')
    done = 0
    while done < wanted:
        texts = [mutated(dice, dice.choice(PUBLISHES)) for _ in range(BATCH)]
        client.sock.sendall(b''.join(frame(1, text) for text in texts))
        for text in texts:
            answer = client.receive()
            assert isinstance(answer, dict), (text, answer)
            assert answer['result'] == 'ok' or answer['result'] in ['send-error:3', 'send-error:7'], (text, answer)
        done += BATCH
    client.close()
    return done


def asks(dice, wanted, texts, opened, last):
    """Each is answered, passed over, or closes the session with a number; `last` shows that it goes on."""
    client, done, closed = opened(), 0, 0
    while done < wanted:
        client.sock.sendall(frame(1, mutated(dice, dice.choice(texts))))
        done += 1
        got = close_of(client)
        if got is None:
            client.send(last)
            got = client.receive()
            while isinstance(got, dict) and not is_last(got):
                got = client.receive()
        if isinstance(got, tuple):
            assert is_number(got), got
            closed += 1
            client.close()
            client = opened()
    client.close()
    return done, closed


def close_of(client):
    """The close that comes at once, if one does. What is sent behind it would reset the connection, and the close be lost."""
    client.sock.settimeout(0.003)
    try:
        got = client.receive()
        while isinstance(got, dict):
            got = client.receive()
        return got
    except TimeoutError:
        return None
    finally:
        client.sock.settimeout(30)


def is_last(answer):
    return 'endOfTopic' in answer or answer.get('fault') == 11


def administrator(topic):
    """An administrator at the topic, which is made anew: it may just have been deleted."""
    writer = producer(port, topic)
    writer.send(text_of(b'again'))
    assert writer.receive()['result'] == 'ok'
    writer.leave()
    writer.close()
    return Client(port, f'/ws/v2/admin/persistent/public/default/{topic}')


def routes(dice, wanted):
    """Each opens a session, is refused by number, or is no request."""
    refused = 0
    for _ in range(wanted):
        target = mutated(dice, dice.choice(ROUTES)).decode('utf-8', 'replace')
        target = re.sub(r'[\x00-\x20\x7f-\U0010ffff]', lambda bad: '%' + format(ord(bad[0]) & 255, '02x'), target) or '/'
        try:
            client = Client(port, target, 10)
        except AssertionError as head:
            assert re.match(rb'HTTP/1.1 4\d\d', head.args[0]), (target, head)
            refused += 1
            continue
        client.sock.settimeout(0.003)
        try:
            close = client.receive()
            assert isinstance(close, dict) or is_number(close), (target, close)
            refused += 1
        except TimeoutError:
            pass
        client.close()
    return wanted, refused


def lane(number):
    dice = random.Random(number)
    share = count // LANES
    published = publishes(dice, share * 6 // 10)
    commands = asks(dice, share * 2 // 10, COMMANDS,
                    lambda: consumer(port, 'mutants', f's-{number}', '?subscriptionType=Shared&pullMode=true'), '{"type":"isEndOfTopic"}')
    orders = asks(dice, share // 10, ORDERS, lambda: administrator(f'orders-{number}'),
                  '{"type":"stats","subscription":"none"}')
    return published, commands, orders, routes(dice, share // 10)


broker = Broker(program, port)
try:
    with ProcessPoolExecutor(LANES) as lanes:
        lots = list(lanes.map(lane, range(first, first + LANES)))
    published = sum(lot[0] for lot in lots)
    (commands, shut), (orders, ended), (asked, refused) = [map(sum, zip(*(lot[at] for lot in lots))) for at in (1, 2, 3)]
    reader, writer = consumer(port, 'mutants', 'last'), producer(port, 'mutants')
    writer.send(text_of(b'last'))
    told = writer.receive()
    assert told['result'] == 'ok' and reader.receive()['messageId'] == told['messageId'], told
    print(f'{published} publishes were answered; of {commands} commands {shut} closed their session, of {orders} orders {ended}; '
          f'of {asked} routes {refused} were refused; {broker.memory() >> 20} MiB')
finally:
    broker.kill()
