#!/usr/bin/env python3
# What clients may say, text by text, and what they are answered and sent, byte by byte: publishes by the grammar of RFC 8259 and
# the alphabet of RFC 4648, as Rust's serde_json reads them; commands and orders; statistics. Then names, keys, properties and
# payloads of every kind come again after a kill, and moments are written as UTC has them. The gate runs it.
# texts.py PROGRAM [port]
import base64
import datetime
import json
import random
import re
import sqlite3
import sys
from urllib.parse import quote

from client import Broker, Client, consumer, frame, producer, text_of

program = sys.argv[1]
port = int(sys.argv[2]) if len(sys.argv) > 2 else 18110
UNREAD, UNCODED = ('Failed to deserialize from JSON', 3), ('Invalid payload encoding', 7)


def raw(client):
    """The next text as it is, or the code and the reason of the close."""
    while True:
        kind, body = client.frame()
        if kind == 8:
            return int.from_bytes(body[:2], 'big'), body[2:].decode()
        if kind == 1:
            return body.decode()


def string(text):
    return json.dumps(text, ensure_ascii=False)


def fields(**said):
    """An object as it is written: its fields in order, without those that are none."""
    return '{' + ','.join(f'"{name}":{value}' for name, value in sorted(said.items()) if value is not None) + '}'


def refusal(error, context):
    return fields(context=None if context is None else string(context), errorMsg=string(error[0]), result=f'"send-error:{error[1]}"')


# ---- publishes

# The text, and what it says: the context, the key, the payload and the properties.
SAID = [
    ('{"payload":"aGk"}', None, None, b'hi', {}),
    ('{"payload":"aGk=","properties":{"n":3,"b":true}}', None, None, b'hi', {'b': 'true', 'n': '3'}),
    ('{"payload": "SGVsbG8gV29ybGQ=", "properties": {"key1": "value1", "key2": "value2"}, "context": 5}',
     '5', None, b'Hello World', {'key1': 'value1', 'key2': 'value2'}),
    ('{"payload":"aGk=","properties":{"n":3,"b":true},"context":"7","key":"k"}', '7', 'k', b'hi', {'b': 'true', 'n': '3'}),
    ('{"payload":"","key":"","context":""}', '', '', b'', {}),
    ('{"payload":"","key":null,"context":null,"properties":null}', None, None, b'', {}),
    ('{"payload":"","properties":{"z":null,"t":"x","f":false,"n":-5}}', None, None, b'', {'f': 'false', 'n': '-5', 't': 'x'}),
    ('{"payload":"","replicationClusters":["a",1.5],"other":{"key":5}}', None, None, b'', {}),
    ('{"payload":"","key":"a\\u0000\\"\u00e9","properties":{"z":true,"\\n":7,"\u00e9":"\\\\"}}',
     None, 'a\0"\u00e9', b'', {'\n': '7', 'z': 'true', '\u00e9': '\\'}),
    # The last of repeated fields counts.
    ('{"payload":"YQ==","payload":"Yg=="}', None, None, b'b', {}),
    ('{"context":1,"payload":"","context":null}', None, None, b'', {}),
    ('{"context":1,"payload":"","c\\u006fntext":2}', '2', None, b'', {}),
    ('{"payload":"","properties":{"a":1.5,"a":"x"}}', None, None, b'', {'a': 'x'}),
    (' \t\r\n{ "payload" : "" } \n', None, None, b'', {}),
    ('{"payload":"","x":1e-400}', None, None, b'', {}),
    ('{"payload":"","x":[true,false,null,{}]}', None, None, b'', {}),
]
SAID += [('{"context":%s,"payload":""}' % value, said, None, b'', {}) for value, said in [
    (r'"\"\\\/\b\f\n\r\t"', '"\\/\b\f\n\r\t'), (r'"\u0041\u00e9\u20AC"', 'A\u00e9\u20ac'), (r'"\u0000"', '\0'),
    (r'"\ud83d\ude00"', '\U0001f600'), ('"\u00e9\u20ac\U0001f600\x7f"', '\u00e9\u20ac\U0001f600\x7f'),
    (r'"\u0001\u000b\u001b\u001F"', '\x01\x0b\x1b\x1f'), ('0', '0'), ('-1', '-1'),
    ('18446744073709551615', '18446744073709551615'), ('-9223372036854775808', '-9223372036854775808'),
]]
SAID += [(f'{{"context":"c","payload":"{value}"}}', 'c', None, said, {}) for value, said in [
    ('', b''), ('Zg==', b'f'), ('Zg', b'f'), ('Zm8=', b'fo'), ('Zm8', b'fo'), ('Zm9v', b'foo'), ('Zm9vYmFy', b'foobar'), ('Pz8/Pz4+', b'????>>'),
]]

# The text, the error that answers it, and the context that it has still.
REFUSED = [
    ('{"context":7}', UNREAD, '7'), ('{"context":true,"payload":"aGk="}', UNREAD, None),
    ('{"payload":"%%%","context":"1"}', UNCODED, '1'), ('{"payload":"aGk=","cont', UNREAD, None),
    ('{"payload":"%","context":1.5}', UNREAD, None), ('{"payload":"%","context":[]}', UNREAD, None),
    ('{"payload":null,"context":"c"}', UNREAD, 'c'), ('{"payload":5,"context":"c"}', UNREAD, 'c'),
    ('{"payload":"%","context":"c","key":5}', UNCODED, 'c'), ('{"payload":"","context":"c","key":5}', UNREAD, 'c'),
    ('{"payload":"","context":"c","properties":[]}', UNREAD, 'c'),
    ('{"payload":"","context":"c","properties":{"p":1.5}}', UNREAD, 'c'),
    ('{"payload":"","context":"c","properties":{"p":{}}}', UNREAD, 'c'),
]
REFUSED += [(f'{{"payload":"","context":{value}}}', UNREAD, None) for value in [
    r'"\ud83d"', r'"\ude00"', r'"\ud83dA"', r'"\ud83d\ud83d"', r'"\x41"', r'"\u41"', '"\x1f"', '"a',
    '18446744073709551616', '-9223372036854775809', '-0', '1.0', '1e2',
]]
REFUSED += [(f'{{"context":"c","payload":"{value}"}}', UNCODED, 'c') for value in ['Zg=', 'Zh==', 'Zm9=', 'Zm9v====', 'Z', 'Zm 8=', 'Pz8_Pz4-']]
REFUSED += [(text, UNREAD, None) for text in [
    b'{"payload":"","x":1E400}', b'{"payload":"","x":01}', b'{"payload":"","x":+1}', b'{"payload":"","x":.5}', b'{"payload":"","x":1.}',
    b'{"payload":"","x":NaN}', b'{"payload":"\xff"}', b'{"payload":"","x":"\xc0\xaf"}', b'{"payload":"","x":"\xed\xa0\x80"}',
    b'\xef\xbb\xbf{"payload":""}', b'\x0c{"payload":""}', b'{"payload":""} x', b'{"payload":""}{}', b'{"payload":"",}', b"{'payload':''}",
    b'{"payload":""/**/}', b'[]', b'null', b'',
]]
WHOLE = '{"payload":"aGk=","properties":{"n":3,"b":true},"context":"7","key":"k"}'
REFUSED += [(WHOLE[:end], UNREAD, None) for end in range(len(WHOLE))]


def nested(arrays):
    return '{"payload":"","x":%s%s}' % ('[' * arrays, ']' * arrays)


def lengths(key, name, value):
    return '{"payload":"","key":"%s","properties":{"%s":"%s"}}' % ('a' * key, 'a' * name, 'a' * value)


def numbered(count):
    return json.dumps({'payload': '', 'properties': {'none': None} | {str(number): number for number in range(count)}})


def ended(end):
    """A payload of a mebibyte but one byte, and its end."""
    return '{"payload":"%s%s"}' % ('AAAA' * 349_525, end)


# The longest that is read, the shortest that is not, and how it is refused.
LIMITS = [
    ('{"payload":""}' + ' ' * 2_097_138, '{"payload":""}' + ' ' * 2_097_139, UNREAD), (ended('AA=='), ended('AAA='), UNCODED),
    (nested(126), nested(127), UNREAD), (nested(100), nested(200), UNREAD), (numbered(64), numbered(65), UNREAD),
    (lengths(1024, 255, 1024), lengths(1025, 0, 0), UNREAD), (lengths(1024, 255, 1024), lengths(0, 256, 0), UNREAD),
    (lengths(1024, 255, 1024), lengths(0, 0, 1025), UNREAD),
]


def varint(value):
    out = bytearray()
    while value > 127:
        out.append(value & 127 | 128)
        value >>= 7
    return bytes([*out, value])


def id_of(entry, ledger=0):
    """The id of Pulsar's wire format: two numbers, each behind its mark."""
    return base64.b64encode(b'\x08' + varint(ledger) + b'\x10' + varint(entry)).decode()


for place, text in [((3,), 'CAAQAw=='), ((0, 1), 'CAEQAA=='), ((300,), 'CAAQrAI='), ((2**64 - 1, 2**64 - 1), 'CP///////////wEQ////////////AQ==')]:
    assert id_of(*place) == text, (place, id_of(*place))


def delivered(got, entry, key, payload, properties, count=0):
    """The delivery, but for when it was published, which is given."""
    moment = re.search(r'"publishTime":"([^"]*)"', got)[1]
    pairs = ','.join(f'{string(name)}:{string(value)}' for name, value in sorted(properties.items(), key=lambda pair: pair[0].encode()))
    wanted = fields(key=None if key is None else string(key), messageId=f'"{id_of(entry)}"', payload=f'"{base64.b64encode(payload).decode()}"',
                    properties='{' + pairs + '}', publishTime=f'"{moment}"', redeliveryCount=count)
    assert got == wanted, (got[:2000], wanted[:2000])
    return moment


def publishes():
    reader, writer = consumer(port, 'said', 's', '?receiverQueueSize=1000'), producer(port, 'said')
    entry = 0
    for text, context, key, payload, properties in SAID:
        for kind in (1, 2):
            writer.sock.sendall(frame(kind, text))
            got, wanted = raw(writer), fields(context=None if context is None else string(context), messageId=f'"{id_of(entry)}"', result='"ok"')
            assert got == wanted, (text, got, wanted)
            delivered(raw(reader), entry, key, payload, properties)
            entry += 1
    for text, error, context in REFUSED:
        writer.sock.sendall(frame(2 if isinstance(text, bytes) else 1, text))
        got = raw(writer)
        assert got == refusal(error, context), (text, got)
    for good, bad, error in LIMITS:
        writer.send(good)
        assert '"result":"ok"' in raw(writer), good[:80]
        raw(reader)
        writer.send(bad)
        assert raw(writer) == refusal(error, None), bad[:80]
    print(f'ok {len(SAID)} publishes, as texts and as bytes, {len(REFUSED)} that are refused, and {len(LIMITS)} limits')


# ---- commands and orders

END = '{"type":"isEndOfTopic"}'
COMMANDS = [
    END, '{"type":"isEndOfTopic","messageId":5,"permitMessages":0}', '{"messageId":"CAAQAw=="}', '{"type":"acknowledgeCumulative","messageId":"CAEQAA=="}',
    '{"messageId":"CAAQrAI=","type":"negativeAcknowledge"}', '{"type":"permit","permitMessages":5}',
    '{"messageId":"CP///////////wEQ////////////AQ=="}', '{"type":null,"messageId":"CAAQAw=="}',
    '{"type":"permit","permitMessages":1,"messageId":"x"}', '{"messageId":"x","messageId":"CAAQAw=="}',
    '{"type":"permit","type":null,"messageId":"CAAQAw=="}', r'{"messageI\u0064":"CAAQ\u0041w=="}', '{"type":"permit","permitMessages":2147483647}',
    END + ' ' * 2_097_129,
]
NO_COMMANDS = [
    '', '[]', '{', '{}', '{"messageId":5}', '{"messageId":[]}', '{"type":5,"messageId":"CAAQAw=="}', '{"type":"ack","messageId":"CAAQAw=="}',
    '{"type":"","messageId":"CAAQAw=="}', '{"type":"Permit","permitMessages":5}', '{"type":"acknowledgeCumulative"}', '{"type":"negativeAcknowledge"}',
    '{"type":"negativeAcknowledge","messageId":null}', '{"messageId":"CAAQAw==","messageId":null}', '{"type":"permit"}', END + ' ' * 2_097_130,
]
NO_COMMANDS += [f'{{"type":"permit","permitMessages":{value}}}' for value in [
    '0', '2147483648', '4294967297', '18446744073709551616', '-1', '-0', '5.0', '5e0', '"5"', 'true', 'null']]
# Trailing bits that are not zero, fields in another order, no padding, a longer number, and more behind.
NO_IDS = ['{"messageId":"%s"}' % text for text in ['', 'CAAQAB==', 'CIAAEAM=', 'CAAQAw', 'EAMIAA==', 'CAAQAwA=']]
NO_IDS += ['{"type":"acknowledgeCumulative","messageId":"x"}', '{"type":"negativeAcknowledge","messageId":"CAAQAw"}']
NO_ORDERS = [
    '', '{}', '"stats"', '{"subscription":"s"}', '{"type":null,"subscription":"s"}', '{"type":5,"subscription":"s"}', '{"type":"skipAll","subscription":"s"}',
    '{"type":"deleteTopic","type":"stats"}', '{"type":"deletetopic","subscription":"s"}', '{"type":"deleteTopic "}', '{"type":["deleteTopic"]}',
    '"deleteTopic"', '{"type":"deleteTopic"', '{"type":"stats"}', '{"type":"seek","subscription":"s"}', '{"type":"seek","subscription":"","position":"x"}',
    '{"type":"seek","position":"x"}', '{"type":"createSubscription","subscription":"s"}', '{"type":"createSubscription","position":"x"}',
    '{"type":"createSubscription","subscription":"a/b","position":"latest"}', '{"type":"peek","subscription":"s"}', '{"type":"peek","messages":1}',
    '{"type":"disconnect"}', '{"type":"Overview"}', '{"type":"overview ","subscription":"s"}', '{"type":"backUp","subscription":"s"}', '{"type":"BACKUP"}',
    '{"type":["backup"]}', '"overview"', '{"type":"overview"', '{"type":"keep"}', '{"type":"keep","subscription":"s"}',
    '{"type":"keep","messages":1048577,"millis":5}', '{"type":"keep","keep":"All","messages":5}',
    '{"type":"stats","subscription":"s"}' + ' ' * 2_097_118,
]
# Values of the last field of an order: those that are read, those that are not, and those that are no ids.
VALUES = [
    ('{"type":"stats","subscription":', ['"a b"', '"s"'], ['""', '"a/b"', r'"a\u007f"', r'"a\n"', '5', 'null'], []),
    ('{"type":"seek","subscription":"s","position":', ['"earliest"', '"latest"', '"CAAQrAI="'], ['5', 'null'], ['"Earliest"', '"CAAQAw"', '""']),
    ('{"type":"createSubscription","subscription":"s","position":', ['"earliest"', '"latest"', '"CAAQrAI="'], ['5', 'null'], ['"Latest"', '"CAAQAw"']),
    ('{"type":"seekTime","subscription":"s","time":', ['0', '253402300799999'], ['253402300800000', '-1', '1.0', '1e3', '"1"', 'null'], []),
    ('{"type":"skip","subscription":"s","messages":', ['0', '2147483647'], ['2147483648', '4294967296', '-1', '1.0', '"1"', 'null'], []),
    ('{"type":"peek","subscription":"s","messages":', ['1', '100'], ['0', '101', '4294967297', '-1', '1.0', '"1"', 'null'], []),
    ('{"type":"disconnect","subscription":5,"session":', ['0', '18446744073709551615'], ['18446744073709551616', '-1', '7.0', '"7"', 'null'], []),
    ('{"type":"keep","messages":', ['0', '1048576', '1048576,"subscription":5', '"5","millis":5'], ['1048577'], []),
    ('{"type":"keep","millis":', ['0', '253402300799999'], ['253402300800000', '-1'], []),
    ('{"keep":"all","type":', ['"keep"'], ['"Keep"'], []),
    ('{"type":"keep","messages":5,"keep":', ['"default"', '"all"', '5', 'null'], ['"All"'], []),
]
BUSY = '{"fault":12,"result":"refused"}'
# Orders of the whole topic or the whole broker look at no subscription.
WHOLE_ONES = [
    ('{"type":"deleteTopic"}', BUSY), ('{"subscription":"s","type":"deleteTopic"}', BUSY), ('{"type":"deleteTopic","subscription":"a/b","position":5}', BUSY),
    ('{"type":"deleteTopic","subscription":null}', BUSY), ('{"type":"stats","type":"deleteTopic"}', BUSY),
    ('{"type":"backup"}', '{"fault":20,"result":"refused"}'), ('{"type":"backup","subscription":null}', '{"fault":20,"result":"refused"}'),
    ('{"subscription":"\u00e9 s","type":"stats"}', '{"fault":11,"result":"refused"}'),
    ('{"type":"seek","type":"stats","subscription":"s","position":"x"}', '{"fault":11,"result":"refused"}'),
    ('{"type":"dropSubscription","subscription":"\u00e9 s"}', '{"fault":11,"result":"refused"}'),
]


def is_read(open_it, text, wanted):
    """Nothing closes the session, but where it is refused as it is read."""
    client = open_it()
    client.send(text)
    client.send(END)
    got = raw(client)
    read = got[1] if isinstance(got, tuple) and got[0] == 4003 else None
    assert read == wanted, (text[:200], got)
    client.close()


def commands():
    opened = lambda: consumer(port, 'told', 'shared', '?subscriptionType=Shared&pullMode=true')
    sole = lambda: consumer(port, 'told', 'failover', '?subscriptionType=Failover&pullMode=true')
    for text in COMMANDS:
        is_read(sole if 'Cumulative' in text else opened, text, None)
    for texts, wanted in ((NO_COMMANDS, 'F18'), (NO_IDS, 'F17')):
        for text in texts:
            is_read(opened, text, wanted)
    client = opened()
    client.send(END)
    assert raw(client) == '{"endOfTopic":"false"}'
    client.close()
    print(f'ok {len(COMMANDS)} commands, {len(NO_COMMANDS)} that are none, and {len(NO_IDS)} ids that are none')


def orders():
    holder = producer(port, 'orders')
    holder.send(text_of(b'a'))
    raw(holder)
    opened = lambda: Client(port, '/ws/v2/admin/persistent/public/default/orders')
    for text, wanted in WHOLE_ONES:
        client = opened()
        client.send(text)
        got = raw(client)
        assert got == wanted, (text, got)
        client.close()
    count = 0
    for front, good, bad, no_ids in VALUES:
        for values, wanted in ((good, None), (bad, 'F18'), (no_ids, 'F17')):
            for value in values:
                is_read(opened, front + value + '}', wanted)
                count += 1
    for text in NO_ORDERS:
        is_read(opened, text, 'F18')
    is_read(opened, '{"type":"stats","subscription":"s"}' + ' ' * 2_097_117, None)
    print(f'ok {count + len(WHOLE_ONES)} orders, and {len(NO_ORDERS)} that are none')


def statistics():
    """How far a subscription of each kind is, before messages go and after."""
    writer, admin = producer(port, 'far'), Client(port, '/ws/v2/admin/persistent/public/default/far')

    def ask(**said):
        admin.send(json.dumps(said))
        return raw(admin)

    for before, kind in zip(range(0, 12, 3), ('Exclusive', 'Failover', 'Shared', 'Key_Shared')):
        reader = consumer(port, 'far', kind, f'?subscriptionType={kind}&receiverQueueSize=2')
        for body in (b'0', b'1', b'2'):
            writer.send(text_of(body))
            assert '"ok"' in raw(writer)
        first = [json.loads(raw(reader))['messageId'] for _ in range(2)][0]
        reader.send(json.dumps({'messageId': first}))
        assert json.loads(raw(reader))['payload'] == 'Mg=='
        wanted = fields(acknowledged=before + 1, dead=0, kind=f'"{kind}"', live=2, markDelete=f'"{first}"', members=1, pending=2, result='"ok"')
        got = ask(type='stats', subscription=kind)
        assert got == wanted, (got, wanted)
        reader.leave()
    for kind in ('Exclusive', 'Failover', 'Shared', 'Key_Shared'):
        assert ask(type='dropSubscription', subscription=kind) == '{"result":"ok"}'
    assert ask(type='createSubscription', subscription='s', position='earliest') == '{"result":"ok"}'
    got = ask(type='stats', subscription='s')
    assert got == '{"acknowledged":0,"dead":0,"kind":"Exclusive","live":12,"members":0,"pending":0,"result":"ok"}', got
    for _ in range(188):
        writer.send(text_of(b'x'))
    for _ in range(188):
        raw(writer)
    assert ask(type='keep', messages=0) == '{"result":"ok"}'
    assert ask(type='skip', subscription='s', messages=199) == '{"result":"ok"}'
    writer.send(text_of(b'y'))
    raw(writer)
    while 'gone' not in (got := json.loads(ask(type='stats', subscription='s'))) or got['gone'] < 192:
        pass
    got = ask(type='stats', subscription='s')
    assert re.fullmatch(r'\{"acknowledged":7,"dead":0,"gone":192,"kind":"Exclusive","live":2,"markDelete":"CAAQxgE=","members":0,"oldest":\d{13},"pending":0,"result":"ok"\}', got), got
    print('ok statistics of each kind, and of a topic whose messages go')


# ---- what is stored

TOPIC, SUBSCRIPTION, MAKER = 't%2F\'en"ant/na;me -- space/\U0001d11e?1', 's\'"%00;-- \U0001d11e\\?1', 'p\'"\x01\n\x7f%\U0001d11e/\\'
TEXTS = ['', ' ', "'", '"', '\\', "'; DELETE FROM entry; --", '%00%2F%', '\x01\x08\t\n\x0c\r\x1f\x7f', '\u00e9\u4e2d\U0001d11e\U0010ffff',
         '{"a":"b"}', '?1:name@x$y', 'NULL']
STORED = [(text, text.encode(), {text + '=': text}) for text in TEXTS] + [(None, b'', {text + '=': text for text in TEXTS}), (None, b'\xff' * 1_048_576, {})]
MOMENTS = [(0, '1970-01-01T00:00:00.000Z'), (1, '1970-01-01T00:00:00.001Z'), (86_399_999, '1970-01-01T23:59:59.999Z'),
           (86_400_000, '1970-01-02T00:00:00.000Z'), (951_827_696_789, '2000-02-29T12:34:56.789Z'), (1_000_000_000_000, '2001-09-09T01:46:40.000Z'),
           (4_107_542_400_000, '2100-03-01T00:00:00.000Z'), (253_402_300_799_999, '9999-12-31T23:59:59.999Z')]


def read_all(where, count=0):
    """Each of what was stored is delivered as it was published; when it was."""
    reader = Client(port, f'/ws/v2/consumer/persistent/{where}/{quote(SUBSCRIPTION, safe="")}?subscriptionInitialPosition=Earliest')
    moments = [delivered(raw(reader), entry, *said, count) for entry, said in enumerate(STORED)]
    reader.leave()
    return moments


def stored(broker):
    where = '/'.join(quote(part, safe='') for part in TOPIC.split('/'))
    writer = Client(port, f'/ws/v2/producer/persistent/{where}?producerName={quote(MAKER, safe="")}')
    for key, payload, properties in STORED:
        writer.send(json.dumps({'payload': base64.b64encode(payload).decode(), 'properties': properties} | ({} if key is None else {'key': key})))
        assert '"ok"' in raw(writer)
    moments = read_all(where)
    # Whoever leaves gives back what it was sent, which counts for nothing.
    writer.send(text_of(b'last'))
    assert '"ok"' in raw(writer)
    broker.kill()
    broker.start()
    assert read_all(where) == moments
    broker.kill()
    with sqlite3.connect(broker.database) as base:
        full = f'persistent://{TOPIC}'
        rows = base.execute('SELECT producer, key, payload FROM entry WHERE topic = ? ORDER BY idx', [full]).fetchall()
        assert rows[:-1] == [(MAKER, key or '', payload) for key, payload, _ in STORED], 'rows'
        dice = random.Random(3)
        wanted = MOMENTS + [(moment, told(moment)) for moment in (dice.randrange(253_402_300_800_000) for _ in range(len(STORED) - len(MOMENTS)))]
        for entry, (moment, _) in enumerate(wanted):
            base.execute('UPDATE entry SET time = ? WHERE topic = ? AND idx = ?', [moment, full, entry])
            base.execute('INSERT INTO redelivery VALUES (?, ?, ?, 2147483647)', [full, SUBSCRIPTION, entry])
    base.close()
    broker.start()
    assert read_all(where, 2_147_483_647) == [text for _, text in wanted]
    print(f'ok {len(STORED)} messages of every kind over a kill, and {len(wanted)} moments')


def told(millis):
    """The moment in UTC, by Python."""
    moment = datetime.datetime(1970, 1, 1) + datetime.timedelta(milliseconds=millis)
    return moment.isoformat(timespec='milliseconds') + 'Z'


broker = Broker(program, port)
try:
    publishes()
    statistics()
    stored(broker)
    commands()
    orders()
finally:
    broker.kill()
