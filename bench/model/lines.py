"""The lines of pulsar_replay, as docs/FORMATS.md has them: what each asks of a topic, and the line that answers it."""
import base64
import binascii
import re
from urllib.parse import unquote_to_bytes

from topic import Refused, Topic

NAMES = ("public", "default", "t")
NUMBER = re.compile(r"(?:0|[1-9][0-9]*)\Z")
PLAIN = set("abcdefghijklmnopqrstuvwxyzABCDEFGHIJKLMNOPQRSTUVWXYZ0123456789-_.~/:")
MOST_U64, MOST_I64, MOST_I32 = 2**64 - 1, 2**63 - 1, 2**31 - 1
MOST_MOMENT = 253_402_300_799_999
SCHEME = "persistent://"


class BadLine(Exception):
    """The line stands for nothing."""


def want(holds):
    if not holds:
        raise BadLine()


# ---- words


def number(least, most):
    def read(word):
        want(NUMBER.match(word) and least <= int(word) <= most)
        return int(word)

    return read


def text(word):
    want(word not in ("", "-"))
    try:
        read = unquote_to_bytes(word).decode()
    except UnicodeDecodeError:
        raise BadLine() from None
    want(read)
    return read


def is_name(read):
    return 0 < len(read.encode()) <= 255 and not any(c == "/" or ord(c) < 32 or ord(c) == 127 for c in read)


def name(word):
    read = text(word)
    want(is_name(read))
    return read


def limited(most):
    """A text of so many bytes at most, or none where the word is a dash."""
    def read(word):
        if word == "-":
            return None
        want(len(text(word).encode()) <= most)
        return text(word)

    return read


def base(word):
    return -1 if word == "-" else number(0, 2**62)(word)


def payload(word):
    if word == "-":
        return b""
    try:
        read = base64.b64decode(word, validate=True)
    except (binascii.Error, ValueError):
        raise BadLine() from None
    want(word and base64.b64encode(read).decode() == word)
    return read


def word_of(*words):
    def read(word):
        want(word in words)
        return word

    return read


def window(word):
    if word == "pull":
        return None
    want(word.startswith("push:"))
    return number(1, 100_000)(word[5:])


def dead_topic(word):
    """The names of the topic; none where it is the default one."""
    if word == "-":
        return None
    read = text(word)
    want(read.startswith(SCHEME))
    names = tuple(read[len(SCHEME):].split("/"))
    want(len(names) == 3 and all(is_name(it) for it in names))
    return names


def varint(value):
    out = bytearray()
    while value > 127:
        out.append(value & 127 | 128)
        value >>= 7
    return bytes([*out, value])


def id_text(position):
    return base64.b64encode(b"\x08" + varint(position[0]) + b"\x10" + varint(position[1])).decode()


def numbers_in(data):
    """The numbers of the varints one after another, each behind its mark."""
    for mark in (8, 16):
        value = shift = 0
        if not data or data[0] != mark:
            return
        for at, byte in enumerate(data[1:], 1):
            value |= (byte & 127) << shift
            shift += 7
            if byte < 128:
                break
        else:
            return
        data = data[at + 1:]
        yield value


def position(word):
    """The position whose one text the word is; none where it is no position's."""
    try:
        read = tuple(numbers_in(base64.b64decode(word, validate=True)))
    except (binascii.Error, ValueError):
        return None
    is_one = len(read) == 2 and max(read) <= MOST_U64 and id_text(read) == word
    return read if is_one else None


def target(word):
    return word if word in ("earliest", "latest") else position(word)


# ---- lines

moment, u64, i32 = number(0, MOST_MOMENT), number(0, MOST_U64), number(0, MOST_I32)
KINDS = word_of("Exclusive", "Failover", "Shared", "Key_Shared")
LINES = {
    "producer": (Topic.add_producer, limited(1_280), base),
    "drop": (Topic.drop_producer, u64),
    "publish": (Topic.publish, u64, number(0, MOST_I64), limited(1_024), payload, moment),
    "stored": (Topic.stored,),
    "progress": (Topic.progress,),
    "subscribe": (
        Topic.subscribe, name, KINDS, i32, window, i32, i32, number(0, 1_000_000), dead_topic,
        word_of("Earliest", "Latest"),
    ),
    "leave": (Topic.leave, u64),
    "permit": (Topic.permit, u64, number(1, MOST_I32)),
    "ack": (Topic.ack, u64, position),
    "ackupto": (Topic.ack_up_to, u64, position),
    "nack": (Topic.nack, u64, position, moment),
    "tick": (Topic.tick, name, moment),
    "seek": (Topic.seek, name, target),
    "seektime": (Topic.seek_time, name, moment),
    "skip": (Topic.skip, name, i32),
    "dropsub": (Topic.drop_subscription, name),
    "dispatch": (Topic.dispatch, name, moment),
    "collect": (Topic.collect, u64),
    "deadnext": (Topic.dead_next, name),
    "deaddone": (Topic.dead_done, name, number(0, 2**62)),
    "trim": (Topic.trim, u64, moment, u64),
    "stats": (Topic.stats, name),
    "restart": (Topic.restart,),
}


def hash_range(word):
    """The hashes of the range that the word is."""
    first, dash, last = word.partition("-")
    want(dash)
    first, last = number(0, 65_535)(first), number(0, 65_535)(last)
    want(first <= last)
    return range(first, last + 1)


def ranges(word):
    """The hashes that a consumer asks for, in at most 64 ranges, none twice."""
    read = [hash_range(it) for it in word.split(",")]
    hashes = set().union(*read)
    want(len(read) <= 64 and len(hashes) == sum(map(len, read)))
    return hashes


def with_dead_topic(asked):
    """What a subscribe asks, with the dead-letter topic that a dash stands for."""
    if asked[7] is None:
        default = (NAMES[0], NAMES[1], f"{NAMES[2]}-{asked[0]}-DLQ")
        asked[7] = default if asked[6] > 0 else NAMES
        want(is_name(asked[7][2]))
    return asked


def answer(topic, line):
    """The line that answers the line."""
    word, *words = line.split(" ")
    want(word in LINES)
    event, *readers = LINES[word]
    more = words[len(readers):] if word == "subscribe" else []
    words = words[:len(words) - len(more)]
    want(len(words) == len(readers) and len(more) <= 1 and all(more))
    asked = [read(it) for read, it in zip(readers, words)]
    if word == "subscribe":
        asked = with_dead_topic(asked)
        asked += [ranges(it) for it in more if asked[1] == "Key_Shared"]
    if any(it is None and read in (position, target) for read, it in zip(readers, asked)):
        return "refused F17"
    try:
        return " ".join(map(shown, event(topic, *asked)))
    except Refused as refused:
        return f"refused F{refused.number}"


# ---- replies


def escaped(shown_text):
    if shown_text == "-":
        return "%2D"
    return "".join(c if c in PLAIN else "".join(f"%{byte:02X}" for byte in c.encode()) for c in shown_text)


def shown(part):
    match part:
        case None:
            return "-"
        case str():
            return escaped(part)
        case (int(), int()):
            return id_text(part)
        case (str(), str(), str()):
            return escaped(SCHEME + "/".join(part))
        case (where, count, bytes() as content):
            return f"{id_text(where)}:{count}:{base64.b64encode(content).decode() or '-'}"
    return str(part)


def replay(ledger_size, data):
    """What the program is to write, line by line, and its status."""
    topic, replies = Topic(NAMES, ledger_size), []
    lines = data.split(b"\n")
    for at, line in enumerate(lines[:-1] if lines[-1] == b"" else lines, 1):
        try:
            replies.append(answer(topic, line.decode()))
        except (BadLine, UnicodeDecodeError):
            return [*replies, f"bad line {at}"], 2
    return replies, 0
