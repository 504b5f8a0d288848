#!/usr/bin/env python3
"""Feeds the worked rows to a replay, over the plain topic and over the fast one, and compares each reply.

usage: check.py PROGRAM [FILE..]

PROGRAM is a built pulsar_replay. Without files, all that lie beside this script are fed. A file begins with a paragraph
that says what it shows. Each further paragraph is a scene with a topic of its own: its name behind a number sign, and
then rows, each a line and its reply as `line -> reply`. So it is written where it differs from that:

    ledger_size 10                     the size of the topic's ledgers, before the first row; else 50,000
    for n from 0 to 9                  the rows below it that are set in, once for each number
      publish 1 {n} - - {n+1000} -> published {id n} {n+1}
                                       a number, a number more or less, and the id of that entry of ledger 0
    ack 1 {1500000 x} -> refused F17   so many of a sign
    stored                             after a bad line, a line that is not answered

A scene is fed twice, with an end of its last line and without. The status is 2 where the last reply is `bad line`, and else 0.
"""
import base64
import itertools
import pathlib
import re
import subprocess
import sys
from dataclasses import dataclass

HERE = pathlib.Path(__file__).parent
USUAL_LEDGER_SIZE = 50_000
TOPICS = ("plain", "fast")
LOOP = re.compile(r"for (\w+) from (\d+) to (\d+)\Z")
NUMBER = re.compile(r"\{(id )?([a-z]+)([+-]\d+)?\}")
MANY = re.compile(r"\{(\d+) (\S)\}")


@dataclass(frozen=True)
class Scene:
    file: str
    name: str
    ledger_size: int
    rows: tuple  # (line, reply), with no reply where the line is not answered


def varint(number):
    out = bytearray()
    while number > 127:
        out.append(number & 127 | 128)
        number >>= 7
    return bytes([*out, number])


def id_text(entry):
    return base64.b64encode(b"\x08\x00\x10" + varint(entry)).decode()


def filled(text, names):
    """The text with what stands in braces written out."""
    def number(found):
        is_id, name, more = found.groups()
        value = names[name] + int(more or 0)
        return id_text(value) if is_id else str(value)

    return MANY.sub(lambda found: found[2] * int(found[1]), NUMBER.sub(number, text))


def row(text, names=()):
    line, arrow, reply = filled(text, dict(names)).partition(" -> ")
    return line, reply if arrow else None


def rows_of(lines):
    """The rows that the lines of a scene stand for."""
    lines = [*lines]
    while lines:
        line = lines.pop(0)
        loop = LOOP.match(line)
        if not loop:
            yield row(line)
            continue
        body = [it.strip() for it in itertools.takewhile(lambda it: it.startswith("  "), lines)]
        del lines[:len(body)]
        for number in range(int(loop[2]), int(loop[3]) + 1):
            yield from (row(it, {loop[1]: number}) for it in body)


def scene(file, paragraph):
    names = [it[2:] for it in paragraph if it.startswith("# ")]
    lines = paragraph[len(names):]
    size = USUAL_LEDGER_SIZE
    if lines and lines[0].startswith("ledger_size "):
        size = int(lines.pop(0).split()[1])
    return Scene(file, names[0], size, tuple(rows_of(lines)))


def scenes_of(path):
    paragraphs = [it.split("\n") for it in path.read_text().rstrip("\n").split("\n\n")]
    return [scene(path.name, it) for it in paragraphs[1:]]


def differences(program, topic, it, ends_last):
    """What the topic does not answer as the scene says, in words."""
    lines = [line for line, _ in it.rows]
    wanted = [reply for _, reply in it.rows if reply is not None]
    status = 2 if wanted and wanted[-1].startswith("bad line ") else 0
    data = "\n".join(lines) + "\n" * (ends_last and bool(lines))
    ran = subprocess.run([program, topic, str(it.ledger_size)], input=data.encode(), stdout=subprocess.PIPE, check=False)
    given = ran.stdout.decode().split("\n")[:-1]
    where = f"{it.file}, {it.name}, over the {topic} topic"
    for at, (line, reply, other) in enumerate(itertools.zip_longest(lines, wanted, given, fillvalue="nothing"), 1):
        if reply != other and (reply, other) != (None, "nothing"):
            yield f"{where}: row {at}, `{line[:200]}`, is answered `{other[:200]}`, and not `{reply[:200]}`"
            return
    if ran.returncode != status:
        yield f"{where}: status {ran.returncode}, and not {status}"


def ways(it):
    """With the end of the last line, and without it, where there is a last line that is not empty."""
    return [True, False] if it.rows and it.rows[-1][0] else [True]


def main():
    program, *names = sys.argv[1:] or sys.exit(__doc__)
    paths = [pathlib.Path(it) for it in names] or sorted(HERE.glob("*.txt"))
    scenes = [it for path in paths for it in scenes_of(path)]
    found = [
        words for it in scenes for topic in TOPICS for ends_last in ways(it)
        for words in differences(program, topic, it, ends_last)
    ]
    print(*found, sep="\n", end="\n" if found else "")
    rows = sum(len(it.rows) for it in scenes)
    print(f"{len(scenes)} scenes of {len(paths)} files, {rows} rows, each over {' and '.join(TOPICS)}: {len(found)} differ")
    return 1 if found else 0


if __name__ == "__main__":
    sys.exit(main())
