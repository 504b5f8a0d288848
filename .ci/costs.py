#!/usr/bin/env python3
"""What the gate costs, crate by crate, in processor seconds.

costs.py watch FILE COMMAND ..   runs the command, notes in FILE what each of its proofs took, and ends with its status
costs.py table FILE ..           prints the minutes of each crate, the dearest first, and all in all
costs.py notes FILE ..           writes that table into bench/NOTES.md, in place of the one that stands there

Several files are one run each of a part; where two have the same, the later counts.

While it watches, it keeps proofs that need much memory from meeting: where less than LEAST is free, the one that began
last is stopped, and goes on once there is room again. A stopped one needs no more than it has, so the first can end."""

import collections
import os
import re
import resource
import signal
import subprocess
import sys
import time

LEAST, ENOUGH = 1.5e9, 3.5e9
TICK, PAGE = os.sysconf("SC_CLK_TCK"), os.sysconf("SC_PAGE_SIZE")
KINDS = "proof", "tests", "programs", "edits"
NOTES = os.path.join(os.path.dirname(__file__), "..", "bench", "NOTES.md")
BEGIN, END = "<!-- costs -->", "<!-- end of costs -->"


class Process:
    """What /proc says of a process."""

    def __init__(self, pid):
        with open(f"/proc/{pid}/stat") as it:
            words = it.read().rpartition(")")[2].split()
        self.pid, self.parent, self.began = pid, int(words[1]), int(words[19])
        # its own time, and that of the children that it has waited for
        self.seconds = sum(map(int, words[11:15])) / TICK
        self.bytes = int(words[21]) * PAGE

    def words(self):
        with open(f"/proc/{self.pid}/cmdline", "rb") as it:
            return it.read().decode(errors="replace").split("\0")

    def folder(self):
        return os.readlink(f"/proc/{self.pid}/cwd")


def below(root):
    """The processes that stand below the one of that number."""
    found = {}
    for name in filter(str.isdigit, os.listdir("/proc")):
        try:
            found[int(name)] = Process(int(name))
        except (OSError, IndexError):
            # it ended meanwhile
            pass
    stands = {root: True}

    def is_below(pid):
        if pid not in stands:
            stands[pid] = pid in found and is_below(found[pid].parent)
        return stands[pid]

    return {pid: it for pid, it in found.items() if pid != root and is_below(pid)}


def said_of(process):
    """Which crate's proof it is, and of what kind, where it is one."""
    words = process.words()
    if os.path.basename(words[0]) != "rattle" or "--crate-name" not in words:
        return None
    crate = words[words.index("--crate-name") + 1]
    if "/rt-edit-" in process.folder():
        return crate, "edits"
    if "--test" in words:
        return crate, "tests"
    return crate, "programs" if "--crate-checked" in words else "proof"


def free():
    with open("/proc/meminfo") as it:
        return 1024 * int(re.search(r"MemAvailable:\s+(\d+)", it.read())[1])


class Watch:
    def __init__(self):
        # by process: the crate, the kind, its seconds and its most bytes
        self.proofs, self.stopped = {}, []

    def look(self, root):
        processes, running = below(root), []
        for pid, it in processes.items():
            key = pid, it.began
            if key not in self.proofs:
                try:
                    said = said_of(it)
                except OSError:
                    continue
                # the processes of one proof are counted with it
                if not said or any(other == it.parent for other, _ in self.proofs):
                    continue
                self.proofs[key] = [*said, 0.0, 0]
            self.proofs[key][2] = it.seconds
            self.proofs[key][3] = max(self.proofs[key][3], it.bytes)
            running.append(it)
        self.keep_apart(running)

    def keep_apart(self, running):
        pids = {it.pid for it in running}
        self.stopped = [it for it in self.stopped if it in pids]
        going = [it for it in running if it.pid not in self.stopped]
        room = free()
        if room < LEAST and len(going) > 1:
            last = max(going, key=lambda it: it.began)
            os.kill(last.pid, signal.SIGSTOP)
            self.stopped.append(last.pid)
        elif self.stopped and (room > ENOUGH or not going):
            os.kill(self.stopped.pop(0), signal.SIGCONT)

    def write(self, file, whole):
        sums = collections.defaultdict(lambda: [0.0, 0])
        for crate, kind, seconds, most in self.proofs.values():
            sums[crate, kind][0] += seconds
            sums[crate, kind][1] = max(sums[crate, kind][1], most)
        with open(file, "w") as it:
            for (crate, kind), (seconds, most) in sorted(sums.items()):
                print(crate, kind, f"{seconds:.1f}", most, sep="\t", file=it)
            rest = max(0, whole - sum(seconds for seconds, _ in sums.values()))
            print("(all else)", "", f"{rest:.1f}", 0, sep="\t", file=it)


def watch(file, command):
    watched = Watch()
    child = subprocess.Popen(command)
    signal.signal(signal.SIGTERM, lambda *_: child.terminate())
    while child.poll() is None:
        watched.look(child.pid)
        time.sleep(0.5)
    used = resource.getrusage(resource.RUSAGE_CHILDREN)
    watched.write(file, used.ru_utime + used.ru_stime)
    return child.returncode


def read(files):
    """Seconds and bytes by crate and kind."""
    found = {}
    for file in files:
        with open(file) as it:
            for line in it:
                crate, kind, seconds, most = line.rstrip("\n").split("\t")
                found[crate, kind] = float(seconds), int(most)
    return found


def table(files):
    found = read(files)
    crates = collections.defaultdict(dict)
    for (crate, kind), it in found.items():
        crates[crate][kind] = it
    whole = lambda crate: sum(seconds for seconds, _ in crates[crate].values())
    lines = [
        f"| Crate | {' | '.join(KINDS)} | in all | GB at most |",
        f"|---|{'---:|' * (len(KINDS) + 2)}",
    ]
    for crate in sorted(crates, key=whole, reverse=True):
        each = [f"{crates[crate][kind][0] / 60:.1f}" if kind in crates[crate] else "" for kind in KINDS]
        most = max(most for _, most in crates[crate].values())
        lines.append(f"| {crate} | {' | '.join(each)} | {whole(crate) / 60:.1f} | {f'{most / 1e9:.1f}' if most else ''} |")
    of_kind = [sum(it[0] for (_, kind), it in found.items() if kind == wanted) / 60 for wanted in KINDS]
    lines.append(f"| all | {' | '.join(f'{it:.1f}' for it in of_kind)} | {sum(map(whole, crates)) / 60:.1f} | |")
    return lines


def notes(files):
    with open(NOTES) as it:
        text = it.read()
    before, rest = text.split(BEGIN)
    after = rest.split(END)[1]
    with open(NOTES, "w") as it:
        it.write("\n".join([before + BEGIN, *table(files), END + after]))


def main():
    what, files = sys.argv[1], sys.argv[2:]
    if what == "watch":
        return watch(files[0], files[1:])
    if what == "table":
        print("Processor minutes of what was done in this run:", *table(files), sep="\n")
    elif what == "notes":
        notes(files)
    else:
        sys.exit(__doc__)
    return 0


sys.exit(main())
