"""Prints what a run of the gate costs: processor minutes of each crate's proof, of its tests and of its must-fail edits.

cost.py PID: watches the commands of the toolchain that the process PID starts, itself or through others, until it is
terminated, and prints the table then. A command's time is that of the last look at it, a fifth of a second before its
end at most. What else the process had run (the gate's own program, linking, the programs and tests) is the last row.
Beside the minutes stands the memory that the toolchain reckons for a check of the crate.
"""
import functools
import glob
import os
import signal
import sys
import threading

TICKS = os.sysconf("SC_CLK_TCK")
PAUSE = 0.2
KINDS = ("proof", "tests", "edits")
TOP = os.path.join(os.path.dirname(os.path.abspath(__file__)), "..")
MOST_GB = 5


def read(path):
    try:
        with open(path, "rb") as file:
            return file.read()
    except OSError:
        return b""


def stat_of(pid):
    """The fields of a process behind its name, or none where it is gone."""
    return read(f"/proc/{pid}/stat").rpartition(b") ")[2].split()


def part_of(words):
    """The crate that a command of the toolchain is at work on, and for which part of the gate; none for another command."""
    if not words[0].endswith("/rattle") or "--crate-name" not in words[:-1]:
        return None
    crate = words[words.index("--crate-name") + 1]
    if words[1] == "check":
        return crate, "edits"
    return crate, "tests" if "--test" in words else "proof"


class Watch:
    """The processor seconds of each command, as they were last seen."""

    def __init__(self, top):
        self.top = top
        self.parts = {}
        self.seconds = {}

    def is_below(self, fields):
        """Whether the process of these fields was started by the one that is watched, itself or through others."""
        while fields:
            parent = int(fields[1])
            if parent == self.top:
                return True
            fields = stat_of(parent) if parent > 1 else []
        return False

    def look(self):
        for pid in filter(str.isdigit, os.listdir("/proc")):
            fields = stat_of(pid)
            if not fields:
                continue
            key = pid, fields[19]
            if key not in self.parts:
                words = read(f"/proc/{pid}/cmdline").decode(errors="replace").split("\0")
                part = part_of(words)
                if not part or not self.is_below(fields):
                    continue
                self.parts[key] = part
            self.seconds[key] = (int(fields[11]) + int(fields[12])) / TICKS

    def rows(self):
        rows = {}
        for key, seconds in self.seconds.items():
            crate, kind = self.parts[key]
            rows.setdefault(crate, dict.fromkeys(KINDS, 0.0))[kind] += seconds
        return rows

    def whole(self):
        """All processor seconds of what the watched process has run and waited for."""
        fields = stat_of(self.top)
        return (int(fields[13]) + int(fields[14])) / TICKS if fields else 0.0


def stands_on():
    """The libraries that crates.txt names for each crate."""
    lines = read(f"{TOP}/crates.txt").decode().split("\n")
    parts = (line.partition("#")[0].partition(":") for line in lines)
    return {head.split()[0]: others.split() for head, colon, others in parts if colon}


def lines_of(files):
    return sum(read(path).count(b"\n") for path in glob.glob(f"{TOP}/crates/{files}", recursive=True))


def memory():
    """The GB that a check of each crate is likely to take: 1, with 1 for each 1,000 lines of its code, 0.2 for as many of its definitions
    and proofs, and 0.08 for as many of the code below it. What the toolchain's own libraries take comes to it."""
    libraries = stands_on()
    code = {crate: lines_of(f"{crate}/src/**/*.rt") for crate in libraries}

    @functools.cache
    def below(crate):
        own = [it for it in libraries[crate] if it in libraries]
        return set(own).union(*map(below, own))

    def thousands(crate):
        return code[crate] + 0.2 * lines_of(f"{crate}/[sp]*/**/*.antt") + 0.08 * sum(code[it] for it in below(crate))

    return {crate: 1 + thousands(crate) / 1000 for crate in libraries}


def line(name, seconds):
    return f"{name:<20}" + "".join(f"{each / 60:8.1f}" for each in (*seconds, sum(seconds)))


def table(watch):
    rows = watch.rows()
    reckoned = memory()
    sums = [sum(row[kind] for row in rows.values()) for kind in KINDS]
    rest = max(watch.whole() - sum(sums), 0.0) / 60
    yield "processor minutes   " + "".join(f"{kind:>8}" for kind in (*KINDS, "all", "GB"))
    for crate in sorted(rows, key=lambda name: -sum(rows[name].values())):
        yield f"{line(crate, rows[crate].values())}{reckoned.get(crate, 0):8.1f}"
    yield line("all crates", sums)
    yield f"{'the rest':<20}{'':24}{rest:8.1f}"
    large = sorted((crate for crate in reckoned if reckoned[crate] > MOST_GB), key=lambda crate: -reckoned[crate])
    yield f"over {MOST_GB} GB: " + (", ".join(f"{crate} {reckoned[crate]:.1f}" for crate in large) or "none")


def main():
    ended = threading.Event()
    signal.signal(signal.SIGTERM, lambda *_: ended.set())
    watch = Watch(int(sys.argv[1]))
    while not ended.wait(PAUSE):
        watch.look()
    print("\n".join(table(watch)), flush=True)


main()
