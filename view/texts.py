"""The three texts of a run: the script, the transcript and the record. docs/MACHINE.md has their grammar."""
import re
from collections import namedtuple

# Words that the console puts: the place is a terminal's number, or the name of a file.
Put = namedtuple("Put", "place address word")
# A line of the record: kind is "event", "units" or "idle". Units are of the fork (terminal, serial), as many as the count says.
Entry = namedtuple("Entry", "kind text fork count")
# What FORKS showed of a fork.
Shown = namedtuple("Shown", "fork superior status address")


class BadText(Exception):
    """A line is none of its text."""


def read(path):
    """The lines of a text."""
    with open(path, encoding="ascii") as file:
        text = file.read()
    if not text.endswith("\n"):
        raise BadText(f"{path}: the last line has no line feed")
    return text[:-1].split("\n")


def puts_of(line):
    """The words that a line of a script or of a record puts."""
    poke = re.fullmatch(r"POKE ([0-9]+) ([0-7]+) ([0-7]+)", line)
    if poke:
        return [Put(int(poke[1]), int(poke[2], 8), int(poke[3], 8))]
    row = re.fullmatch(r"WORDS (\S+) ([0-7]+) ([0-7]+)((?: [0-7]+)+)", line)
    if not row:
        return []
    first = int(row[2], 8) * 512 + int(row[3], 8)
    return [Put(row[1], first + n, int(word, 8)) for n, word in enumerate(row[4].split())]


def entries_of(lines):
    """The entries of a record, without its last line."""
    entries = []
    for number, line in enumerate(lines, 1):
        units = re.fullmatch(r"U (\d+) (\d+) (\d+)", line)
        idle = re.fullmatch(r"I (\d+)", line)
        if units:
            entries.append(Entry("units", line, (int(units[1]), int(units[2])), int(units[3])))
        elif idle:
            entries.append(Entry("idle", line, None, int(idle[1])))
        elif re.match(r"[A-Z]{4,} |TICK$", line):
            entries.append(Entry("event", line, None, 0))
        elif not re.fullmatch(r"E \d+ \d+", line):
            raise BadText(f"line {number} is no line of a record: {line}")
    return entries


def typed_by(line):
    """The terminal and the characters of a transcript's line; None where it is a line of another kind."""
    typed = re.fullmatch(r"T(\d+) (.*)", line)
    return (int(typed[1]), re.sub(r"\\([0-7]{3})", lambda it: chr(int(it[1], 8)), typed[2])) if typed else None


def fork_shown(line):
    """What a transcript's line tells of a fork; None where it is a line of another kind."""
    it = re.fullmatch(r"F (\d+) (\d+) (\d+) (.+) PC ([0-7]{6})", line)
    return Shown((int(it[1]), int(it[2])), int(it[3]), it[4], int(it[5], 8)) if it else None


def answers_of(lines):
    """What FORKS showed, each time the forks of one job, and where there was no job its terminal: in order."""
    answers = []
    for line in lines:
        shown = fork_shown(line)
        none = re.fullmatch(r"\?NO JOB (\d+)", line)
        if none:
            answers.append((int(none[1]), []))
        elif shown and shown.superior == 0:
            answers.append((shown.fork[0], [shown]))
        elif shown:
            answers[-1][1].append(shown)
    return answers


def looks_of(entries, lines):
    """What FORKS showed, by the number of its entry. Where a line '?NO JOB' may be the answer to one of several entries, what follows
    is given to an entry only if each way to read the two texts has it there."""
    answers = answers_of(lines)

    def takes(entry, n):
        """Which answers may be next behind this entry, if before it the n-th is."""
        words = entry.text.split(" ")
        if entry.kind != "event" or words[0] not in ("FORKS", "TYPE", "POKE", "START", "EXAMINE"):
            return {n}
        answer = n < len(answers) and answers[n][0] == int(words[1]) and (words[0] == "FORKS" or not answers[n][1])
        return ({n + 1} if answer else set()) | (set() if words[0] == "FORKS" else {n})

    before = [{0}]
    for entry in entries:
        before.append(set().union(*(takes(entry, n) for n in before[-1])))
    looks = {}
    after = {len(answers)}
    for at in reversed(range(len(entries))):
        ways = {n for n in before[at] if takes(entries[at], n) & after}
        if entries[at].text.startswith("FORKS ") and len(ways) == 1:
            looks[at] = answers[ways.pop()][1]
            ways = {n for n in before[at] if takes(entries[at], n) & after}
        after = ways
    return looks
