#!/usr/bin/env python3
"""Shows what a run wrote, for a person to read.

    view/view.py screen T TRANSCRIPT           what the user at terminal T saw
    view/view.py listing SCRIPT                the words that the script puts, as instructions
    view/view.py trace RECORD TRANSCRIPT       the transcript; each unit that TRACE showed has its instruction behind it
    view/view.py lanes RECORD [TRANSCRIPT]     a picture (SVG): a lane for each fork, from left to right the turns

It reads texts alone. Each file is one of the three of a run; /dev/stdin is standard input. The picture is written to standard output.
"""
import re
import signal
import sys

import lanes as picture
import names
import texts


def seen(characters):
    """Characters as a terminal shows them: control characters are signs, but for the end of a line."""
    text = characters.replace("\r\n", "\n")
    return "".join(chr(0x2400 + ord(it)) if it < " " and it != "\n" else "\u2421" if it == "\x7f" else it for it in text)


def screen(terminal, transcript):
    if not re.fullmatch("[0-9]{1,2}", terminal):
        raise texts.BadText(f"a terminal is a number, and this is none: {terminal}")
    parts = [part[1] for part in map(texts.typed_by, texts.read(transcript)) if part and part[0] == int(terminal)]
    if not parts:
        raise texts.BadText(f"{transcript}: terminal {int(terminal)} shows nothing there")
    print(seen("".join(parts)))


def place_name(place):
    return f"terminal {place}" if isinstance(place, int) else f"file {place}"


def listing(script):
    puts = [put for line in texts.read(script) for put in texts.puts_of(line)]
    if not puts:
        raise texts.BadText(f"{script}: no line is a POKE or a WORDS line")
    before = None
    for put in puts:
        if put.place != before:
            print(place_name(put.place))
            before = put.place
        print(f"  {put.address:06o}  {put.word:012o}  {names.instruction(put.word)}")


class Memory:
    """What the console put where. A word of a file stands at the same address of a fork that the command RUN made of it."""

    def __init__(self):
        self.words = {}

    def put(self, line):
        for it in texts.puts_of(line):
            self.words.setdefault(it.address, {})[it.place] = it.word

    def word_at(self, terminal, address):
        """The word of the terminal's own POKE, or that of all files which have one there and agree."""
        here = self.words.get(address, {})
        of_files = {word for place, word in here.items() if isinstance(place, str)}
        return here.get(terminal, of_files.pop() if len(of_files) == 1 else None)


def traced_units(record, memory):
    """The fork of each unit that is traced, in order; the memory is then as the console left it before this unit."""
    on = False
    for entry in texts.entries_of(record):
        if entry.kind == "units" and on:
            yield from [entry.fork] * entry.count
        elif entry.kind == "event":
            memory.put(entry.text)
            on = {"TRACE ON": True, "TRACE OFF": False}.get(entry.text, on)


def trace(record, transcript):
    memory = Memory()
    units = traced_units(texts.read(record), memory)
    for line in texts.read(transcript):
        unit = re.fullmatch(r"U (\d+) (\d+) ([0-7]{6})", line)
        if not unit:
            print(line)
            continue
        terminal, serial, address = int(unit[1]), int(unit[2]), int(unit[3], 8)
        if next(units, None) != (terminal, serial):
            raise texts.BadText(f"the record has no such unit here: {line}")
        word = memory.word_at(terminal, address)
        print(line if word is None else f"{line}  {names.instruction(word)}")


def lanes(record, transcript=None):
    entries = texts.entries_of(texts.read(record))
    sys.stdout.write(picture.draw(entries, texts.looks_of(entries, texts.read(transcript)) if transcript else {}))


COMMANDS = {"screen": (screen, (2,)), "listing": (listing, (1,)), "trace": (trace, (2,)), "lanes": (lanes, (1, 2))}


def main(words):
    command, counts = COMMANDS.get(words[0] if words else "", (None, ()))
    if len(words) - 1 not in counts:
        sys.exit(__doc__)
    try:
        command(*words[1:])
    except OSError as error:
        sys.exit(f"view.py: {error.filename}: {error.strerror}")
    except (UnicodeError, texts.BadText) as error:
        sys.exit(f"view.py: {error}")


if __name__ == "__main__":
    signal.signal(signal.SIGPIPE, signal.SIG_DFL)
    main(sys.argv[1:])
