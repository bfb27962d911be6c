"""Whether view/ shows what the texts of the examples say: each command runs on each example, and README.md of view/ shows what its
commands print now. Status 1: something does not fit, and each was printed.
"""
import collections
import contextlib
import glob
import io
import re
import shlex
import sys
import xml.etree.ElementTree as xml

sys.path[:0] = ["view", "checks"]
import mnemonics
import names
import texts
import view

SVG = "{http://www.w3.org/2000/svg}"
failures = 0


def fail(text):
    global failures
    failures += 1
    print(f"view.py: FAILED: {text}", file=sys.stderr)


def shown(*words):
    """What a command prints."""
    out = io.StringIO()
    with contextlib.redirect_stdout(out):
        view.main([str(word) for word in words])
    return out.getvalue()


def refused(*words):
    """Why a command shows nothing: it prints nothing, and ends with this."""
    try:
        return f"it is not refused, but shows {shown(*words)!r}"
    except SystemExit as end:
        return end.code


def expect(what, found, wanted):
    if found != wanted:
        fail(f"{what}: {found!r} instead of {wanted!r}")


def check_screens(path):
    """Each character of a terminal is on its screen, and the printed ones as they are."""
    typed = [it for it in map(texts.typed_by, texts.read(path)) if it]
    terminals = {t for t, _ in typed}
    for terminal in set(range(16)) - terminals:
        expect(f"{path}, terminal {terminal}", refused("screen", terminal, path), f"view.py: {path}: terminal {terminal} shows nothing there")
    for terminal in terminals:
        wanted = "".join(text for t, text in typed if t == terminal)
        screen = shown("screen", terminal, path)
        expect(f"{path}, terminal {terminal}: how many", len(screen), len(wanted.replace("\r\n", "\n")) + 1)
        expect(f"{path}, terminal {terminal}", re.sub(r"[^ -~]", "", screen), re.sub(r"[^ -~]", "", wanted))


def check_listing(path):
    """Each word that is put has its line, and its instruction is that of the comment before it, where there is one."""
    if not any(map(texts.puts_of, texts.read(path))):
        expect(path, refused("listing", path), f"view.py: {path}: no line is a POKE or a WORDS line")
        return 0
    rows = [row.split(None, 2) for row in shown("listing", path).split("\n") if row.startswith("  ")]
    said = {}
    agree = 0
    for line in texts.read(path):
        comment = re.match(r"; ([0-7]+)  ([A-Z]+)(?: ([^\s;]+))?\s*(?:;.*)?$", line)
        if comment and mnemonics.word_said(line):
            said[int(comment[1], 8)] = (comment[2], names.word_of(comment[2], comment[3] or ""))
        for put in texts.puts_of(line):
            address, word, instruction = rows.pop(0)
            expect(f"{path}: {line}", (int(address, 8), int(word, 8)), (put.address, put.word))
            name, _, operands = instruction.partition(" ")
            if put.address in said:
                agree += 1
                expect(f"{path}: {instruction} at {address}", (name, names.word_of(name, operands)), said.pop(put.address))
    expect(f"{path}: lines that are left", rows, [])
    return agree


def check_trace(record, transcript):
    """Each line of the transcript is there, and a unit that starts where the console put a word has an instruction."""
    lines = texts.read(transcript)
    rows = shown("trace", record, transcript).split("\n")[:-1]
    expect(f"{transcript}: how many lines", len(rows), len(lines))
    for line, row in zip(lines, rows):
        if row != line and not (line.startswith("U ") and row.startswith(line + "  ")):
            fail(f"{transcript}: {row!r} is shown for {line!r}")


def check_lanes(record, transcript):
    """The picture is XML, and its boxes have the units of each fork and the idle turns of the record."""
    wanted = collections.Counter()
    for it in texts.entries_of(texts.read(record)):
        wanted[it.fork] += it.count
    for words in ((record,), (record, transcript)):
        found = collections.Counter()
        for title in (it.text for it in xml.fromstring(shown("lanes", *words)).iter(SVG + "title")):
            units, idle = re.match(r"T(\d+) fork (\d+): (\d+) units in", title), re.match(r"(\d+) idle in", title)
            found[(int(units[1]), int(units[2])) if units else None] += int(units[3] if units else idle[1] if idle else 0)
        expect(f"{record}: turns by fork", +found, +wanted)


def check_looks(record, transcript):
    """Each fork that FORKS showed stands in the picture, at the entry that showed it."""
    entries, lines = texts.entries_of(texts.read(record)), texts.read(transcript)
    looks = texts.looks_of(entries, lines)
    told = [shown for at in sorted(looks) for shown in looks[at]]
    expect(f"{transcript}: the forks that were shown", told, [it for it in map(texts.fork_shown, lines) if it])


def check_page():
    """The names in record.html are those of now."""
    with open(names.PAGE, encoding="utf-8") as file:
        page = file.read()
    if names.page_with_names(page) != page:
        fail("view/record.html has other names of instructions than the assembler; view/names.py writes them")


def check_readme():
    """The commands in README.md, each with what it prints below it, or with its picture."""
    blocks = re.findall(r"^    \$ (.*)\n((?:    .*\n)*)(?:\n!\[.*\]\(\.\./(.*)\)\n)?", open("view/README.md", encoding="utf-8").read(), re.M)
    for command, block, to in blocks:
        words, to_file, _ = command.partition(" > ")
        found = shown(*shlex.split(words)[1:])
        if to_file:
            expect(f"{to}, which is not up to date: its length", len(open(to, encoding="utf-8").read()), len(found))
            expect(f"{to}, which is not up to date", open(to, encoding="utf-8").read() == found, True)
        else:
            expect(f"view/README.md: {command}", "\n".join(line.rstrip() for line in found.split("\n")).rstrip("\n"), re.sub("^    ", "", block, flags=re.M).rstrip("\n"))
    if len(blocks) < len(view.COMMANDS):
        fail("view/README.md has not an example of each command")


def main():
    agree = 0
    records = sorted(glob.glob("examples/**/*.record", recursive=True))
    for record in records:
        transcript, script = (record.replace(".record", ending) for ending in (".transcript", ".script"))
        check_screens(transcript)
        agree += check_listing(script)
        check_trace(record, transcript)
        check_lanes(record, transcript)
        check_looks(record, transcript)
    check_page()
    check_readme()
    expect("a file that isn't there", refused("listing", "absent.mac"), "view.py: absent.mac: No such file or directory")
    if failures:
        sys.exit(1)
    print(f"view.py: the texts of {len(records)} examples are shown as they are, and {agree} instructions are those of their comments")


if __name__ == "__main__":
    main()
