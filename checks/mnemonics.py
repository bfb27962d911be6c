"""Whether the comments of the examples fit their words: a comment '; ADDRESS  INSTRUCTION' or '; ADDRESS  WORD' stands for the word
that the next POKE or WORDS puts at that address. Each example opens with a comment, and one that starts a program has its instructions in comments.
Whether the index of docs/MACHINE.md has their numbers, and its tables the bits of words in octal; whether the tables of docs/DIFFERENCES.md
have each of them, and the instruction table their names at their opcodes. Status 1: something does not fit, and each was printed.
"""
import glob
import re
import sys

sys.path.insert(0, "view")
import names
import texts

failures = 0


def fail(text):
    global failures
    failures += 1
    print(f"mnemonics.py: FAILED: {text}", file=sys.stderr)


def word_said(line):
    """The address and the word that a comment tells; None where it tells none."""
    at = re.match(r"; ([0-7]+)  (\S+)(?: (\S+))?\s*(?:;.*)?$", line)
    if not at:
        return None
    address, name, operands = at.groups()
    word = int(name, 8) if re.fullmatch("[0-7]{12}", name) else names.word_of(name, operands or "")
    return None if word is None else (int(address, 8), word)


def compare(path, lines):
    """Compares the comments of a script with its words, and counts them."""
    said = {}
    count = 0
    for number, line in enumerate(lines, 1):
        comment = word_said(line)
        if comment:
            said[comment[0]] = (comment[1], number)
            count += 1
        puts = texts.puts_of(line)
        if puts and puts[0].address in said:
            for put in puts:
                word, above = said.pop(put.address, (put.word, number))
                if word != put.word:
                    fail(f"{path}:{above} is {word:012o}, and the word is {put.word:012o}")
        elif line and not line.startswith(";"):
            for word, above in said.values():
                fail(f"{path}:{above} stands for no word below it")
            said = {}
    return count


def calls_are_named(path, lines):
    """Each monitor call among the words of a script is named by a comment."""
    words = {put.word for line in lines for put in texts.puts_of(line)}
    named = {name for line in lines if line.startswith(";") for name in re.findall(r"[A-Z]+", line)}
    for name in names.CALLS:
        if names.word_of(name, "") in words and name not in named:
            fail(f"{path} has no comment with {name}")


def compare_index(document):
    """The index of the machine's document: each call with its number, and each name of an instruction with its opcode."""
    with open(document, encoding="utf-8") as file:
        index = file.read().partition("\n## Index\n")[2]
    indexed = dict(re.findall(r"\b([A-Z]{2,6}) ([0-7]{2,3})\b", index))
    for name, number in names.CALLS.items():
        if indexed.pop(name, "") != f"{number:o}":
            fail(f"the index of {document} does not have {name} {number:o}")
    for name, number in indexed.items():
        if names.OPCODES.get(name) != int(number, 8):
            fail(f"the index of {document} has {name} {number}")
    for name, opcode in names.OPCODES.items():
        if name not in indexed and not any(name[:n] in indexed for n in range(2, len(name))):
            fail(f"the index of {document} lacks {name} {opcode:o}")


def compare_bits(document):
    """The bits of words in octal: of both halves, of the access in a word, and of the channels."""
    with open(document, encoding="utf-8") as file:
        text = file.read()
    halves = re.findall(r"(?<=\| )(\d+): ([0-7]{6})(?= \|)", text)
    access = [(n, half) for half, n in re.findall(r"^\| ([0-7]{6}) \| (\d+) \|", text, re.M)]
    rows = re.findall(r"^\| ([\d, to]+) \| ((?:`[0-7]{1,6},,[0-7]{1,6}`(?:, | to |(?= \|)))+) \|", text, re.M)
    channels = [(n, left if int(n) < 18 else right) for numbers, words in rows
                for n, (left, right) in zip(re.findall(r"\d+", numbers), re.findall(r"`(\w+),,(\w+)`", words), strict=True)]
    if (len(halves), len(access), len(rows)) != (36, 6, 10):
        fail(f"{document} has {len(halves)} bits of words, {len(access)} of access, and {len(rows)} rows of channels with bits")
    for number, half in halves + access + channels:
        if int(half, 8) != 1 << 17 - int(number) % 18:
            fail(f"{document} has {half} for bit {number}")


def compare_differences(document):
    """The tables by call and by instruction: each call stands once, and each instruction by its name or by how it begins."""
    with open(document, encoding="utf-8") as file:
        calls, processor = re.search(r"^## The calls$(.*?)^## The processor$(.*?)^## ", file.read(), re.M | re.S).groups()
    named = re.findall(r"[A-Z]+", " ".join(re.findall(r"^\| ([A-Z, ]+) \|", calls, re.M)))
    for name in sorted(names.CALLS.keys() | set(named)):
        if name not in names.CALLS or named.count(name) != 1:
            fail(f"{document} has the call {name} {named.count(name)} times")
    for path, text in ((document, f"All {len(names.CALLS)} calls"), ("README.md", f"with {len(names.CALLS)} of its calls")):
        with open(path, encoding="utf-8") as file:
            if text not in file.read():
                fail(f"{path} does not say {text!r}")
    begins = set(re.findall(r"\b[A-Z]{2,6}\b", " ".join(re.findall(r"^\| ([^|]+) \|", processor, re.M))))
    for name in names.OPCODES:
        if not any(name[:n] in begins for n in range(2, len(name) + 1)):
            fail(f"{document} lacks {name}")


def compare_rows(table):
    """The comments of the instruction table: behind each line of rows its first opcode, and the names of its instructions."""
    with open(table, encoding="utf-8") as file:
        comments = re.findall(r"; +// ([0-7]{3})((?: [A-Z]+)*)$", file.read(), re.M)
    found = {name: int(first, 8) + n for first, named in comments for n, name in enumerate(named.split())}
    for name in sorted(found.keys() | names.OPCODES.keys()):
        if found.get(name) != names.OPCODES.get(name):
            fail(f"{table} has {name} at {found.get(name)}, and the assembler at {names.OPCODES.get(name)}")


def main():
    scripts = sorted(glob.glob("examples/**/*.script", recursive=True))
    comments = 0
    for path in scripts:
        with open(path, encoding="utf-8") as file:
            lines = file.read().split("\n")
        if not lines[0].startswith("; "):
            fail(f"{path} does not open with a comment")
        comments += compare(path, lines)
        calls_are_named(path, lines)
    compare_index("docs/MACHINE.md")
    compare_bits("docs/MACHINE.md")
    compare_differences("docs/DIFFERENCES.md")
    compare_rows("crates/ka10_table/src/rows.rt")
    if failures:
        sys.exit(1)
    print(f"mnemonics.py: {comments} comments of {len(scripts)} examples are those of their words")


if __name__ == "__main__":
    main()
