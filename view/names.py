"""The names of instructions and monitor calls, read from the assembler's own table: crates/asm_core/src/names.rt.

    view/names.py        writes the names into record.html, which can't read a file beside it
"""
import os
import re
import textwrap

HERE = os.path.dirname(os.path.abspath(__file__))
TABLE = os.path.join(HERE, "..", "crates", "asm_core", "src", "names.rt")
PAGE = os.path.join(HERE, "record.html")
GROUP = re.compile(r'in_group\(\s*word,\s*0o([0-7]+),\s*(\d+),\s*(b"[^"]*"|\w+),\s*(\d+),\s*(b"[^"]*"|\w+),?\s*\)')
OPERANDS = re.compile(r"(?:([0-7]+),)?(@)?([0-7]*)(?:\(([0-7]+)\))?")
JSYS = 0o104


def pieces(text):
    """The names of a list in which each has a space behind it."""
    return text.split(" ")[:-1]


def opcodes_of(text):
    """The opcode of each name of an instruction."""
    lists = dict(re.findall(r'^const (\w+): &\[u8\] = b"([^"]*)";', text, re.M))
    found = {}
    for first, stem_step, stems, ending_step, endings in GROUP.findall(text):
        stems, endings = (pieces(it[2:-1] if it.startswith('b"') else lists[it]) for it in (stems, endings))
        for n, stem in enumerate(stems):
            for k, ending in enumerate(endings):
                found[stem + ending] = int(first, 8) + n * int(stem_step) + k * int(ending_step)
    return found


def calls_of(text):
    """The number of each monitor call."""
    numbers = re.search(r"CALL_NUMBERS: \[u16; (\d+)\] = \[([^\]]*)\]", text)
    names = re.search(r'let mut names: &\[u8\] = b"([^"]*)"', text)
    found = dict(zip(pieces(re.sub(r"\\\n\s*", "", names[1])), (int(it, 8) for it in re.findall(r"0o([0-7]+)", numbers[2]))))
    assert len(found) == int(numbers[1]), "names.rt: as many names of calls as numbers"
    return found


with open(TABLE, encoding="utf-8") as _file:
    _text = _file.read()
OPCODES = opcodes_of(_text)
CALLS = calls_of(_text)
NAME_OF_OPCODE = {opcode: name for name, opcode in OPCODES.items()}
NAME_OF_CALL = {number: name for name, number in CALLS.items()}
assert len(NAME_OF_OPCODE) == len(OPCODES) > 300, "names.rt: each instruction has an opcode of its own"


def instruction(word):
    """A word as an instruction; as two halves where its opcode has no name."""
    opcode, ac, indirect, index, address = word >> 27, word >> 23 & 15, word >> 22 & 1, word >> 18 & 15, word & 0o777777
    if word >> 18 == JSYS << 9 and address in NAME_OF_CALL:
        return NAME_OF_CALL[address]
    if opcode not in NAME_OF_OPCODE:
        return f"{word >> 18:o},,{address:o}"
    operands = (f"{ac:o}," if ac else "") + "@" * indirect + f"{address:o}" + (f"({index:o})" if index else "")
    return f"{NAME_OF_OPCODE[opcode]} {operands}"


def word_of(name, operands):
    """The word of an instruction, as the assembler reads it; None where this is none."""
    if name in CALLS:
        return (JSYS << 27) + CALLS[name] if not operands else None
    fields = OPERANDS.fullmatch(operands)
    if name not in OPCODES or not fields:
        return None
    ac, indirect, address, index = fields.groups()
    return (OPCODES[name] << 27) + (int(ac or "0", 8) << 23) + (bool(indirect) << 22) + (int(index or "0", 8) << 18) + int(address or "0", 8)


def lines_for_page(constant, table):
    pairs = " ".join(f"{number:o}={name}" for name, number in sorted(table.items(), key=lambda it: it[1]))
    return f"const {constant} = `\n{textwrap.fill(pairs, 118)}`;\n"


def page_with_names(page):
    """The text of record.html with the names of now."""
    begin, end = "// names begin\n", "// names end\n"
    before, rest = page.split(begin)
    names = lines_for_page("OPCODE_NAMES", OPCODES) + lines_for_page("CALL_NAMES", CALLS)
    return before + begin + names + end + rest.split(end)[1]


if __name__ == "__main__":
    with open(PAGE, encoding="utf-8") as _file:
        _page = _file.read()
    with open(PAGE, "w", encoding="utf-8") as _file:
        _file.write(page_with_names(_page))
