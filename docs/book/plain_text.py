"""The book as plain text of 100 columns, to be printed: each definition has its number, and tells by number what it uses and who uses it."""
import textwrap

import wording

WIDTH = 100
INDENT = " " * 7


def wrapped(text, first="", rest=""):
    return textwrap.wrap(text, WIDTH, initial_indent=first, subsequent_indent=rest, break_long_words=False, break_on_hyphens=False)


def code_line(line):
    """A line of a definition; where it is too long it goes on further to the right."""
    inner = line[:len(line) - len(line.lstrip())]
    return wrapped(line.strip(), INDENT + inner, INDENT + inner + " " * 6)


def numbered(word, entries, more=0):
    """A line of names with their numbers."""
    names = ", ".join(f"{entry.name}\u00a0{entry.number}" for entry in entries)
    return wrapped(f"{word} {names}{f' and {more} more' if more else ''}", INDENT + "  ", INDENT + "    ") if entries else []


def definition(entry):
    lines = wrapped(entry.comment, entry.number.ljust(len(INDENT)), INDENT) or [entry.number]
    for line in [*entry.within, *entry.lines]:
        lines += code_line(line)
    return [*lines, *numbered("uses", entry.uses), *numbered("used by", *wording.users(entry)), ""]


def constant(entry):
    return wrapped(f"{wording.constant(entry)}   {entry.comment}", entry.number.ljust(len(INDENT)), INDENT + "  ")


def part_lines(part):
    lines = [part.path, "-" * len(part.path), *wrapped(part.about), ""]
    for entry in part.entries:
        lines += constant(entry) if entry.is_constant else definition(entry)
    return lines if lines[-1] == "" else [*lines, ""]


def chapter_lines(number, chapter):
    title = f"{number}. {chapter.title}"
    parts = [line for part in chapter.parts for line in part_lines(part)]
    return ["", "", title, "=" * len(title), "", *wrapped(chapter.paragraph), "", *parts]


def index(book):
    """The names with their numbers, in as many columns as there is room for."""
    rows = [f"{entry.name} {entry.number}" for entry in wording.index(book)]
    column = max(map(len, rows)) + 2
    count = max(1, WIDTH // column)
    high = -(-len(rows) // count)
    return ["".join(f"{row:<{column}}" for row in rows[at::high]).rstrip() for at in range(high)]


def text(book):
    """The whole text."""
    lines = [wording.TITLE, "=" * len(wording.TITLE), ""]
    for paragraph in wording.preface(book):
        lines += [*wrapped(paragraph), ""]
    lines += [f"{n:4}. {chapter.title}" for n, chapter in enumerate(book.chapters, 1)]
    for number, chapter in enumerate(book.chapters, 1):
        lines += chapter_lines(number, chapter)
    lines += ["", "", "Names of the standard library", "=" * 29, "", *wrapped(wording.FROM_STD), ""]
    for file, names in book.from_std.items():
        lines += wrapped(f"{file}: {'  '.join(names)}", "", INDENT)
    lines += ["", "", "Index", "=====", "", *index(book)]
    return "\n".join(line.rstrip() for line in lines).replace("\u00a0", " ") + "\n"
