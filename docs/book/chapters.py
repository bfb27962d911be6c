"""The chapters, and the entries in them: definitions, types and constants, each with its number and with what it uses."""
import os
import re
import sys

import code_items
import reading

TOKEN = re.compile(r"(?<![\w.'])(?:(\w+)\.)?([A-Za-z_◌][A-Za-z0-9_'◌]*)")


class Entry:
    """A definition, or a type or constant of the code. What stands in its lines are pieces: texts, and the entries that they name."""

    def __init__(self, place, name, comment, lines):
        self.place = place
        self.name = name
        self.comment = comment
        self.lines = lines
        self.within = []
        self.is_constant = False
        self.is_code = False
        self.is_clause = False
        self.number = None
        self.pieces = []
        self.uses = []
        self.used_by = []


class Part:
    """A file of a chapter: of specs, or a module of the code, of which a clause may be wanted alone. It says what it is about."""

    def __init__(self, crate, is_code, name, clause=None):
        self.crate = crate
        self.is_code = is_code
        self.name = name
        self.clause = clause
        self.path = f"crates/{crate}/{f'src/{name}.rt' if is_code else f'specs/{name}.antt'}"
        self.about = ""
        self.entries = []


class Chapter:
    def __init__(self, title):
        self.title = title
        self.paragraph = ""
        self.parts = []


class Book:
    def __init__(self, chapters, from_std, shares):
        self.chapters = chapters
        self.shares = shares
        self.entries = [entry for chapter in chapters for part in chapter.parts for entry in part.entries]
        self.from_std = from_std


def read_chapters(path):
    """The chapters of chapters.txt, without their entries."""
    chapters = []
    with open(path, encoding="utf-8") as file:
        lines = [line.rstrip("\n") for line in file if not line.startswith("#")]
    for line in lines:
        files = re.fullmatch(r"(\w+)( code)?: ([\w ]+)", line)
        clause = re.fullmatch(r"(\w+) clause: (\w+) (\w+)", line)
        if line.startswith("== "):
            chapters.append(Chapter(line[3:]))
        elif files:
            chapters[-1].parts += [Part(files[1], bool(files[2]), name) for name in files[3].split()]
        elif clause:
            chapters[-1].parts.append(Part(clause[1], True, clause[2], clause[3]))
        elif line.strip():
            chapters[-1].paragraph += (" " if chapters[-1].paragraph else "") + line.strip()
    return chapters


def plain_comment(lines):
    """The sentences of a comment, as one text."""
    return " ".join(line.lstrip()[2:].strip() for line in lines)


def definitions_of(files, reached, crate, name):
    """The definitions of a file that are reached, in order. One without a comment has that of the one above it, which is told there."""
    file = files[crate, name]
    comment, told = "", True
    for definition_name, definition in file.definitions.items():
        if definition.comment:
            comment, told = plain_comment(definition.comment), False
        if ((crate, name), definition_name) not in reached:
            continue
        entry = Entry(((crate, name), definition_name), definition_name, "" if told else comment, definition.whole)
        entry.within = definition.within
        told = True
        yield entry


def items_of(all_code, wanted, crate, module):
    for item in all_code.items.values():
        if item.place in wanted and (item.place[0], item.module) == (crate, module):
            entry = Entry(item.place, item.name, " ".join(item.comment), item.lines)
            entry.is_constant, entry.is_code = item.is_constant, True
            yield entry


def clause_of(part):
    """The clause of a function, with the comment above it, and the names that its file takes."""
    file, comment = reading.File(os.devnull), []
    with open(part.path, encoding="utf-8") as text:
        for line in map(str.strip, text):
            if line.startswith("ghost use "):
                file.take_use(line.removeprefix("ghost ").removesuffix(";"))
            if line.startswith(f"ensures {part.clause} "):
                entry = Entry((part.path, part.clause), f"ensures {part.clause}", " ".join(comment), [line])
                entry.is_code, entry.is_clause, entry.file = True, True, file
                return entry
            comment = [*comment, line[2:].strip()] if line.startswith("//") else []
    sys.exit(f"make.py: {part.path} has no clause {part.clause}")


class Names:
    """Which entry a name in a file stands for."""

    def __init__(self, files, all_code, entries):
        self.files = files
        self.code = all_code
        self.of_place = {entry.place: entry for entry in entries}

    def in_file(self, place, owner, name):
        """What a name means in a file of specs, behind the short name of another file where that is given."""
        file = self.files[place]
        if owner:
            other = file.modules.get(owner)
            return self.taken(*other, name) if other else None
        if file.named(name):
            return self.of_place.get((place, file.named(name)))
        return self.taken(*file.taken[name]) if name in file.taken else None

    def taken(self, crate, other, name):
        if other.startswith("declared"):
            place = reading.declared_place(crate, other, name)
            return self.of_place.get((place[0], place[2]))
        file = self.files.get((crate, other))
        return self.of_place.get(((crate, other), file.named(name))) if file and file.named(name) else None

    def in_clause(self, file, name):
        return self.taken(*file.taken[name]) if name in file.taken else None

    def in_code(self, item, name):
        imports = self.code.imports[item.place[0], item.module]
        return self.of_place.get((imports.get(name, item.place[0]), name))


def without_comment(line, is_code):
    """A line in two: the text before its comment, and the comment."""
    comment = re.search(r"//.*" if is_code else r"(?:^\s*| )--(?: .*|$)", line)
    return (line[:comment.start()], line[comment.start():]) if comment else (line, "")


def is_plain(text, token):
    """Whether a word stands within a text, or is the name of a field that is given or told here."""
    before, behind = text[:token.start()], text[token.end():]
    given = re.match(r" = ", behind) and re.search(r"(?:^\s+|[{;] )$", before)
    told = re.match(r" : ", behind) and re.search(r"^\s+(?:pub )?$", before)
    return before.count('"') % 2 or given or told


def pieces_of(line, entry, meaning):
    """A line as texts, names with the entries that they stand for, and the comment. The entry's own name stays as it is."""
    text, comment = without_comment(line, entry.is_code)
    pieces, at = [], 0
    for token in TOKEN.finditer(text):
        found = None if is_plain(text, token) else meaning(token[1], token[2])
        if found and found is not entry:
            pieces += [(text[at:token.start(2)], None), (token[2], found)]
            at = token.end()
    return [piece for piece in [*pieces, (text[at:], None), (comment, "comment")] if piece[0]]


def link(entries, names):
    """Gives each entry the pieces of its lines, and tells each who uses it."""
    for entry in entries:
        if entry.is_clause:
            meaning = lambda owner, name, file=entry.file: None if owner else names.in_clause(file, name)
        elif entry.is_code:
            item = names.code.items[entry.place]
            meaning = lambda owner, name, item=item: None if owner else names.in_code(item, name)
        else:
            meaning = lambda owner, name, place=entry.place[0]: names.in_file(place, owner, name)
        entry.pieces = [pieces_of(line, entry, meaning) for line in entry.lines]
        entry.uses = list(dict.fromkeys(found for line in entry.pieces for _, found in line if isinstance(found, Entry)))
        for used in entry.uses:
            used.used_by.append(entry)


def names_of_std(files, reached):
    """The names of the standard library that the definitions use, by the file that has them."""
    found = {}
    for place, name in reached:
        words = set(reading.WORD.findall("\n".join(files[place].definitions[name].lines)))
        for short, (crate, other, own) in files[place].taken.items():
            if crate == "std" and reading.is_used(short, words):
                found.setdefault(other, set()).add(own)
    return {other: sorted(names) for other, names in sorted(found.items())}


def complain(book, reached, wanted, all_code):
    """Ends where a file that is needed stands in no chapter, or one of which nothing is needed stands in one."""
    placed = {entry.place for entry in book.entries}
    idle = [part.path for chapter in book.chapters for part in chapter.parts if not part.entries]
    for path in idle:
        print(f"make.py: docs/book/chapters.txt has {path}, of which no definition is reached", file=sys.stderr)
    missing = {f"{crate}: {file}" for (crate, file), _ in reached - placed}
    missing |= {f"{crate} code: {all_code.items[crate, name].module}" for crate, name in wanted - placed}
    for line in sorted(missing):
        print(f"make.py: docs/book/chapters.txt needs the line '{line}' in a chapter", file=sys.stderr)
    if missing or idle:
        sys.exit(1)


def fill(part, files, reached, all_code, wanted):
    """Gives a part its entries, and what it is about."""
    if part.is_code:
        part.about = all_code.abouts[part.crate, part.name]
        part.entries = [clause_of(part)] if part.clause else list(items_of(all_code, wanted, part.crate, part.name))
    else:
        part.about = plain_comment(files[part.crate, part.name].about)
        part.entries = list(definitions_of(files, reached, part.crate, part.name))


def read(path):
    """The whole book."""
    files = reading.read_files()
    heads = (reading.HEADLINE, reading.SEEN, reading.BESIDE_OTHERS)
    reached = reading.reach(files, heads=heads)
    of_run, of_both = set(reading.reach(files, (reading.OF_BIG,))), set(reading.reach(files))
    shares = [(len(places), reading.lines_of(files, places)) for places in (of_run, of_both - of_run, set(reached) - of_both)]
    all_code = code_items.Code()
    wanted = all_code.reach({(crate, name) for _, declared in reached.values() for crate, _, name in declared})
    chapters = read_chapters(path)
    for number, chapter in enumerate(chapters, 1):
        for part in chapter.parts:
            fill(part, files, reached, all_code, wanted)
        for place, entry in enumerate((entry for part in chapter.parts for entry in part.entries), 1):
            entry.number = f"{number}.{place}"
    book = Book(chapters, names_of_std(files, reached), shares)
    complain(book, set(reached), wanted, all_code)
    link(book.entries, Names(files, all_code, book.entries))
    return book
