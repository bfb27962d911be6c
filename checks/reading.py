"""Which files of definitions the headline of `run` rests on, worked out from the definitions, and whether docs/PROMISES.md and README.md say so.

A definition reaches each name that it uses: of its own file, or of a file of specs that its file takes the name from. The types and
constants of the code (`declared`) are counted, and end the way. What the headline of `big` adds is told beside it. Status 1: the document
says otherwise, and what differs was printed. docs/book/make.py prints what both reach, and the promise of a terminal beside others.
"""
import collections
import glob
import re
import sys

# What the clause `headline` names.
HEADLINE = (("run_console", "Headline"), "HasHeadline")
SEEN = (("script_driver", "Observed"), "seen")
OF_BIG = (("script_driver", "RunTexts"), "RunsGenerated")
BESIDE_OTHERS = (("run_console", "Isolation"), "HasIsolation")
WORD = re.compile(r"[A-Za-z_◌][A-Za-z0-9_'◌]*|[^\sA-Za-z0-9_(){}\[\],.;:\"']+")
TAKES = re.compile(r"use Rattle\.([a-z0-9_]+)\.specs\.([A-Za-z0-9_.]+?)(?:\.\{(.*)\}| as (\S+))?\s*$")
MARKS = r"(?:abbrev |unfoldable |pub |record |data )"

failures = 0


def fail(text):
    global failures
    failures += 1
    print(f"reading.py: FAILED: {text}", file=sys.stderr)


class Definition:
    """A definition: its lines without comments, all its lines, the comment above it, and the modules in which it stands."""

    def __init__(self, comment, within):
        self.lines = []
        self.whole = []
        self.comment = comment
        self.within = within


class File:
    """The definitions of a file, what it says of itself, the names that it takes from others, and which data a constructor is of."""

    def __init__(self, path):
        self.path = path
        self.about = []
        self.definitions = {}
        self.taken = {}
        self.modules = {}
        self.of_data = {}
        self.stray = []
        self.comment = []
        self.within = []
        self.name = None
        with open(path, encoding="utf-8") as file:
            # the head of a module may go over several lines
            for line in re.sub(r"^( *module (?:(?! where$)[^\n])*)\n +", r"\1 ", file.read(), flags=re.M).split("\n"):
                self.take(line)

    def take(self, line):
        """Takes the next line of the file."""
        if not line.strip():
            self.comment = []
        elif line.lstrip().startswith("--"):
            self.comment.append(line)
        elif line.startswith("use "):
            self.take_use(line)
        elif not re.match(r"(?:pub )?mod ", line):
            self.take_text(line)

    def take_use(self, line):
        takes = TAKES.match(line)
        self.about = self.about or self.comment
        self.comment = []
        if not takes:
            return
        crate, file, names, short = takes.groups()
        if names is None:
            self.modules[short or file.split(".")[-1]] = (crate, file)
        for it in (names or "").split(","):
            if it.strip():
                words = it.split(" as ")
                self.taken[words[-1].strip()] = (crate, file, words[0].strip())

    def take_text(self, line):
        """A line of a module's head or of a definition."""
        depth = (len(line) - len(line.lstrip())) // 2
        self.within = self.within[:depth]
        base = 2 * len(self.within)
        if re.match(r"module \S+ .*where", line[base:]):
            self.within = [*self.within, line[base:]]
            self.comment = []
            return
        self.take_line(line[base:], [it[base:] for it in self.comment])
        self.comment = []

    def take_line(self, line, comment):
        head = re.match(rf"{MARKS}+(\S+)", line) or re.match(r"([^\s=]+) :", line)
        if head and not line[0].isspace():
            self.name = head[1]
            self.definitions[self.name] = Definition(comment, self.within)
            comment = []
        if self.name is None:
            self.stray.append(line)
            return
        definition = self.definitions[self.name]
        definition.lines.append(line)
        definition.whole += [*comment, line]
        part = re.match(r"  (?:pub )?(\S+) :", line)
        if part and re.match(rf"{MARKS}*data ", definition.lines[0]):
            self.of_data[part[1]] = self.name

    def named(self, name):
        """The definition that has this name, or the data whose constructor has it."""
        return name if name in self.definitions else self.of_data.get(name)


def is_used(name, words):
    if "◌" in name:
        return all(any(part in word for word in words) for part in name.split("◌") if part)
    return name in words


def read_files():
    """Each file of specs, by its crate and its name."""
    files = {}
    for path in glob.glob("crates/*/specs/**/*.antt", recursive=True):
        crate, file = re.match(r"crates/([^/]+)/specs/(.*)\.antt$", path).groups()
        files[crate, file.replace("/", ".")] = File(path)
    return files


def declared_place(crate, other, own):
    """The crate, the module and the name of a type or constant of the code; a variant is its type's."""
    parts = other.split(".")[1:]
    if parts[-1] == "TheVariants":
        return crate, ".".join(parts[:-2]), parts[-2]
    return crate, ".".join(parts[:-1]), own


def uses_of(files, place):
    """What a definition uses: the places of definitions, and of types and constants of the code."""
    file = files[place[0]]
    text = "\n".join(line.split(" -- ")[0] for line in file.definitions[place[1]].lines)
    words = set(WORD.findall(text))
    uses = {(place[0], file.named(name)) for name in [*file.definitions, *file.of_data] if is_used(name, words)}
    declared = set()
    for name, (crate, other, own) in file.taken.items():
        if not is_used(name, words):
            continue
        if other.startswith("declared"):
            declared.add(declared_place(crate, other, own))
        elif (crate, other) in files:
            if files[crate, other].named(own):
                uses.add(((crate, other), files[crate, other].named(own)))
            else:
                fail(f"{place[0]}: {own} of {crate}'s {other} isn't found")
    for short, other in file.modules.items():
        for own in re.findall(rf"\b{re.escape(short)}\.([A-Za-z0-9_']+)", text):
            if other in files and files[other].named(own):
                uses.add((other, files[other].named(own)))
    return uses, declared


def reach(files, left_out=(), heads=(HEADLINE, SEEN)):
    """What each definition uses that the headline, or other heads, reach, but for some definitions."""
    reached = {}
    todo = [*heads]
    while todo:
        place = todo.pop()
        if place not in reached and place not in left_out:
            reached[place] = uses_of(files, place)
            todo += reached[place][0]
    return reached


def lines_of(files, places):
    return sum(len(files[file].definitions[name].lines) for file, name in places)


def compare(wanted, said):
    """Compares the files, by crate, with those of the document's table."""
    found = collections.defaultdict(set)
    for crate, names in re.findall(r"\| (\w+) \| ((?:`\w+`(?:, )?)+) \|", said):
        found[crate] |= set(re.findall(r"`(\w+)`", names))
    for crate in sorted(set(wanted) | set(found)):
        for name in sorted(wanted[crate] - found[crate]):
            fail(f"docs/PROMISES.md lacks {name} of {crate}")
        for name in sorted(found[crate] - wanted[crate]):
            fail(f"docs/PROMISES.md names {name} of {crate}, which the headline does not reach")
    count = sum(map(len, wanted.values()))
    if f"these {count} files" not in said:
        fail(f"docs/PROMISES.md does not say 'these {count} files'")


def is_about(document, what, text, is_now):
    """Whether a document's number is that of now, but for a twentieth."""
    number = int(text.replace(",", ""))
    if abs(number - is_now) * 20 > is_now:
        fail(f"{document} says {number} {what}, and there are {is_now}")


def main():
    files = read_files()
    reached = reach(files, (OF_BIG,))
    more = [place for place in reach(files) if place not in reached]
    declared = {place[::2] for _, used in reached.values() for place in used}
    wanted = collections.defaultdict(set)
    for (crate, file), _ in reached:
        wanted[crate].add(file)
    for file in sorted({file for file, _ in reached}):
        for line in files[file].stray:
            fail(f"{files[file].path}: of which definition is the line {line!r}?")
    lines = lines_of(files, reached)

    with open("docs/PROMISES.md", encoding="utf-8") as file:
        promises = file.read()
    part = promises[promises.index("## What one reads"):promises.index("## Every call returns")]
    compare(wanted, part)
    said = re.search(r"some ([\d,]+) definitions of ([\d,]+) lines.* and some ([\d,]+) types and constants", part)
    for what, is_now, text in zip(("definitions", "lines", "types and constants"), (len(reached), lines, len(declared)), said.groups() if said else ("0",) * 3):
        is_about("docs/PROMISES.md", what, text, is_now)
    with open("README.md", encoding="utf-8") as file:
        said = re.search(r"([\d,]+) lines of definitions", file.read())
    is_about("README.md", "lines of definitions", said[1] if said else "0", lines)

    if failures:
        sys.exit(1)
    count = sum(map(len, wanted.values()))
    print(f"reading.py: the headline rests on {count} files, {len(reached)} definitions of {lines} lines, and {len(declared)} types and constants")
    print(f"reading.py: that of big on {len(more)} definitions more, of {lines_of(files, more)} lines")


if __name__ == "__main__":
    main()
