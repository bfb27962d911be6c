"""Types and constants of the code: their lines, without attributes, and the comments above them."""
import glob
import re

HEAD = re.compile(r"pub (?:const|static|enum|struct|type) (\w+)")
USE = re.compile(r"use (\w+)::(?:\{([^}]*)\}|(\w+));")


class Item:
    """A type or a constant of a module."""

    def __init__(self, crate, module, name, comment, lines):
        self.place = (crate, name)
        self.module = module
        self.name = name
        self.comment = comment
        self.lines = lines
        self.is_constant = lines[0].startswith(("pub const", "pub static"))


def is_whole(lines):
    """Whether an item ends with its last line."""
    text = "\n".join(lines)
    return text.endswith(";") if "{" not in text else all(text.count(a) == text.count(b) for a, b in ("{}", "()", "[]"))


def items_of(crate, module, text):
    """The types and constants that begin at the left margin of a module, in order."""
    comment, item, name = [], [], None
    for line in text.split("\n"):
        head = HEAD.match(line)
        if name is None and line.startswith("///"):
            comment.append(line[3:].strip())
        elif name is None and head:
            name = head[1]
        elif name is None and not line.startswith("#["):
            comment = []
        if name is not None and not line.strip().startswith("#["):
            item.append(line)
            if is_whole(item):
                yield Item(crate, module, name, comment, item)
                comment, item, name = [], [], None


def about(text):
    """What a module says of itself in its first lines."""
    lines = re.match(r"(?:///?!? ?.*\n)*", text)[0].split("\n")
    return " ".join(line.lstrip("/! ").strip() for line in lines if not line.startswith("///")).strip()


def imports_of(text):
    """The crate of each name that a module imports."""
    found = {}
    for crate, names, name in USE.findall(text):
        for it in (names or name).split(","):
            found[it.strip()] = crate
    return found


class Code:
    """All types and constants, by crate and name, and what each names of others."""

    def __init__(self):
        self.items = {}
        self.imports = {}
        self.abouts = {}
        for path in sorted(glob.glob("crates/*/src/**/*.rt", recursive=True)):
            crate, module = re.match(r"crates/([^/]+)/src/(.*)\.rt$", path).groups()
            with open(path, encoding="utf-8") as file:
                text = file.read()
            self.imports[crate, module] = imports_of(text)
            self.abouts[crate, module] = about(text)
            for item in items_of(crate, module, text):
                self.items.setdefault(item.place, item)

    def uses_of(self, item):
        """The types and constants that an item names."""
        imports = self.imports[item.place[0], item.module]
        names = dict.fromkeys(re.findall(r"\b[A-Z]\w+", "\n".join(line.split("//")[0] for line in item.lines)))
        places = [(imports.get(name, item.place[0]), name) for name in names if name != item.name]
        return [place for place in places if place in self.items]

    def reach(self, places):
        """These, and all that they name, directly or not."""
        reached, todo = set(), [place for place in places if place in self.items]
        while todo:
            place = todo.pop()
            if place not in reached:
                reached.add(place)
                todo += self.uses_of(self.items[place])
        return reached
