"""What both forms of the book say alike: the preface, heads, and the short form of a constant."""

TITLE = "The definitions that the headline rests on"
MOST_USERS = 8

HOW_TO_READ = [
    "This book has every definition that one reads to know what is promised of tenex: that the transcript of a run is that of a plain "
    "machine, and the record its entries. The last chapter is another promise, of a terminal beside others. There is no proof in it, "
    "and no code but for the types and constants that the definitions name, and the two clauses that give the promises. "
    "The first chapter is the headline; those between give its words their meaning.",
    "A definition begins with its type, and then has a line for each case. A record lists what holds together; its fields have names. "
    "A name whose type ends in Type 0 is a statement, or a kind of things. \u2261 is equality, \u00d7 is and, \u228e is or, \u22a5 is what never "
    "holds, and an arrow from a statement to another is if. (x : A) \u00d7 B says that there is an x with B, and (x : A) \u2192 B that each x has B. "
    "A list is [] or a first element \u2237 the others; ++ puts lists one behind the other; \u03bb x. e is the function that answers e. "
    "The words pub, abbrev and unfoldable tell the prover who may see a definition and when it is opened; they do not change what it says. "
    "A line 'module _ .. where' above a definition names what it takes besides, for all of which it holds.",
    "Numbers are written as 0o17 in octal. A type or constant of the code stands as the code has it.",
]
FROM_STD = "These names are those of the toolchain's standard library, by the file of its specs that has them."


def preface(book):
    """The paragraphs before the first chapter."""
    return [*HOW_TO_READ, f"There are {counts(book)} {order(book)}"]


def counts(book):
    """How many definitions there are, and for which promise."""
    definitions = [entry for entry in book.entries if not entry.is_code]
    lines = sum(1 for entry in definitions for line in entry.lines if not line.lstrip().startswith("--"))
    items = sum(1 for entry in book.entries if entry.is_code and not entry.is_clause)
    run, big, alone = (f"{count} of {lines_of} lines" for count, lines_of in book.shares)
    return (f"{len(definitions)} definitions of {lines} lines, and {items} types and constants. Of the definitions {run} are what the headline "
            f"of the command run rests on, {big} are more for the command big, and {alone} more for a terminal beside others.")


def place(entry):
    return [int(it) for it in entry.number.split(".")]


def order(book):
    """Whether what a definition uses stands before it, behind the first chapter."""
    ahead = sum(place(used) > place(entry) for entry in book.entries if place(entry)[0] > 1 for used in entry.uses)
    but = f", but for {ahead} names" if ahead else ""
    return f"Behind the first chapter all that a definition uses stands before it{but}."


def constant(entry):
    """A constant without its marks."""
    return " ".join(line.strip() for line in entry.lines).removeprefix("pub const ").removeprefix("pub static ").removesuffix(";")


def users(entry):
    """Who uses an entry, the first of them, and how many there are more."""
    return entry.used_by[:MOST_USERS], max(0, len(entry.used_by) - MOST_USERS)


def index(book):
    """The entries by name."""
    return sorted(book.entries, key=lambda entry: (entry.name.lower(), entry.name, place(entry)))
