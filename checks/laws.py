"""The laws of docs/PROMISES.md, printed from the comments above them: of each crate its public functions with an empty body, whose
contract is the law. `laws.py --write` puts them into the document. A crate's README leads there, and has no row of its own for a law.
Status 1: the document has others, or a README has one, and what differs was printed.
"""
import difflib
import glob
import os
import re
import sys

DOCUMENT = "docs/PROMISES.md"
BEGINS = "<!-- The laws, by checks/laws.py from the comments above them. -->\n"
ENDS = "<!-- The end of the laws. -->\n"
HEAD = re.compile(r"pub fn (\w+)(?:<.*>)?\([^)]*\)$")


def text_of(path):
    return open(path, encoding="utf-8").read()


def comment_above(lines, at):
    """The comment of the item at a line, its first sentence alone."""
    above = []
    for line in reversed(lines[:at]):
        if line.startswith("///"):
            above.insert(0, line[3:].strip())
        elif not line.startswith("#["):
            break
    return re.split(r"(?<=\.) (?=[A-Z0-9])", " ".join(above))[0]


def laws_of(path):
    """The laws of a file, each with what it says."""
    lines = text_of(path).split("\n")
    for at, line in enumerate(lines):
        head = HEAD.match(line)
        body = next((it for it in lines[at + 1:] if it in ("{}", "{") or HEAD.match(it)), None) if head else None
        if body == "{}":
            yield head[1], comment_above(lines, at)


def crates():
    for line in text_of("crates.txt").split("\n"):
        if ":" in line.partition("#")[0]:
            yield line.split(":")[0].split()[0]


def tables():
    """The laws of each crate that has some, as a table a crate."""
    for crate in crates():
        rows = [(path, name, says) for path in sorted(glob.glob(f"crates/{crate}/src/**/*.rt", recursive=True)) for name, says in laws_of(path)]
        if not rows:
            continue
        check_readme(crate, {name for _, name, _ in rows})
        yield f"### {crate}\n\n| Law | What it says |\n|---|---|\n"
        for path, name, says in rows:
            if not says:
                print(f"laws.py: FAILED: {path}: {name} has no comment", file=sys.stderr)
                sys.exit(1)
            says = says.replace("|", "\\|")
            yield f"| [`{name}`]({os.path.relpath(path, 'docs')}) | {says} |\n"
        yield "\n"


def check_readme(crate, names):
    """Whether the README of a crate leaves its laws to the document."""
    path = f"crates/{crate}/README.md"
    for name in re.findall(r"^\| `(\w+)` \|", text_of(path), re.M):
        if name in names:
            print(f"laws.py: FAILED: {path} says the law {name} again", file=sys.stderr)
            sys.exit(1)


document = text_of(DOCUMENT)
before, _, rest = document.partition(BEGINS)
found, _, behind = rest.partition(ENDS)
wanted = "\n" + "".join(tables())
if sys.argv[1:] == ["--write"]:
    open(DOCUMENT, "w", encoding="utf-8").write(before + BEGINS + wanted + ENDS + behind)
elif found != wanted:
    sys.stderr.writelines(difflib.unified_diff(found.splitlines(True), wanted.splitlines(True), DOCUMENT, "the comments"))
    print(f"laws.py: FAILED: the laws of {DOCUMENT} are not those of the code: checks/laws.py --write puts them there", file=sys.stderr)
    sys.exit(1)
print(f"laws.py: {wanted.count('| [`')} laws stand in {DOCUMENT} as above their code")
