"""Whether the documents fit the repository: links lead to files that are there, and to what they name; each crate has its README and its
place in docs/ARCHITECTURE.md, and rests on those of crates.txt; each example stands in the index; two documents are no longer than they
should be. Status 1: something does not fit, and each was printed.
"""
import glob
import os
import re
import sys

failures = 0


def fail(text):
    global failures
    failures += 1
    print(f"documents.py: FAILED: {text}", file=sys.stderr)


def text_of(path):
    return open(path, encoding="utf-8").read()


def anchors(text):
    return {re.sub(r"[^\w\- ]", "", head.lower()).replace(" ", "-") for head in re.findall(r"^#+ (.*)$", text, re.M)}


# links
documents = sorted({"README.md", *glob.glob("*/*.md"), *glob.glob("docs/**/*.md", recursive=True), *glob.glob("crates/*/README.md")})
links = 0
for document in documents:
    text = text_of(document)
    for name, to in re.findall(r"\[([^\]]*)\]\(([^)\s]+)\)", text):
        if re.match(r"https?:", to):
            continue
        links += 1
        path, _, anchor = to.partition("#")
        file = os.path.normpath(os.path.join(os.path.dirname(document), path)) if path else document
        if not os.path.exists(file):
            fail(f"{document}: the link {to} leads nowhere")
            continue
        if anchor and anchor not in anchors(text_of(file)):
            fail(f"{document}: {file} has no heading #{anchor}")
        word = re.fullmatch(r"`(?:[\w]+::)*(\w+)`", name)
        if word and file.endswith((".rt", ".antt")) and not re.search(rf"\b{word[1]}\b", text_of(file)):
            fail(f"{document}: {file} has no {word[1]}")

# crates
rows = re.findall(r"\[(\w+)\]\(\.\./crates/(\w+)/README\.md\)", re.search(r"^## The crates\n(.*?)^## ", text_of("docs/ARCHITECTURE.md"), re.M | re.S)[1])
crates = {}
for line in text_of("crates.txt").split("\n"):
    line = line.partition("#")[0]
    if ":" in line:
        crates[line.split(":")[0].split()[0]] = line.split(":")[1].split()
for crate, stands_on in crates.items():
    if rows.count((crate, crate)) != 1:
        fail(f"the crates of docs/ARCHITECTURE.md have {crate} {rows.count((crate, crate))} times")
    readme = f"crates/{crate}/README.md"
    if not os.path.exists(readme):
        fail(f"{readme} is absent")
        continue
    rests = re.search(r"^\*\*Rests on:\*\* (.*)\.$", text_of(readme), re.M)
    if not rests:
        fail(f"{readme} does not say on what it rests")
    elif sorted(re.findall(r"`(\w+)`", rests[1])) != sorted(stands_on):
        fail(f"{readme} rests on {rests[1]}; crates.txt has {' '.join(stands_on)}")
for crate, _ in rows:
    if crate not in crates:
        fail(f"docs/ARCHITECTURE.md has the crate {crate}, which crates.txt does not have")
trusted = set(re.findall(r"`(\w+)`", re.search(r"statements of the kit's crates that are used: (.*)\.", text_of("docs/PROMISES.md"))[1]))
used = {it for stands_on in crates.values() for it in stands_on if it not in crates}
if trusted != used:
    fail(f"docs/PROMISES.md trusts the kit's {sorted(trusted)}, and crates.txt has {sorted(used)}")

# examples
index = text_of("examples/README.md")
examples = {os.path.relpath(path, "examples")[:-len(".script")] for path in glob.glob("examples/**/*.script", recursive=True)}
indexed = [name[:-len(".script")] for name in re.findall(r"\]\(([\w/]+\.script)\)", index)]
for name in sorted(examples - set(indexed)):
    fail(f"examples/README.md lacks {name}")
for name in sorted({name for name in indexed if indexed.count(name) > 1}):
    fail(f"examples/README.md has {name} twice")

# how long they are
for document, most in (("README.md", 1000), ("docs/ARCHITECTURE.md", 4400)):
    words = len(text_of(document).split())
    if words > most:
        fail(f"{document} has {words} words, and should have at most {most}")

# the session that README.md shows
readme = text_of("README.md")
typed = "".join(line[3:] for line in text_of("examples/session.transcript").split("\n") if line.startswith("T0 "))
screen = typed.replace("\\015\\012", "\n")
shown = re.search(r"^    @directory.*?(?=\n\n)", readme, re.M | re.S)[0]
if "\n".join(line[4:].rstrip() for line in shown.split("\n")) not in screen:
    fail("README.md does not show what terminal 0 shows in examples/session.transcript")
lines = re.search(r"^    LOGIN.*?\n(?=\n)", readme, re.M | re.S)[0].replace("\n    ", "\n")[4:]
if lines not in text_of("examples/session.script"):
    fail("README.md has other lines of a script than examples/session.script")

# what the lessons quote
for lesson in text_of("docs/LESSONS.md").split("\n## ")[1:]:
    name = re.search(r"\(\.\./examples/(lesson_\w+)\.script\)", lesson)[1]
    if f"(../examples/{name}.mac)" not in lesson:
        fail(f"docs/LESSONS.md does not name the program of {name}")
    shown = [line for end in ("script", "transcript", "record") for line in text_of(f"examples/{name}.{end}").split("\n")]
    for line in re.findall(r"^    (.*)$", lesson, re.M):
        if line not in shown and not line.startswith(("./tenex", "./run-mac", "cp ")):
            fail(f"docs/LESSONS.md quotes {line!r}, which {name} does not have")

if failures:
    sys.exit(1)
print(f"documents.py: {links} links, {len(crates)} crates and {len(examples)} examples fit")
