"""The must-fail edits of crates/NAME/must-fail: lines 'file: PATH', 'old: TEXT' and 'new: TEXT', once or more. Each old text has to stand
once in its file, where earlier pairs of the same edit have been made, and each new text has to be another. Status 1: an edit doesn't apply, and each
fault was printed.
"""
import glob
import os
import sys

LABELS = ["file: ", "old: ", "new: "]


def changes_of(edit):
    """The changes of an edit, each a path, an old text and a new one. None: its lines are no such changes."""
    lines = [line for line in open(edit, encoding="utf-8").read().split("\n") if line]
    labels = LABELS * (len(lines) // len(LABELS))
    if not lines or len(labels) != len(lines) or not all(line.startswith(label) for line, label in zip(lines, labels)):
        return None
    texts = [line[len(label):] for line, label in zip(lines, labels)]
    return list(zip(texts[0::3], texts[1::3], texts[2::3]))


def faults_of(edit):
    """What is wrong with an edit, fault by fault."""
    changes = changes_of(edit)
    if changes is None:
        yield "its lines are not file, old and new, in turn"
        return
    crate = os.path.dirname(os.path.dirname(edit))
    texts = {}
    for path, old, new in changes:
        if path not in texts:
            file = os.path.join(crate, path)
            if not os.path.isfile(file):
                yield f"there is no {path}"
                return
            texts[path] = open(file, encoding="utf-8").read()
        times = texts[path].count(old)
        if times != 1:
            yield f"its old text stands {times} times in {path}: {old.strip()}"
            return
        if old == new:
            yield f"its new text is the old one: {old.strip()}"
        texts[path] = texts[path].replace(old, new)


edits = sorted(glob.glob("crates/*/must-fail/*.edit"))
faults = [f"{edit}: {fault}" for edit in edits for fault in faults_of(edit)]
for fault in faults:
    print(f"edits.py: FAILED: {fault}", file=sys.stderr)
if faults:
    sys.exit(1)
print(f"edits.py: {len(edits)} edits apply")
