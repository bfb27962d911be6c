#!/usr/bin/env python3
"""Draws the pictures beside this file: a chain before and after a copy, the lanes of forks, and the crates.

    docs/pictures/draw.py [FOLDER]

It reads what the program wrote, examples/lesson_copy.transcript, lesson_forks.transcript and lesson_forks.record, with the scripts that
were run, and crates.txt. checks/pictures.sh draws them anew and compares.
"""
import os
import re
import sys
from html import escape

TOP = os.path.join(os.path.dirname(os.path.abspath(__file__)), "..", "..")
INK = "#222222"
PALE = "#888888"
FONT = 'font-family="DejaVu Sans Mono, Menlo, Consolas, monospace"'


def lines_of(path):
    with open(os.path.join(TOP, path), encoding="utf-8") as file:
        return file.read().split("\n")


class Picture:
    """Shapes of a picture, one above the other."""

    def __init__(self, title, width, height):
        self.head = (f'<svg xmlns="http://www.w3.org/2000/svg" width="{width}" height="{height}" viewBox="0 0 {width} {height}" role="img">\n'
                     f"<title>{escape(title)}</title>\n"
                     '<defs><marker id="tip" viewBox="0 0 8 8" refX="7" refY="4" markerWidth="7" markerHeight="7" orient="auto">'
                     f'<path d="M0 0 L8 4 L0 8 z" fill="{INK}"/></marker></defs>\n'
                     f'<rect width="{width}" height="{height}" fill="#ffffff"/>\n')
        self.shapes = []

    def box(self, x, y, width, height, fill="#ffffff", line=INK, dashed=False, round=3):
        dash = ' stroke-dasharray="4 3"' if dashed else ""
        self.shapes.append(f'<rect x="{x:g}" y="{y:g}" width="{width:g}" height="{height:g}" rx="{round}" fill="{fill}" stroke="{line}"{dash}/>')

    def text(self, x, y, text, size=13, anchor="start", ink=INK, bold=False):
        weight = ' font-weight="bold"' if bold else ""
        self.shapes.append(f'<text x="{x:g}" y="{y:g}" {FONT} font-size="{size}" text-anchor="{anchor}" fill="{ink}"{weight}>{escape(text)}</text>')

    def path(self, d, line=INK, width=1.2, tip=False, dashed=False):
        more = ' marker-end="url(#tip)"' if tip else ""
        more += ' stroke-dasharray="4 3"' if dashed else ""
        self.shapes.append(f'<path d="{d}" fill="none" stroke="{line}" stroke-width="{width}"{more}/>')

    def write(self, path):
        with open(path, "w", encoding="utf-8") as file:
            file.write(self.head + "\n".join(self.shapes) + "\n</svg>\n")


# A chain before and after a copy


def looks_of(name):
    """The words that EXAMINE lines showed in a run, in order: the address and the word."""
    asked = [line.split()[3] for line in lines_of(f"examples/{name}.script") if line.startswith("EXAMINE ")]
    shown = [line.split() for line in lines_of(f"examples/{name}.transcript") if line.startswith("X ")]
    assert [int(at, 8) for at in asked] == [int(line[3], 8) for line in shown], f"{name}: an EXAMINE showed no word"
    return [(int(line[3], 8), int(line[4], 8)) for line in shown]


def access_of(word):
    return " ".join(mark for mark, bit in (("R", 2), ("W", 3), ("X", 4), ("C", 9)) if word >> (35 - bit) & 1)


def draw_chain(folder):
    looks = looks_of("lesson_copy")
    assert [at for at, _ in looks] == [0o4000, 0o5000, 0o6000, 0o4001, 1, 2, 1, 2, 0o4000, 0o5000, 0o6000, 0o4001, 0o6001, 1, 2, 1, 2]
    words = [word for _, word in looks]
    script = lines_of("examples/lesson_copy.script")
    add = next(line for line in script if "AOS" in line).split("  ")[1].split(" ;")[0].strip()
    put = [line for line in script[script.index("START 0 100"):] if line.startswith("POKE ")]
    before = {"words": {4: [words[0], words[3]], 5: [words[1]], 6: [words[2]]}, "follows": {4: words[4:6], 5: words[6:8]}}
    after = {"words": {4: [words[8], words[11]], 5: [words[9]], 6: [words[10], words[12]]}, "follows": {4: words[13:15], 5: words[15:17]}}
    picture = Picture("A chain of three entries before and after a copy", 880, 330)
    for x, head, state in ((20, f"before, with {put[0]}", before), (460, f"after {add}, with {put[1]}", after)):
        picture.text(x, 30, head, 16, bold=True)
        picture.text(x, 52, "entries of the map", 12, ink=PALE)
        picture.text(x + 270, 52, "pages", 12, ink=PALE)
        # which entry a page is drawn beside: the last of its chain
        follows = {page: None if word == 2**36 - 1 else word & 0o777 for page, (word, _) in state["follows"].items()}
        follows[6] = None
        for row, page in enumerate((4, 5, 6)):
            y = 70 + row * 85
            picture.box(x, y, 165, 44, "#eef3fb")
            picture.text(x + 10, y + 27, f"page {page}", 14, bold=True)
            access = access_of(state["follows"][page][1]) if page in state["follows"] else ""
            picture.text(x + 155, y + 27, access, 14, "end")
            if follows[page] is None:
                told = [state["words"][page]] + [state["words"][p] for p in (4, 5) if p != page and end_of(p, follows) == page]
                for offset in (0, 1):
                    known = {these[offset] for these in told if len(these) > offset}
                    assert len(known) <= 1, f"the places of one page show different words: {known}"
                shown = [next((these[offset] for these in told if len(these) > offset), 0) for offset in (0, 1)]
                picture.box(x + 270, y - 6, 130, 56, "#fbf3e2", round=0)
                for offset, word in enumerate(shown):
                    picture.text(x + 280, y + 15 + 22 * offset, f"{offset:03o}   {word:o}", 14)
                picture.path(f"M{x + 165} {y + 22} L{x + 268} {y + 22}", tip=True)
            else:
                assert follows[page] == page + 1
                picture.path(f"M{x + 82} {y + 44} L{x + 82} {y + 83}", tip=True)
                picture.text(x + 92, y + 68, "follows", 12, ink=PALE)
    picture.path("M440 20 L440 310", PALE, dashed=True)
    picture.write(os.path.join(folder, "chain.svg"))


def end_of(page, follows):
    while follows[page] is not None:
        page = follows[page]
    return page


# The lanes of forks


def draw_lanes(folder):
    record = lines_of("examples/lesson_forks.record")
    shown = []
    for line in lines_of("examples/lesson_forks.transcript"):
        if line.startswith("F "):
            if not shown or int(shown[-1][-1].split()[2]) >= int(line.split()[2]):
                shown.append([])
            shown[-1].append(line)
    lanes = sorted({int(line.split()[2]) for line in record if line.startswith("U ")})
    step, left, top, height = 26, 96, 66, 64
    begins = next(n for n, line in enumerate(record) if line.startswith("START "))
    turns = record[begins + 1:]
    units = sum(int(line.split()[3]) for line in turns if line.startswith("U "))
    looks = sum(line == "FORKS 0" for line in turns)
    gap, idle = 124, 90
    width = left + units * step + looks * gap + idle + 20
    picture = Picture("The units of three forks, one after another", width, top + height * len(lanes) + 40)
    picture.text(20, 30, "examples/lesson_forks: each box is a unit, in the order of the record", 14, bold=True)
    bottom = top + height * len(lanes)
    for n, fork in enumerate(lanes):
        y = top + n * height
        picture.text(20, y + 32, f"fork {fork}", 14, bold=True)
        picture.path(f"M{left} {y + height - 4} L{width - 20} {y + height - 4}", "#dddddd")
    x = left
    done = 0
    for line in turns:
        words = line.split()
        if words and words[0] == "U":
            y = top + lanes.index(int(words[2])) * height
            for _ in range(int(words[3])):
                done += 1
                picture.box(x + 2, y + 12, step - 4, 32, "#cfe3d4")
                picture.text(x + step / 2, y + 33, str(done), 11, "middle")
                x += step
        elif words and words[0] == "I":
            picture.box(x + 4, top + 8, idle - 8, bottom - top - 16, "#f2f2f2", "#cccccc", dashed=True)
            picture.text(x + idle / 2, (top + bottom) / 2 + 4, f"{words[1]} idle", 12, "middle", PALE)
            x += idle
        elif line == "FORKS 0":
            picture.path(f"M{x + 6} {top - 8} L{x + 6} {bottom + 8}", PALE, dashed=True)
            picture.text(x + 12, bottom + 24, "FORKS", 12, ink=PALE)
            for look in shown.pop(0):
                _, _, serial, _, status, _, pc = look.split()
                y = top + lanes.index(int(serial)) * height
                picture.text(x + 12, y + 24, {"FORK": "waits", "RUN": "runs", "HALT": "halted"}[status], 12)
                picture.text(x + 12, y + 40, f"at {int(pc, 8):o}", 12, ink=PALE)
            x += gap
    assert not shown, "the transcript shows forks more often than the record has FORKS lines"
    picture.write(os.path.join(folder, "lanes.svg"))


# The crates

COLORS = ["#dfe8f6", "#e3e3e3", "#fbe9cf", "#f6dfe4", "#e0f0df", "#e9e0f5", "#dcf0f2", "#f8d9c4", "#eeeeda", "#f7f7f7"]


def draw_crates(folder):
    stands_on, group_of, groups = {}, {}, []
    for line in lines_of("crates.txt"):
        if line.startswith("#"):
            groups.append(line[1:].split(":")[0].strip())
        elif ":" in line:
            name, others = line.split(":")
            stands_on[name] = others.split()
            group_of[name] = groups[-1]
    stands_on = {name: [it for it in others if it in stands_on] for name, others in stands_on.items()}

    levels, below = {}, {}

    def visit(name):
        if name not in levels:
            for it in stands_on[name]:
                visit(it)
            levels[name] = 1 + max((levels[it] for it in stands_on[name]), default=-1)
            below[name] = set(stands_on[name]).union(*(below[it] for it in stands_on[name]))

    for name in stands_on:
        visit(name)
    # a line is left out where another way leads there
    lines = [(name, it) for name in stands_on for it in stands_on[name] if not any(it in below[other] for other in stands_on[name])]
    # who stands on nothing is drawn just below those that stand on it
    for name in stands_on:
        if not stands_on[name]:
            above = [levels[upper] for upper, it in lines if it == name]
            levels[name] = max(0, min(above, default=1) - 1)
    rows = [[] for _ in range(max(levels.values()) + 1)]
    for name in stands_on:
        rows[levels[name]].append(name)
    # a line over several rows goes through a point in each
    ways = {}
    for upper, lower in lines:
        points = [upper]
        for level in range(levels[upper] - 1, levels[lower], -1):
            points.append((upper, lower, level))
            rows[level].append(points[-1])
        ways[upper, lower] = points + [lower]
    links = [pair for points in ways.values() for pair in zip(points, points[1:])]
    near = {}
    for a, b in links:
        near.setdefault(a, ([], []))[1].append(b)
        near.setdefault(b, ([], []))[0].append(a)
    place = {it: n for row in rows for n, it in enumerate(row)}
    for sweep in range(24):
        side = sweep % 2
        for row in rows[1:] if side else rows[-2::-1]:
            middle = {it: sum(place[o] for o in near.get(it, ([], []))[side]) / max(1, len(near.get(it, ([], []))[side]))
                      if near.get(it, ([], []))[side] else place[it] for it in row}
            row.sort(key=lambda it: (middle[it], place[it]))
            for n, it in enumerate(row):
                place[it] = n
    wide, thin, high, step = 132, 16, 26, 66

    def width_of(it):
        return wide if isinstance(it, str) else thin

    across = max(sum(map(width_of, row)) for row in rows) + 40
    x = {}
    for row in rows:
        free = (across - 40 - sum(map(width_of, row))) / (len(row) + 1)
        at = 20 + free
        for it in row:
            x[it] = at + width_of(it) / 2
            at += width_of(it) + free
    # each row is drawn towards the middle of those above and below it, as far as there is room
    for _ in range(40):
        for row in rows:
            want = [sum(x[o] for side in near.get(it, ([], [])) for o in side) / max(1, sum(map(len, near.get(it, ([], []))))) or x[it] for it in row]
            for n, it in enumerate(row):
                low = 20 + width_of(it) / 2 if n == 0 else x[row[n - 1]] + (width_of(row[n - 1]) + width_of(it)) / 2 + 4
                top = across - 20 - width_of(it) / 2 if n == len(row) - 1 else x[row[n + 1]] - (width_of(row[n + 1]) + width_of(it)) / 2 - 4
                if low <= top:
                    x[it] = min(max(want[n], low), top)
    head = 74

    def y_of(level):
        return head + (len(rows) - 1 - level) * step

    picture = Picture("The crates, each above those on which it stands", round(across), head + len(rows) * step)
    picture.text(20, 28, "The crates: each stands on those to which a line leads down from it", 15, bold=True)
    at = 20
    for n, group in enumerate(groups):
        picture.box(at, 42, 14, 14, COLORS[n])
        picture.text(at + 20, 54, group, 12)
        at += 34 + 7.6 * len(group)
    for points in ways.values():
        spots = []
        for it in points:
            level = levels[it] if isinstance(it, str) else it[2]
            spots.append((x[it], y_of(level)))
        d = f"M{spots[0][0]:.1f} {spots[0][1] + high:.1f}"
        for n, (px, py) in enumerate(spots[1:], 1):
            fx, fy = spots[n - 1]
            fy += high
            d += f" C{fx:.1f} {fy + 18:.1f} {px:.1f} {py - 18:.1f} {px:.1f} {py:.1f}"
            if n < len(spots) - 1:
                d += f" L{px:.1f} {py + high:.1f}"
        picture.path(d, PALE, 1)
    for name in stands_on:
        picture.box(x[name] - wide / 2 + 3, y_of(levels[name]), wide - 6, high, COLORS[groups.index(group_of[name])])
        picture.text(x[name], y_of(levels[name]) + 17, name, 12, "middle")
    picture.write(os.path.join(folder, "crates.svg"))


if __name__ == "__main__":
    to = sys.argv[1] if len(sys.argv) > 1 else os.path.dirname(os.path.abspath(__file__))
    draw_chain(to)
    draw_lanes(to)
    draw_crates(to)
