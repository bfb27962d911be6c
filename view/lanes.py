"""The record as a picture: a lane for each fork, from left to right the turns of the run."""
from html import escape

WIDTH, LEFT, TOP, LANE = 1200, 120, 78, 40
INK, SOFT, FORK = "#222222", "#666666", "#2f6b45"
LETTER = 6.7
WAITS = ("INPUT", "FORK", "SLEEP")
HEAD = f"""<defs><pattern id="idle" width="7" height="7" patternUnits="userSpaceOnUse" patternTransform="rotate(45)"><path d="M0 0V7" stroke="#999999"/></pattern></defs>
<style>text {{ paint-order: stroke; stroke: #ffffff; stroke-width: 3px; }}</style>
<g font-family="DejaVu Sans Mono, Menlo, Consolas, monospace" font-size="11" fill="{INK}">
"""


def text(x, y, words, more=""):
    return f'<text x="{x:.1f}" y="{y:.1f}"{more}>{escape(words)}</text>'


def box(x, y, wide, high, fill, title):
    return f'<rect x="{x:.1f}" y="{y:.1f}" width="{max(wide, 0.4):.1f}" height="{high}" fill="{fill}"><title>{escape(title)}</title></rect>'


def upright(x, top, bottom, dashed=False):
    dash = ' stroke-dasharray="3 3"' if dashed else ""
    return f'<path d="M{x:.1f} {top}V{bottom}" stroke="{SOFT}"{dash}/>'


class Lanes:
    """The entries of a record, each at the count of turns before it, and where they are drawn."""

    def __init__(self, entries, looks):
        self.entries = []
        turn = 0
        for n, entry in enumerate(entries):
            self.entries.append((turn, entry, looks.get(n, [])))
            turn += entry.count
        self.turns = turn
        ran = {entry.fork for entry in entries if entry.kind == "units"}
        self.forks = sorted(ran | {shown.fork for look in looks.values() for shown in look})
        self.row = {fork: n for n, fork in enumerate(self.forks)}
        self.bottom = TOP + LANE * len(self.forks)

    def x(self, turn):
        return LEFT + turn * (WIDTH - LEFT - 20) / max(1, self.turns)

    def y(self, fork):
        return TOP + LANE * self.row[fork]

    def names(self):
        for fork in self.forks:
            y = self.y(fork) + LANE - 4
            yield text(10, y - 12, f"T{fork[0]} fork {fork[1]}", ' font-size="13"')
            yield f'<path d="M{LEFT} {y}H{WIDTH - 20}" stroke="#cccccc"/>'

    def stretches(self):
        """Where a fork ran, or none could: the lane, the turns before and behind, and how many of them are its own. Two that are less than
        half a pixel apart are one."""
        open_now = {}
        for turn, entry, _ in self.entries:
            if entry.kind == "event":
                continue
            since, end, count = open_now.get(entry.fork, (turn, turn, 0))
            if self.x(turn) - self.x(end) >= 0.5:
                yield entry.fork, since, end, count
                since, count = turn, 0
            open_now[entry.fork] = since, turn + entry.count, count + entry.count
        yield from ((fork, *it) for fork, it in open_now.items())

    def turns_drawn(self):
        """The boxes of units, and hatched over all lanes the idle turns."""
        for fork, since, end, count in self.stretches():
            x = self.x(since)
            wide = self.x(end) - x
            turns = f"turn {since + 1}" if end == since + 1 else f"turns {since + 1} to {end}"
            if fork:
                yield box(x, self.y(fork) + 20, wide, LANE - 26, FORK, f"T{fork[0]} fork {fork[1]}: {count} units in {turns}")
                continue
            yield box(x, TOP, wide, self.bottom - TOP, "url(#idle)", f"{count} idle in {turns}: no fork was ready")
            if wide > LETTER * (6 + len(str(count))):
                yield text(x + wide / 2, self.bottom + 14, f"{count} idle", ' text-anchor="middle"')

    def console(self):
        """A tick for each moment at which the console has events, and the last of them in words where there is room."""
        yield text(10, TOP - 14, "console")
        moments = {}
        for turn, entry, _ in self.entries:
            if entry.kind == "event":
                moments.setdefault(turn, []).append(entry.text)
        free = 0
        for turn, events in moments.items():
            x = self.x(turn)
            said = events[-1] + (f" and {len(events) - 1} before" if len(events) > 1 else "")
            yield f'<rect x="{x - 1:.1f}" y="{TOP - 24}" width="2" height="16"><title>{escape("; ".join(events))}</title></rect>'
            said = said if len(said) <= 40 else said[:39] + "\u2026"
            if x >= free and x + LETTER * len(said) < WIDTH:
                yield text(x, TOP - 30, said)
                free = x + LETTER * (len(said) + 1)

    def looks_drawn(self):
        """What FORKS told: how each fork stood, and where its program counter was. Where two are too near, the first alone is in words."""
        free = 0
        for turn, _, look in self.entries:
            if not look:
                continue
            x = self.x(turn)
            yield upright(x, TOP, self.bottom, dashed=True)
            said = [f"{shown.status} at {shown.address:o}" for shown in look]
            wide = LETTER * max(map(len, said)) + 8
            if x < free:
                continue
            x, more = (x + 4, "") if x + wide < WIDTH else (x - 4, ' text-anchor="end"')
            for shown, words in zip(look, said):
                yield text(x, self.y(shown.fork) + 15, words, more)
            free = x + wide

    def waits(self):
        """A dashed line for a fork that FORKS showed waiting, up to its next unit, or to where its job is shown again."""
        begun = {}
        for turn, entry, look in self.entries:
            terminals = {shown.fork[0] for shown in look}
            ended = [fork for fork in begun if fork == entry.fork or fork[0] in terminals]
            yield from [self.wait(fork, *begun.pop(fork), turn) for fork in ended]
            begun |= {shown.fork: (turn, shown.status) for shown in look if shown.status.split()[0] in WAITS}
        yield from [self.wait(fork, *it, self.turns) for fork, it in begun.items()]

    def wait(self, fork, since, status, turn):
        y = self.y(fork) + LANE - 13
        title = escape(f"T{fork[0]} fork {fork[1]} was shown at turn {since} with the status {status}")
        return f'<path d="M{self.x(since):.1f} {y}H{self.x(turn):.1f}" stroke="{INK}" stroke-width="2" stroke-dasharray="6 4"><title>{title}</title></path>'

    def axis(self):
        for turn, anchor in ((0, "start"), (self.turns, "end")):
            yield text(self.x(turn), self.bottom + 30, f"{turn} turns" if turn else "0", f' text-anchor="{anchor}" fill="{SOFT}"')
        yield upright(LEFT, TOP, self.bottom)


def draw(entries, looks):
    """The picture of a record's entries, and of what FORKS showed at some of them."""
    lanes = Lanes(entries, looks)
    idle = sum(entry.count for entry in entries if entry.kind == "idle")
    title = f"{lanes.turns} turns, {idle} of them idle; {len(lanes.forks)} fork{'s' * (len(lanes.forks) != 1)}"
    shapes = [text(10, 24, title, ' font-size="15" font-weight="bold"')]
    for part in (lanes.names, lanes.turns_drawn, lanes.waits, lanes.looks_drawn, lanes.console, lanes.axis):
        shapes += part()
    high = lanes.bottom + 40
    size = f'width="{WIDTH}" height="{high}" viewBox="0 0 {WIDTH} {high}"'
    return (f'<svg xmlns="http://www.w3.org/2000/svg" {size} role="img">\n<title>{title}</title>\n<rect width="{WIDTH}" height="{high}" fill="#ffffff"/>\n'
            + HEAD + "\n".join(shapes) + "\n</g></svg>\n")
