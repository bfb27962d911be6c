"""Tries view/record.html in Chromium, where that is installed: on each example, by keys, by the mouse, and with files that are wrong.

    checks/record_page.py [PICTURES]

Screenshots are written into the folder PICTURES, where one is given. Status 1: something is not as expected, and each was printed.
"""
import glob
import os
import re
import shutil
import sys
import tempfile

sys.path[:0] = ["checks", "view"]
import browser
import names
import texts

PAGE = "view/record.html"
# so many characters of a terminal are shown
LONGEST_SCREEN = 8000
failures = 0


def fail(text):
    global failures
    failures += 1
    print(f"record_page.py: FAILED: {text}", file=sys.stderr)


def expect(what, found, wanted):
    if found != wanted:
        fail(f"{what}: {found!r:.300} instead of {wanted!r:.300}")


def has(what, text, *parts):
    for part in parts:
        if part not in (text or ""):
            fail(f"{what}: {part!r} is not in {text!r}")


def example(name):
    return [os.path.abspath(f"examples/{name}.{ending}") for ending in ("record", "transcript", "script")]


class Page(browser.Browser):
    """The page, with what is read from it."""

    def load(self, *files):
        self.value('$("names").textContent = ""; $("error").textContent = ""; 0')
        root = self.call("DOM.getDocument")["root"]["nodeId"]
        field = self.call("DOM.querySelector", nodeId=root, selector="#files")["nodeId"]
        self.call("DOM.setFileInputFiles", nodeId=field, files=list(files))
        done = self.value("""new Promise(done => { const end = Date.now() + 30000, look = () => $("names").textContent || $("error").textContent
                             ? done(true) : Date.now() > end ? done(false) : setTimeout(look, 5); look(); })""")
        if not done:
            fail(f"nothing is shown of {files}")

    def text(self, name):
        return self.value(f'$("{name}").innerText')

    def screen(self, terminal):
        """What a terminal shows for sure, and what it may show besides."""
        return self.value(f"""(screen => screen ? [screen.children[0].textContent, screen.querySelector(".maybe")?.textContent || ""] : null)
                              (document.querySelector('.screen[data-terminal="{terminal}"]'))""")

    def lanes_at(self):
        return self.value('$("box").getBoundingClientRect().top + 60')


def screens_of(transcript):
    """What each terminal shows at the end, as the page writes it."""
    shown = {}
    for typed in map(texts.typed_by, texts.read(transcript)):
        if typed:
            shown[typed[0]] = shown.get(typed[0], "") + typed[1]
    signs = re.compile(r"[\x00-\x09\x0b-\x1f]")
    return {t: signs.sub(lambda it: chr(0x2400 + ord(it[0])), text.replace("\r\n", "\n")).replace("\x7f", "\u2421") for t, text in shown.items()}


def check_examples(page):
    """Each example loads, and at its end the screens are the transcript's characters, all of them for sure."""
    records = sorted(glob.glob("examples/**/*.record", recursive=True))
    for record in records:
        name = record[len("examples/"):-len(".record")]
        page.load(*example(name))
        expect(name + ": the error", page.text("error"), "")
        for terminal, text in screens_of(record.replace(".record", ".transcript")).items():
            expect(f"{name}: terminal {terminal} at the end", page.screen(terminal), [text[-LONGEST_SCREEN:], ""])
        expect(name + ": bounds in order", page.value("!atoms || atoms.every(it => it.first <= it.last && it.last <= run.count)"), True)
        expect(name + ": units", page.value("lanes.reduce((sum, lane) => sum + lane.units, 0)"),
               sum(it.count for it in texts.entries_of(texts.read(record)) if it.kind == "units"))
    return len(records)


def check_names(page):
    """The page names each word as the scripts beside it do."""
    words = [f"{opcode << 27:012o}" for opcode in range(512)] + [f"{(names.JSYS << 27) + number:012o}" for number in range(512)]
    words += ["200140000202", "271040000060", "312760000017", "254020000100", "100400000000"]
    for word, found in zip(words, page.value(f"{words}.map(instruction)"), strict=True):
        expect(f"the word {word}", found, names.instruction(int(word, 8)))


def check_keys(page):
    """A session, by keys."""
    page.load(*example("session"))
    expect("session: the end", page.value('$("at").value'), str(page.value("run.count")))
    page.key("Home")
    expect("session: the first moment", page.text("now").split("\n")[0], "Done last: nothing yet")
    page.key("ArrowDown", 20)
    has("session: run backwards", page.text("now"), "event TYPE 0 run backwards", "Comes next: fork 0.1 runs: unit 1 of 2 in a row")
    has("session: the screen then", page.screen(0)[0], "@directory\n BACKWARDS.SAV\n NOTES.TXT\n@run backwards\n")
    page.key("PageDown")
    has("session: a run", page.text("now"), "unit 2 of 2 in a row", "Comes next: idle entry 1 of 18")
    page.key("ArrowDown")
    has("session: the echo", page.screen(0)[0], "TENEX\n")
    page.key("ArrowRight")
    expect("session: within a run", page.screen(0)[1], "XENET\n")
    has("session: what is not known", page.text("known"), "Underlined")
    has("session: who runs", page.text("counts"), "▶ 0.1\t3")
    page.key("PageDown")
    has("session: behind a run", page.text("counts"), "0.1\t51")
    page.key("ArrowUp")
    has("session: back by an event", page.text("now"), "event TYPE 0 TENEX")
    has("session: the listing", page.value('document.querySelector("#listing .here").innerText'), "TYPE 0 TENEX")
    has("session: words as instructions", page.text("listing"), "CAIN 1,37", "AOJA 2,141", "PBIN")
    page.key("ArrowRight")
    page.key("ArrowLeft")
    has("session: forwards and back", page.text("now"), "event TYPE 0 TENEX")


def check_forks(page):
    """A fork tree, and what FORKS told of it at each moment."""
    page.load(*example("lesson_forks"))
    has("lesson_forks: superiors", page.text("counts"), "0.2 of 0.1", "0.3 of 0.2", "HALT PC 000305")
    page.key("ArrowUp")
    has("lesson_forks: statuses then", page.text("counts"), "FORK PC 000103", "RUN PC 000204")
    page.load(*example("trace"))
    page.key("Home")
    page.key("PageDown")
    page.key("ArrowLeft")
    has("trace: the unit", page.text("now"), "unit 2 of 3 in a row, at 000101, where the console put PBOUT")
    expect("trace: the letter is there", page.screen(0), ["@A", ""])


def check_mouse(page):
    """A click in the lanes goes there, the wheel zooms, files may be dropped."""
    page.load(*example("forks"))
    page.drop(example("scheduler"))
    has("dropped files", page.text("names"), "scheduler.record, scheduler.transcript, scheduler.script")
    page.key("Home")
    page.key("PageDown", 2)
    has("scheduler: the second quantum", page.text("now"), "fork 1.1 runs: unit 200 of 200 in a row", "Comes next: fork 2.1")
    has("scheduler: counts", page.text("counts"), "0.1\t200", "idle")
    before = page.value("cursor")
    page.click(700, page.lanes_at())
    if page.value("cursor") == before:
        fail("scheduler: a click in the lanes moves nothing")
    page.wheel(700, page.lanes_at(), -100)
    if page.value("view.to - view.from") >= page.value("run.count"):
        fail("scheduler: the wheel does not zoom")
    page.key("0")
    expect("scheduler: all is shown again", page.value("view.to - view.from"), page.value("run.count"))


def check_reading(page):
    """Each field and button has a name, and each text enough contrast, in light and in dark."""
    unnamed = page.value("""[...document.querySelectorAll("button, input, [tabindex]")].filter(it => !it.innerText && !it.getAttribute("aria-label")
                            && !it.labels?.[0]?.innerText).map(it => it.id)""")
    expect("without a name", unnamed, [])
    for scheme in ("light", "dark"):
        page.call("Emulation.setEmulatedMedia", features=[{"name": "prefers-color-scheme", "value": scheme}])
        for text, ground, least in (("ink", "panel", 7), ("soft", "panel", 4.5), ("soft", "page", 4.5), ("now", "panel", 4.5), ("ink", "here", 7),
                                    ("soft", "here", 4.5), ("maybe", "screen", 4.5), ("idle", "panel", 3), ("line", "panel", 3)):
            found = contrast(*(page.value(f'getComputedStyle(document.documentElement).getPropertyValue("--{name}").trim()') for name in (text, ground)))
            if found < least:
                fail(f"{scheme}: {text} on {ground} has contrast {found:.2f}, and {least} is wanted")


def light_of(colour):
    parts = [int(colour[n:n + 2], 16) / 255 for n in (1, 3, 5)]
    red, green, blue = (part / 12.92 if part <= 0.04045 else ((part + 0.055) / 1.055) ** 2.4 for part in parts)
    return 0.2126 * red + 0.7152 * green + 0.0722 * blue


def contrast(one, other):
    dark, light = sorted(light_of(colour) + 0.05 for colour in (one, other))
    return light / dark


def check_long(page, folder):
    """A record of many runs is read."""
    path = os.path.join(folder, "long.record")
    with open(path, "w", encoding="ascii") as out:
        out.write("".join(f"LOGIN {t} A\n" for t in range(16)) + "".join(f"U {k % 16} 1 {k % 7 + 1}\n" for k in range(200_000)) + "E 0 0\n")
    page.load(path)
    expect("long: the error", page.text("error"), "")
    expect("long: how many", page.value("run.kinds.length"), 200_016)


def check_wrong_files(page, folder):
    """What is wrong is said, by its line."""
    def bad(what, name, text, *parts, beside=()):
        path = os.path.join(folder, name)
        with open(path, "w", encoding="ascii") as file:
            file.write(text)
        page.load(path, *beside)
        has(what, page.text("error"), *parts)

    login = "LOGIN 0 A\n"
    bad("a line that is none", "a.record", login + "POKE 0 8 1\n", "a.record, line 2", "POKE 0 8 1")
    bad("a text that is no record", "a.record", login + "<img src=x onerror=alert(1)>\n", "line 2", "<img src=x")
    bad("a record that is cut off", "a.record", login + "U 0 1", "line 2", "line feed")
    bad("lines behind E", "a.record", login + "E 0 0\nI 3\n", "line 3")
    bad("no record", "a.transcript", "T0 @\n", "no record among these files")
    bad("another run's transcript", "a.record", login + "I 3\nE 0 0\n", "is not the transcript of this record", beside=[example("trace")[1]])
    bad("another run's script", "a.record", login + "I 3\nE 0 0\n", "forks.script, line 2 is not the record's next event", beside=[example("forks")[2]])
    other = os.path.join(folder, "b.transcript")
    with open(other, "w", encoding="ascii") as file:
        file.write("T0 @\nT0 \\8\n")
    bad("a bad transcript", "a.record", login + "E 0 0\n", "b.transcript, line 2 is no line of a transcript", beside=[other])
    expect("elements made of text", page.value('document.querySelectorAll("img").length'), 0)


def draw_pictures(page, folder):
    """Screenshots: a session within a run, and the turns of three jobs."""
    page.resize(1200, 800)
    page.load(*example("session"))
    page.key("Home")
    page.key("ArrowDown", 21)
    page.key("ArrowRight")
    page.picture(os.path.join(folder, "record_session.png"))
    page.load(*example("lesson_forks"))
    page.key("ArrowUp")
    page.key("PageUp")
    page.picture(os.path.join(folder, "record_forks.png"), dark=True)
    expect("no scrolling sideways", page.value("document.documentElement.scrollWidth <= innerWidth"), True)


def main():
    if not browser.program():
        print("record_page.py: no Chromium here, so view/record.html was not tried")
        return
    folder = tempfile.mkdtemp(prefix="record_page-")
    try:
        page = Page(os.path.join(folder, "chromium"))
    except (OSError, RuntimeError) as error:
        print(f"record_page.py: Chromium does not start here ({error}), so view/record.html was not tried")
        return
    try:
        page.open(PAGE)
        count = check_examples(page)
        for check in (check_names, check_keys, check_forks, check_mouse, check_reading):
            check(page)
        check_long(page, folder)
        check_wrong_files(page, folder)
        for picture in sys.argv[1:]:
            draw_pictures(page, picture)
        for error in page.errors:
            fail("thrown: " + error)
    finally:
        page.end()
        shutil.rmtree(folder, ignore_errors=True)
    if failures:
        sys.exit(1)
    print(f"record_page.py: view/record.html shows {count} examples as their texts are")


if __name__ == "__main__":
    main()
