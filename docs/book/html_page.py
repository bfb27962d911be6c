"""The book as one HTML page: each name leads to its definition."""
from html import escape

import wording

STYLE = """
:root { color-scheme: light dark; --page: #ffffff; --ink: #1b1f24; --soft: #57606a; --line: #d0d7de; --code: #f6f8fa; --link: #0550ae; }
@media (prefers-color-scheme: dark) { :root { --page: #16181b; --ink: #e6e6e3; --soft: #a3abb3; --line: #3a4047; --code: #1f2327; --link: #8cc4ff; } }
body { margin: 0 auto; max-width: 60rem; padding: 1rem; background: var(--page); color: var(--ink); font: 1rem/1.5 system-ui, sans-serif; }
h1, h2 { line-height: 1.2; } h3 { margin: 2rem 0 0; } h2 { margin-top: 3rem; border-top: 1px solid var(--line); padding-top: 1rem; }
a { color: var(--link); } pre a { text-decoration: none; } pre a:hover, pre a:focus { text-decoration: underline; }
pre, code { font-family: ui-monospace, "DejaVu Sans Mono", Menlo, Consolas, monospace; font-size: 0.85rem; }
pre { background: var(--code); padding: 0.5rem 0.7rem; margin: 0.2rem 0; white-space: pre-wrap; overflow-wrap: anywhere; }
pre code { display: block; padding-left: 3rem; text-indent: -3rem; }
article { margin: 1.2rem 0; scroll-margin-top: 0.5rem; } article p { margin: 0; } .soft { color: var(--soft); font-size: 0.85rem; }
article:target, tr:target { outline: 2px solid var(--link); outline-offset: 4px; }
table { border-collapse: collapse; margin: 1rem 0; } td { padding: 0.1rem 0.8rem 0.1rem 0; vertical-align: top; }
.index { columns: 15rem; list-style: none; padding: 0; font-size: 0.85rem; }
@media print { body { max-width: none; font-size: 9pt; } article { break-inside: avoid; } a { color: inherit; } }
"""


def link(entry, text):
    return f'<a href="#{entry.number}">{escape(text)}</a>'


def line_of(pieces):
    parts = []
    for text, found in pieces:
        parts.append(escape(text) if found is None else f"<i>{escape(text)}</i>" if found == "comment" else link(found, text))
    return "".join(parts)


def used_by(entry):
    first, more = wording.users(entry)
    if not first:
        return ""
    names = ", ".join(f"{link(user, user.name)}" for user in first)
    return f'<p class="soft">Used by {names}{f" and {more} more" if more else ""}.</p>'


def lines_of(entry):
    """The lines of a definition, with its own name in bold where it is first told, each a block of its own."""
    first, *others = map(line_of, entry.pieces)
    name = escape(entry.name)
    lines = [*(f"<i>{escape(line)}</i>" for line in entry.within), first.replace(f" {name}", f" <b>{name}</b>", 1), *others]
    return "".join(f"<code>{line}</code>" for line in lines)


def article(entry):
    return (f'<article id="{entry.number}"><p><span class="soft">{entry.number}</span> {escape(entry.comment)}</p>\n'
            f"<pre>{lines_of(entry)}</pre>{used_by(entry)}</article>")


def row(entry):
    return (f'<tr id="{entry.number}"><td class="soft">{entry.number}</td><td><code>{escape(wording.constant(entry))}</code></td>'
            f"<td>{escape(entry.comment)}</td></tr>")


def entries(part):
    """The definitions and types one after another; constants in a row are a table."""
    parts, rows = [], []
    for entry in [*part.entries, None]:
        if entry and entry.is_constant:
            rows.append(row(entry))
            continue
        if rows:
            parts.append("<table>\n" + "\n".join(rows) + "\n</table>")
            rows = []
        if entry:
            parts.append(article(entry))
    return "\n".join(parts)


def section(number, chapter):
    parts = "\n".join(f"<h3><code>{part.path}</code></h3>\n<p>{escape(part.about)}</p>\n{entries(part)}" for part in chapter.parts)
    return f'<section><h2 id="{number}">{number}. {escape(chapter.title)}</h2>\n<p>{escape(chapter.paragraph)}</p>\n{parts}</section>'


def contents(book):
    rows = "\n".join(f'<li><a href="#{n}">{escape(chapter.title)}</a></li>' for n, chapter in enumerate(book.chapters, 1))
    return f'<nav aria-label="Chapters"><ol>\n{rows}\n</ol><p><a href="#index">Index</a>, <a href="#std">names of the standard library</a></p></nav>'


def index(book):
    rows = "\n".join(f"<li>{link(entry, entry.name)} {entry.number}</li>" for entry in wording.index(book))
    return f'<section><h2 id="index">Index</h2>\n<ul class="index">\n{rows}\n</ul></section>'


def from_std(book):
    rows = "\n".join(f"<tr><td>{escape(file)}</td><td><code>{escape('  '.join(names))}</code></td></tr>" for file, names in book.from_std.items())
    return f'<section><h2 id="std">Names of the standard library</h2>\n<p>{wording.FROM_STD}</p>\n<table>\n{rows}\n</table></section>'


def page(book):
    """The whole page."""
    preface = "\n".join(f"<p>{escape(text)}</p>" for text in wording.preface(book))
    chapters = "\n".join(section(n, chapter) for n, chapter in enumerate(book.chapters, 1))
    return (f'<!doctype html>\n<html lang="en">\n<meta charset="utf-8">\n<meta name="viewport" content="width=device-width">\n<title>{wording.TITLE}</title>\n'
            f"<style>{STYLE}</style>\n<main>\n<h1>{wording.TITLE}</h1>\n{preface}\n{contents(book)}\n{chapters}\n{from_std(book)}\n{index(book)}\n</main>\n</html>\n")
