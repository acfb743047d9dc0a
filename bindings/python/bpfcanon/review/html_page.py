"""Two object files side by side, as one HTML page without scripts, which loads nothing.

What differs is open, and what is equal is folded. Names and source lines of an object file come here without control characters and
characters that change the direction of text (the module labels), and each is escaped where it is put into HTML.
"""

from __future__ import annotations

import itertools
from html import escape
from string import Template
from typing import Iterable, Iterator, Optional, Sequence

from ..types import Datasec, Var
from .accepted import Accepted
from .compare import UNSIGNED, Change, DiffLine
from .labels import printable
from .notation import Notation
from .parts import Line, parts

MAPS = ".maps"
# The chapters, and with what the titles of their parts begin: a part is in the first chapter that fits.
CHAPTERS = {
    "Programs": ("function ",),
    "Maps": (f"data {MAPS} ", "data maps "),
    "Data": ("data ",),
    "Types": ("type ", "types "),
    "Relocations": ("relocations ", "core "),
    "File": ("",),
}
TAGS = {"-": "del", "+": "ins", " ": "span"}

STYLE = """\
:root {
  color-scheme: light dark;
  --page: #ffffff; --text: #1f2328; --quiet: #525b65; --line: #d1d9e0; --removed: #ffebe9; --added: #dafbe1; --changed: #fff8c5;
}
@media (prefers-color-scheme: dark) {
  :root { --page: #0d1117; --text: #e6edf3; --quiet: #a9b1ba; --line: #3d444d; --removed: #4b1d1f; --added: #12361f; --changed: #3d3106; }
}
body {
  margin: 0 auto; max-width: 100rem; padding: 1rem; background: var(--page); color: var(--text); font: 1rem/1.5 system-ui, sans-serif;
  overflow-wrap: anywhere;
}
h1, h2, h3 { line-height: 1.25; }
h1 { font-size: 1.5rem; }
h2 { margin-block: 2rem 0.5rem; font-size: 1.25rem; }
h3 { display: inline; font-size: 1rem; }
p, nav { max-width: 65ch; }
a { color: inherit; }
table { width: 100%; border-collapse: collapse; }
th { text-align: start; color: var(--quiet); font-weight: 600; }
th, td { padding: 0.125rem 0.5rem; vertical-align: top; }
code, pre, .diff td { font: 0.875rem/1.45 ui-monospace, "DejaVu Sans Mono", Menlo, Consolas, monospace; tab-size: 2; }
pre, del, ins, .diff span { white-space: pre-wrap; }
pre { margin: 0; padding: 0.25rem 0.5rem; }
details { margin-block: 0.25rem; padding-inline-start: 0.5rem; border-inline-start: 0.25rem solid var(--line); }
summary { cursor: pointer; }
strong { padding-inline: 0.375rem; border: 1px solid; border-radius: 0.25rem; font-size: 0.8125rem; font-weight: 600; }
strong.changed { background: var(--changed); }
.diff { margin-block: 0.25rem; table-layout: fixed; }
.diff td { padding-block: 0; }
.hashes td { word-break: break-all; }
.diff ~ .diff thead { position: absolute; clip-path: inset(50%); }
del, ins, .diff span { display: block; padding-inline-start: 4ch; text-indent: -4ch; text-decoration: none; }
del, strong.removed { background: var(--removed); }
ins, strong.added { background: var(--added); }
/* Combining characters of a source line would otherwise be drawn over what is beside it. */
small { display: block; overflow: hidden; text-indent: 0; color: var(--quiet); font-size: 0.8125rem; font-style: italic; }
@media (max-width: 45rem) {
  tr, th, td { display: block; }
  thead { position: absolute; clip-path: inset(50%); }
  .equal td + td { display: none; }
}"""

PAGE = Template("""\
<!DOCTYPE html>
<html lang="en">
<head>
<meta charset="utf-8">
<meta http-equiv="Content-Security-Policy" content="default-src 'none'; style-src 'unsafe-inline'">
<meta name="viewport" content="width=device-width, initial-scale=1">
<title>$old and $new: $result</title>
<style>
$style
</style>
</head>
<body>
<header>
<h1><bdi>$old</bdi> and <bdi>$new</bdi>: $result</h1>
<table>
<thead><tr><th scope="col">Side</th><th scope="col">File</th><th scope="col">Key</th></tr></thead>
<tbody>
<tr><th scope="row">Old</th><td><bdi>$old</bdi></td><td><code>$old_key</code></td></tr>
<tr><th scope="row">New</th><td><bdi>$new</bdi></td><td><code>$new_key</code></td></tr>
</tbody>
</table>
<p>The key of a file is the SHA-256 of its canonical file. Both files hold the same if and only if their canonical files are equal.</p>
<p>A line with - is only in the old file, and one with + only in the new one. What is equal is folded. Source lines are marked as not signed:
neither a key nor a signature of a canonical file covers them, and who makes an object file can write any text there.</p>
<nav aria-label="Chapters">
<ul>
$links
</ul>
</nav>
</header>
<main>
$chapters
</main>
</body>
</html>
""")

CHAPTER = Template("""\
<section id="$id" aria-labelledby="$id-title">
<h2 id="$id-title">$name</h2>
$parts
</section>""")

CHANGED = Template("""\
<details open>
<summary><h3>$title</h3> <strong class="$word">$word</strong></summary>
$body
</details>""")

TABLE = Template("""\
<table class="diff $kind">
<thead><tr><th scope="col">Old</th><th scope="col">New</th></tr></thead>
<tbody>
$rows
</tbody>
</table>""")


def page(names: tuple[str, str], old: Accepted, new: Accepted, changes: Sequence[Change]) -> str:
    """Return the page of two files with these names, of which `compare` yields these changes. Raises OutOfMemoryError."""
    old_lines, titles = {it.title: it.lines for it in parts(old)}, {it.title for it in changes}
    maps = {*map_types(old), *map_types(new)}
    changed = by_chapter(maps, ((it.title, changed_part(it, old_lines.get(it.title, ()))) for it in changes))
    equal = by_chapter(maps, ((title, folded(title, lines)) for title, lines in old_lines.items() if title not in titles))
    used = [it for it in CHAPTERS if changed[it] or equal[it]]
    old_name, new_name = (escape(printable(it)) for it in names)
    return PAGE.substitute(
        old=old_name,
        new=new_name,
        old_key=old.key,
        new_key=new.key,
        result="different" if changes else "equal",
        style=STYLE,
        links="\n".join(f'<li><a href="#{it.lower()}">{it}</a>: {len(changed[it])} different, {len(equal[it])} equal</li>' for it in used),
        chapters="\n".join(chapter(it, changed[it], equal[it]) for it in used),
    )


def map_types(object: Accepted) -> Iterator[str]:
    """Yield the titles of the types that define maps: the variables of the section of maps, and the types of these."""
    if not object.types:
        return
    notation = Notation(object.types)
    sections = (it.entries for it in object.types if isinstance(it, Datasec) and it.name == MAPS)
    for entry in itertools.chain.from_iterable(sections):
        variable = object.types[entry.target]
        if isinstance(variable, Var):
            yield from (f"type {notation.label(it)}" for it in (entry.target, variable.target))


def by_chapter(maps: set[str], found: Iterable[tuple[str, str]]) -> dict[str, list[str]]:
    """Return the HTML of parts, which come with their titles, by the names of chapters. The types with some titles are among the maps."""
    chapters: dict[str, list[str]] = {it: [] for it in CHAPTERS}
    for title, text in found:
        name = next(name for name, starts in CHAPTERS.items() if title.startswith(starts))
        chapters["Maps" if title in maps else name].append(text)
    return chapters


def chapter(name: str, changed: list[str], equal: list[str]) -> str:
    """Return a chapter: what differs, and then what is equal, folded twice, so that it takes one line."""
    fold = ["<details>", f"<summary>Equal parts: {len(equal)}</summary>", *equal, "</details>"] if equal else []
    return CHAPTER.substitute(id=name.lower(), name=name, parts="\n".join([*changed, *fold]))


def changed_part(it: Change, old: Sequence[Line]) -> str:
    """Return a part that isn't equal, of which these are the lines in the old file: tables, and between them what is equal."""
    pieces, place = [table(it.digests, "hashes")] if it.digests else [], 0
    for hunk in it.hunks:
        pieces += (*equal_lines(old[place : hunk.old_start]), table(hunk.lines, "hashes" if it.title.startswith("file ") else "lines"))
        place = hunk.old_end
    return CHANGED.substitute(title=escape(it.title), word=it.word, body="\n".join([*pieces, *equal_lines(old[place:])]))


def equal_lines(lines: Sequence[Line]) -> Iterator[str]:
    """Yield the lines of a changed part that its tables don't have; nothing if there are none."""
    if lines:
        yield folded(f"Equal lines: {len(lines)}", lines)


def folded(title: str, lines: Sequence[Line]) -> str:
    """Return lines below a title, which has to be opened."""
    text = "\n".join(it.text for it in lines)
    return f"<details><summary>{escape(title)}</summary><pre>{escape(text)}</pre></details>"


def table(lines: Sequence[DiffLine], kind: str) -> str:
    """Return lines of a unified diff as a table."""
    runs = itertools.groupby(lines, lambda it: it.sign == " ")
    return TABLE.substitute(kind=kind, rows="\n".join(row for is_equal, run in runs for row in (equal_rows(run) if is_equal else changed_rows([*run]))))


def equal_rows(lines: Iterable[DiffLine]) -> Iterator[str]:
    """Yield lines that are on both sides."""
    for it in lines:
        yield f'<tr class="equal">{cell(it)}{cell(it)}'


def changed_rows(lines: list[DiffLine]) -> Iterator[str]:
    """Yield removed lines, and added ones beside them."""
    sides = ([it for it in lines if it.sign == sign] for sign in "-+")
    for old, new in itertools.zip_longest(*sides):
        yield f"<tr>{cell(old)}{cell(new)}"


def cell(it: Optional[DiffLine]) -> str:
    """Return a line with its sign, and below it its source; an empty cell without a line. The next cell or row ends it."""
    if it is None:
        return "<td>"
    source = f"<small>{escape(f'{UNSIGNED.strip()} {it.source}')}</small>" if it.source else ""
    return f"<td><{TAGS[it.sign]}>{escape(it.sign + it.text)}{source}</{TAGS[it.sign]}>"
