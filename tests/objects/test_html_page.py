"""The page of `bpfcanon-review diff --html`: what it shows, that names stay text, that it loads nothing, and how it looks in a browser."""

from __future__ import annotations

import argparse
import html
import json
import math
import re
import resource
import subprocess
from dataclasses import dataclass
from html.parser import HTMLParser
from pathlib import Path
from typing import Any, Callable, Optional

import pytest

from tests.command import SECONDS
from tests.objects.conftest import Review, Run
from tests.objects.elf_file import ElfFile
from tests.objects.known import edit, section, symbol
from tests.objects.test_review import CHANGED, FLOWS, PASS, endless, marked

pytestmark = pytest.mark.needs("elftools")


@dataclass
class Element:
    """An element, and the text from its beginning up to that of the next one."""

    tag: str
    attributes: dict[str, Optional[str]]
    text: str = ""


class Page(HTMLParser):
    """The elements of a page in sequence."""

    def __init__(self, source: str) -> None:
        super().__init__()
        self.source = source
        self.elements: list[Element] = []
        self.feed(source)
        self.close()

    def handle_starttag(self, tag: str, attrs: list[tuple[str, Optional[str]]]) -> None:
        self.elements.append(Element(tag, dict(attrs)))

    def handle_data(self, data: str) -> None:
        if self.elements:
            self.elements[-1].text += data

    def texts(self, *tags: str) -> list[str]:
        """The texts of all elements with these tags."""
        return [it.text.rstrip() for it in self.elements if it.tag in tags]

    def part(self, title: str) -> list[tuple[str, str]]:
        """The tags and texts of a part that differs, from the word that says how up to the next part."""
        found = [(it.tag, it.text.rstrip()) for it in self.elements]
        start = found.index(("h3", title)) + 1
        end = next((number for number, it in enumerate(found) if number > start and is_next(*it)), len(found))
        return found[start:end]


def is_next(tag: str, text: str) -> bool:
    return tag in ("h3", "section") or tag == "summary" and text.startswith("Equal parts")


def sides(part: list[tuple[str, str]]) -> list[list[str]]:
    """The lines of a part in the old file and in the new one. Folded lines are in both."""
    lines: list[list[str]] = [[], []]
    side = -1
    for tag, text in part:
        side = {"tr": -1, "td": side + 1}.get(tag, side)
        if tag in ("del", "ins", "span"):
            lines[side] += [text[1:]]
        for it in lines if tag == "pre" else ():
            it += text.split("\n")
    return [[it.strip() for it in one if "digest=" not in it] for one in lines]


Compare = Callable[[bytes, bytes], Page]


@pytest.fixture
def compare(run: Run, tmp_path: Path) -> Compare:
    """Makes the page of two object files, which differ unless their bytes are equal."""

    def made(old: bytes, new: bytes) -> Page:
        for name, content in ("old", old), ("new", new):
            (tmp_path / name).write_bytes(content)
        done = run("diff", "--html", "old", "new", cwd=tmp_path)
        assert (done.returncode, done.stderr) == (int(old != new), b"")
        return Page(done.stdout.decode())

    return made


OLD, NEW = FLOWS.read_bytes(), CHANGED.read_bytes()
TWO_FUNCTIONS = edit(PASS, symbol(b"pass", value=8, size=8))  # the first one has no name
WHOLE = {"function xdp count_flows": (OLD, NEW), "function xdp pass": (PASS, TWO_FUNCTIONS)}


def test_changed_instruction(compare: Compare) -> None:
    """It is on both sides, with its source line as what isn't signed."""
    part = compare(OLD, NEW).part("function xdp count_flows")
    source = ("small", "# not signed: ./flows.c:48: total++;")
    assert part[0] == ("strong", "changed")
    assert [it for it in part if it[0] in ("del", "ins", "small") and "digest=" not in it[1]] == [
        *(("del", "-\tmov32 r0, 2"), source),
        *(("ins", "+\tmov32 r0, 1"), source),
    ]


@pytest.mark.parametrize("title", WHOLE)
def test_whole_function(title: str, compare: Compare, review: Review) -> None:
    """No instruction is lost between what is open and what is folded."""
    assert sides(compare(*WHOLE[title]).part(title)) == [review.lines(review.accepted(it), title) for it in WHOLE[title]]


@pytest.mark.parametrize("word, line", [("added", ("ins", "+\tmov32 r0, 2")), ("removed", ("del", "-\tmov32 r0, 2"))])
def test_function_of_one_file(word: str, line: tuple[str, str], compare: Compare) -> None:
    objects = (PASS, TWO_FUNCTIONS) if word == "added" else (TWO_FUNCTIONS, PASS)
    part = compare(*objects).part("function xdp <unnamed>")
    assert part[0] == ("strong", word)
    assert [it for it in part if it[0] in ("del", "ins") and "digest=" not in it[1]] == [line]


def test_definition_of_a_map(compare: Compare) -> None:
    """It is a type, but a reader looks for it among the maps."""
    page = compare(OLD, NEW)
    before = [it.text for it in page.elements[: page.elements.index(next(it for it in page.elements if "max_entries" in it.text))] if it.tag == "h2"]
    assert before[-1].strip() == "Maps"


def test_equal_files(compare: Compare, run: Run) -> None:
    """All is there, and folded."""
    page = compare(OLD, OLD)
    key = run("list", FLOWS).stdout.decode().partition(" ")[0]
    assert page.texts("title") == ["old and new: equal"] and page.texts("code") == [key, key]
    assert [it for it in page.elements if it.tag in ("del", "ins") or "open" in it.attributes] == []
    assert "\tmov32 r0, 2" in "\n".join(page.texts("pre")).split("\n")


def test_keys(compare: Compare, run: Run) -> None:
    keys = [run("list", it).stdout.decode().partition(" ")[0] for it in (FLOWS, CHANGED)]
    assert compare(OLD, NEW).texts("code") == keys


# What names begin with, and how a text shows it.
HOSTILE = {'<script>"': '<script>"', "'&lt;\u202e": r"'&lt;\u202e"}


@pytest.mark.parametrize("mark, shown", HOSTILE.items(), ids=["element", "entity"])
def test_names_stay_text(mark: str, shown: str, run: Run, tmp_path: Path) -> None:
    names = [f"{mark}old", f"{mark}new"]
    for name, content in zip(names, (OLD, NEW)):
        (tmp_path / name).write_bytes(marked(content, mark))
    page = Page(run("diff", "--html", *names, cwd=tmp_path).stdout.decode())
    assert page.texts("title") == [f"{shown}old and {shown}new: different"]
    assert ["strong", "changed"] == [*page.part(f"function xdp {json.dumps(mark + 'count_flows')}")[0]]
    file, text = (f"{shown}{it[len(mark.encode()):]}" for it in ("./flows.c", "\ttotal++;"))
    assert page.texts("small") == [f"# not signed: {file}:48: {text}"] * 2
    assert page.source.replace("\n", "").replace("\t", "").isprintable()
    assert what_loads(page) == []


# None of these loads or runs anything, and only the attribute href refers to something.
ELEMENTS = (
    "html head meta title style body header main nav section h1 h2 h3 p ul li a table thead tbody tr th td details summary strong code pre bdi del ins small span"
).split()
ATTRIBUTES = "lang charset http-equiv content name id class scope open href aria-label aria-labelledby".split()


def what_loads(page: Page) -> list[object]:
    """What may load something, or lead away from the page."""
    ids = {f"#{it.attributes.get('id')}" for it in page.elements}
    named = [(it.tag, name, value) for it in page.elements for name, value in it.attributes.items()]
    elements = [it.tag for it in page.elements if it.tag not in ELEMENTS]
    attributes = [it for it in named if it[1] not in ATTRIBUTES or it[1] == "href" and it[2] not in ids]
    return [*elements, *attributes, *(it for it in page.texts("style") for it in re.findall(r"url|@import|image", it))]


@pytest.mark.parametrize("new", [OLD, NEW, PASS], ids=["equal", "changed", "another"])
def test_loads_nothing(new: bytes, compare: Compare) -> None:
    """A browser is told so before it reads the style."""
    page = compare(OLD, new)
    assert what_loads(page) == [] and len(page.texts("a")) > 1
    policy = {"http-equiv": "Content-Security-Policy", "content": "default-src 'none'; style-src 'unsafe-inline'"}
    assert [it.attributes for it in page.elements if it.tag in ("meta", "style")][1] == policy


def test_refused_file(run: Run, tmp_path: Path) -> None:
    (tmp_path / "cut").write_bytes(OLD[:100])
    done = run("diff", "--html", "cut", FLOWS, cwd=tmp_path)
    assert (done.returncode, done.stdout) == (2, b"") and done.stderr.startswith(b"cut: byte 40: SectionTable: ")


def test_page_over_its_limit(review: Review, monkeypatch: pytest.MonkeyPatch, capsys: pytest.CaptureFixture[str]) -> None:
    commands = review.module("commands")
    monkeypatch.setattr(review.module("limits"), "SECONDS", 0.5)
    monkeypatch.setattr(commands, "page", lambda *it: str([*endless(*it)]))
    assert commands.diff(argparse.Namespace(old=str(FLOWS), new=str(CHANGED), html=True)) == 2
    said = capsys.readouterr()
    assert said.out == "" and "it takes more than " in said.err


def test_large_files(compare: Compare) -> None:
    """The page of two files of 100 KB that have no instruction in common takes at most 2 seconds and 1 MB."""
    codes = [b"".join(b"\xb4\0\0\0" + (base + number).to_bytes(4, "little") for number in range(12_500)) for base in (1_000_000, 2_000_000)]
    objects = [edit(PASS, section(b"xdp", content=bytearray(code + bytes.fromhex("95 00 00 00 00 00 00 00")))) for code in codes]
    before = resource.getrusage(resource.RUSAGE_CHILDREN).ru_utime
    page = compare(*objects)
    assert resource.getrusage(resource.RUSAGE_CHILDREN).ru_utime - before < 2
    assert len(page.texts("del")) > 12_500 and len(page.source) < 1_000_000


# In a frame, whose width is that of a window: opens all, and writes what runs over, whether old and new lines are side by side, and colours.
MEASURE = """\
<iframe srcdoc="{page}" width="{width}" height="900"></iframe>
<script>
onload = () => {{
  const page = document.querySelector("iframe").contentDocument, all = [...page.querySelectorAll("body, body *")];
  page.querySelectorAll("details").forEach(it => it.open = true);
  const background = it => {{
    const own = getComputedStyle(it).backgroundColor;
    return own === "rgba(0, 0, 0, 0)" ? background(it.parentElement) : own;
  }};
  const [old, added] = ["del", "ins"].map(it => page.querySelector(it).getBoundingClientRect());
  document.body.textContent = "measured" + JSON.stringify({{
    over: all.filter(it => it.clientWidth && it.scrollWidth > it.clientWidth).map(it => it.outerHTML),
    beside: old.right <= added.left && old.top === added.top,
    colours: all.filter(it => it.textContent.trim()).map(it => [getComputedStyle(it).color, background(it)]),
  }}) + "measured";
}}
</script>"""


def luminance(colour: str) -> float:
    """The relative luminance of WCAG 2."""
    values = [int(it) / 255 for it in re.findall(r"\d+", colour)]
    red, green, blue = (it / 12.92 if it <= 0.04045 else math.pow((it + 0.055) / 1.055, 2.4) for it in values)
    return 0.2126 * red + 0.7152 * green + 0.0722 * blue


def contrast(one: str, other: str) -> float:
    low, high = sorted(map(luminance, (one, other)))
    return (high + 0.05) / (low + 0.05)


def long_name(file: ElfFile) -> None:
    symbols = file.symbols()
    symbols[-1].name = file.add_string(file.symbol_names, b"name" * 100)
    file.set_symbols(symbols)


@pytest.mark.needs("chromium-headless-shell")
@pytest.mark.parametrize("width", [400, 1200])
@pytest.mark.parametrize("scheme", ["dark", "light"])
def test_in_a_browser(scheme: str, width: int, compare: Compare, tmp_path: Path) -> None:
    """Nothing runs over the window, in which the files are side by side if it is wide, and text has the contrast of WCAG 2.2, level AA."""
    page = compare(edit(OLD, long_name), edit(NEW, long_name))
    (tmp_path / "measure.html").write_text(MEASURE.format(page=html.escape(page.source), width=width))
    how = ["--no-sandbox", "--disable-gpu", f"--user-data-dir={tmp_path}/profile", f"--blink-settings=preferredColorScheme={int(scheme == 'light')}"]
    line = ["chromium-headless-shell", *how, "--dump-dom", (tmp_path / "measure.html").as_uri()]
    found = subprocess.run(line, capture_output=True, text=True, timeout=SECONDS).stdout.split("measured")
    measured: Any = json.loads(html.unescape(found[1]))
    assert measured["over"] == [] and measured["beside"] == (width > 1000)
    assert min(contrast(*it) for it in measured["colours"]) >= 4.5
    assert all((luminance(back) < 0.2) == (scheme == "dark") for _, back in measured["colours"])
