"""Checks what the pages refer to: each link leads to a file and a heading, each file and name in code exists, and README names each page."""

import os
import pathlib
import re

import pytest

from tests import TOP
from tests.pages.manuals import manual_pages


PAGES = [TOP / name for name in ("README.md", "SECURITY.md", "CHANGELOG.md", "testdata/README.md", "bench/README.md", "tests/objects/README.md")]
PAGES += sorted([*TOP.glob("docs/*.md"), *TOP.glob("bindings/*/README.md"), *TOP.glob("examples/**/README.md")])
BLOCK = re.compile(r"^```.*?^```$", re.MULTILINE | re.DOTALL)
LINK = re.compile(r"\[[^\]]*\]\(([^)\s]+)\)")
# A file in code: folders and a name with one of these endings. Capitals such as NAME stand for any name.
FILE = re.compile(r"`([\w./*-]*\w\.(?:rt|antt|py|c|h|md|tsv|go|rs|map|toml|txt))`")
NAME = re.compile(r"`([A-Za-z_][\w:.]*)`")
# The pages on the sources, what they may name, and what no source contains: a variable of the environment, prefixes, a new instruction,
# and calls of libbpf.
ON_SOURCES = ["CONTRIBUTING", "DECISIONS", "NAMES", "PROMISES", "TRUST"]
SOURCES = ["crates/**/*.rt", "crates/**/*.antt", "tests/**/*", "tools/*", "capi/*"]
SOURCES += ["bindings/**/*.go", "bindings/**/*.py", "bindings/**/*.rs"]
NO_NAMES = {"RT_JOBS", "chdir", "getcwd", "proved_", "bpfcanon_proved_", "MayGoto", "bpf_object__open_file", "btf__parse"}
# How functions of C begin that only the kit names.
OF_KIT = ("libc::", "os::c::", "__")
STANDS_FOR = re.compile(r"(?:^|/)(?:NAME|MODULE|FUNCTION)\b")
# Folders that tools write.
MADE_IN = {".git", "out", "__pycache__"}
# Files that a reader makes, those of other trees, and those that the repository must not contain.
MADE = {"main.go", "out/PROVED.txt", "Cargo.toml", "btf.rst", "PROVED.txt", "pass.c"}
MADE |= {"canon.c", "inspect.go", "maps.py", "helper_calls.rs"}


def slug(heading):
    """The anchor of a heading."""
    return re.sub(r"[^\w\- ]", "", heading.replace("`", "").lower()).replace(" ", "-")


def headings(path):
    return {slug(name) for name in re.findall(r"^#+ (.*)$", BLOCK.sub("", path.read_text()), re.MULTILINE)}


@pytest.mark.parametrize("page", PAGES, ids=lambda it: str(it.relative_to(TOP)))
def test_links(page):
    for target in LINK.findall(BLOCK.sub("", page.read_text())):
        if "://" in target:
            continue
        name, _, anchor = target.partition("#")
        path = page.parent / name if name else page
        assert path.exists(), f"{target}: there is no such file"
        if anchor and path.exists():
            assert anchor in headings(path), f"{target}: the page has no such heading"


@pytest.mark.parametrize("page", PAGES, ids=lambda it: str(it.relative_to(TOP)))
def test_files(page):
    """A name may leave out the first folders."""
    names = [str(path.relative_to(TOP)) for path in files_of("**/*")]
    for name in FILE.findall(BLOCK.sub("", page.read_text())):
        if name in MADE or STANDS_FOR.search(name):
            continue
        pattern = re.compile(r"(?:.*/)?" + re.escape(name).replace(r"\*", r"[^/]*"))
        assert any(map(pattern.fullmatch, names)), f"`{name}`: there is no such file"


def files_of(*patterns):
    """The files that match, except what tools write."""
    found = [path for pattern in patterns for path in TOP.glob(pattern) if path.is_file()]
    return [path for path in found if not MADE_IN & set(path.relative_to(TOP).parts)]


@pytest.mark.parametrize("page", TOP.glob("docs/*.md"), ids=lambda it: it.name)
def test_readme(page):
    """README is short, and names each page."""
    readme = PAGES[0].read_text()
    assert len(readme.splitlines()) <= 100 and f"docs/{page.name}" in readme


def test_names():
    """Each name in code on the pages about the sources is in the sources, or is that of a file."""
    known = {name for path in files_of(*SOURCES) for name in re.findall(r"\w+", path.read_text(errors="replace"))}
    known |= {path.stem for path in [*TOP.glob("crates/*"), *TOP.glob("crates/*/*/*.edit"), *TOP.iterdir()]}
    for page in ON_SOURCES:
        text = BLOCK.sub("", (TOP / "docs" / f"{page}.md").read_text())
        for name in sorted(it for it in set(NAME.findall(text)) - {*NO_NAMES, *FILE.findall(text)} if not it.startswith(OF_KIT)):
            assert all(part in known for part in re.findall(r"\w+", name)), f"`{name}`: no source contains it"


# ---- an installation, which has some of the pages

MESON = (TOP / "meson.build").read_text()
INSTALLED = {*re.findall(r"'(testdata/\w+\.c|docs/\w+\.py|[A-Z]+(?:\.md)?)'", MESON)}
INSTALLED |= {f"docs/{page}.md" for page in re.findall(r"'([A-Z]+)'", re.search(r"^foreach page : \[(.*)\]$", MESON, re.MULTILINE)[1])}


@pytest.mark.parametrize("place", sorted(it for it in INSTALLED if it.endswith(".md")))
def test_installed(place):
    """The links of an installed page lead to installed files."""
    targets = (it.partition("#")[0] for it in LINK.findall(BLOCK.sub("", (TOP / place).read_text())) if "://" not in it)
    paths = {os.path.normpath(pathlib.PurePath(place).parent / it) for it in targets if it}
    assert paths - INSTALLED == set()


@pytest.mark.parametrize("page", manual_pages().values(), ids=manual_pages())
def test_manual(page):
    """So do the documents that a manual page names, by their place below the prefix."""
    names = re.findall(r"share/doc/bpfcanon/([\w./]*\w)", page.replace(r"\-", "-"))
    assert names and set(names) - INSTALLED - {"docs"} == set()
