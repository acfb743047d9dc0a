"""What changes a canonical file: each row of the table of README.md, for each source that the tests compile."""

from __future__ import annotations

import contextlib
import re
import subprocess
from pathlib import Path
from typing import Callable, Iterator, NamedTuple

import pytest

from tests import TOP
from tests.needs import need
from tests.objects import files
from tests.objects.conftest import Keys
from tests.objects.files import KINDS, OTHERS, SOURCES, kernel_headers

FUNCTION = re.compile(r"^(?!#)(\S[^\n;]*?\b(\w+)\))( \{ [^\n]* \}|\n\{\n.*?\n\})$", re.MULTILINE | re.DOTALL)
LOCAL = re.compile(r"^\t(?!return |static |goto )(?:(?:const|enum|struct|unsigned) )*\w+ \**(\w+)(?:\[\w*\])?(?= =|;|,)", re.MULTILINE)
UNUSED = "/* a note */\n#define UNUSED 1\nstruct unused { int member; };\nstatic inline int unused(void) { return UNUSED; }\n"
Texts = dict[str, str]
Objects = dict[str, bytes]


class Row(NamedTuple):
    """A row of the table: a change, how many sources it can be made to, and how many object files and canonical files it changes."""

    change: str
    figures: tuple[int, ...]
    reason: str


def rows() -> list[Row]:
    part = (TOP / "tests/objects/README.md").read_text().partition("\n## What changes a canonical file\n")[2].partition("\n## ")[0]
    found = re.findall(r"^\| ([^|]+) \| (\d+) \| (\d+) \| (\d+) \| ([^|]*)\|$", part, re.MULTILINE)
    return [Row(change, tuple(map(int, figures)), reason) for change, *figures, reason in found]


def sources() -> Iterator[tuple[str, str]]:
    """The name of each source, and its text with its macros."""
    for path, flags in [*((path, variants[0]) for path, variants in SOURCES), *OTHERS.items()]:
        macros = "".join(f"#define {it[2:].replace('=', ' ')}\n" for it in flags if it.startswith("-D"))
        yield path.replace("/", "-"), macros + (TOP / path).read_text()
    head, *parts = re.split(r"^#(?:el)?if defined\((\w+)\) ", KINDS.read_text().replace("#endif", ""), flags=re.MULTILINE)
    yield from ((f"{kind}.c", head + part) for kind, part in zip(parts[::2], parts[1::2]))


def compiled(texts: Texts, folder: Path, *flags: str) -> Objects:
    """The objects of sources in a folder, by one run of clang; those that it refuses are missing."""
    folder.mkdir(exist_ok=True)
    for name, text in texts.items():
        (folder / name).write_text(text)
    line = ["clang", "-target", "bpfel", "-mcpu=v3", "-O2", "-g", f"-I{kernel_headers()}", *flags, "-c"]
    paths = [folder / name for name in texts]
    subprocess.run([*line, *paths], cwd=folder, capture_output=True, check=False)
    made = {it.name: it.with_suffix(".o") for it in paths}
    found = {name: path.read_bytes() for name, path in made.items() if path.exists()}
    for path in folder.iterdir():
        path.unlink()
    return found


@pytest.fixture(scope="session")
def base(folder: Path) -> Objects:
    """The objects that are changed, or that others are compared with."""
    need("clang", "cc", "llvm-strip", "llvm-objcopy", "bpftool")
    if "version 14." not in subprocess.run(["clang", "--version"], capture_output=True, text=True, check=True).stdout:
        pytest.skip("another clang makes other objects")
    return compiled(dict(sources()), folder / "sources")


@pytest.fixture(scope="session")
def base_keys(base: Objects, keys: Keys) -> dict[str, str]:
    return dict(zip(base, keys([*base.values()])))


def renamed(name: str, text: str) -> str:
    """A variable with another name, and no type or member of its name."""
    return re.sub(rf"(?<![\w.>])(?<!struct ){name}\b", f"other_{name}", text)


def with_local_renamed(function: re.Match[str]) -> str:
    local = LOCAL.search(function[3])
    return function[1] + (renamed(local[1], function[3]) if local else function[3])


Way = Callable[[Objects, Path], Objects]


def by_source(rewrite: Callable[[str], str]) -> Way:
    """Other texts, for the sources that have what is rewritten."""
    texts = {name: (text, rewrite(text)) for name, text in sources()}
    return lambda base, folder: compiled({name: other for name, (text, other) in texts.items() if other != text}, folder / "sources")


def by_flags(*flags: str) -> Way:
    return lambda base, folder: compiled(dict(sources()), folder / "sources", *flags)


def by_tool(tool: str) -> Way:
    def way(base: Objects, folder: Path) -> Objects:
        found = {}
        for name, data in base.items():
            with contextlib.suppress(subprocess.CalledProcessError):
                found[name] = files.changed(data, tool, folder)
        return found

    return way


WAYS: dict[str, Way] = {
    "a comment, and an unused macro, type and function": by_source(lambda text: UNUSED + text),
    "a local variable with another name": by_source(lambda text: FUNCTION.sub(with_local_renamed, text)),
    "a parameter with another name": by_source(lambda text: FUNCTION.sub(lambda it: renamed(it[2], it[0]), text)),
    "another folder": lambda base, folder: compiled(dict(sources()), folder / "elsewhere"),
    "`-O1`": by_flags("-O1"),
    "`-mcpu=v2`": by_flags("-mcpu=v2"),
    "no `-g`": by_flags("-g0"),
    "big-endian": by_flags("-target", "bpfeb"),
    "`llvm-strip -g`": by_tool("stripped"),
    "`llvm-objcopy`": by_tool("copied"),
    "`llvm-objcopy --compress-debug-sections`": by_tool("compressed"),
    "`llvm-strip --strip-unneeded`": by_tool("unneeded"),
    "`bpftool gen object`": by_tool("linked"),
}


def test_table() -> None:
    assert [it.change for it in rows()] == [*WAYS]


@pytest.mark.parametrize("row", rows(), ids=[it.change for it in rows()])
def test_what_changes(row: Row, base: Objects, base_keys: dict[str, str], keys: Keys, folder: Path) -> None:
    """If the page names sources in a row, their canonical files change, and no others."""
    made = WAYS[row.change](base, folder)
    found = dict(zip(made, keys([*made.values()])))
    changed = {it for it in made if found[it] != base_keys[it]}
    assert (len(made), sum(made[it] != base[it] for it in made), len(changed)) == row.figures
    named = {it for it in base if f"`{it.replace('-', '/')}`" in row.reason or f"`{it[:-2]}`" in row.reason}
    assert named in (set(), changed)
