"""Compares docs/TRUST.md with the sources: its contract, its definitions and the verdict.

out/PROVED.txt is what `make record` notes of the verdicts of the prover: the verdict of the page and the functions of C that it rests on
are compared with it, if it is there.
"""

import os
import re
import subprocess

import pytest

from tests import TOP
from tests.command import SECONDS
from tests.sources.tables import cells

PAGE, RECORD = TOP / "docs" / "TRUST.md", TOP / "out" / "PROVED.txt"
TEXT = PAGE.read_text()
# Where the page shows a contract or definitions from.
SOURCES = {"rattle": "bpf_canon/src/insn/canon.rt", "antt": "bpf_insn/specs/Encoding.antt bpf_canon/specs/insn/Canonical.antt"}
BLOCK = re.compile(r"^```(\w+)\n(.*?)^```$", re.MULTILINE | re.DOTALL)
CODE = re.compile(r"`([^`]+)`")


def plain(text):
    """A text with its lines joined: the page breaks long ones."""
    return " ".join(text.split())


def blocks(language):
    return [found[2] for found in BLOCK.finditer(TEXT) if found[1] == language]


@pytest.mark.parametrize("language", SOURCES)
def test_shown(language):
    """A contract ends where the body begins; a definition is one line of its file."""
    text = "\n".join((TOP / "crates" / it).read_text() for it in SOURCES[language].split())
    (block,) = blocks(language)
    parts = [f"{block}{{"] if language == "rattle" else re.split(r"^(?=abbrev )", block, flags=re.MULTILINE)[1:]
    assert parts and [it for it in parts if plain(it) not in plain(text)] == []


def rows(head):
    """The rows of the table whose first column has this head."""
    found = re.search(rf"^\| {head} \|.*\n\|[-|]*\n((?:\|.*\n)*)", TEXT, re.MULTILINE)
    return [cells(line) for line in found[1].splitlines()] if found else []


def verdict():
    """The words of the verdict that the page shows, except how many functions it is about."""
    found = [plain(text) for text in blocks("text") if text.startswith("logic=proved")]
    return [word for word in found[0].split() if not word.startswith("functions=")] if found else []


def functions_of_c():
    """The functions that the table lists."""
    return sorted(code for row in rows("C function") for code in CODE.findall(row[0]))


def test_verdict():
    """Each word of the verdict is explained, and it counts the functions of C that the page lists."""
    words, listed = verdict(), functions_of_c()
    explained = {code.partition("=")[0] for row in rows("Word of the verdict") for code in CODE.findall(row[0])}
    assert f"axioms={len(listed)}" in words, f"the functions of C: they are {listed}"
    for word in words:
        assert word.partition("=")[0] in explained, f"{word}: the page doesn't explain it"


@pytest.mark.release
@pytest.mark.skipif(not RECORD.exists(), reason="there is no out/PROVED.txt: make record")
def test_record():
    """A verdict of the record has the words of the page, and the verdicts rest on the functions of C that the page lists."""
    lines = RECORD.read_text().splitlines()
    verdicts = [line.split() for line in lines if line.startswith("logic=proved ")]
    reached = sorted({line.split()[0] for line in lines if line.endswith(" reached")})
    assert any(set(verdict()) <= set(it) for it in verdicts), (" ".join(verdict()), "no verdict has these words")
    assert set(functions_of_c()) <= set(reached), f"the functions of C: the verdicts rest on {reached}"
    assert f"axioms={len(reached)}" in TEXT, f"the functions of C: the greatest verdict has {len(reached)}"


@pytest.mark.needs("cc")
def test_console(program, object_program, tmp_path):
    """Runs the lines in a folder with what they read."""
    (block,) = (found[2] for found in BLOCK.finditer(TEXT) if found[1] == "console")
    for name in "bench", "docs", "testdata", "tests":
        (tmp_path / name).symlink_to(TOP / name)
    (tmp_path / "bpfcanon").symlink_to(program.path)
    (tmp_path / "bpfcanon-object").symlink_to(object_program)
    environment = os.environ | {"PATH": f"{tmp_path}:{os.environ['PATH']}", "PYTHONDONTWRITEBYTECODE": "1"}
    for part in re.split(r"^\$ ", block, flags=re.MULTILINE)[1:]:
        line, _, printed = part.partition("\n")
        how = {"stdout": subprocess.PIPE, "stderr": subprocess.STDOUT, "timeout": SECONDS}
        assert subprocess.run(["sh", "-c", line], cwd=tmp_path, env=environment, text=True, **how).stdout == printed
