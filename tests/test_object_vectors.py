"""Checks testdata/objects by itself, and that docs/canon.py and the built command agree with each of its rows."""

from __future__ import annotations

import functools
import hashlib
import json
import re
import subprocess
import sys
from pathlib import Path
from typing import Iterator

import pytest

from docs.canon import Elf, Refused, Types, canonical, read_types, string_at
from tests import TOP, object_vectors, vector_rows
from tests.command import SECONDS
from tests.needs import need
from tests.object_vectors import FOLDER, Fault, Row
from tools.objects import make

ROWS = object_vectors.rows()
ACCEPTED, REFUSED = [it for it in ROWS if it.key], [it for it in ROWS if it.fault]
LARGEST = 10_000
each_row = pytest.mark.parametrize("row", ROWS, ids=[it.file for it in ROWS])


def causes_of_page() -> set[str]:
    """The causes of the table of rules. Some occur in more than one of its rows."""
    part = (TOP / "docs/OBJECTS.md").read_text().partition("\n## Accepted files\n")[2].partition("\n#")[0]
    rows = re.findall(r"^\| ((?:\w+, )*\w+) \|", part, re.MULTILINE)
    return {cause for row in rows for cause in row.split(", ")}


def test_table() -> None:
    """Each file has a row, no two have the same bytes, and each cause has a file."""
    assert sorted(it.file for it in ROWS) == sorted(it.name for it in FOLDER.glob("*.o"))
    assert len({it.content for it in ROWS}) == len(ROWS)
    assert len(ACCEPTED) >= 50 and max(it.stat().st_size for it in FOLDER.glob("*.o")) < LARGEST
    assert {it.fault.cause.partition("(")[0] for it in REFUSED if it.fault} == causes_of_page()
    for rows in ACCEPTED, REFUSED:
        assert all(len([it for it in rows if f".{order}." in it.file]) >= len(rows) // 2 for order in make.ORDERS)


@functools.lru_cache(maxsize=None)
def made() -> dict[str, make.Vector]:
    need("clang", "llvm-strip")
    said = subprocess.run(["clang", "--version"], capture_output=True, text=True, check=True).stdout
    if not said.startswith("Debian clang version 14."):
        pytest.skip("another clang makes other objects")
    return {it.name: it for it in make.vectors()}


@each_row
def test_made(row: Row) -> None:
    """The file is what the script makes; test_made_table has its row."""
    vector = made()[row.file]
    assert vector.content == (FOLDER / row.file).read_bytes()


def test_made_table() -> None:
    assert make.table(list(made().values())) == object_vectors.TABLE.read_text()


@each_row
def test_definition(row: Row) -> None:
    try:
        assert row.key == hashlib.sha256(canonical(row.content)).hexdigest()
    except Refused as refused:
        assert row.fault == Fault(refused.offset, refused.cause)


def test_order_of_types() -> None:
    """The types of this file, whose order tools/objects/type_order.py states, are in the order of its canonical file."""
    files = (row.content for row in ACCEPTED if row.file.startswith("changed.type_order."))
    names = [[(it.kind, string_at(types.strings, it.words[0])) for it in types.records] for types in both_types(*files)]
    assert names[0] == names[1] and ("TYPE_TAG", b"percpu") in names[0]


def both_types(content: bytes) -> Iterator[Types]:
    """The types of a file, and of its canonical one."""
    for data in content, canonical(content):
        types = read_types(Elf(data))
        assert types
        yield types


@pytest.mark.parametrize("field", ["little", "big"])
@pytest.mark.parametrize("row", vector_rows.rows("btf-fault"), ids=lambda it: it[0])
def test_definition_of_types(row: list[str], field: str) -> None:
    """The faults of .BTF by itself, of which the objects have one."""
    columns = dict(zip(vector_rows.COLUMNS["btf-fault"], row))
    with pytest.raises(Refused) as refused:
        Types(vector_rows.data(columns[field]))
    assert (str(refused.value.offset), refused.value.cause) == (columns["offset"], columns["cause"])


def test_command_of_definition(tmp_path: Path) -> None:
    """docs/canon.py writes a canonical file, or says where a file is refused and why; it writes no file then."""
    line = [sys.executable, "-B", str(TOP / "docs/canon.py")]
    accepted = subprocess.run([*line, "-o", tmp_path / "out.o", FOLDER / "pass.little.debug.o"], check=False)
    assert accepted.returncode == 0
    assert (tmp_path / "out.o").read_bytes() == canonical((FOLDER / "pass.little.debug.o").read_bytes())
    host = bytearray((FOLDER / "pass.little.debug.o").read_bytes())
    host[18] = 62  # e_machine of x86-64
    (tmp_path / "host.o").write_bytes(host)
    (tmp_path / "source.c").write_bytes((FOLDER.parent / "pass.c").read_bytes())
    for name, start in ("host.o", b"host.o: byte 18: Machine: "), ("source.c", b"source.c: byte 0: Magic: "):
        refused = subprocess.run([*line, name, "-o", "none.o"], capture_output=True, cwd=tmp_path, check=False)
        assert (refused.returncode, refused.stdout) == (1, b"") and refused.stderr.startswith(start) and b"clang -target bpf" in refused.stderr
        assert not (tmp_path / "none.o").exists()


@functools.lru_cache(maxsize=None)
def sentences() -> dict[tuple[str, str], str]:
    """The sentence of each cause, by its kind and name."""
    rows = (line.split("\t") for line in (TOP / "docs/causes.tsv").read_text().splitlines() if not line.startswith("#"))
    return {(kind, name): sentence for kind, _, name, sentence, *_ in rows}


@each_row
def test_program(row: Row, object_program: Path, tmp_path: Path) -> None:
    path = tmp_path / row.file
    path.write_bytes((FOLDER / row.file).read_bytes())
    if row.length:
        with path.open("r+b") as file:
            file.truncate(row.length)
    check, key = (
        subprocess.run([object_program, *words, row.file], capture_output=True, cwd=tmp_path, timeout=SECONDS, check=False)
        for words in (["check", "--format", "json"], ["key"])
    )
    found = [it for it in map(json.loads, check.stdout.splitlines()) if "section" not in it]
    if row.fault:
        # A fault of .BTF has the cause in brackets, and a remark in parentheses may follow a sentence.
        kind, cause = ("btf", row.fault.cause[6:-1]) if row.fault.cause.startswith("Types(") else ("object", row.fault.cause)
        assert found[0].pop("text").startswith(sentences()[kind, cause])
        assert found == [{"file": row.file, "accepted": False, "offset": row.fault.offset, "cause": cause}]
        assert (key.returncode, key.stdout) == (1, b"")
    else:
        assert found == [{"file": row.file, "accepted": True}]
        assert (key.returncode, key.stdout) == (0, f"{row.key}  {row.file}\n".encode())
