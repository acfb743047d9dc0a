"""The rows of testdata/objects/objects.tsv: testdata/README.md describes them."""

from __future__ import annotations

from typing import NamedTuple, Optional

from tests import TOP

FOLDER = TOP / "testdata/objects"
TABLE = FOLDER / "objects.tsv"


class Fault(NamedTuple):
    """Where a file is refused, and why."""

    offset: int
    cause: str


class Row(NamedTuple):
    """A file with its key or its fault. If it has a length, zeros follow it up to that."""

    file: str
    key: Optional[str] = None
    fault: Optional[Fault] = None
    length: Optional[int] = None

    @property
    def content(self) -> bytes:
        return (FOLDER / self.file).read_bytes().ljust(self.length or 0, b"\0")


def row_of(line: str) -> Row:
    kind, file, *fields = line.split("\t")
    if kind == "object":
        (key,) = fields
        return Row(file, key)
    length, offset, cause = fields
    assert kind == "object-fault"
    return Row(file, None, Fault(int(offset), cause), None if length == "-" else int(length))


def rows() -> list[Row]:
    return [row_of(line) for line in TABLE.read_text().splitlines() if line and not line.startswith("#")]
