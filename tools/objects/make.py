"""Makes the files of testdata/objects from sources, by clang 14 and by rules, with the table of what they are.

    python3 -m tools.objects.make

Keys are those of the canonical files that docs/canon.py writes, and faults those that refused.py names.
"""

from __future__ import annotations

import hashlib
import subprocess
import tempfile
from pathlib import Path
from typing import Iterator, NamedTuple, Optional

from docs.canon import canonical
from tests import TOP
from tools.objects.accepted import ACCEPTED
from tools.objects.edited import Edited
from tools.objects.refused import REFUSED

FOLDER = TOP / "testdata/objects"
TABLE = FOLDER / "objects.tsv"
ORDERS = {"little": "bpfel", "big": "bpfeb"}
# The sources, each with how it is built: without types, with types, with types and DWARF, and without the symbols that a linker doesn't need.
PLAIN, TYPED, DEBUG, UNNEEDED = "plain", "typed", "debug", "unneeded"
SOURCES = {
    "calls.c": (PLAIN, TYPED, UNNEEDED),
    "core.c": (TYPED, DEBUG),
    "data.c": (PLAIN, TYPED, UNNEEDED),
    "externs.c": (PLAIN, TYPED, DEBUG),
    "maps.c": (PLAIN, TYPED),
    "../flow_table.c": (PLAIN, TYPED),
    "../hash_words.c": (PLAIN, TYPED, DEBUG),
    "../packet_filter.c": (PLAIN, TYPED, DEBUG),
    "../pass.c": (PLAIN, TYPED, DEBUG),
}
HEAD = """\
# Test vectors for canonical object files: README.md in the folder above describes the columns.

# object: file, SHA-256 of its canonical file
{}
# object-fault: file, length, offset, cause
{}"""


class Vector(NamedTuple):
    """A file, and its row in the table."""

    name: str
    content: bytes
    row: tuple[object, ...]

    @property
    def line(self) -> str:
        return "\t".join(map(str, self.row)) + "\n"


def compiled(source: str, order: str, build: str) -> bytes:
    """An object of a source. Its bytes depend on no path."""
    with tempfile.TemporaryDirectory() as folder:
        path = f"{folder}/object.o"
        flags = ["-g", "-fdebug-compilation-dir=."] if build != PLAIN else []
        steps = [["clang", "-target", ORDERS[order], "-mcpu=v3", "-O2", *flags, "-c", source, "-o", path]]
        steps += [["llvm-strip", {TYPED: "-g", UNNEEDED: "--strip-unneeded"}[build], path]] if build in (TYPED, UNNEEDED) else []
        for line in steps:
            subprocess.run(line, cwd=FOLDER, check=True)
        return Path(path).read_bytes()


def accepted(name: str, content: bytes) -> Vector:
    key = hashlib.sha256(canonical(content)).hexdigest()
    return Vector(name, content, ("object", name, key))


def refused(name: str, content: bytes, offset: int, cause: str, length: Optional[int]) -> Vector:
    return Vector(name, content, ("object-fault", name, length or "-", offset, cause))


def vectors() -> Iterator[Vector]:
    """All files: first those of compilers, then those that are changed, which are big-endian and little-endian by turns."""
    bases = {}
    for source, builds in SOURCES.items():
        for order in ORDERS:
            for build in builds:
                content = compiled(source, order, build)
                yield accepted(f"{Path(source).stem}.{order}.{build}.o", content)
                if build == TYPED:
                    bases[Path(source).stem, order] = canonical(content)
    for number, (name, change) in enumerate(ACCEPTED.items()):
        order = list(ORDERS)[number % 2]
        file = Edited(bases["core", order])
        change.change(file)
        vector = accepted(f"changed.{name}.{order}.o", bytes(file.data))
        other = Edited(bases["core", order])
        change.other(other)
        assert change.is_same == (canonical(vector.content) == canonical(bytes(other.data))), vector.name
        yield vector
    for number, (name, rule) in enumerate(REFUSED.items()):
        order = list(ORDERS)[number % 2]
        file = Edited(bases[rule.base, order])
        offset = rule.change(file)
        yield refused(f"refused.{name}.{order}.o", bytes(file.data), offset, rule.cause, rule.length)


def table(made: list[Vector]) -> str:
    lines = ["".join(it.line for it in made if it.row[0] == kind) for kind in ("object", "object-fault")]
    return HEAD.format(*lines)


def main() -> None:
    made = list(vectors())
    for path in FOLDER.glob("*.o"):
        path.unlink()
    for vector in made:
        (FOLDER / vector.name).write_bytes(vector.content)
    TABLE.write_text(table(made))


if __name__ == "__main__":
    main()
