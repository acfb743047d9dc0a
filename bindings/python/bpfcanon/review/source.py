"""The source lines of instructions, from .BTF.ext of the original file: the canonical file has none."""

from __future__ import annotations

import bisect
import io
from dataclasses import dataclass
from functools import cached_property
from typing import Optional

from elftools.common.exceptions import ELFError
from elftools.elf.elffile import ELFFile

from ..header import Order
from .extension import Extension
from .labels import printable

LINE_BITS = 10  # of the column, below the number of the line
MAX_TEXT = 256  # characters of a line
MAX_LOGGED = 1_023  # characters of a line in a log of the kernel
BLANKS = " \t\n\v\f\r"


@dataclass(frozen=True)
class SourceLine:
    """A line of a source: where its file and its text are among the strings, and its number. The kernel takes those with one file and one number
    for the same."""

    file: int
    text: int
    number: int


class Sources:
    """The source lines of an accepted file, found when one is asked for."""

    def __init__(self, original: bytes) -> None:
        self._original = original

    def at(self, section: str, offset: int) -> str:
        """Return the file, the number and the text of the line of an instruction; "" without one."""
        found = self.line(section, offset)
        if found is None:
            return ""
        name, line = (self._extension.string(it)[:MAX_TEXT].strip() for it in (found.file, found.text))
        return printable(f"{name}:{found.number}: {line}")

    def logged(self, line: SourceLine) -> str:
        """Return a line as the kernel logs it."""
        text, path = (self._extension.string(it) for it in (line.text, line.file))
        return f"; {text.lstrip(BLANKS)[:MAX_LOGGED]} @ {path.rpartition('/')[2][:MAX_LOGGED]}:{line.number}"

    def line(self, section: str, offset: int) -> Optional[SourceLine]:
        """Return the line of an instruction."""
        records = self._lines.get(section, [])
        found = bisect.bisect_right(records, (offset, 1 << 32)) - 1
        if found < 0:
            return None
        _, file, text, number = records[found]
        return SourceLine(file, text, number >> LINE_BITS)

    @cached_property
    def _lines(self) -> dict[str, list[tuple[int, ...]]]:
        return {it.section: list(it.records) for it in reversed(self._extension.lines)}

    @cached_property
    def _extension(self) -> Extension:
        try:
            elf = ELFFile(io.BytesIO(self._original))
            found = [elf.get_section_by_name(name) for name in (".BTF.ext", ".BTF")]
        except ELFError:  # pyelftools refuses some of what a canonical file leaves out
            return Extension()
        order = Order.LITTLE if elf.little_endian else Order.BIG
        return Extension.read(found[0].data(), found[1].data(), order) if all(found) else Extension()
