"""The records of .BTF.ext of an accepted file, whose form bpfcanon.objects.canon has checked."""

from __future__ import annotations

import struct
from dataclasses import dataclass
from typing import Iterator

from ..header import Order

FUNCTION, LINE, CORE = "2I", "4I", "4I"  # insn_off, and the other words of a record


@dataclass(frozen=True)
class Group:
    """The records of the section with a name."""

    section: str
    records: tuple[tuple[int, ...], ...]


@dataclass(frozen=True)
class Extension:
    """The three parts of .BTF.ext, and the strings of .BTF, to which the records refer."""

    strings: bytes = b""
    functions: tuple[Group, ...] = ()
    lines: tuple[Group, ...] = ()
    core: tuple[Group, ...] = ()

    @classmethod
    def read(cls, content: bytes, types: bytes, order: Order) -> Extension:
        """Read .BTF.ext with the .BTF of the same file. Without content there are no records."""
        if not content:
            return cls()
        mark = "<" if order == Order.LITTLE else ">"
        header, _, _, place, size = struct.unpack_from(mark + "4x5I", types)
        strings = types[header + place : header + place + size]
        header, *places = struct.unpack_from(mark + "4x7I", content)
        parts = [content[header + start : header + start + length] for start, length in zip(places[::2], places[1::2])]
        return cls(strings, *(tuple(groups(part, mark, form, strings)) for part, form in zip(parts, (FUNCTION, LINE, CORE))))

    def string(self, offset: int) -> str:
        """Return the string at an offset; "" if it is outside."""
        return string_at(self.strings, offset)


def groups(part: bytes, mark: str, form: str, strings: bytes) -> Iterator[Group]:
    """Yield the groups of a part, which begins with the size of its records."""
    size, place = struct.calcsize(mark + form), 4
    while place < len(part):
        name, count = struct.unpack_from(mark + "2I", part, place)
        place, start = place + 8 + count * size, place + 8
        yield Group(string_at(strings, name), tuple(struct.iter_unpack(mark + form, part[start:place])))


def string_at(strings: bytes, offset: int) -> str:
    return strings[offset : strings.find(b"\0", offset)].decode(errors="surrogateescape") if offset < len(strings) else ""
