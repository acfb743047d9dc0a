"""An object file as text: parts with names, each with all that the canonical file has of it.

The parts of two files are equal exactly if their canonical files are, given SHA-256: they depend on nothing else, and the first one has the
key. The others say what differs; tests change files and compare the parts without the key.
"""

from __future__ import annotations

import hashlib
from dataclasses import dataclass, field
from typing import Iterable, Iterator

from .accepted import Accepted, Section, Symbol
from .labels import Labels
from .listing import Listing
from .notation import Notation

MAX_HEX, ROW = 1 << 16, 16  # bytes of data that are printed, and in a line


@dataclass(frozen=True)
class Line:
    """A line of text; of an instruction also the name of its section and its offset there, by which its source is found. Of several sections
    with one name, only the first has source lines.

    Lines with one text are equal: a function that only moved isn't another one.
    """

    text: str
    section: str = field(default="", compare=False)
    offset: int = field(default=0, compare=False)


@dataclass(frozen=True)
class Part:
    """Something in an object file: what kind of thing it is, what it is called, and its text. No two have the same kind and name."""

    kind: str
    name: str
    lines: tuple[Line, ...]

    @property
    def title(self) -> str:
        """Its kind and its name."""
        return f"{self.kind} {self.name}"

    @property
    def digest(self) -> str:
        """The SHA-256 of its lines, as information."""
        return hashlib.sha256("".join(f"{it.text}\n" for it in self.lines).encode()).hexdigest()


def part(kind: str, name: str, texts: Iterable[str]) -> Part:
    return Part(kind, name, tuple(map(Line, texts)))


def parts(object: Accepted) -> Iterator[Part]:
    """Yield the parts of an object file. Raises OutOfMemoryError."""
    yield part("file", "header", [f"\torder={object.order.name.lower()} flags={object.flags:#x}", f"\tkey={object.key}"])
    notation = Notation(object.types) if object.types else None
    listing = Listing(object, notation)
    for section in object.sections.values():
        yield part("section", section.label, [f"\t{section.head}"])
        has_lines = object.code.get(section.name) is section
        yield from code_parts(listing, section, has_lines) if section.is_code else data_parts(listing, section)
    yield from table_parts(listing)
    yield part("symbols", "in sequence", map(symbol_line, object.symbols[1:]))
    if notation and object.types:
        yield from (part("type", notation.label(id), (f"\t{it}" for it in notation.lines(id))) for id in range(1, len(object.types)))


def code_parts(listing: Listing, section: Section, has_lines: bool) -> Iterator[Part]:
    """Yield the functions of a section. Targets of jumps inside a function have labels."""
    code = listing.code[section.index]
    targets, place = {it.target for it in code}, 0
    for name, start, end in listing.cuts(section.index, len(section.content), "FUNC"):
        lines: list[Line] = []
        last = place
        while last < len(code) and code[last].offset < end:
            last += 1
        inside = code[place:last]
        labels = {it.offset: f"L{number}" for number, it in enumerate((it for it in inside if it.offset in targets), 1)}
        for it in inside:
            lines += [Line(f"{labels[it.offset]}:")] if it.offset in labels else []
            lines.append(Line(f"\t{listing.text(section.index, it, labels)}", section.name if has_lines else "", it.offset))
        yield Part("function", f"{section.label} {name}", tuple(lines))
        place = last


def data_parts(listing: Listing, section: Section) -> Iterator[Part]:
    """Yield the variables of a section that has bytes."""
    for name, start, end in listing.cuts(section.index, len(section.content), "OBJECT"):
        yield part("data", f"{section.label} {name}", data_lines(section.content[start:end]))


def data_lines(content: bytes) -> Iterator[str]:
    """Yield bytes as they are; of many only their digest."""
    if not any(content):
        yield f"\t{len(content)} bytes of zeros"
    elif len(content) > MAX_HEX:
        yield f"\t{len(content)} bytes, SHA-256 {hashlib.sha256(content).hexdigest()}"
    else:
        rows = (content[place : place + ROW] for place in range(0, len(content), ROW))
        yield from (f"\t{row.hex(' ')}  |{''.join(chr(it) if 32 <= it < 127 else '.' for it in row)}|" for row in rows)


def table_parts(listing: Listing) -> Iterator[Part]:
    """Yield the tables of relocations, functions and CO-RE relocations."""
    labels = Labels()
    for table, is_shown in listing.tables:
        rows = ["\tat the instructions"] if is_shown else [f"\t{it.offset:#x}: {it.text}" for it in table.rows]
        yield part(table.kind, labels.next(f"{table.kind} {table.name}").partition(" ")[2], rows)


def symbol_line(it: Symbol) -> str:
    return f"\t{it.label} {it.type} {it.binding} other={it.other} section={it.place} value={it.value:#x} size={it.size}"
