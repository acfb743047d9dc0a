"""A model of an object file whose parts can be changed one by one, consistently or not, and written again."""

from __future__ import annotations

import struct
from dataclasses import dataclass, field, replace
from typing import Iterator, Optional, Sequence

PROGBITS, SYMTAB, STRTAB, RELA, NOTE, NOBITS, REL, ADDRSIG = 1, 2, 3, 4, 7, 8, 9, 0x6FFF4C03
WRITE, ALLOC, EXECINSTR = 1, 2, 4
NOTYPE, OBJECT, FUNCTION, SECTION, FILE = 0, 1, 2, 3, 4
LOCAL, GLOBAL, WEAK = 0, 1, 2
UNDEFINED, RESERVED = 0, 0xFF00

HEADER = ("16s", "H", "H", "I", "Q", "Q", "Q", "I", "H", "H", "H", "H", "H", "H")
ROW, SYMBOL, RELOCATION = "IIQQQQIIQQ", "IBBHQQ", "QQ"


@dataclass
class Section:
    """A row of the table of sections and its content; `name` is an offset in the table of names."""

    name: int
    type: int
    flags: int
    address: int
    link: int
    info: int
    alignment: int
    entry_size: int
    content: bytearray
    size: int  # of a section without bits


@dataclass
class Symbol:
    name: int
    info: int
    other: int
    section: int
    value: int
    size: int

    @property
    def type(self) -> int:
        return self.info & 15

    @property
    def binding(self) -> int:
        return self.info >> 4


@dataclass
class Relocation:
    offset: int
    type: int
    symbol: int


@dataclass
class ElfFile:
    """`layout` is the sequence of the sections' contents in the file, `padding` the byte between them."""

    sign: str
    ident: bytes
    version: int
    entry: int
    flags: int
    type: int
    machine: int
    names: int
    sections: list[Section]
    layout: list[int] = field(default_factory=list)
    padding: int = 0
    table_first: bool = False
    segments: tuple[int, int] = (0, 0)  # offset of their table, and size of its rows, of which there are none
    end: bytes = b""

    @classmethod
    def read(cls, data: bytes) -> ElfFile:
        sign = "<" if data[5] == 1 else ">"
        fields = struct.unpack_from(sign + "".join(HEADER), data)
        ident, kind, machine, version, entry, _, table, flags, _, _, _, row, count, names = fields
        rows = [struct.unpack_from(sign + ROW, data, table + row * number) for number in range(count)]
        sections = [section_of(it, data) for it in rows]
        layout = sorted(range(1, count), key=lambda it: int(rows[it][4]))
        return cls(sign, ident, version, entry, flags, kind, machine, names, sections, layout)

    def write(self) -> bytearray:
        size = len(self.sections) * struct.calcsize("<" + ROW)
        data = bytearray(64 + (size if self.table_first else 0))
        offsets = [0] * len(self.sections)
        for index in [*self.layout, *sorted(set(range(1, len(self.sections))) - set(self.layout))]:
            section = self.sections[index]
            pad(data, section.alignment, self.padding)
            offsets[index] = len(data)
            data += section.content
        pad(data, 8, self.padding)
        place = 64 if self.table_first else len(data)
        data[place : place + size] = b"".join(map(self.row, self.sections, offsets))
        segments, segment_size = self.segments
        fields = (self.ident, self.type, self.machine, self.version, self.entry, segments, place, self.flags, 64, segment_size, 0, 64)
        struct.pack_into(self.sign + "".join(HEADER), data, 0, *fields, len(self.sections), self.names)
        return data + self.end

    def row(self, section: Section, offset: int) -> bytes:
        size = section.size if section.type == NOBITS else len(section.content)
        fields = (section.name, section.type, section.flags, section.address, offset, size)
        return struct.pack(self.sign + ROW, *fields, section.link, section.info, section.alignment, section.entry_size)

    def string(self, table: int, offset: int) -> bytes:
        content = self.sections[table].content
        return bytes(content[offset : content.find(b"\0", offset)])

    def add_string(self, table: int, string: bytes) -> int:
        """The offset of a string that is added to a table of strings."""
        content = self.sections[table].content
        content += string + b"\0"
        return len(content) - len(string) - 1

    def name(self, index: int) -> bytes:
        return self.string(self.names, self.sections[index].name)

    def indices(self, name: bytes) -> list[int]:
        return [it for it in range(1, len(self.sections)) if self.name(it) == name]

    def find(self, name: bytes) -> Optional[Section]:
        found = self.indices(name)
        return self.sections[found[0]] if found else None

    def of_type(self, *types: int) -> list[int]:
        return [it for it in range(1, len(self.sections)) if self.sections[it].type in types]

    @property
    def symbol_table(self) -> int:
        return self.of_type(SYMTAB)[0]

    @property
    def symbol_names(self) -> int:
        return self.sections[self.symbol_table].link

    def symbols(self) -> list[Symbol]:
        content = self.sections[self.symbol_table].content
        return [Symbol(*it) for it in struct.iter_unpack(self.sign + SYMBOL, content)]

    def set_symbols(self, symbols: list[Symbol]) -> None:
        form = struct.Struct(self.sign + SYMBOL)
        rows = (form.pack(it.name, it.info, it.other, it.section, it.value, it.size) for it in symbols)
        self.sections[self.symbol_table].content = bytearray(b"".join(rows))

    def relocations(self, index: int) -> list[Relocation]:
        rows = struct.iter_unpack(self.sign + RELOCATION, self.sections[index].content)
        return [Relocation(offset, info & 0xFFFFFFFF, info >> 32) for offset, info in rows]

    def set_relocations(self, index: int, relocations: list[Relocation]) -> None:
        form = struct.Struct(self.sign + RELOCATION)
        rows = (form.pack(it.offset, it.symbol << 32 | it.type) for it in relocations)
        self.sections[index].content = bytearray(b"".join(rows))

    def reorder_symbols(self, order: Sequence[int], *added: Symbol, follows: bool = True) -> None:
        """Puts the symbols, and some that are added behind them, into a sequence of their numbers, which relocations follow."""
        symbols, number_of = [*self.symbols(), *added], {old: new for new, old in enumerate(order)}
        self.set_symbols([symbols[it] for it in order])
        for index in self.of_type(REL) if follows else ():
            self.set_relocations(index, [replace(it, symbol=number_of.get(it.symbol, 0)) for it in self.relocations(index)])

    def reorder_sections(self, order: Sequence[int]) -> None:
        """Puts the sections into a sequence of their indices, and sets every index of a section."""
        index_of = {old: new for new, old in enumerate(order)}
        self.sections = [self.sections[it] for it in order]
        self.layout = [index_of[it] for it in self.layout if it in index_of]
        self.names = index_of.get(self.names, 0)
        for section in self.sections:
            section.link = index_of.get(section.link, 0)
            if section.type in (REL, RELA):
                section.info = index_of.get(section.info, 0)
        symbols = self.symbols()
        for symbol in symbols:
            if symbol.section < RESERVED:
                symbol.section = index_of.get(symbol.section, 0)
        self.set_symbols(symbols)

    def insert(self, index: int, section: Section) -> None:
        """Adds a section at an index, and sets every index of a section after it."""
        self.sections.append(section)
        last = len(self.sections) - 1
        self.layout.append(last)
        self.reorder_sections([*range(index), last, *range(index, last)])

    def loaded_names(self) -> Iterator[int]:
        """The indices of the sections that a loader may look at."""
        for index, section in enumerate(self.sections):
            if index and section.type not in (SYMTAB, STRTAB) and not self.name(index).startswith((b".debug", b".rel.debug")):
                yield index


def section_of(row: tuple[int, ...], data: bytes) -> Section:
    name, kind, flags, address, offset, size, link, info, alignment, entry_size = row
    content = bytearray() if kind in (0, NOBITS) else bytearray(data[offset : offset + size])
    return Section(name, kind, flags, address, link, info, alignment, entry_size, content, size)


def pad(data: bytearray, alignment: int, padding: int) -> None:
    if 1 < alignment <= 4096:
        data += bytes([padding]) * (-len(data) % alignment)
