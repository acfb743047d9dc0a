"""Sets the fields of an object file one by one, by their names in the System V ABI without the prefix of their row."""

from __future__ import annotations

import struct
from typing import Any

from docs import canon
from docs.canon import Elf, Kind
from tests.objects.elf_fields import HEADER, RELOCATION, SECTION, SYMBOL


class Edited:
    """An object file whose fields are set one by one. What sets a field returns its offset in the file."""

    def __init__(self, data: bytes) -> None:
        self.data, self.elf = bytearray(data), Elf(data)

    def put(self, offset: int, size: int, value: int) -> int:
        self.data[offset : offset + size] = value.to_bytes(size, "little" if self.elf.mark == "<" else "big")
        return offset

    def set(self, start: int, fields: dict[str, int], field: str, value: int) -> int:
        """Sets a field of a row that begins at an offset."""
        before = list(fields)[: list(fields).index(field)]
        return self.put(start + sum(fields[it] for it in before), fields[field], value)

    def header(self, field: str, value: int) -> int:
        return self.set(0, HEADER, f"e_{field}", value)

    def section(self, name: bytes) -> Any:
        return next(it for it in self.elf.sections if it.name == name)

    def row(self, name: bytes, field: str, value: int) -> int:
        """Sets a field of the header of a section."""
        return self.set(self.section(name).place, SECTION, f"sh_{field}", value)

    def content(self, name: bytes) -> int:
        """Where the content of a section is."""
        return int(self.section(name).sh_offset)

    def replace(self, name: bytes, content: bytes) -> None:
        """Gives a section another content, at the end of the file."""
        self.row(name, "offset", len(self.data))
        self.row(name, "size", len(content))
        self.data += content
        self.elf = Elf(bytes(self.data))

    def add_string(self, string: bytes) -> int:
        """The offset of a string that is added to those of sections and symbols."""
        names = self.bytes_of(b".strtab")
        self.replace(b".strtab", names + string + b"\0")
        return len(names)

    @property
    def symbols(self) -> list[tuple[int, ...]]:
        return list(struct.iter_unpack(self.elf.mark + canon.SYMBOL, self.bytes_of(b".symtab")))

    def symbol(self, number: int, field: str, value: int) -> int:
        return self.set(self.content(b".symtab") + sum(SYMBOL.values()) * number, SYMBOL, f"st_{field}", value)

    def add_symbol(self, name: bytes, info: int, section: int, other: int = 0, value: int = 0, size: int = 0) -> int:
        """The offset of a symbol that is added to the others."""
        row = struct.pack(self.elf.mark + canon.SYMBOL, self.add_string(name) if name else 0, info, other, section, value, size)
        rows, at = self.bytes_of(b".symtab") + row, len(self.data)
        self.row(b".symtab", "offset", at)
        self.row(b".symtab", "size", len(rows))
        self.data += rows
        return at + len(rows) - len(row)

    @property
    def last_symbol(self) -> int:
        """The number of a symbol that is global, and in a section of data."""
        return len(self.symbols) - 1

    def relocation(self, table: bytes, field: str, value: int) -> int:
        """Sets a field of the first relocation of a table."""
        return self.set(self.content(table), RELOCATION, f"r_{field}", value)

    def bytes_of(self, name: bytes) -> bytes:
        return self.elf.content(self.section(name))

    def room(self, name: bytes) -> int:
        """The size of a section with which the kept ones are together as long as the file."""
        kept = [it for it in self.elf.sections if it.kind in (Kind.DATA, Kind.RELOCATIONS) and it.name != name]
        return len(self.data) - sum(len(self.elf.content(it)) for it in kept)

    def first_type(self, kind: str) -> tuple[int, list[int]]:
        """Where the first type of a kind is, and its words."""
        types = canon.Types(self.bytes_of(b".BTF"))
        record = next(it for it in types.records if it.kind == kind)
        return self.content(b".BTF") + record.place, record.words

    def add_type_string(self, string: bytes) -> int:
        """The offset of a string that is added to those of .BTF."""
        content = self.bytes_of(b".BTF")
        (size,) = struct.unpack_from(f"{self.elf.mark}I", content, 20)
        self.replace(b".BTF", content + string + b"\0")
        self.put(self.content(b".BTF") + 20, 4, size + len(string) + 1)
        self.elf = Elf(bytes(self.data))
        return int(size)

    def group(self, part: int) -> int:
        """Where the first group of functions, lines or CO-RE relocations is: parts 0, 1 and 2 of .BTF.ext."""
        start = self.content(b".BTF.ext")
        hdr_len, *places = struct.unpack_from(f"{self.elf.mark}7I", self.data, start + 4)
        return int(start + hdr_len + places[2 * part] + 4)
