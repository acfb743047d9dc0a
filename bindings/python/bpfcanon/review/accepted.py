"""An accepted object file: its canonical bytes, and the sections, symbols and relocations that pyelftools reads in them."""

from __future__ import annotations

import hashlib
import io
from dataclasses import dataclass
from functools import cached_property
from typing import Any, Iterator, Optional

from elftools.elf.elffile import ELFFile

from .. import objects
from ..header import Order
from ..type_table import Btf
from .extension import Extension
from .labels import Labels, printed

WRITTEN = (".BTF", ".BTF.ext", ".symtab", ".strtab")  # not kept as they are
SYMBOL_SIZE, PLACE_OF_OTHER = 24, 5
EXECUTABLE = 4  # SHF_EXECINSTR
RELOCATIONS = {1: "R_BPF_64_64", 2: "R_BPF_64_ABS64", 3: "R_BPF_64_ABS32", 4: "R_BPF_64_NODYLD32", 10: "R_BPF_64_32"}


@dataclass(frozen=True)
class Section:
    """A kept section. `head` has the fields of its header, and `target` is the index of the section that its relocations are for."""

    index: int
    name: str
    label: str
    type: str
    is_code: bool
    head: str
    target: int
    content: bytes


@dataclass(frozen=True)
class Symbol:
    """A symbol. `section` is an index, or 0 if it isn't in a section; `place` says where it is."""

    label: str
    type: str
    binding: str
    other: int
    section: int
    place: str
    value: int
    size: int


@dataclass(frozen=True)
class Row:
    """What a table says of an offset. If it is about a whole section, this is its index: the instruction says which place is meant."""

    offset: int
    text: str
    section: int = 0


class Accepted:
    """An object file that has a canonical form."""

    def __init__(self, data: bytes) -> None:
        """Find the canonical bytes of a file. Raises FaultError with the rule that the file breaks, OutOfMemoryError."""
        self.original, self.canonical = data, objects.canon(data)
        self._elf = ELFFile(io.BytesIO(self.canonical))
        self.order = Order.LITTLE if self._elf.little_endian else Order.BIG
        self.flags: int = self._elf["e_flags"]

    @property
    def key(self) -> str:
        """The SHA-256 of the canonical bytes."""
        return hashlib.sha256(self.canonical).hexdigest()

    @cached_property
    def sections(self) -> dict[int, Section]:
        """The kept sections by their indices."""
        labels = Labels()
        found = enumerate(self._elf.iter_sections())
        return {index: self._section(index, it, labels) for index, it in found if index and it.name not in WRITTEN}

    @cached_property
    def code(self) -> dict[str, Section]:
        """The first section of code with each name: the one that records of .BTF.ext with this name are about."""
        return {it.name: it for it in reversed(self.sections.values()) if it.is_code}

    def _section(self, index: int, it: Any, labels: Labels) -> Section:
        type, name = it["sh_type"].replace("SHT_", ""), self._string(it["sh_name"])
        head = f"{type} flags={it['sh_flags']:#x} address={it['sh_addr']:#x} size={it['sh_size']}"
        head += f" alignment={it['sh_addralign']} entry_size={it['sh_entsize']}"
        content = b"" if type in ("NOBITS", "REL") else it.data()
        is_code = type == "PROGBITS" and bool(it["sh_flags"] & EXECUTABLE)
        return Section(index, name, labels.next(printed(name)), type, is_code, head, it["sh_info"], content)

    @cached_property
    def symbols(self) -> list[Symbol]:
        """The symbols in the sequence of their table, from the zero row on."""
        labels = Labels()
        return [self._symbol(number, it, labels) for number, it in enumerate(self._elf.get_section_by_name(".symtab").iter_symbols())]

    def _symbol(self, number: int, it: Any, labels: Labels) -> Symbol:
        index, name = it["st_shndx"], self._string(it["st_name"])
        section = index if isinstance(index, int) else 0
        place = self.sections[section].label if section else index.replace("SHN_", "")
        # pyelftools leaves bits of st_other out.
        other = self.content_of(".symtab")[SYMBOL_SIZE * number + PLACE_OF_OTHER]
        kind, binding = (str(it["st_info"][word]).partition("_")[2] or str(it["st_info"][word]) for word in ("type", "bind"))
        label = labels.next(printed(name) if name else f"<{place}>")
        return Symbol(label, kind, binding, other, section, place, it["st_value"], it["st_size"])

    def relocations(self, section: Section) -> Iterator[Row]:
        """Yield the rows of a table of relocations."""
        for offset, type, symbol in self.relocated(section):
            yield Row(offset, f"{RELOCATIONS.get(type, type)} {symbol.label}", symbol.section if symbol.type == "SECTION" else 0)

    def relocated(self, section: Section) -> Iterator[tuple[int, int, Symbol]]:
        """Yield the offset, the type and the symbol of each relocation of a table."""
        for it in self._elf.get_section(section.index).iter_relocations():
            yield it["r_offset"], it["r_info_type"], self.symbols[it["r_info_sym"]]

    @cached_property
    def types(self) -> Optional[Btf]:
        """The types of .BTF; None without one."""
        content = self.content_of(".BTF")
        return Btf(content) if content else None

    @cached_property
    def extension(self) -> Extension:
        """The records of .BTF.ext."""
        return Extension.read(self.content_of(".BTF.ext"), self.content_of(".BTF"), self.order)

    def content_of(self, name: str) -> bytes:
        """Return the content of a section that is written anew; nothing if there is none."""
        return self._contents.get(name, b"")

    @cached_property
    def _contents(self) -> dict[str, bytes]:
        return {it.name: it.data() for it in self._elf.iter_sections() if it.name in WRITTEN}

    def _string(self, offset: int) -> str:
        strings = self.content_of(".strtab")
        return strings[offset : strings.index(b"\0", offset)].decode(errors="surrogateescape")
