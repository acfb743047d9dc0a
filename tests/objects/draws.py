"""What hypothesis draws: rows, fields, names and contents that mean something to ELF, BTF and loaders."""

from __future__ import annotations

import struct
from typing import Any, Callable, Iterable, Sequence, TypeVar

from tests.needs import need
from tests.objects.elf_file import ElfFile, Relocation, Section, Symbol

need("hypothesis")
from hypothesis import strategies  # noqa: E402

T = TypeVar("T")
NAMES = (
    b"license", b"version", b"maps", b".maps", b".rodata", b".rodata.x", b".data", b".data.x", b".bss", b".bss.x", b".struct_ops",
    b".text", b".kconfig", b".ksyms", b".BTF", b".BTF.ext", b".addr_space.1", b".debug_x", b".rodata.str1.1", b"xdp", b"tc", b"?xdp",
    b"socket", b"a\xff", b".rel.text", b".relxdp", b".rel.maps", b".rel.struct_ops", b".rel.BTF", b".symtab", b"license.x",
    b".struct_ops.link", b"", b".database", b"no such section", b"dummy_ksym",
)  # fmt: skip
# Licenses, versions, code and others.
CONTENTS = (
    b"GPL\0", b"Proprietary\0", b"GPL\0x", b"GPL", b"gpl\0", b"\0GPL\0", b"G" * 64 + b"\0", b"GPL\xff\0", b"\x01\x02\x03\x04", b"\x00\x00\x06\x00",
    b"\0" * 8, b"\0" * 32, b"", b"x", b"\xb7\x00\x00\x00\xff\xff\xff\x7f\x95\x00\x00\x00\x00\x00\x00\x00",
)  # fmt: skip
NUMBERS = (
    0, 1, 2, 3, 4, 7, 8, 9, 14, 15, 16, 24, 28, 32, 0x7F, 0xFF, 0x100, 0xFFF1, 0xFFFF, 0x10000, 0x6FFF4C03, 0x7FFFFFFF, 0x80000000,
    0xFFFFFFFF, 1 << 40, 1 << 63,
)  # fmt: skip
# The fields of rows that change, and of the ELF header, with their forms for `struct`.
FIELDS = {
    Section: dict(zip(("name", "type", "flags", "address", "size", "link", "info", "alignment", "entry_size"), "IIQQQIIQQ")),
    Symbol: dict(zip(("name", "info", "other", "section", "value", "size"), "IBBHQQ")),
    Relocation: {"offset": "Q", "type": "I", "symbol": "I"},
    ElfFile: {"version": "I", "entry": "Q", "flags": "I", "type": "H", "machine": "H", "names": "H"},
}


class Draw:
    """What hypothesis draws. IndexError says that there is nothing to choose from."""

    def __init__(self, draw: Callable[[strategies.SearchStrategy[Any]], Any]) -> None:
        self.draw = draw

    def one(self, choices: Iterable[T]) -> T:
        known = list(choices)
        if not known:
            raise IndexError
        result: T = self.draw(strategies.sampled_from(known))
        return result

    def shuffled(self, values: Sequence[T]) -> list[T]:
        return list(self.draw(strategies.permutations(values)))

    def number(self, old: int, form: str, *known: int) -> int:
        """Another number: near the old one, one of those that are known, or one that means something somewhere."""
        near = (old + 1, old + 4, old + 8, abs(old - 1), abs(old - 8), *(old ^ 1 << bit for bit in range(16)))
        return self.one((near, known or NUMBERS, NUMBERS)[self.one(range(3))]) & (1 << 8 * struct.calcsize("<" + form)) - 1

    def set_field(self, row: Any, *known: int) -> None:
        name = self.one(FIELDS[type(row)])
        setattr(row, name, self.number(getattr(row, name), FIELDS[type(row)][name], *known))

    def sequence(self, count: int, first: int = 0) -> list[int]:
        """The numbers of rows from the first one on without one, with one twice, one moved, or two exchanged."""
        order, one, other = list(range(count)), self.one(range(first, count)), self.one(range(first, count))
        how = self.one(("removed", "twice", "moved", "exchanged"))
        if how == "exchanged":
            order[one], order[other] = other, one
        if how in ("removed", "moved"):
            order.remove(one)
        if how in ("twice", "moved"):
            order.insert(other, one)
        return order

    def name(self, old: bytes) -> bytes:
        """Another name."""
        at = self.one(range(max(1, len(old))))
        return self.one((
            old.swapcase(), old[:at] + b"\0" + old[at:], old + b"\xff", old[:at] + bytes([0x80 | at & 15]) + old[at:], old + b".x", b"?" + old,
            old[1:], b".debug_" + old, old + b" ", old.replace(b".", b"_"), old[:at], self.one(NAMES),
        ))  # fmt: skip

    def content(self, old: bytes) -> bytearray:
        """Another byte, more or fewer bytes, or other contents."""
        changed, size = bytearray(old), self.one((1, 4, 8, 16, 24))
        how = self.one(("byte", "longer", "shorter", "other", "same"))
        if how == "byte":
            changed[self.one(range(len(old)))] ^= self.one((1, 2, 0x10, 0x80, 0xFF))
        return {"longer": changed + bytes(size), "shorter": changed[:-size], "other": bytearray(self.one(CONTENTS))}.get(how, changed)
