"""Changes that give an accepted file which compilers don't write."""

from __future__ import annotations

from dataclasses import dataclass
from typing import Callable

from docs.canon import (
    MAX_NAME, SHF_ALLOC, SHF_EXECINSTR, SHN_ABS, SHT_FINI_ARRAY, SHT_INIT_ARRAY, SHT_NOBITS, SHT_NOTE, SHT_PROGBITS, STT_FILE, STT_SECTION,
)  # fmt: skip
from tests.objects.elf_file import FUNCTION, ElfFile, Section
from tools.objects.edited import Edited
from tools.objects.type_order import canonical_order, mixed_order

GLOBAL = 1 << 4
R_BPF_64_64, R_BPF_64_32 = 1, 10


def free_fields(it: Edited) -> None:
    """What the page says has no effect, but for names and for bytes between sections."""
    it.data[7:16] = range(1, 10)
    for field, value in ("entry", 1), ("phoff", 64), ("phentsize", 56):
        it.header(field, value)
    for name, fields in {
        b"raw_tp": ("link", "info"), b".BTF": ("link", "entsize", "addr", "addralign", "info"), b".symtab": ("addr", "addralign", "info"),
        b".BTF.ext": ("link", "entsize", "addr", "addralign", "info"), b".strtab": ("link", "entsize", "addr", "addralign", "info"),
    }.items():  # fmt: skip
        for field in fields:
            it.row(name, field, 3)
    it.row(b".BTF", "flags", 0x30)
    for word, value in (1, 1), (2, 1), (3, 0xFFFFFFFF):
        it.put(it.group(1) + 8 + 4 * word, 4, value)


def laid_out(it: Edited) -> None:
    """The section headers before the contents, these in the reverse sequence, and other bytes between and behind them."""
    file = ElfFile.read(bytes(it.data))
    file.layout.reverse()
    file.table_first, file.padding, file.end = True, 0xA5, b"behind"
    it.data = file.write()


def exchanged(it: Edited) -> None:
    """Two sections change places, with all indices of sections."""
    file = ElfFile.read(bytes(it.data))
    order = list(range(len(file.sections)))
    file.reorder_sections([0, *reversed(order[1:4]), *order[4:]])
    it.data = file.write()


def nothing_but_symbols(it: Edited) -> None:
    """Only the first symbol, which is zero, and the table of names."""
    file = ElfFile.read(bytes(it.data))
    file.reorder_sections([0, file.symbol_table, file.names])
    file.set_symbols(file.symbols()[:1])
    it.data = file.write()


def shared_bytes(it: Edited) -> None:
    """Two sections of the same bytes of the file."""
    maps = it.section(b".maps")
    it.row(b"license", "offset", maps.sh_offset)
    it.row(b"license", "size", maps.sh_size)


def as_long_as_the_file(it: Edited) -> None:
    """The last kept section shares bytes with others: together they are as long as the file."""
    it.row(b"license", "offset", it.content(b".text"))
    it.row(b"license", "size", it.room(b"license"))


def odd_names(it: Edited) -> None:
    """A section whose name has the most bytes, and one whose name is no text."""
    names = it.bytes_of(b".strtab")
    it.replace(b".strtab", names + b"n" * MAX_NAME + b"\0\xff\n\x1b\0")
    it.row(b"license", "name", len(names))
    it.row(b"fentry", "name", len(names) + MAX_NAME + 1)


def no_instructions(it: Edited) -> None:
    """Code that isn't instructions, and isn't a multiple of 8 bytes."""
    it.put(it.content(b"fentry"), 8, (1 << 64) - 1)
    it.row(b"license", "flags", SHF_EXECINSTR)


def zeros_without_end(it: Edited) -> None:
    """A section without bytes that is longer than memory."""
    it.row(b".maps", "name", it.add_string(b".bss.zeros"))
    it.row(b".maps", "type", SHT_NOBITS)
    it.row(b".maps", "size", 1 << 63)
    it.row(b".maps", "offset", len(it.data))


def odd_symbols(it: Edited) -> None:
    """A hidden symbol of another type, one that is common, and another of its name."""
    last = it.last_symbol
    it.symbol(last, "other", 2)
    it.symbol(last, "info", 0x2D)
    it.symbol(last - 1, "shndx", 0xFFF2)
    it.symbol(last - 1, "name", it.symbols[last][0])


def odd_relocation(it: Edited) -> None:
    """A relocation of an unknown type behind the end of its section."""
    it.relocation(b".relraw_tp", "offset", 1 << 40)
    it.relocation(b".relraw_tp", "info", it.last_symbol << 32 | 0xFFFFFFFF)


def longer_headers(it: Edited) -> None:
    """A header of .BTF.ext with two more words, and a string of .BTF that nothing refers to."""
    content = it.bytes_of(b".BTF.ext")
    it.replace(b".BTF.ext", content[:32] + b"\xff" * 8 + content[32:])
    it.put(it.content(b".BTF.ext") + 4, 4, 40)
    it.add_type_string(b"unused")


def no_parts(it: Edited) -> None:
    """.BTF.ext without a record: the canonical file has none."""
    start = it.content(b".BTF.ext")
    for length in range(12, 32, 8):
        it.put(start + length, 4, 0)


def labels(it: Edited) -> None:
    """Labels, which aren't kept, in code of both names."""
    it.add_symbol(b"LBB0_1", 0, it.section(b"raw_tp").number, value=8)
    it.add_symbol(b"LBB", 0, it.section(b".text").number)


def other_labels(it: Edited) -> None:
    """Symbols that each lack one thing that a label has: binding, type, visibility, name, code, the name of a section of code."""
    code, data = it.section(b"raw_tp").number, it.section(b"license").number
    it.row(b".maps", "flags", SHF_ALLOC | SHF_EXECINSTR)
    for name, info, section, other in (
        (b"LBB1", GLOBAL, code, 0), (b"LBB2", FUNCTION, code, 0), (b"LBB3", 0, code, 2), (b"LB4", 0, code, 0), (b"LBB5", 0, data, 0),
        (b"LBB6", 0, it.section(b".maps").number, 0), (b"LBB7", 0, SHN_ABS, 0),
    ):  # fmt: skip
        it.add_symbol(name, info, section, other)


def dropped_symbols(it: Edited) -> None:
    """Symbols of sections that aren't kept, and of a source file, which no loader reads."""
    section = it.section(b".BTF").number
    for name, info, value in (b"label", 0, 4), (b"section", STT_SECTION, 0), (b"x.c", STT_FILE, 4), (b"", FUNCTION, 4):
        it.add_symbol(name, info, section, value=value)
    it.add_symbol(b"y.c", STT_FILE, SHN_ABS, value=8)


def kinds_of_data(it: Edited) -> None:
    """Each other type of a section that is kept like data."""
    for name, kind in (b".maps", SHT_NOTE), (b"license", SHT_INIT_ARRAY), (b".text", SHT_FINI_ARRAY):
        it.row(name, "type", kind)


def loaded_debug(it: Edited) -> None:
    """A section of debuggers that would be loaded."""
    file = ElfFile.read(bytes(it.data))
    name = file.add_string(file.names, b".debug_gdb_scripts")
    file.insert(1, Section(name, SHT_PROGBITS, SHF_ALLOC, 0, 0, 0, 1, 0, bytearray(b"\x01x\0"), 3))
    it.data = file.write()


def no_lines(it: Edited) -> None:
    """.BTF.ext without a part of lines, as gcc 14 writes it."""
    it.put(it.content(b".BTF.ext") + 20, 4, 0)


def other_function(it: Edited) -> None:
    """A function in another one, which .BTF.ext doesn't have, and which has no lines."""
    it.add_symbol(b"inner", GLOBAL | FUNCTION, it.section(b"fentry").number, value=8, size=16)


@dataclass(frozen=True)
class Accepted:
    """An accepted file: what is changed, and whether it has the canonical file of what it was made from, or of another one's change."""

    change: Callable[[Edited], object]
    is_same: bool = False
    other: Callable[[Edited], object] = lambda it: None


ACCEPTED = {
    "canonical": Accepted(lambda it: None, is_same=True),
    "free_fields": Accepted(free_fields, is_same=True),
    "laid_out": Accepted(laid_out, is_same=True),
    "longer_headers": Accepted(longer_headers, is_same=True),
    "exchanged": Accepted(exchanged),
    "nothing_but_symbols": Accepted(nothing_but_symbols),
    "shared_bytes": Accepted(shared_bytes),
    "odd_names": Accepted(odd_names),
    "no_instructions": Accepted(no_instructions),
    "zeros_without_end": Accepted(zeros_without_end),
    "odd_symbols": Accepted(odd_symbols),
    "odd_relocation": Accepted(odd_relocation),
    "no_parts": Accepted(no_parts),
    "file_flags": Accepted(lambda it: it.header("flags", 1)),
    "alignment": Accepted(lambda it: it.row(b"raw_tp", "addralign", 3)),
    "address": Accepted(lambda it: it.row(b"raw_tp", "addr", 8)),
    "as_long_as_the_file": Accepted(as_long_as_the_file),
    "labels": Accepted(labels, is_same=True),
    "other_labels": Accepted(other_labels),
    "dropped_symbols": Accepted(dropped_symbols, is_same=True),
    "kinds_of_data": Accepted(kinds_of_data),
    "loaded_debug": Accepted(loaded_debug, is_same=True),
    "relocation_without_symbol": Accepted(lambda it: it.relocation(b".relraw_tp", "info", R_BPF_64_64)),
    "call_without_symbol": Accepted(lambda it: it.relocation(b".relraw_tp", "info", R_BPF_64_32)),
    "no_lines": Accepted(no_lines, is_same=True),
    "other_function": Accepted(other_function),
    "type_order": Accepted(canonical_order),
    "mixed_types": Accepted(mixed_order, is_same=True, other=canonical_order),
}
