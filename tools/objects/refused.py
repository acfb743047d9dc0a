"""A change for each cause of docs/OBJECTS.md, which gives a refused file.

The offset of a fault is that of a field that the change names, or stands here: the page says where each cause is reported.
"""

from __future__ import annotations

import struct
from typing import Callable, NamedTuple, Optional

from docs.canon import (
    MAX_FILE, MAX_NAME, MAX_TYPES, SHF_COMPRESSED, SHN_ABS, SHN_UNDEF, SHT_NOBITS, SHT_PROGBITS, SHT_STRTAB, STB_LOCAL, STT_FILE,
    STT_FUNC, STT_SECTION, SYMBOL,
)  # fmt: skip
from tests.objects.elf_file import OBJECT
from tools.objects.edited import Edited

Change = Callable[[Edited], int]

GLOBAL = 1 << 4
SHT_PREINIT_ARRAY = 16
XDP, RELOCATIONS, TYPES, EXTENSION = b"xdp", b".relraw_tp", b".BTF", b".BTF.ext"


def byte(offset: int, value: int) -> Change:
    return lambda it: it.put(offset, 1, value)


def header(field: str, value: int) -> Change:
    return lambda it: it.header(field, value)


def row(name: bytes, field: str, value: int) -> Change:
    return lambda it: it.row(name, field, value)


def types(offset: int, size: int, value: int) -> Change:
    """Sets a field of the header of .BTF."""
    return lambda it: it.put(it.content(TYPES) + offset, size, value)


def extension(offset: int, size: int, value: int) -> Change:
    """Sets a field of the header of .BTF.ext."""
    return lambda it: it.put(it.content(EXTENSION) + offset, size, value)


def cut(it: Edited) -> int:
    """The last byte of the ELF header is missing."""
    del it.data[63:]
    return len(it.data)


def first_section(it: Edited) -> int:
    it.put(it.elf.sections[1].place - 1, 1, 1)
    return int(it.elf.sections[0].place)


def long_name(it: Edited) -> int:
    names = it.bytes_of(b".strtab")
    it.replace(b".strtab", names + b"n" * (MAX_NAME + 1) + b"\0")
    return it.row(XDP, "name", len(names))


def compressed(it: Edited) -> int:
    it.row(XDP, "flags", SHF_COMPRESSED)
    return it.row(XDP, "type", SHT_PROGBITS)


def renamed(section: bytes, name: bytes) -> Change:
    """A section has another name, with which its type is wrong."""

    def change(it: Edited) -> int:
        it.row(section, "name", it.add_string(name))
        return it.row(section, "type", SHT_PROGBITS)

    return change


def two_of_types(it: Edited) -> int:
    """The license becomes a .BTF before the other one."""
    it.row(b"license", "flags", 0)
    it.row(b"license", "name", it.section(TYPES).sh_name)
    return it.row(TYPES, "type", SHT_PROGBITS)


def no_symbols(it: Edited) -> int:
    it.row(b".symtab", "name", it.section(b".strtab").sh_name)
    it.row(b".symtab", "type", SHT_STRTAB)
    return 40


def first_symbol(it: Edited) -> int:
    it.symbol(0, "size", 1)
    return it.content(b".symtab")


def dropped_symbol(name: bytes, info: int, **fields: int) -> Change:
    """A symbol of a section that isn't kept, which a loader may read."""
    return lambda it: it.add_symbol(name, info, it.section(TYPES).number, **fields)


def label_relocation(it: Edited) -> int:
    """A relocation to a label, which isn't kept."""
    number = len(it.symbols)
    it.add_symbol(b"LBB0_1", 0, it.section(b"raw_tp").number)
    return it.relocation(RELOCATIONS, "info", number << 32 | 1)


def wrapped_place(it: Edited) -> int:
    """Value and size of a symbol whose sum is 0 in 64 bits."""
    it.symbol(it.last_symbol, "size", 8)
    return it.symbol(it.last_symbol, "value", (1 << 64) - 8)


def local_relocation(it: Edited) -> int:
    """A relocation to a local symbol, which is in a section that isn't kept."""
    number = next(at for at, (_, info, *_) in enumerate(it.symbols) if at and info >> 4 == STB_LOCAL)
    it.symbol(number, "shndx", it.section(TYPES).number)
    return it.relocation(RELOCATIONS, "info", number << 32 | 1)


def other_order(it: Edited) -> int:
    """The magic number, and each 32-bit word of the header and of the types."""
    content, start = it.bytes_of(TYPES), it.content(TYPES)
    (length,) = struct.unpack_from(f"{it.elf.mark}I", content, 12)
    words = struct.unpack_from(f"<{5 + length // 4}I", content, 4)
    changed = content[1::-1] + content[2:4] + struct.pack(f">{len(words)}I", *words)
    it.data[start : start + len(changed)] = changed
    return start


def strings_first(it: Edited) -> int:
    """The strings of .BTF before its types."""
    content = it.bytes_of(TYPES)
    (length,) = struct.unpack_from(f"{it.elf.mark}I", content, 12)
    strings = content[24 + length :] + bytes(-len(content) % 4)
    start = len(it.data)
    it.replace(TYPES, content[:24] + strings + content[24 : 24 + length])
    it.put(start + 16, 4, 0)
    it.put(start + 20, 4, len(strings))
    return it.put(start + 8, 4, len(strings))


def empty_name(it: Edited) -> int:
    """A type without a name whose name_off isn't 0."""
    offset = it.add_type_string(b"")
    return it.put(it.first_type("PTR")[0], 4, offset)


def long_type_name(it: Edited) -> int:
    offset = it.add_type_string(b"n" * 1025)
    return it.put(it.first_type("VAR")[0], 4, offset)


def reserved_name(it: Edited) -> int:
    offset = it.add_type_string(b".symtab")
    return it.put(it.first_type("DATASEC")[0], 4, offset)


def kind_flag(it: Edited) -> int:
    place, words = it.first_type("STRUCT")
    return it.put(place + 4, 4, words[1] | 1 << 31)


def name_of(kind: str) -> Change:
    """A VAR has the name of the first type of another kind."""
    return lambda it: it.put(it.first_type("VAR")[0], 4, it.first_type(kind)[1][0])


def no_types(it: Edited) -> int:
    it.row(TYPES, "name", it.section(XDP).sh_name)
    return it.row(EXTENSION, "name", it.section(EXTENSION).sh_name)


def short_extension(it: Edited) -> int:
    it.row(EXTENSION, "size", 31)
    return it.content(EXTENSION)


def function_without_line(it: Edited) -> int:
    """The line of a function becomes that of its second instruction."""
    it.put(it.group(1) + 8, 4, 8)
    return it.group(0)


def lines_elsewhere(it: Edited) -> int:
    """The lines of the first section become those of another one."""
    it.put(it.group(1), 4, 0)
    return it.group(0)


def one_section(it: Edited) -> int:
    """The functions and lines of the second section become those of the first."""
    (first,) = struct.unpack_from(f"{it.elf.mark}I", it.data, it.group(0))
    it.put(it.group(1) + 8 + 16, 4, first)
    return it.put(it.group(0) + 8 + 8, 4, first)


def later_function(it: Edited) -> int:
    """The function of the first section, with its line, begins at the second instruction of the program."""
    it.put(it.group(0) + 8, 4, 8)
    it.put(it.group(1) + 8, 4, 8)
    section = it.section(b"raw_tp").number
    number = next(number for number, (_, info, _, shndx, *_) in enumerate(it.symbols) if (info & 15, shndx) == (STT_FUNC, section))
    return it.symbol(number, "value", 0)


def without_lines(change: Change) -> Change:
    """The part of lines is empty."""

    def both(it: Edited) -> int:
        offset = change(it)
        extension(20, 4, 0)(it)
        return offset

    return both


def two_at_once(it: Edited) -> int:
    """The second function of a section begins where the first does."""
    it.put(it.group(0) + 8 + 8, 4, 0)
    return it.group(0)


def many_names(it: Edited) -> int:
    """100 symbols named by the ends of one string, which the canonical file would have one by one."""
    names = it.bytes_of(b".strtab")
    it.replace(b".strtab", names + b"n" * 1_200 + b"\0")
    symbols = [(len(names) + number, GLOBAL, 0, SHN_UNDEF, 0, 0) for number in range(100)]
    rows = b"".join(struct.pack(it.elf.mark + SYMBOL, *symbol) for symbol in symbols)
    it.replace(b".symtab", it.bytes_of(b".symtab") + rows)
    return 0


def largest_sections(it: Edited) -> int:
    """The kept sections are together as long as the largest file, so the canonical file would be longer."""
    it.row(b"license", "offset", 0)
    it.row(b"license", "size", MAX_FILE - len(it.data) + it.room(b"license"))
    return 0


def sections_too_large(it: Edited) -> int:
    """The last kept section shares bytes with others: together they are one byte longer than the file."""
    it.row(b"license", "offset", 0)
    it.row(b"license", "size", it.room(b"license") + 1)
    return int(it.section(b"license").place)


def zeros_behind_the_file(it: Edited) -> int:
    """A section of SHT_NOBITS, which has no bytes in the file, has an offset after the end of the file."""
    it.row(b".maps", "type", SHT_NOBITS)
    return it.row(b".maps", "offset", len(it.data) + 1)


def empty_part_behind(it: Edited) -> int:
    """The part of CO-RE relocations, which is empty, begins a word after the end of .BTF.ext."""
    return it.put(it.content(EXTENSION) + 24, 4, len(it.bytes_of(EXTENSION)) - 32 + 4)


class Refused(NamedTuple):
    """A refused file: its cause, what is changed, the object that it is made from, and its length if zeros follow."""

    cause: str
    change: Change
    base: str = "core"
    length: Optional[int] = None


# By the name of the file, in the sequence of the page. The smaller object is enough for what each file has.
REFUSED = {
    "FileTooLarge": Refused("FileTooLarge", lambda it: MAX_FILE, "pass", MAX_FILE + 1),
    "FileCut": Refused("FileCut", cut, "pass"),
    "Magic": Refused("Magic", byte(0, 0x7E), "pass"),
    "Class": Refused("Class", byte(4, 1), "pass"),
    "ByteOrder": Refused("ByteOrder", byte(5, 3), "pass"),
    "IdentVersion": Refused("IdentVersion", byte(6, 0), "pass"),
    "FileType": Refused("FileType", header("type", 2), "pass"),
    "Machine": Refused("Machine", header("machine", 62), "pass"),
    "FileVersion": Refused("FileVersion", header("version", 2), "pass"),
    "HeaderSize": Refused("HeaderSize", header("ehsize", 52), "pass"),
    "Segments": Refused("Segments", header("phnum", 1), "pass"),
    "SectionHeaderSize": Refused("SectionHeaderSize", header("shentsize", 40), "pass"),
    "SectionCount": Refused("SectionCount", header("shnum", 0), "pass"),
    "SectionCount.reserved": Refused("SectionCount", header("shnum", 0xFF00), "pass"),
    "SectionTable": Refused("SectionTable", lambda it: it.header("shoff", it.elf.sections[0].place + 1), "pass"),
    "SectionTable.wraps": Refused("SectionTable", header("shoff", (1 << 64) - 64), "pass"),
    "NamesIndex": Refused("NamesIndex", lambda it: it.header("shstrndx", len(it.elf.sections)), "pass"),
    "FirstSection": Refused("FirstSection", first_section, "pass"),
    "NamesTable": Refused("NamesTable", header("shstrndx", 1), "pass"),
    "SectionCut": Refused("SectionCut", lambda it: it.row(XDP, "offset", len(it.data) - 15), "pass"),
    "SectionCut.wraps": Refused("SectionCut", row(XDP, "offset", (1 << 64) - 8), "pass"),
    "SectionName": Refused("SectionName", lambda it: it.row(XDP, "name", len(it.bytes_of(b".strtab"))), "pass"),
    "SectionName.long": Refused("SectionName", long_name, "pass"),
    "SectionKind": Refused("SectionKind", row(XDP, "type", SHT_PREINIT_ARRAY), "pass"),
    "SectionKind.compressed": Refused("SectionKind", compressed, "pass"),
    "SectionTwice": Refused("SectionTwice", two_of_types),
    "RelocationTarget": Refused("RelocationTarget", row(RELOCATIONS, "info", 1)),
    "NoSymbols": Refused("NoSymbols", no_symbols, "pass"),
    "SymbolTableSize": Refused("SymbolTableSize", row(b".symtab", "size", 25), "pass"),
    "SymbolEntrySize": Refused("SymbolEntrySize", row(b".symtab", "entsize", 16), "pass"),
    "SymbolNames": Refused("SymbolNames", row(b".symtab", "link", 1), "pass"),
    "FirstSymbol": Refused("FirstSymbol", first_symbol, "pass"),
    "SymbolName": Refused("SymbolName", lambda it: it.symbol(1, "name", len(it.bytes_of(b".strtab"))), "pass"),
    "SymbolSection": Refused("SymbolSection", lambda it: it.symbol(1, "shndx", len(it.elf.sections)), "pass"),
    "SymbolSection.dropped": Refused("SymbolSection", lambda it: it.symbol(it.last_symbol, "shndx", it.section(TYPES).number), "pass"),
    "SymbolPlace": Refused("SymbolPlace", lambda it: it.symbol(it.last_symbol, "value", 1), "pass"),
    "SymbolPlace.wraps": Refused("SymbolPlace", wrapped_place, "pass"),
    "RelocationTableSize": Refused("RelocationTableSize", row(RELOCATIONS, "size", 15)),
    "RelocationEntrySize": Refused("RelocationEntrySize", row(RELOCATIONS, "entsize", 24)),
    "RelocationSymbols": Refused("RelocationSymbols", row(RELOCATIONS, "link", 0)),
    "RelocationSymbol": Refused("RelocationSymbol", lambda it: it.relocation(RELOCATIONS, "info", len(it.symbols) << 32 | 1)),
    "RelocationSymbol.dropped": Refused("RelocationSymbol", local_relocation),
    "TypesTooLarge": Refused("TypesTooLarge", row(TYPES, "size", MAX_TYPES + 1), "pass", MAX_TYPES + 4096),
    "Types": Refused("Types(Version)", types(2, 1, 2), "pass"),
    "TypesOrder": Refused("TypesOrder", other_order, "pass"),
    "TypesLayout": Refused("TypesLayout", strings_first, "pass"),
    "TypesName": Refused("TypesName", empty_name),
    "TypesSection": Refused("TypesSection", reserved_name),
    "TypesFlag": Refused("TypesFlag", kind_flag),
    "ExtensionWithoutTypes": Refused("ExtensionWithoutTypes", no_types, "pass"),
    "ExtensionCut": Refused("ExtensionCut", short_extension, "pass"),
    "ExtensionMagic": Refused("ExtensionMagic", extension(0, 2, 0x9FEB), "pass"),
    "ExtensionVersion": Refused("ExtensionVersion", extension(2, 1, 0), "pass"),
    "ExtensionFlags": Refused("ExtensionFlags", extension(3, 1, 1), "pass"),
    "ExtensionHeaderSize": Refused("ExtensionHeaderSize", extension(4, 4, 24), "pass"),
    "ExtensionPart": Refused("ExtensionPart", extension(8, 4, 2), "pass"),
    "ExtensionPart.wraps": Refused("ExtensionPart", extension(24, 4, 0xFFFFFFFC), "pass"),
    "ExtensionRecordSize": Refused("ExtensionRecordSize", lambda it: it.put(it.group(0) - 4, 4, 12), "pass"),
    "ExtensionGroup": Refused("ExtensionGroup", lambda it: it.put(it.group(0) + 4, 4, 0) - 4, "pass"),
    "ExtensionGroup.cut": Refused("ExtensionGroup", lambda it: it.put(it.group(0) + 4, 4, 0x20000001) - 4, "pass"),
    "ExtensionString": Refused("ExtensionString", lambda it: it.put(it.group(0), 4, 0x10000), "pass"),
    "ExtensionString.access": Refused("ExtensionString", lambda it: it.put(it.group(2) + 16, 4, 0x10000)),
    "ExtensionLines": Refused("ExtensionLines", function_without_line, "pass"),
    "ExtensionLines.sections": Refused("ExtensionLines", lines_elsewhere),
    "ResultTooLarge": Refused("ResultTooLarge", many_names, "pass"),
    "ResultTooLarge.padded": Refused("ResultTooLarge", largest_sections, length=MAX_FILE),
    "SectionsTooLarge": Refused("SectionsTooLarge", sections_too_large),
    "SectionKind.zeros": Refused("SectionKind", row(b".maps", "type", SHT_NOBITS)),
    "SectionKind.base": Refused("SectionKind", renamed(b"license", b".BTF.base")),
    "SectionKind.lto": Refused("SectionKind", renamed(XDP, b".llvm.lto"), "pass"),
    "SymbolDropped": Refused("SymbolDropped", dropped_symbol(b"limit", OBJECT), "pass"),
    "SymbolDropped.section": Refused("SymbolDropped", dropped_symbol(b"", STT_SECTION, value=8), "pass"),
    "SymbolDropped.visibility": Refused("SymbolDropped", dropped_symbol(b"label", 0, other=2), "pass"),
    "SymbolDropped.file": Refused("SymbolDropped", lambda it: it.add_symbol(b"x.c", STT_FILE, SHN_ABS, other=2), "pass"),
    "RelocationSymbol.label": Refused("RelocationSymbol", label_relocation),
    "SectionCut.no_bits": Refused("SectionCut", zeros_behind_the_file),
    "SectionCut.empty": Refused("SectionCut", lambda it: it.row(b".text", "offset", len(it.data) + 1)),
    "ExtensionPart.empty": Refused("ExtensionPart", empty_part_behind, "pass"),
    "ExtensionPart.empty_odd": Refused("ExtensionPart", extension(24, 4, 2), "pass"),
    "ExtensionLines.none": Refused("ExtensionLines", without_lines(two_at_once), "calls"),
    "ExtensionGroupTwice": Refused("ExtensionGroupTwice", one_section),
    "ExtensionGroupTwice.none": Refused("ExtensionGroupTwice", without_lines(one_section)),
    "FunctionLines": Refused("FunctionLines", later_function),
    "FunctionLines.none": Refused("FunctionLines", without_lines(later_function)),
    "TypesNameTaken": Refused("TypesNameTaken", name_of("FUNC")),
    "TypesNameTaken.section": Refused("TypesNameTaken", name_of("DATASEC")),
    "TypesName.long": Refused("TypesName", long_type_name),
}
