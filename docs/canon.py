"""Writes the canonical file of a BPF object file, or says which rule the file breaks first.

    python3 canon.py [FILE] [-o OUT]

This is OBJECTS.md as a program, in its words and with its causes, and FAULTS.md for .BTF by itself.
FILE and OUT are standard input and output if they aren't named. The status is 1 for a refused file,
and 2 if a file can't be read or written. It needs Python 3.9 or later, and no other file."""

from __future__ import annotations
import argparse
from bisect import bisect_left
from collections import defaultdict, namedtuple
from enum import Enum
from fnmatch import fnmatchcase
from struct import iter_unpack, pack, unpack_from

MAX_FILE, MAX_TYPES, MAX_NAME = 64 << 20, 15 << 20, 1024
ET_REL, EM_BPF, BTF_MAGIC = 1, 247, 0xEB9F
STB_LOCAL, STT_NOTYPE, STT_FUNC, STT_SECTION, STT_FILE = 0, 0, 2, 3, 4
SHT_PROGBITS, SHT_SYMTAB, SHT_STRTAB, SHT_NOTE, SHT_NOBITS, SHT_REL = 1, 2, 3, 7, 8, 9
SHT_INIT_ARRAY, SHT_FINI_ARRAY, SHT_LLVM_ADDRSIG = 14, 15, 0x6FFF4C03
# What helps with a file that isn't for BPF, and the rules that such a file breaks.
NOT_BPF = "this isn't an object file for BPF, as clang -target bpf -O2 -g -c writes it"
FIRST_RULES = ("FileCut", "Magic", "Class", "ByteOrder", "FileType", "Machine")
SHF_ALLOC, SHF_EXECINSTR, SHF_COMPRESSED = 0x2, 0x4, 0x800
SHF_INFO_LINK, SHF_LINK_ORDER, SHF_GROUP = 0x40, 0x80, 0x200
SHN_UNDEF, SHN_LORESERVE, SHN_ABS, SHN_COMMON = 0, 0xFF00, 0xFFF1, 0xFFF2
# Formats of rows for `struct`, and the offsets in a row of the fields that faults name.
ELF_HEADER, SECTION_HEADER, SYMBOL, RELOCATION = "16sHHIQQQIHHHHHH", "IIQQQQIIQQ", "IBBHQQ", "QQ"
SH_NAME, SH_TYPE, SH_OFFSET, SH_SIZE, SH_LINK, SH_INFO, SH_ENTSIZE = 0, 4, 24, 32, 40, 44, 56
ST_NAME, ST_SHNDX, ST_VALUE, R_INFO = 0, 6, 8, 8

class Refused(Exception):
    """A file has no canonical file: the first rule that it breaks, and the offset where it does."""
    def __init__(self, cause: str, offset: int) -> None:
        self.cause, self.offset = cause, offset

def rule(cause: str, offset: int, holds: bool) -> None:
    """Refuses the file unless a rule holds."""
    if not holds:
        raise Refused(cause, offset)

def string_at(strings: bytes, offset: int) -> bytes:
    """A name in the original: the string from its offset to the next NUL."""
    return strings[offset : strings.index(b"\0", offset)]

# The file. Sections of two kinds are kept, and of three written anew. UNKNOWN ones are refused.
Kind = Enum("Kind", "DATA RELOCATIONS SYMBOLS TYPES EXTENSION DROPPED UNKNOWN")
KEPT, MANY = (Kind.DATA, Kind.RELOCATIONS), (Kind.DATA, Kind.RELOCATIONS, Kind.DROPPED)
L, C, I = SHF_ALLOC | SHF_EXECINSTR, SHF_COMPRESSED, SHF_GROUP | SHF_LINK_ORDER | SHF_INFO_LINK
# Types, names, flags that are 0, kind: the first row counts. The first eight have reserved names.
KINDS = (
    ((SHT_SYMTAB,), (b".symtab",), L | C, Kind.SYMBOLS),
    ((SHT_PROGBITS,), (b".BTF",), L | C, Kind.TYPES),
    ((SHT_PROGBITS,), (b".BTF.ext",), L | C, Kind.EXTENSION),
    ((SHT_STRTAB,), (b".strtab", b".shstrtab"), L | C, Kind.DROPPED),
    ((SHT_LLVM_ADDRSIG,), (b".llvm_addrsig",), L | C, Kind.DROPPED),
    ((SHT_PROGBITS,), (b".debug_*",), SHF_EXECINSTR, Kind.DROPPED),
    ((SHT_REL,), (b".rel.debug_*", b".rel.BTF", b".rel.BTF.ext"), L | C, Kind.DROPPED),
    ((), (b".BTF.base", b".llvm.lto"), 0, Kind.UNKNOWN),
    ((SHT_REL,), (b".rel*",), L | C, Kind.RELOCATIONS),
    ((SHT_NOBITS,), (b".bss*",), C | I, Kind.DATA),
    ((SHT_PROGBITS, SHT_NOTE, SHT_INIT_ARRAY, SHT_FINI_ARRAY), (b"*",), C | I, Kind.DATA))
# The fields of a section's header, where the header is, the section's number, kind and name.
Section = namedtuple("Section", "sh_name sh_type sh_flags sh_addr sh_offset sh_size sh_link"
    " sh_info sh_addralign sh_entsize place number kind name")  # fmt: skip

def is_reserved(name: bytes) -> bool:
    return any(fnmatchcase(name, it) for _, names, _, _ in KINDS[:8] for it in names)

def kind_of(name: bytes, section: Section) -> Kind:
    for types, names, zero, kind in KINDS:
        if section.sh_type in types and any(fnmatchcase(name, it) for it in names):
            is_taken = kind is Kind.DATA and is_reserved(name)
            return Kind.UNKNOWN if section.sh_flags & zero or is_taken else kind
    return Kind.UNKNOWN

class Strings:
    """A string table: each distinct string once, in the order of first use."""
    def __init__(self) -> None:
        self.content, self.offsets = bytearray(1), {b"": 0}

    def add(self, string: bytes) -> int:
        if string not in self.offsets:
            self.offsets[string] = len(self.content)
            self.content += string + b"\0"
            rule("ResultTooLarge", 0, len(self.content) <= MAX_FILE)
        return self.offsets[string]

def canonical(data: bytes) -> bytes:
    """The canonical file of an object file. Raises Refused for the first rule that it breaks."""
    elf = Elf(data)
    parts = read_extension(elf, types := read_types(elf))
    result = write_file(elf, write_types(types, parts) if types else {})
    rule("ResultTooLarge", 0, len(result) <= min(MAX_FILE, 4 * len(data) + 64 * 1024))
    return result

def write_file(elf: Elf, types: dict[bytes, bytes]) -> bytes:
    """The ELF header, the contents, each followed by zeros up to a multiple of 8, the headers."""
    body, headers, strings = bytearray(64), bytearray(64), Strings()
    def append(name: bytes, content: bytes, *header: int) -> None:
        """Appends a section. Its header begins with sh_type, and has no sh_offset."""
        row = strings.add(name), *header[:3], len(body), *header[3:]
        headers.extend(pack(elf.mark + SECTION_HEADER, *row))
        body.extend(content + bytes(-len(content) % 8))
    kept = [it for it in elf.sections if it.kind in KEPT]
    sections = {it.number: number for number, it in enumerate(kept, 1)}
    numbers = {old: new for new, old in enumerate(elf.symbols)}
    names, symtab = elf.symbol_names, 1 + len(kept) + len(types)
    for it in kept:
        content, link, info = elf.content(it), 0, 0
        if it.kind is Kind.RELOCATIONS:
            link, info = symtab, sections[it.sh_info]
            content = b"".join(
                pack(elf.mark + RELOCATION, at, numbers[info >> 32] << 32 | info & 0xFFFFFFFF)
                for at, info in iter_unpack(elf.mark + RELOCATION, content))
        append(it.name, content, *it[1:4], it.sh_size, link, info, it.sh_addralign, it.sh_entsize)
    for name, content in types.items():
        append(name, content, SHT_PROGBITS, 0, 0, len(content), 0, 0, 4, 0)
    for name in b".symtab", b".strtab":
        strings.add(name)
    symbols = [
        (strings.add(string_at(names, name)), info, other, sections.get(shndx, shndx), *place)
        for name, info, other, shndx, *place in elf.symbols.values()]
    last_local = max(number for number, it in enumerate(symbols) if it[1] >> 4 == STB_LOCAL)
    rows = b"".join(pack(elf.mark + SYMBOL, *it) for it in symbols)
    append(b".symtab", rows, SHT_SYMTAB, 0, 0, len(rows), symtab + 1, 1 + last_local, 8, 24)
    append(b".strtab", strings.content, SHT_STRTAB, 0, 0, len(strings.content), 0, 0, 1, 0)
    start = elf.data[:7] + bytes(9), ET_REL, EM_BPF, 1, 0, 0, len(body), elf.e_flags, 64, 0, 0, 64
    body[:64] = pack(elf.mark + ELF_HEADER, *start, symtab + 2, symtab + 1)
    return bytes(body + headers)

def write_types(types: Types, parts: list[list[Group]]) -> dict[bytes, bytes]:
    """.BTF, and .BTF.ext if it has functions or CO-RE relocations."""
    strings, numbers, written = Strings(), new_numbers(types), []
    def words_of(rows: list[Record]) -> bytes:
        """The words of rows, with new offsets of names and new numbers of types."""
        words = []
        for field, word in (both for it in rows for both in zip(it.fields, it.words)):
            if field == NAME:
                word = strings.add(string_at(types.strings, word))
            words.append(numbers.get(word, word) if field == TYPE else word)
        return pack(f"{types.mark}{len(words)}I", *words)
    records = words_of([types.records[it] for it in numbers if it > 0])
    for fields, groups in zip(PARTS, parts):
        rows = [Record(("record_size",), (4 * len(fields),))] if groups else []
        for it in groups:
            rows.append(Record((NAME, "num_info"), (it.sec_name_off, len(it.records))))
            rows += [Record(fields, one) for one in it.records]
        written.append(words_of(rows))
    one, two, three = map(len, written)
    places, size = (32, 0, one, one, two, one + two, three), len(records)
    extension = pack(types.mark + "HBB7I", BTF_MAGIC, 1, 0, *places) + b"".join(written)
    header = pack(types.mark + "HBB5I", BTF_MAGIC, 1, 0, 24, 0, size, size, len(strings.content))
    btf = header + records + strings.content
    rule("ResultTooLarge", 0, len(btf) <= MAX_TYPES)
    return {b".BTF": btf, b".BTF.ext": extension} if any(written) else {b".BTF": btf}

def new_numbers(types: Types) -> dict[int, int]:
    """The new number of each type: of others, VAR, DATASEC, FWD, and TYPE_TAG in layers."""
    numbers: dict[int, int] = {}
    waiting: dict[str | int, list[int]] = defaultdict(list)  # by kind, but TYPE_TAG by their type
    for number, it in enumerate(types.records):
        kind = it.kind if it.kind in MOVED else ""
        waiting[it.words[2] if kind == "TYPE_TAG" else kind].append(number)
    def key(number: int) -> tuple[int | bytes, ...]:
        """By the name, and for TYPE_TAG by the new number of the type: others have no type yet."""
        name_off, info, target, *_ = types.records[number].words
        name = string_at(types.strings, name_off)
        return len(name), name, info >> 31, numbers.get(target, 0), number
    variables, forward = (sorted(waiting[kind], key=key) for kind in ("VAR", "FWD"))
    layer = waiting[""] + variables + waiting["DATASEC"] + forward
    while layer:
        numbers.update(zip(layer, range(len(numbers), len(types.records))))
        layer = sorted((tag for number in layer for tag in waiting[number]), key=key)
    loops = [it for it in range(len(types.records)) if it not in numbers]
    return numbers | dict(zip(loops, range(len(numbers), len(types.records))))

# Refused files: what reads a part of a file checks its rules, in the order of the page.
class Elf:
    """`mark` is the byte order for `struct`; `symbols` are the null symbol and the kept ones."""
    def __init__(self, data: bytes) -> None:
        rule("FileTooLarge", MAX_FILE, len(data) <= MAX_FILE)
        rule("FileCut", len(data), len(data) >= 64)
        rule("Magic", 0, data[:4] == b"\x7fELF")
        rule("Class", 4, data[4] == 2)
        rule("ByteOrder", 5, data[5] in (1, 2))
        rule("IdentVersion", 6, data[6] == 1)
        self.data, self.mark = data, "<" if data[5] == 1 else ">"
        _, e_type, e_machine, e_version, *rest = unpack_from(self.mark + ELF_HEADER, data)
        _, _, e_shoff, self.e_flags, e_ehsize, _, e_phnum, e_shentsize, e_shnum, e_shstrndx = rest
        rule("FileType", 16, e_type == ET_REL)
        rule("Machine", 18, e_machine == EM_BPF)
        rule("FileVersion", 20, e_version == 1)
        rule("HeaderSize", 52, e_ehsize == 64)
        rule("Segments", 56, e_phnum == 0)
        rule("SectionHeaderSize", 58, e_shentsize == 64)
        self.sections: list[Section] = []
        self.last: dict[Kind, Section] = {}
        self.symbols: dict[int, tuple[int, ...]] = {}
        self.read_sections(e_shoff, e_shnum, e_shstrndx)
        self.read_symbols()
        self.check_relocations()

    def section(self, number: int) -> Section:
        """The section with a number, or the null section if there is none."""
        return self.sections[number if number < len(self.sections) else 0]

    def content(self, section: Section) -> bytes:
        size = 0 if section.sh_type == SHT_NOBITS else section.sh_size
        return self.data[section.sh_offset : section.sh_offset + size]

    def string_table(self, section: Section) -> bytes:
        """The content of a string table, or nothing if the section isn't one."""
        content = self.content(section)
        is_table = section.sh_type == SHT_STRTAB and len(content) == section.sh_size
        return content if is_table and content[:1] == content[-1:] == b"\0" else b""

    def read_sections(self, start: int, count: int, names_index: int) -> None:
        rule("SectionCount", 60, 1 <= count < SHN_LORESERVE)
        rule("SectionTable", 40, start + 64 * count <= len(self.data))
        rule("NamesIndex", 62, names_index < count)
        rows = iter_unpack(self.mark + SECTION_HEADER, self.data[start : start + 64 * count])
        rest = ((start + 64 * number, number, Kind.DROPPED, b"") for number in range(count))
        self.sections += (Section._make(row + more) for row, more in zip(rows, rest))
        rule("FirstSection", start, not any(self.sections[0][:10]))
        names, total = self.string_table(self.sections[names_index]), 0
        rule("NamesTable", 62, names != b"")
        for it in self.sections[1:]:
            size = 0 if it.sh_type == SHT_NOBITS else it.sh_size
            rule("SectionCut", it.place + SH_OFFSET, it.sh_offset + size <= len(self.data))
            has_end = b"\0" in names[it.sh_name : it.sh_name + MAX_NAME + 1]
            rule("SectionName", it.place + SH_NAME, has_end)
            kind = kind_of(name := string_at(names, it.sh_name), it)
            rule("SectionKind", it.place + SH_TYPE, kind is not Kind.UNKNOWN)
            rule("SectionTwice", it.place + SH_TYPE, kind in MANY or kind not in self.last)
            total += size if kind in KEPT else 0
            rule("SectionsTooLarge", it.place, total <= len(self.data))
            self.last[kind] = self.sections[it.number] = it._replace(name=name, kind=kind)
        for it in self.sections:
            if it.sh_type == SHT_REL:
                target = self.section(it.sh_info)
                is_named = target.number > 0 and it.name == b".rel" + target.name
                is_right = it.kind is Kind.DROPPED or target.kind is Kind.DATA
                rule("RelocationTarget", it.place + SH_INFO, is_named and is_right)

    def read_symbols(self) -> None:
        if (table := self.last.get(Kind.SYMBOLS)) is None:
            raise Refused("NoSymbols", 40)
        rule("SymbolTableSize", table.place + SH_SIZE, table.sh_size in range(24, MAX_FILE, 24))
        rule("SymbolEntrySize", table.place + SH_ENTSIZE, table.sh_entsize == 24)
        names = self.symbol_names = self.string_table(self.section(table.sh_link))
        rule("SymbolNames", table.place + SH_LINK, names != b"")
        for number, row in enumerate(iter_unpack(self.mark + SYMBOL, self.content(table))):
            (st_name, info, other, st_shndx, value, size), at = row, table.sh_offset + 24 * number
            rule("FirstSymbol", at, number > 0 or not any(row))
            rule("SymbolName", at + ST_NAME, st_name < len(names))
            is_special = st_shndx in (SHN_UNDEF, SHN_ABS, SHN_COMMON)
            section = self.section(0 if is_special else st_shndx)
            is_section, in_data = section.number > 0, section.kind is Kind.DATA
            is_local, kind = info >> 4 == STB_LOCAL, info & 15
            rule("SymbolSection", at + ST_SHNDX, is_special or in_data or is_local and is_section)
            rule("SymbolPlace", at + ST_VALUE, not in_data or value + size <= section.sh_size)
            name, is_absolute = string_at(names, st_name), st_shndx == SHN_ABS
            is_code = section.sh_type == SHT_PROGBITS and section.sh_flags & SHF_EXECINSTR
            is_other = section.name.startswith((b".", b"maps")) and section.name[:5] != b".text"
            if is_local and (is_section and not in_data or kind == STT_FILE and is_absolute):
                is_unread = name == b"" or kind in (STT_NOTYPE, STT_SECTION, STT_FILE)
                has_address = kind == STT_SECTION and value > 0
                rule("SymbolDropped", at, other == 0 and is_unread and not has_address)
            elif is_other or not is_code or not info == other == 0 or name[:3] != b"LBB":
                self.symbols[number] = row

    def check_relocations(self) -> None:
        for it in self.sections:
            if it.kind is Kind.RELOCATIONS:
                rule("RelocationTableSize", it.place + SH_SIZE, it.sh_size % 16 == 0)
                rule("RelocationEntrySize", it.place + SH_ENTSIZE, it.sh_entsize == 16)
                is_table = self.section(it.sh_link).kind is Kind.SYMBOLS
                rule("RelocationSymbols", it.place + SH_LINK, is_table)
                rows = iter_unpack(self.mark + RELOCATION, self.content(it))
                for at, (_, info) in zip(range(it.sh_offset, len(self.data), 16), rows):
                    rule("RelocationSymbol", at + R_INFO, info >> 32 in self.symbols)

# Fields after name_off and info by the kind of a record, as in btf.rst, and those of its items.
NAME, INFO, SIZE, TYPE, ZERO = "name_off", "info", "size", "type", "0"
FIELDS = {
    "void": (ZERO,), "INT": (SIZE, "encoding"), "PTR": (TYPE,),
    "ARRAY": (ZERO, TYPE, TYPE, "nelems"), "STRUCT": (SIZE,), "UNION": (SIZE,), "ENUM": (SIZE,),
    "FWD": (ZERO,), "TYPEDEF": (TYPE,), "VOLATILE": (TYPE,), "CONST": (TYPE,), "RESTRICT": (TYPE,),
    "FUNC": (TYPE,), "FUNC_PROTO": (TYPE,), "VAR": (TYPE, "linkage"), "DATASEC": (SIZE,),
    "FLOAT": (SIZE,), "DECL_TAG": (TYPE, "component_idx"), "TYPE_TAG": (TYPE,), "ENUM64": (SIZE,)}
ITEM_FIELDS = {
    "STRUCT": (NAME, TYPE, "offset"), "UNION": (NAME, TYPE, "offset"), "ENUM": (NAME, "val"),
    "ENUM64": (NAME, "val_lo32", "val_hi32"), "FUNC_PROTO": (NAME, TYPE),
    "DATASEC": (TYPE, "place", "length")}
NAMELESS = {"PTR", "ARRAY", "VOLATILE", "CONST", "RESTRICT", "FUNC_PROTO"}
NAMED = {"FWD", "TYPEDEF", "FUNC", "VAR", "DATASEC", "DECL_TAG", "TYPE_TAG"}
MOVED, COMPARED = {"VAR", "DATASEC", "FWD", "TYPE_TAG"}, {"VAR", "FUNC", "FWD", "TYPE_TAG"}
WITH_FLAG = {"STRUCT", "UNION", "ENUM", "FWD", "DECL_TAG", "TYPE_TAG", "ENUM64"}
TARGETS = {"FUNC": ["FUNC_PROTO"], "DATASEC": ["VAR", "FUNC"]}
TARGETS["DECL_TAG"] = ["STRUCT", "UNION", "FUNC", "VAR", "TYPEDEF"]
SIZES = {"ENUM": (1, 2, 4, 8), "ENUM64": (1, 2, 4, 8), "FLOAT": (2, 4, 8, 12, 16)}
Record = namedtuple("Record", "fields words place kind has_bit_fields", defaults=[0, "", False])
# The records of a section in a part of .BTF.ext, and the fields of those of each part.
Group = namedtuple("Group", "place sec_name_off records")
PARTS = (("insn_off", TYPE), ("insn_off", "file", "line", "col"), ("insn_off", TYPE, NAME, "kind"))

class Types:
    """A .BTF by itself, by FAULTS.md, with offsets in .BTF. Number 0 of the records is void."""
    def __init__(self, data: bytes) -> None:
        rule("ShortHeader", len(data), len(data) >= 24)
        rule("Magic", 0, data[:2] in (b"\x9f\xeb", b"\xeb\x9f"))
        self.data, self.mark = data, "<" if data[0] == 0x9F else ">"
        version, flags, hdr_len, *rest = unpack_from(self.mark + "BB5I", data, 2)
        self.type_off, type_len, str_off, str_len = rest
        rule("Version", 2, version == 1)
        rule("Flags", 3, flags == 0)
        rule("HeaderLength", 4, 24 <= hdr_len <= min(4096, len(data)))
        tail = data[24:hdr_len].lstrip(b"\0")
        rule("HeaderTail", hdr_len - len(tail), tail == b"")
        rule("TypeLength", 12, type_len <= 32 << 20)
        rule("StringLength", 20, 1 <= str_len <= 16 << 20)
        rule("Sections", 8, (self.type_off, str_off) in ((0, type_len), (str_len, 0)))
        end = hdr_len + type_len + str_len
        rule("FileLength", min(end, len(data)), end == len(data))
        types, start = hdr_len + self.type_off, hdr_len + str_off
        self.strings = data[start : start + str_len]
        rule("FirstString", start, self.strings[0] == 0)
        rule("LastString", start + str_len - 1, self.strings[-1] == 0)
        self.records = self.read_records(types, types + type_len)
        for record in self.records[1:]:
            self.check_fields(record)

    def read_records(self, at: int, end: int) -> list[Record]:
        records = [Record((), (0, 0, 0))]
        while at < end:
            rule("RecordCut", at, at + 12 <= end)
            (info,) = unpack_from(self.mark + "I", self.data, at + 4)
            number, vlen = info >> 24 & 31, info & 0xFFFF
            rule("InfoBits", at + 4, info & 0x60FF0000 == 0)
            rule("KindNumber", at + 4, 1 <= number < len(FIELDS))
            kind = list(FIELDS)[number]
            rule("FlagSet", at + 4, info >> 31 == 0 or kind in WITH_FLAG)
            rule("Vlen", at + 4, vlen == 0 or kind in ITEM_FIELDS or kind == "FUNC")
            fields = NAME, INFO, *FIELDS[kind], *ITEM_FIELDS.get(kind, ()) * vlen
            rule("TailCut", at + 12, at + 4 * len(fields) <= end)
            words = unpack_from(f"{self.mark}{len(fields)}I", self.data, at)
            widths = [word >> 24 for field, word in zip(fields, words) if field == "offset"]
            records.append(Record(fields, words, at, kind, info >> 31 == 1 and any(widths)))
            at += 4 * len(fields)
        return records

    def check_fields(self, record: Record) -> None:
        (_, info, size, *_), kind = record.words, record.kind
        flag, vlen = info >> 31, info & 0xFFFF
        for index, (field, word) in enumerate(zip(record.fields, record.words)):
            at = record.place + 4 * index
            if field == NAME:
                rule("NameRange", at, word < len(self.strings))
                name = string_at(self.strings, word)
                rule("NameUtf8", at, name.decode(errors="ignore").encode() == name)
                rule("NameMissing", at, index > 0 or kind not in NAMED or name != b"")
                rule("NameUnwanted", at, index > 0 or kind not in NAMELESS or name == b"")
            elif field == TYPE:
                rule("Reference", at, word < len(self.records))
                target = self.records[word]
                rule("TargetKind", at, target.kind in TARGETS.get(kind, [target.kind]))
                is_full = target.kind != "INT" or target.words[3] & 0xFF00FF in (8, 16, 32, 64, 128)
                rule("MemberInt", at, is_full or not record.has_bit_fields)
            elif field == ZERO:
                rule("NotZero", at, word == 0)
            elif field == SIZE and kind in SIZES:
                rule("Size", at, word in SIZES[kind] or word == vlen == 0 and kind in ITEM_FIELDS)
            elif field == "encoding":
                is_right = word >> 24 in (0, 1, 2, 4) and word & 0xFF00 == 0
                rule("IntWord", at, is_right and word & 0xFF <= min(128, 8 * size))
            elif field == "offset":
                end = (word & 0xFFFFFF) + (word >> 24) if flag else word
                rule("MemberPlace", at, end <= 8 * size)
            elif field == "linkage" or field == INFO and kind == "FUNC":
                rule("Linkage", at, (word if field == "linkage" else vlen) <= 2)
            elif field == "component_idx":
                target = owner = self.records[size]
                if target.kind == "FUNC" and target.words[2] < len(self.records):
                    owner = self.records[target.words[2]]
                is_faulty = target.kind == "FUNC" and owner.kind != "FUNC_PROTO"
                is_inside = word == 0xFFFFFFFF or word < owner.words[1] & 0xFFFF
                rule("Component", at, is_faulty or is_inside)

def read_types(elf: Elf) -> Types | None:
    if (section := elf.last.get(Kind.TYPES)) is None:
        return None
    start = section.sh_offset
    rule("TypesTooLarge", section.place + SH_SIZE, section.sh_size <= MAX_TYPES)
    try:
        types = Types(elf.content(section))
    except Refused as fault:
        raise Refused(f"Types({fault.cause})", start + fault.offset) from None
    rule("TypesOrder", start, types.mark == elf.mark)
    rule("TypesLayout", start + 8, types.type_off == 0)
    for record in types.records[1:]:
        kind, at = record.kind, start + record.place
        for index, (field, word) in enumerate(zip(record.fields, record.words)):
            if field == NAME:
                name = string_at(types.strings, word)
                most = MAX_NAME if index == 0 and kind in COMPARED else MAX_TYPES
                rule("TypesName", at + 4 * index, word == 0 or 0 < len(name) <= most)
                rule("TypesSection", at, index > 0 or kind != "DATASEC" or not is_reserved(name))
            elif field == INFO and kind in ("STRUCT", "UNION"):
                rule("TypesFlag", at + 4, word >> 31 == 0 or record.has_bit_fields)
    names = [(it.kind, string_at(types.strings, it.words[0])) for it in types.records]
    taken = {("VAR", name) for kind, name in names if kind == "FUNC"}
    taken |= {it for it in names if it[0] in MOVED - {"DATASEC"} and it[1][:1] == b"."}
    for record, kind_and_name in zip(types.records, names):
        rule("TypesNameTaken", start + record.place, kind_and_name not in taken)
    return types

def read_extension(elf: Elf, types: Types | None) -> list[list[Group]]:
    """The groups of functions, of the lines that are written, and of CO-RE relocations."""
    section, parts = elf.last.get(Kind.EXTENSION), []
    if section is None:
        return [[], [], []]
    if types is None:
        raise Refused("ExtensionWithoutTypes", section.place + SH_NAME)
    start, size = section.sh_offset, section.sh_size
    rule("ExtensionCut", start, size >= 32)
    magic, version, flags, hdr_len, *rest = unpack_from(elf.mark + "HBB7I", elf.data, start)
    rule("ExtensionMagic", start, magic == BTF_MAGIC)
    rule("ExtensionVersion", start + 2, version == 1)
    rule("ExtensionFlags", start + 3, flags == 0)
    rule("ExtensionHeaderSize", start + 4, 32 <= hdr_len < size)
    for place, offset, length, fields in zip((8, 16, 24), rest[::2], rest[1::2], PARTS):
        is_inside = hdr_len + offset + length <= size
        rule("ExtensionPart", start + place, is_inside and offset % 4 == length % 4 == 0)
        at = start + hdr_len + offset
        parts.append(read_part(elf, types.strings, at, at + length, len(fields)))
    lines = [it._replace(records=[(one[0], 0, 0, 0) for one in it.records]) for it in parts[0]]
    check_lines(elf, types.strings, parts[0], parts[1] or lines)
    for group in parts[2]:
        for index, (_, _, access_str_off, _) in enumerate(group.records):
            at = group.place + 8 + 16 * index
            rule("ExtensionString", at + 8, access_str_off < len(types.strings))
    return [parts[0], lines, parts[2]]

def read_part(elf: Elf, strings: bytes, at: int, end: int, words: int) -> list[Group]:
    """The groups of a part, whose records have this many words."""
    if at == end:
        return []
    rule("ExtensionRecordSize", at, unpack_from(elf.mark + "I", elf.data, at) == (4 * words,))
    groups, at = list[Group](), at + 4
    while at < end or not groups:
        rule("ExtensionGroup", at, at + 8 <= end)
        name, num_info = unpack_from(elf.mark + "II", elf.data, at)
        start, last = at + 8, at + 8 + 4 * words * num_info
        rule("ExtensionGroup", at, num_info > 0 and last <= end)
        rule("ExtensionString", at, b"\0" in strings[name : name + MAX_NAME + 1])
        records = iter_unpack(f"{elf.mark}{words}I", elf.data[start:last])
        groups.append(Group(at, name, list(records)))
        at = last
    return groups

def check_lines(elf: Elf, strings: bytes, functions: list[Group], lines: list[Group]) -> None:
    groups: dict[bytes, tuple[set[int], list[int]]] = {}
    for one, other in zip(functions, lines):
        name, other_name = (string_at(strings, it.sec_name_off) for it in (one, other))
        starts, places = ([it[0] for it in group.records] for group in (one, other))
        is_sorted = all(it == sorted(set(it)) for it in (starts, places))
        is_right = name == other_name and is_sorted and set(starts) <= set(places)
        rule("ExtensionLines", one.place, is_right)
        rule("ExtensionGroupTwice", one.place, name not in groups)
        groups[name] = set(starts), places
    for it in functions[len(lines) :] + lines[len(functions) :]:
        raise Refused("ExtensionLines", it.place)
    for number, (_, info, _, st_shndx, value, size) in elf.symbols.items():
        section = elf.section(st_shndx)
        if info & 15 == STT_FUNC and section.kind is Kind.DATA and section.name in groups:
            of_functions, of_lines = groups[section.name]
            has_line = bisect_left(of_lines, value) < bisect_left(of_lines, value + size)
            at = elf.last[Kind.SYMBOLS].sh_offset + 24 * number + ST_VALUE
            rule("FunctionLines", at, value in of_functions or not has_line)

def main() -> None:
    parser = argparse.ArgumentParser(description=__doc__.partition("\n")[0])
    parser.add_argument("file", nargs="?", default="/dev/stdin", metavar="FILE")
    parser.add_argument("-o", default="/dev/stdout", dest="out", metavar="OUT")
    given = parser.parse_args()
    try:
        with open(given.file, "rb") as file:
            result = canonical(file.read(MAX_FILE + 1))
        with open(given.out, "wb") as file:
            file.write(result)
    except Refused as it:
        hint = NOT_BPF if it.cause in FIRST_RULES else "OBJECTS.md and FAULTS.md have the rules"
        parser.exit(1, f"{given.file}: byte {it.offset}: {it.cause}: {hint}\n")
    except OSError as error:
        parser.exit(2, f"{error}\n")

if __name__ == "__main__":
    main()
