"""Differences that a key once missed, or that a weaker one would miss: some loader tells each changed object from its base, and so must keys."""

from __future__ import annotations

from dataclasses import replace
from pathlib import Path
from typing import Callable, NamedTuple

from tests.objects import files
from tests.objects.btf_file import CORE, FUNCTIONS, LINES, Group, records_of, types_of
from tests.objects.elf_file import ALLOC, EXECINSTR, FUNCTION, GLOBAL, PROGBITS, STRTAB, WEAK, ElfFile, Relocation, Section, Symbol

Edit = Callable[[ElfFile], None]
STRUCT, FUNC_PROTO, DATASEC = 4, 13, 15
KIND_FLAG = 1 << 31
TEN = b"\xb7\x00\x00\x00\x0a\x00\x00\x00\x95\x00\x00\x00\x00\x00\x00\x00"  # mov r0, 10; exit


class Known(NamedTuple):
    name: str
    base: str
    change: Edit


# ---- edits of a section or a symbol


def found(file: ElfFile, name: bytes) -> int:
    return file.indices(name)[0]


def section(name: bytes, /, flip: int = -1, without: int = 0, **fields: object) -> Edit:
    """Set fields of a section, clear flags, and change bits of a byte of its content."""

    def edit(file: ElfFile) -> None:
        row = file.sections[found(file, name)]
        row.flags &= ~without
        if flip >= 0:
            row.content[flip] ^= 0x55
        for field, value in fields.items():
            setattr(row, field, value)

    return edit


def section_named(old: bytes, new: bytes) -> Edit:
    return lambda file: section(old, name=file.add_string(file.names, new))(file)


def added(name: bytes, content: bytes, place: int = 0) -> Edit:
    """Add a section, at the end if no place is given."""

    def edit(file: ElfFile) -> None:
        row = Section(file.add_string(file.names, name), PROGBITS, 0, 0, 0, 0, 8, 0, bytearray(content), len(content))
        file.insert(place or len(file.sections), row)

    return edit


def exchanged(first: bytes, second: bytes) -> Edit:
    """Two sections in the other sequence, with all indices."""

    def edit(file: ElfFile) -> None:
        order = list(range(len(file.sections)))
        a, b = found(file, first), found(file, second)
        order[a], order[b] = b, a
        file.reorder_sections(order)

    return edit


def number_of(file: ElfFile, name: bytes) -> int:
    return next(number for number, it in enumerate(file.symbols()) if file.string(file.symbol_names, it.name) == name)


def symbol(*names: bytes, **fields: int) -> Edit:
    """Set fields of symbols."""

    def edit(file: ElfFile) -> None:
        symbols = file.symbols()
        for name in names:
            for field, value in fields.items():
                setattr(symbols[number_of(file, name)], field, value)
        file.set_symbols(symbols)

    return edit


def symbol_named(old: bytes, new: bytes) -> Edit:
    return lambda file: symbol(old, name=file.add_string(file.symbol_names, new))(file)


def slots(change: Callable[[Relocation, Relocation], list[Relocation]]) -> Edit:
    """Change the two relocations of a map of programs."""

    def edit(file: ElfFile) -> None:
        index = found(file, b".rel.maps")
        first, last = file.relocations(index)
        file.set_relocations(index, change(first, last))

    return edit


def groups(word: str, change: Callable[[list[Group]], object]) -> Edit:
    def edit(file: ElfFile) -> None:
        with records_of(file) as extension:
            change(extension.part(word).groups)

    return edit


def labels(place: bytes, *rows: tuple[bytes, int, int]) -> Edit:
    """Add local symbols without a type: the name, value and size of each."""

    def edit(file: ElfFile) -> None:
        index, symbols = file.indices(place)[0], file.symbols()
        added = [Symbol(file.add_string(file.symbol_names, name), 0, 0, index, value, size) for name, value, size in rows]
        file.set_symbols([*symbols, *added])

    return edit


# ---- other edits


def code_twice(file: ElfFile) -> None:
    old = found(file, b"socket1")
    twin = replace(file.sections[old], flags=EXECINSTR, content=bytearray(TEN + bytes(file.sections[old].content[len(TEN) :])))
    file.insert(len(file.sections), twin)
    symbol(b"drop_long", section=len(file.sections) - 1)(file)


def constants_twice(file: ElfFile) -> None:
    old = found(file, b".rodata")
    twin = replace(file.sections[old], flags=0, content=bytearray(file.sections[old].content))
    twin.content[0] ^= 0xFF
    file.insert(len(file.sections), twin)
    symbols = file.symbols()
    for symbol in symbols:
        if symbol.section == old:
            symbol.section = len(file.sections) - 1
    file.set_symbols(symbols)


def relocations_twice(file: ElfFile) -> None:
    index = found(file, b".relsocket")
    relocations = file.relocations(index)
    relocations[0].symbol = number_of(file, b"custom")
    file.insert(len(file.sections), replace(file.sections[index], content=bytearray(file.sections[index].content)))
    file.set_relocations(len(file.sections) - 1, relocations[:1])


def symbols_twice(file: ElfFile) -> None:
    """libbpf takes the first variable with a name."""
    symbols = file.symbols()
    number = number_of(file, b"threshold")
    twin = replace(symbols[number], value=symbols[number].value + 4)
    file.reorder_symbols([*range(number), len(symbols), *range(number, len(symbols))], twin)


def alias(file: ElfFile) -> None:
    """Two programs at one place are in the sequence of their symbols, or not."""
    symbols = file.symbols()
    number = number_of(file, b"print")
    twin = replace(symbols[number], name=file.add_string(file.symbol_names, b"alias"))
    file.set_symbols([*symbols, twin])


def split(functions: list[Group]) -> None:
    """libbpf looks only at the first group of a section."""
    functions.append(Group(functions[0].name, functions[0].records[1:]))
    functions[0].records = functions[0].records[:1]


def at_one_place(core: list[Group]) -> None:
    """libbpf keeps the sequence of records of one instruction."""
    first, second = core[0].records[:2]
    first[0], core[0].records[:2] = second[0], [second, first]


def longer_records(file: ElfFile) -> None:
    with records_of(file) as extension:
        part = extension.part(FUNCTIONS)
        part.size += 4
        for group in part.groups:
            group.records = [[*it, 7] for it in group.records]


def line_inside(file: ElfFile) -> None:
    """The text of a source line begins inside a string."""
    with records_of(file) as extension:
        extension.part(LINES).groups[0].records[0][2] += 1


def functions_without_length(file: ElfFile) -> None:
    """The part of functions is only the size of its records."""
    content = file.sections[found(file, b".BTF.ext")].content
    content[12:16] = (4).to_bytes(4, "little")


def no_name_elsewhere(file: ElfFile) -> None:
    """libbpf gives a parameter of a kernel function a name if its offset is 0, and not if it is that of another empty string."""
    with types_of(file) as btf:
        empty = btf.strings.find(b"\0", 1)
        for place in btf.types():
            if btf.kind(place) == FUNC_PROTO:
                for parameter in range(place + 3, place + 3 + 2 * (btf.words[place + 1] & 0xFFFF), 2):
                    btf.words[parameter] = btf.words[parameter] or empty


def flag_without_bit_fields(file: ElfFile) -> None:
    """kind_flag says that the offsets of members have sizes of bit-fields, which are 0 here: the kernel then checks integers otherwise."""
    with types_of(file) as btf:
        btf.words[next(it for it in btf.types() if btf.words[it + 1] >> 24 == STRUCT) + 1] |= KIND_FLAG


def types_swapped(file: ElfFile) -> None:
    with types_of(file) as btf:
        btf.sign = ">"


def strings_first(file: ElfFile) -> None:
    """libbpf refuses strings before types."""
    with types_of(file) as btf:
        content, size = bytes(btf.write()), 24 + 4 * len(btf.words)
    strings = content[size:] + b"\0" * (-len(content[size:]) % 4)
    header = content[:8] + b"".join(it.to_bytes(4, "little") for it in (len(strings), size - 24, 0, len(strings)))
    file.sections[found(file, b".BTF")].content = bytearray(header + strings + content[24:size])


def sized_by_names(file: ElfFile) -> None:
    """libbpf takes the size of a DATASEC from the section with its name, which may be any."""
    with types_of(file) as btf:
        place = next(it for it in btf.types() if btf.kind(it) == DATASEC and btf.string(btf.words[it]) == b"license")
        btf.words[place], btf.words[place + 2] = btf.add_string(b".strtab"), 0
    file.add_string(file.names, b"makes the table longer")


def as_it_is(file: ElfFile) -> None:
    pass


DIFFERENCES = (
    Known("code twice", "plain", code_twice),
    # As `llvm-objcopy --add-section license=FILE` does it.
    Known("license twice", "tails", added(b"license", b"Proprietary\0")),
    Known("constants twice", "data", constants_twice),
    Known("a function is hidden", "calls", symbol(b"global_half", other=2)),
    Known("variables are hidden", "data", symbol(b"threshold", b"weak_value", other=1)),
    Known("data without SHF_ALLOC", "data", section(b".data", flip=0, without=ALLOC)),
    Known("a section of data more", "data", added(b".data.more", b"more", 1)),
    Known("data with the type of strings", "data", section(b".data.custom", type=STRTAB)),
    Known("another constant in code", "operations", section(b"struct_ops/undo", flip=4)),
    Known("more zeros", "data", section(b".bss", size=4096)),
    Known("code with the name of debugging information", "data", section_named(b"socket/second", b".debug_second")),
    Known("code without SHF_EXECINSTR", "data", section(b"socket/second", without=EXECINSTR)),
    Known("operations more", "calls", added(b".struct_ops", b"\0" * 112)),
    Known("legacy maps", "calls", added(b"maps", b"\0" * 20)),
    Known("a license with a NUL", "calls", section(b"license", content=bytearray(b"GPL\0and more"))),
    Known("a license in capitals", "data", section_named(b"license", b"LICENSE")),
    Known("a name with a byte that isn't UTF-8", "data", symbol_named(b"print", b"print\xff")),
    Known("a name with another such byte", "data", symbol_named(b"print", b"print\xfe")),
    Known("a name in capitals", "data", symbol_named(b"print", b"Print")),
    Known("a name with a NUL", "data", symbol_named(b"print", b"pri\0nt")),
    Known("code in another sequence", "data", exchanged(b"socket", b"socket/second")),
    Known("data in another sequence", "data", exchanged(b".data", b".data.custom")),
    Known("slots of a map exchanged", "tails", slots(lambda a, b: [replace(a, symbol=b.symbol), replace(b, symbol=a.symbol)])),
    # The last relocation of a slot counts.
    Known("a slot of a map twice", "tails", slots(lambda a, b: [a, b, replace(a, symbol=b.symbol)])),
    # libbpf knows the relocations of maps by the name of their section.
    Known("relocations of maps under another name", "tails", section_named(b".rel.maps", b".rel.maps ")),
    Known("relocations twice", "data", relocations_twice),
    Known("the size of relocations", "data", section(b".relsocket", entry_size=24)),
    Known("the size of symbols", "data", section(b".symtab", entry_size=0)),
    Known("a variable twice", "data", symbols_twice),
    Known("an alias", "data", alias),
    Known("a weak extern", "externs", symbol(b"bpf_kfunc_call_test", info=WEAK << 4)),
    # An extern is a symbol without a type.
    Known("an extern with a type", "externs", symbol(b"bpf_kfunc_call_test", info=GLOBAL << 4 | FUNCTION)),
    Known("functions of a section in two groups", "calls", groups(FUNCTIONS, split)),
    Known("functions exchanged", "calls", groups(FUNCTIONS, lambda it: it[0].records.reverse())),
    # libbpf refuses a function without lines if its caller has some, and all of .BTF.ext for a group without records.
    Known("lines of a called function are missing", "calls", groups(LINES, lambda it: it.pop(0))),
    Known("a group without lines", "calls", groups(LINES, lambda it: it.append(Group(it[0].name, [])))),
    Known("longer records", "calls", longer_records),
    Known("functions without records", "calls", functions_without_length),
    Known("CO-RE records of one instruction", "core", groups(CORE, at_one_place)),
    Known("an empty name that isn't the first string", "externs", no_name_elsewhere),
    Known("kind_flag without bit-fields", "maps", flag_without_bit_fields),
    Known("types in the other byte order", "maps", types_swapped),
    Known("strings before types", "maps", strings_first),
    Known("types sized by the table of names", "plain", sized_by_names),
)


# Who reads the two differently: libbpf's linker, cilium/ebpf, aya and newer releases of libbpf.
PAIRS: dict[str, tuple[str, Edit, Edit]] = {
    "align-values: cilium/ebpf": ("tails", as_it_is, section(b".maps", alignment=16)),
    "linker-offset: libbpf's linker": ("data", as_it_is, section(b".data", alignment=1)),
    "address-text: aya": ("calls", as_it_is, section(b".text", address=8)),
    "address-program: aya": ("plain", as_it_is, section(b"socket1", address=8)),
    "labels-maps: cilium/ebpf, aya": ("tails", labels(b".maps", (b"one", 0, 0), (b"two", 8, 0)), labels(b".maps", (b"one", 8, 0), (b"two", 0, 0))),
    "label-data: cilium/ebpf": ("data", as_it_is, labels(b".data", (b"label", 0, 0))),
    "label-program: cilium/ebpf": ("plain", labels(b"socket1", (b"allow", 0, 0)), labels(b"socket1", (b"deny", 0, 0))),
    "two-swapped: cilium/ebpf": ("plain", labels(b"socket1", (b"one", 0, 0), (b"two", 8, 0)), labels(b"socket1", (b"two", 0, 0), (b"one", 8, 0))),
    "jumptable-size: libbpf 1.7": ("data", labels(b".rodata", (b"", 0, 2)), labels(b".rodata", (b"", 0, 4))),
}


def edit(data: bytes, change: Edit) -> bytes:
    """An object file after a change."""
    file = ElfFile.read(data)
    change(file)
    return bytes(file.write())


def edited(source: str, change: Edit, folder: Path) -> bytes:
    """The object of a source after a change. One as it is is written in the same way."""
    return edit(files.content(files.named(source), folder), change)
