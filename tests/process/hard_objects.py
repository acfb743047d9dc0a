"""Object files that are as hard as they can be for their length: what is long in them stands once, and many rows refer to it."""

from __future__ import annotations

import itertools
import struct
from typing import Callable, Iterable, NamedTuple

from docs.canon import BTF_MAGIC, EM_BPF, ET_REL, MAX_FILE, MAX_NAME, RELOCATION, SECTION_HEADER, SYMBOL
from docs.canon import ELF_HEADER, SHF_ALLOC, SHF_EXECINSTR, SHN_UNDEF, SHT_PROGBITS, SHT_REL, SHT_STRTAB, SHT_SYMTAB
from tests.samples import EXIT, btf

CODE = SHF_ALLOC | SHF_EXECINSTR
GLOBAL = 1 << 4
FAULT = b"\xff" + bytes(7)  # no opcode
MOST_SECTIONS = 0xFEFF
OWN = b"\0.symtab\0.strtab\0"  # the first names of each file
ROOM = 1 << 14  # for headers, so that a file of the greatest length has a canonical file too


class Section(NamedTuple):
    """A section. `name` is an offset in the names that a file is made with."""

    name: int
    type: int = SHT_PROGBITS
    flags: int = 0
    content: bytes = b""
    link: int = 0
    info: int = 0
    entry_size: int = 0


def object_file(sections: Iterable[Section], names: bytes = b"", symbols: bytes = b"") -> bytes:
    """An object file of sections and symbols, and of the names of both. Sections with the same content share its bytes."""
    kept = [it._replace(name=it.name + len(OWN)) for it in sections]
    end = len(kept) + 2
    rows = [*kept, Section(1, SHT_SYMTAB, 0, bytes(24) + symbols, end, 1, 24), Section(9, SHT_STRTAB, 0, OWN + names)]
    data, places = bytearray(64), {}
    for it in rows:
        if id(it.content) not in places:
            places[id(it.content)] = len(data)
            data += it.content + bytes(-len(it.content) % 8)
    headers = (
        struct.pack("<" + SECTION_HEADER, it.name, it.type, it.flags, 0, places[id(it.content)], len(it.content), it.link, it.info, 8, it.entry_size)
        for it in rows
    )
    ident = b"\x7fELF\2\1\1" + bytes(9)
    data[:64] = struct.pack("<" + ELF_HEADER, ident, ET_REL, EM_BPF, 1, 0, 0, len(data), 0, 64, 0, 0, 64, end + 1, end)
    return bytes(data + bytes(64) + b"".join(headers))


def ends(length: int, count: int) -> list[int]:
    """Offsets in a string of this length at which its ends begin, over and over, the shortest first."""
    return [length - 1 - number % length for number in range(count)]


def undefined(names: Iterable[int]) -> bytes:
    """Symbols in no section, with names at these offsets."""
    form = struct.Struct("<" + SYMBOL)
    return b"".join(form.pack(len(OWN) + it, GLOBAL, 0, SHN_UNDEF, 0, 0) for it in names)


def code() -> bytes:
    return object_file([Section(0, flags=CODE, content=EXIT * ((MAX_FILE - ROOM) // 8))], b"xdp\0")


def data() -> bytes:
    return object_file([Section(0, flags=SHF_ALLOC, content=bytes(MAX_FILE - ROOM))], b".data\0")


def relocations() -> bytes:
    """Four million relocations of one instruction."""
    rows = struct.pack("<" + RELOCATION, 0, 1 << 32 | 1) * ((MAX_FILE - ROOM) // 16)
    sections = [Section(4, flags=CODE, content=EXIT), Section(0, SHT_REL, 0, rows, 3, 1, 16)]
    return object_file(sections, b".relxdp\0", undefined([4]))


def shared_relocations(tables: int = 20_000, rows: int = 4_096) -> bytes:
    """Relocation sections of the same rows, which are refused: together they are longer than the file."""
    shared = struct.pack("<" + RELOCATION, 0, 1) * rows
    table = Section(0, SHT_REL, 0, shared, tables + 2, 1, 16)
    return object_file([Section(4, flags=CODE, content=EXIT), *[table] * tables], b".relxdp\0")


def distinct_symbols() -> bytes:
    """1.6 million symbols, each with a name of its own that differs from others in its first bytes alone."""
    count = 1_600_000
    names = b"".join(b"%06x_________\0" % number for number in range(count))
    return object_file([], names, undefined(range(0, 16 * count, 16)))


def symbols_in_strings() -> bytes:
    """1.6 million symbols, named by the ends of strings of 60 letters."""
    count, length = 1_600_000, 60
    names = b"".join(b"%06x" % number + b"_" * (length - 6) + b"\0" for number in range(count // length))
    return object_file([], names, undefined(it for it in range(len(names)) if (it + 1) % (length + 1)))


def symbols_of_one_string() -> bytes:
    """1.6 million symbols with one name, as long as the file allows."""
    count = 1_600_000
    return object_file([], b"n" * (MAX_FILE - 24 * count - ROOM) + b"\0", undefined([0]) * count)


def symbols_of_few_strings(length: int) -> bytes:
    """1.6 million symbols with 64 names of this length, which differ in their last bytes alone."""
    names = [b"n" * (length - 2) + b"%02d\0" % number for number in range(64)]
    return object_file([], b"".join(names), undefined([number * (length + 1) for number in range(64)]) * 25_000)


def ends_of_a_string(count: int) -> bytes:
    """Symbols named by the ends of one string, in a file of a quarter of the greatest length."""
    names = b"n" * (MAX_FILE // 4 - 24 * count - ROOM) + b"\0"
    return object_file([], names, undefined(ends(len(names) - 1, count)))


def long_section_names(strings: int) -> bytes:
    """As many sections as a file may have, named by the ends of strings of the greatest length."""
    length = MAX_NAME
    names = b"".join(b"n" * (length - 2) + b"%02x\0" % number for number in range(strings))
    places = [it for it in range(len(names)) if (it + 1) % (length + 1)]
    return object_file((Section(places[number % len(places)]) for number in range(MOST_SECTIONS - 3)), names)


def with_types(strings: bytes, words: Iterable[int] = (), sections: Iterable[Section] = (), **parts: bytes) -> bytes:
    """An object file with types of these words, their strings, and .BTF.ext of these parts, which are functions, lines and core."""
    names = b".BTF\0.BTF.ext\0xdp\0"
    types = [Section(0, content=btf("little", list(words), strings))]
    types += [Section(5, content=extension(**parts))] if parts else []
    return object_file([*types, *(it._replace(name=14) for it in sections)], names)


def extension(functions: bytes = b"", lines: bytes = b"", core: bytes = b"") -> bytes:
    one, two, three = map(len, (functions, lines, core))
    return struct.pack("<HBB7I", BTF_MAGIC, 1, 0, 32, 0, one, one, two, one + two, three) + functions + lines + core


def group(name: int, *words: int) -> bytes:
    """A group of .BTF.ext with one record."""
    return struct.pack(f"<{2 + len(words)}I", name, 1, *words)


def parts(names: Iterable[int]) -> dict[str, bytes]:
    """A function, and its line, in each of the sections with these names."""
    places = list(names)
    functions = b"".join(group(it, 0, 0) for it in places)
    lines = b"".join(group(it, 0, 0, 0, 0) for it in places)
    return {"functions": struct.pack("<I", 8) + functions, "lines": struct.pack("<I", 16) + lines}


def groups() -> bytes:
    """1.5 million groups of functions, and of lines, for sections named by the ends of strings of the greatest length."""
    length = MAX_NAME
    strings = b"\0" + b"".join(b"n" * (length - 4) + b"%04x\0" % number for number in range(1_500))
    return with_types(strings, **parts(it for it in range(1, len(strings)) if 0 < it % (length + 1) <= length - 3))


def groups_of_one_section() -> bytes:
    """1.6 million groups of functions, and of lines, that name one section with the greatest length."""
    count = (MAX_FILE - ROOM) // len(group(1, 0, 0) + group(1, 0, 0, 0, 0))
    return with_types(b"\0" + b"n" * MAX_NAME + b"\0", **parts([1] * count))


def access_strings(length: int) -> bytes:
    """Three million CO-RE relocations whose access strings are the ends of one string."""
    count, strings = 3_000_000, b"\0xdp\0" + b"0" * length + b"\0"
    words = [word for place in ends(length, count) for word in (0, 0, 5 + place, 0)]
    core = struct.pack(f"<3I{len(words)}I", 16, 1, count, *words)
    return with_types(strings, core=core)


def names_of_types() -> bytes:
    """A million names in an ENUM."""
    count, most = 1_000_000, 65_535
    names = iter(range(1, 6 * count, 6))
    words: list[int] = []
    for start in range(0, count, most):
        vlen = min(most, count - start)
        words += [0, 0x0600_0000 | vlen, 4, *(word for _ in range(vlen) for word in (next(names), 0))]
    strings = b"\0" + b"".join(b"%05x\0" % number for number in range(count))
    return with_types(strings, words)


def faults(name: bytes = b"xdp") -> bytes:
    """As many sections as a file may have, with one name and one instruction, which is none."""
    return object_file([Section(0, flags=CODE, content=FAULT)] * (MOST_SECTIONS - 3), name + b"\0")


def faults_with_lines(length: int, lines: int) -> bytes:
    """Sections with a fault each in a line of a source file whose name is long, behind many lines of other sections."""
    first = b"\0xdp\0" + b"s" * length + b"\0"
    strings = first + b"".join(b"%05x\0" % number for number in range(lines))
    others = parts(range(len(first), len(strings), 6))
    own = {"functions": group(1, 0, 0), "lines": group(1, 0, 5, 0, 1 << 10)}
    both = {part: others[part] + own[part] for part in own}
    return with_types(strings, (), [Section(0, flags=CODE, content=FAULT)] * (MOST_SECTIONS - 5), **both)


def type_tags(names: bytes, count: int, first: Callable[[int], int]) -> bytes:
    """TYPE_TAG of these names in turn. `first` gives the type of each, by its number."""
    places = [1 + len(it) for it in itertools.accumulate([b""] + [it + b"\0" for it in names.split(b"\0")][:-1])]
    words = [word for number in range(1, count + 1) for word in (places[number % len(places)], 0x1200_0000, first(number))]
    return with_types(b"\0" + names + b"\0", words)


def variables(count: int, length: int) -> bytes:
    """VAR with one long name, of an INT."""
    words = [1, 0x0100_0000, 4, 32, *(word for _ in range(count) for word in (1, 0x0E00_0000, 1, 1))]
    return with_types(b"\0" + b"v" * length + b"\0", words)


def variables_of_equal_ends(strings: int, length: int, count: int) -> bytes:
    """VAR named by the ends of strings that differ in their last bytes alone, the longest first: many have one length."""
    names = b"\0" + b"".join(b"n" * (length - 4) + b"%04x\0" % number for number in range(strings))
    words = [1, 0x0100_0000, 4, 32]
    for number in range(count):
        words += [1 + number % strings * (length + 1) + number // strings, 0x0E00_0000, 1, 1]
    return with_types(names, words)


def variables_of_ends(count: int) -> bytes:
    """VAR named by the ends of strings of 60 letters."""
    names = b"\0" + b"".join(b"_" * 54 + b"%06x\0" % number for number in range(count // 60 + 1))
    places = [it for it in range(1, len(names)) if 0 < it % 61 <= 55][:count]
    words = [1, 0x0100_0000, 4, 32, *(word for it in reversed(places) for word in (it, 0x0E00_0000, 1, 1))]
    return with_types(names, words)


def with_functions(names: bytes, variables: list[int], functions: list[int]) -> bytes:
    """VAR and then FUNC with names at these offsets."""
    words = [1, 0x0100_0000, 4, 32, 0, 0x0D00_0000, 0]
    words += [word for it in variables for word in (it, 0x0E00_0000, 1, 1)]
    words += [word for it in functions for word in (it, 0x0C00_0000, 2)]
    return with_types(names, words)


def long_names_of_variables(variables: int, functions: int, length: int) -> bytes:
    """VAR of one long name, and FUNC of another one with the same length, which differ in their last bytes alone."""
    names = b"\0" + b"n" * length + b"v\0" + b"n" * length + b"f\0"
    return with_functions(names, [1] * variables, [length + 3] * functions)


def variables_and_functions_of_ends(count: int) -> bytes:
    """As many VAR as FUNC, named by the ends of strings of the greatest length, which differ in their last bytes: in turn those of VAR and of FUNC."""
    ends, length = MAX_NAME - 4, MAX_NAME + 1
    strings = count // ends + 1
    names = b"\0" + b"".join(b"n" * ends + b"%04x\0" % number for number in range(2 * strings))
    variables, functions = ([1 + length * number + end for number in range(first, 2 * strings, 2) for end in range(ends)][:count] for first in (0, 1))
    return with_functions(names, variables, functions)
