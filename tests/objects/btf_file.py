"""The layout of .BTF and .BTF.ext: where their words are, and which of them are offsets of strings."""

from __future__ import annotations

import contextlib
import struct
from dataclasses import dataclass
from typing import Iterator

from tests.objects.elf_file import ElfFile

# Words after the common three of a type, words of an item, and whether an item begins with a name, by the number of the kind.
KINDS = {
    1: (1, 0, False), 3: (3, 0, False), 4: (0, 3, True), 5: (0, 3, True), 6: (0, 2, True), 13: (0, 2, True),
    14: (1, 0, False), 15: (0, 3, False), 17: (1, 0, False), 19: (0, 3, True),
}  # fmt: skip

FUNCTIONS, LINES, CORE = "functions", "lines", "core"
# The words of a record, and which of them are offsets of strings.
RECORDS = {FUNCTIONS: (2, ()), LINES: (4, (1, 2)), CORE: (4, (2,))}


@dataclass
class Btf:
    """.BTF in two parts: the words of all types, and the strings."""

    sign: str
    words: list[int]
    strings: bytearray

    @classmethod
    def read(cls, content: bytes, sign: str) -> Btf:
        header, type_offset, type_length, string_offset, string_length = struct.unpack_from(sign + "IIIII", content, 4)
        types = content[header + type_offset :][:type_length]
        words = list(struct.unpack(f"{sign}{len(types) // 4}I", types))
        return cls(sign, words, bytearray(content[header + string_offset :][:string_length]))

    def write(self) -> bytearray:
        size = 4 * len(self.words)
        header = struct.pack(self.sign + "HBBIIIII", 0xEB9F, 1, 0, 24, 0, size, size, len(self.strings))
        return bytearray(header + struct.pack(f"{self.sign}{len(self.words)}I", *self.words) + self.strings)

    def types(self) -> Iterator[int]:
        """The place among the words of each type."""
        place = 0
        while place + 3 <= len(self.words):
            yield place
            words, item, _ = KINDS.get(self.kind(place), (0, 0, False))
            place += 3 + words + item * (self.words[place + 1] & 0xFFFF)

    def kind(self, place: int) -> int:
        return self.words[place + 1] >> 24 & 31

    def names(self) -> Iterator[int]:
        """The places of all words that are offsets of strings."""
        for place in self.types():
            yield place
            words, item, has_name = KINDS.get(self.kind(place), (0, 0, False))
            if has_name:
                start = place + 3 + words
                yield from range(start, start + item * (self.words[place + 1] & 0xFFFF), item)

    def string(self, offset: int) -> bytes:
        return bytes(self.strings[offset : self.strings.find(b"\0", offset)])

    def add_string(self, string: bytes) -> int:
        self.strings += string + b"\0"
        return len(self.strings) - len(string) - 1


@dataclass
class Group:
    """The records of one section, each a list of words. The name of the section is a string of .BTF."""

    name: int
    records: list[list[int]]


@dataclass
class Part:
    """One of the three parts of .BTF.ext; it has no groups if it is empty."""

    word: str
    size: int  # of a record, in bytes
    groups: list[Group]

    @classmethod
    def read(cls, word: str, content: bytes, sign: str) -> Part:
        if not content:
            return cls(word, 4 * RECORDS[word][0], [])
        (size,) = struct.unpack_from(sign + "I", content)
        groups, place = [], 4
        while place < len(content):
            name, count = struct.unpack_from(sign + "II", content, place)
            place += 8
            if size < 4 or count * size > len(content) - place:
                raise struct.error("records past the end")
            rows = [content[place + size * number :][:size] for number in range(count)]
            groups.append(Group(name, [list(struct.unpack(f"{sign}{size // 4}I", it)) for it in rows]))
            place += size * count
        return cls(word, size, groups)

    def write(self, sign: str) -> bytes:
        words = [self.size] if self.groups else []
        for it in self.groups:
            words += [it.name, len(it.records), *(word for record in it.records for word in record)]
        return struct.pack(f"{sign}{len(words)}I", *words)

    def records(self) -> list[list[int]]:
        return [record for group in self.groups for record in group.records]


@dataclass
class Extension:
    sign: str
    parts: list[Part]

    @classmethod
    def read(cls, content: bytes, sign: str) -> Extension:
        (header,) = struct.unpack_from(sign + "I", content, 4)
        places = struct.unpack_from(sign + "IIIIII", content, 8) if header >= 32 else (*struct.unpack_from(sign + "IIII", content, 8), 0, 0)
        pairs = zip(RECORDS, places[::2], places[1::2])
        return cls(sign, [Part.read(word, content[header + offset :][:length], sign) for word, offset, length in pairs])

    def part(self, word: str) -> Part:
        return next(it for it in self.parts if it.word == word)

    def write(self) -> bytearray:
        written = [it.write(self.sign) for it in self.parts]
        fields, offset = [], 0
        for content in written:
            fields += [offset, len(content)]
            offset += len(content)
        return bytearray(struct.pack(self.sign + "HBBIIIIIII", 0xEB9F, 1, 0, 32, *fields) + b"".join(written))

    def groups(self) -> list[Group]:
        return [group for part in self.parts for group in part.groups]


@contextlib.contextmanager
def types_of(file: ElfFile) -> Iterator[Btf]:
    """The types of a file, which are written again at the end. IndexError says that it has none."""
    section = file.sections[file.indices(b".BTF")[0]]
    btf = Btf.read(section.content, file.sign)
    yield btf
    section.content = btf.write()


@contextlib.contextmanager
def records_of(file: ElfFile) -> Iterator[Extension]:
    """Likewise its records of functions, source lines and CO-RE."""
    section = file.sections[file.indices(b".BTF.ext")[0]]
    extension = Extension.read(section.content, file.sign)
    yield extension
    section.content = extension.write()
