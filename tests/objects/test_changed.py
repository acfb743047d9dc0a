"""Objects that are changed with knowledge of ELF and BTF: equal canonical bytes mean an equal view, and each byte has its place."""

from __future__ import annotations

import hashlib
import re
import struct
from pathlib import Path

import pytest

from docs.canon import canonical
from tests import TOP
from tests.objects import files
from tests.objects.changes import COUNT, each_changed
from tests.objects.conftest import Canon, Keys, Review, Tally
from tests.objects.elf_fields import HEADER, SECTION, SYMBOL
from tests.objects.loaders import Loader, is_accepted

BATCH = 200
FEWEST, FEWEST_TEXTS = COUNT // 3, COUNT // 5  # accepted objects, and texts of canonical files: fewer would test little
TRIES = 20
EXTENSION_HEADER = {
    "magic": 2, "version": 1, "flags": 1, "hdr_len": 4, "func_info_off": 4, "func_info_len": 4, "line_info_off": 4, "line_info_len": 4,
    "core_relo_off": 4, "core_relo_len": 4,
}  # fmt: skip
GROUP = {"sec_name_off": 4, "num_info": 4}
EXTENSION = {
    "functions": {"insn_off": 4, "type_id": 4},
    "lines": {"insn_off": 4, "file_name_off": 4, "line_off": 4, "line_col": 4},
    "CO-RE relocations": {"insn_off": 4, "type_id": 4, "access_str_off": 4, "kind": 4},
}
WRITTEN = (".BTF", ".BTF.ext", ".symtab", ".strtab")
SHT_NOBITS, SHT_REL = 8, 9
WAYS = (0x01, 0x80, 0xFF)
Place = tuple[str, str]


def word_for(loader: Loader, content: bytes, view: bytes, known: bytes) -> str:
    """Whether a view of an object is that of its canonical file. cilium/ebpf reads either of two sections with one name, at random, so it is
    asked again; what it refuses, it may take then."""
    if view == known or is_accepted(view) and any(loader.view(content) == known for _ in range(TRIES)):
        return f"the same, {'accepted' if is_accepted(view) else 'refused'}"
    return "refused, and then accepted" if loader.name == "cilium" and not is_accepted(view) else "other"


def test_equal_bytes_mean_equal_views(bases: list[bytes], both: list[Loader], keys: Keys, tally: Tally) -> None:
    """The views of a canonical file, which docs/canon.py writes too, are those of each object that has it."""
    known: dict[str, list[bytes]] = {}
    counts = tally["changed objects"]

    @each_changed(bases)
    def judge(content: bytes) -> None:
        (key,) = keys([content])
        counts["accepted" if key else "refused"] += 1
        if key and key not in known:
            made = canonical(content)
            assert [hashlib.sha256(made).hexdigest(), *keys([made])] == [key, key]
            known[key] = [loader.view(made) for loader in both]
        for loader, view in zip(both, known.get(key, ())):
            word = word_for(loader, content, loader.view(content), view)
            tally[f"{loader.name}, changed objects"][word] += 1
            assert word != "other"

    judge()
    counts["canonical files"] = len(known)
    assert counts["accepted"] >= FEWEST


@pytest.mark.needs("elftools")
def test_texts(bases: list[bytes], review: Review) -> None:
    """The texts of bpfcanon-review are equal exactly if the canonical files are."""
    known: dict[str, bytes] = {}

    @each_changed(bases)
    def judge(content: bytes) -> None:
        object = review.accepted(content)
        assert not object or known.setdefault(review.text(object), object.canonical) == object.canonical

    judge()
    assert len(set(known.values())) == len(known) >= FEWEST_TEXTS


def string_at(data: bytes, place: int) -> str:
    return data[place : data.index(b"\0", place)].decode()


def fields_at(found: list[Place], start: int, count: int, fields: dict[str, int], part: str) -> int:
    """Name the bytes of records with these fields. Returns where they end."""
    names = [(name, part) for name, size in fields.items() for _ in range(size)] * count
    found[start : start + len(names)] = names
    return start + len(names)


def extension_fields(found: list[Place], data: bytes, mark: str, start: int) -> None:
    """Name the bytes of .BTF.ext."""
    fields_at(found, start, 1, EXTENSION_HEADER, ".BTF.ext")
    for number, (part, fields) in enumerate(EXTENSION.items()):
        offset, length = struct.unpack_from(f"{mark}II", data, start + 8 + 8 * number)
        place = start + 32 + offset + 4
        while place < start + 32 + offset + length:
            (count,) = struct.unpack_from(f"{mark}I", data, place + 4)
            place = fields_at(found, fields_at(found, place, 1, GROUP, part), count, fields, part)


def places_of(data: bytes) -> list[Place]:
    """What each byte of a canonical file is: a field and the part of the file that it belongs to."""
    mark = "<" if data[5] == 1 else ">"
    (table,) = struct.unpack_from(f"{mark}Q", data, 40)
    rows = [struct.unpack_from(f"{mark}IIQQQQIIQQ", data, place) for place in range(table, len(data), 64)]
    found = [("bytes between sections", "")] * len(data)
    fields_at(found, 0, 1, HEADER, "")
    for number, row in enumerate(rows):
        name, size = string_at(data, rows[-1][4] + row[0]), 0 if row[1] == SHT_NOBITS else row[5]
        part = name if name in WRITTEN else "relocations" if row[1] == SHT_REL else "code and data"
        found[row[4] : row[4] + size] = [("content", part)] * size
        fields_at(found, table + 64 * number, 1, SECTION, part)
        if not size:
            fields_at(found, table + 64 * number + 24, 1, {"sh_offset": 8}, "sections without bytes")
        if part == ".symtab":
            fields_at(found, row[4], size // 24, SYMBOL, part)
        if part == ".BTF.ext":
            extension_fields(found, data, mark, row[4])
    return found


def free_places() -> set[Place]:
    """What the page calls free. A row of its table is fields, and the parts of a file in which they are free; in all parts if it has none."""
    part = (TOP / "docs/OBJECTS.md").read_text().partition("\n### What has no effect\n")[2].partition("\n#")[0]
    rows = [it.partition(" of ") for it in re.findall(r"^\| ([^|]+?) \|", part, re.MULTILINE)[1:]]
    return {(field, one) for fields, _, parts in rows for field in fields.split(", ") for one in parts.split(", ")}


@pytest.mark.parametrize("source, order", [("core", "little"), ("packet_filter", "big"), ("operations", "little")])
def test_each_byte(source: str, order: str, canon: Canon, keys: Keys, folder: Path, tally: Tally) -> None:
    """A changed byte of a canonical file is refused, or changes it, unless it is in a field that the page calls free."""
    data = canon(files.content(files.named(source, order), folder))
    free, names, own = free_places(), places_of(data), hashlib.sha256(data).hexdigest()
    words = {"": "refused", own: "the same canonical file"}
    changes = [(place, way) for place in range(len(data)) for way in WAYS]
    wrong = set()
    for first in range(0, len(changes), BATCH):
        batch = changes[first : first + BATCH]
        found = keys([data[:place] + bytes([data[place] ^ way]) + data[place + 1 :] for place, way in batch])
        tally["each byte"].update(words.get(key, "another canonical file") for key in found)
        same = {names[place] for (place, _), key in zip(batch, found) if key == own}
        wrong |= {it for it in same if not free.intersection((it, (it[0], "")))}
    assert not wrong
