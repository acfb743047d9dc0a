"""Object files that hypothesis changes with knowledge of ELF and BTF: changes that a loader may see, and changes that it doesn't.

Of what fails hypothesis shows the shortest list of draws.
"""

from __future__ import annotations

import contextlib
import os
import struct
from dataclasses import replace
from typing import Any, Callable, Sequence

from docs.canon import TYPE, Refused, Types
from tests.objects.btf_file import CORE, FUNCTIONS, LINES, RECORDS, Group, records_of, types_of
from tests.objects.draws import CONTENTS, NAMES, Draw
from tests.objects.elf_file import (
    ALLOC, EXECINSTR, FILE, FUNCTION, LOCAL, NOTE, NOTYPE, OBJECT, PROGBITS, REL, ROW, STRTAB, ElfFile, Section, Symbol,
)  # fmt: skip

from hypothesis import HealthCheck, Phase, given, seed, settings, strategies  # isort: skip

COUNT = int(os.environ.get("CHANGED_OBJECTS", "2000"))
BTF_HEADER, EXTENSION_HEADER = "HBBIIIII", "HBBIIIIIII"
Change = Callable[[ElfFile, Draw], None]

# ---- what a loader may see: sections, symbols and relocations


def section(file: ElfFile, draw: Draw) -> None:
    """A field, the name or the content of a section."""
    index = draw.one(file.loaded_names())
    row, how = file.sections[index], draw.one(("field", "field", "name", "content"))
    if how == "field":
        draw.set_field(row, *range(len(file.sections)))
    elif how == "name":
        row.name = draw.one((row.name + 1, draw.one(file.sections).name, file.add_string(file.names, draw.name(file.name(index)))))
    else:
        row.content = draw.content(row.content)


def sections(file: ElfFile, draw: Draw) -> None:
    """A section is removed, moved or exchanged with another one, with its number or without it."""
    order = draw.sequence(len(file.sections), 1)
    if len(set(order)) == len(order) == len(file.sections) and draw.one((False, False, True)):
        file.sections = [file.sections[it] for it in order]
    elif len(set(order)) == len(order):
        file.reorder_sections(order)


def section_twice(file: ElfFile, draw: Draw) -> None:
    """A section once more, with other flags or content, to which symbols and relocations may point."""
    old = draw.one(file.loaded_names())
    row, place = file.sections[old], draw.one((old, old + 1, len(file.sections)))
    flags = row.flags ^ draw.one((0, 0, ALLOC, EXECINSTR, row.flags))
    file.insert(place, replace(row, flags=flags, content=draw.content(row.content)))
    moved, symbols = old + (place <= old), file.symbols()
    for symbol in symbols if draw.one((True, False)) else []:
        symbol.section = place if symbol.section == moved and draw.one((True, False)) else symbol.section
    file.set_symbols(symbols)
    for index in file.of_type(REL) if draw.one((True, False, False)) else []:
        file.sections[index].info = place if file.sections[index].info == moved else file.sections[index].info


def section_more(file: ElfFile, draw: Draw) -> None:
    contents = [*CONTENTS, *(file.sections[it].content for it in file.of_type(REL))]
    name, content = file.add_string(file.names, draw.one(NAMES)), bytearray(draw.one(contents))
    kind, link, info = draw.one((PROGBITS, REL)), draw.one((0, file.symbol_table)), draw.one(range(len(file.sections)))
    row = Section(name, kind, 0, 0, link, info, 1, 0, content, len(content))
    for _ in range(2):
        draw.set_field(row)
    file.insert(draw.one(range(1, len(file.sections) + 1)), row)


def some_symbol(file: ElfFile, draw: Draw) -> int:
    """Most often one that loaders look at."""
    symbols = file.symbols()
    named = [number for number, it in enumerate(symbols) if number and (it.binding != LOCAL or it.type in (OBJECT, FUNCTION))]
    return draw.one((named or range(len(symbols)), range(len(symbols)))[draw.one((0, 0, 0, 1))])


def changed_symbol(file: ElfFile, symbol: Symbol, draw: Draw) -> None:
    if draw.one((False, False, True)):
        symbol.name = file.add_string(file.symbol_names, draw.name(file.string(file.symbol_names, symbol.name)))
    else:
        draw.set_field(symbol, *range(len(file.sections)))


def symbol(file: ElfFile, draw: Draw) -> None:
    symbols = file.symbols()
    changed_symbol(file, symbols[some_symbol(file, draw)], draw)
    file.set_symbols(symbols)


def symbols(file: ElfFile, draw: Draw) -> None:
    """A symbol is removed, moved or exchanged, or there twice with other fields. Relocations follow, or stay with the number."""
    rows = file.symbols()
    order, added = draw.sequence(len(rows), 1), []
    if len(order) > len(rows):
        twice = next(it for it in order if order.count(it) > 1)
        added = [replace(rows[twice])]
        changed_symbol(file, added[0], draw)
        order[order.index(twice)] = len(rows)
    file.reorder_symbols(order, *added, follows=draw.one((True, True, False)))


def relocations(file: ElfFile, draw: Draw) -> None:
    """A relocation has another symbol, type or offset; is removed, there twice, moved, or exchanged; or the last ones get a table of their own."""
    index = draw.one(it for it in file.of_type(REL) if file.sections[it].content and not file.name(it).startswith(b".rel.debug"))
    rows, how = file.relocations(index), draw.one(("field", "field", "sequence", "split"))
    if how == "field":
        draw.set_field(draw.one(rows), *range(len(file.symbols()) + 1))
    elif how == "sequence":
        rows = [rows[it] for it in draw.sequence(len(rows))]
    else:
        at, row = draw.one(range(len(rows))), file.sections[index]
        rows, twin = rows[:at], replace(row, content=row.content[16 * at :])
        file.insert(draw.one((index + 1, len(file.sections))), twin)
    file.set_relocations(index, rows)


def header(file: ElfFile, draw: Draw) -> None:
    how = draw.one(("field", "ident", "end"))
    if how == "field":
        draw.set_field(file, *range(len(file.sections)))
    elif how == "ident":
        place = draw.one(range(4, 16))
        file.ident = file.ident[:place] + bytes([draw.one((0, 1, 2, 3, 9, 255))]) + file.ident[place + 1 :]
    else:
        file.end = bytes(draw.one((1, 8, 100)))


# ---- what a loader may see: types and records


def types(file: ElfFile, draw: Draw) -> None:
    """A word or a name of a type, a byte of a string, another byte order, which libbpf reads, or a type more."""
    with types_of(file) as btf:
        names = [it for it in btf.names() if it < len(btf.words)]
        how = draw.one(("word", "word", "name", "name", "string", "added", "order"))
        if how == "word":
            place = draw.one(range(len(btf.words)))
            btf.words[place] = draw.number(btf.words[place], "I", btf.words[place] ^ 1 << draw.one(range(16, 32)), draw.one(btf.words))
        elif how == "name":
            place = draw.one(names)
            old, ends = btf.words[place], [number for number, it in enumerate(btf.strings) if not it]
            other, end, added = draw.one(btf.words[it] for it in names), draw.one(ends), btf.add_string(draw.one(NAMES))
            btf.words[place] = draw.one((other, old + 1, end, len(btf.strings), added))
        elif how == "string":
            place = draw.one((draw.one(btf.words[it] for it in names), draw.one(range(len(btf.strings)))))
            btf.strings[place] = draw.one((0, 0x20, 0x41, 0x80, 0xFF, btf.strings[place] ^ 0x20))
        elif how == "added":
            name = btf.add_string(draw.one((b"added", b".maps", b"license", b".rodata", b"dummy_ksym")))
            btf.words += draw.one(([name, 1 << 24, 4, 32], [name, 15 << 24, 4], [name, 2 << 24, 1], [name, 14 << 24, 1, 1], [name, 12 << 24, 2]))
        else:
            btf.sign = ">" if btf.sign == "<" else "<"


def records(file: ElfFile, draw: Draw) -> None:
    """A record of functions, lines or CO-RE with another word, or in another sequence; and the groups of a section in another one."""
    with records_of(file) as extension:
        part = draw.one(it for it in extension.parts if it.groups)
        group, how = draw.one(part.groups), draw.one(("word", "word", "records", "records", "groups", "split", "longer"))
        if how == "word":
            record = draw.one(group.records)
            place = draw.one(range(len(record)))
            record[place] = draw.number(record[place], "I")
        elif how == "records":
            group.records = [group.records[it] for it in draw.sequence(len(group.records))]
        elif how == "groups":
            part.groups = [part.groups[it] for it in draw.sequence(len(part.groups))]
        elif how == "split":
            at = draw.one(range(len(group.records) + 1))
            part.groups.insert(draw.one(range(len(part.groups) + 1)), Group(group.name, group.records[at:]))
            group.records = group.records[:at]
        else:
            words = draw.one(([0], [0, 0], [7], [0, 9]))
            part.size += 4 * len(words)
            for each in part.groups:
                each.records = [[*it, *words] for it in each.records]


def strings_of_records(file: ElfFile, draw: Draw) -> None:
    """The records of a section are those of another one, which the file may not have; or an access string is written in another way."""
    with types_of(file) as btf, records_of(file) as extension:
        if draw.one((True, False)):
            group = draw.one(extension.groups())
            group.name = draw.one((btf.add_string(draw.one(NAMES)), draw.one(extension.groups()).name, 0, len(btf.strings)))
        else:
            record = draw.one(extension.part(CORE).records())
            access = btf.string(record[2])
            spelled = b"0" + access, access.replace(b":", b"::"), access + b" ", b" " + access, b"+" + access
            record[2] = btf.add_string(draw.one((*spelled, access + b":0", access + b"\xff", b"0:1", b"")))


def btf_header(file: ElfFile, draw: Draw) -> None:
    """A field of the header of .BTF or .BTF.ext."""
    name, form = draw.one(((b".BTF", BTF_HEADER), (b".BTF", BTF_HEADER), (b".BTF.ext", EXTENSION_HEADER)))
    content = file.sections[file.indices(name)[0]].content
    fields = list(struct.unpack_from(file.sign + form, content))
    place = draw.one(range(len(fields)))
    fields[place] = draw.number(fields[place], form[place], *fields)
    struct.pack_into(file.sign + form, content, 0, *fields)


MEANT: tuple[Change, ...] = (
    section, section, section, sections, sections, section_twice, section_twice, section_more, section_more,
    symbol, symbol, symbol, symbols, symbols, symbols, relocations, relocations, header,
    types, types, types, records, records, strings_of_records, btf_header,
)  # fmt: skip

# ---- what a loader doesn't see


def debug_removed(file: ElfFile, draw: Draw) -> None:
    """As llvm-strip -g does; or only some of the sections."""
    debug = [it for it in range(1, len(file.sections)) if file.name(it).startswith((b".debug", b".rel.debug"))]
    kept = draw.one(((), draw.shuffled(debug)[: len(debug) // 2]))
    file.reorder_sections([it for it in range(len(file.sections)) if it in kept or it not in debug])


def symbols_reordered(file: ElfFile, draw: Draw) -> None:
    """The local symbols, or all, in another sequence."""
    symbols = file.symbols()
    first = draw.one(((*(number for number, it in enumerate(symbols) if it.binding != LOCAL), len(symbols))[0], len(symbols)))
    file.reorder_symbols([0, *draw.shuffled(range(1, first)), *range(first, len(symbols))])


def labels_removed(file: ElfFile, draw: Draw) -> None:
    """As llvm-strip --discard-locals does: local symbols that no relocation needs."""
    needed = {it.symbol for index in file.of_type(REL) for it in file.relocations(index)}
    labels = [number for number, it in enumerate(file.symbols()) if number and it.binding == LOCAL and it.type in (NOTYPE, FILE)]
    file.reorder_symbols([it for it in range(len(file.symbols())) if it in needed or it not in labels])


def label_added(file: ElfFile, draw: Draw) -> None:
    """A label, or the name of the source, which nothing refers to."""
    symbols = file.symbols()
    section = draw.one((0xFFF1, *(it.section for it in symbols if it.type in (FUNCTION, OBJECT))))
    row = Symbol(file.add_string(file.symbol_names, b"LBB9_9"), draw.one((NOTYPE, FILE)), 0, section, 8, 0)
    file.reorder_symbols([0, len(symbols), *range(1, len(symbols))], row)


def names_laid_out(file: ElfFile, draw: Draw) -> None:
    """The table of names with its strings in another sequence, and one that nobody uses."""
    table, symbols, rows = file.symbol_names, file.symbols(), file.sections[1:]
    users = [*symbols, *(rows if file.names == table else [])]
    names = [file.string(table, it.name) for it in users]
    if file.sections[table].type == STRTAB:
        file.sections[table].content = bytearray(b"\0")
        places = {b"": 0} | {it: file.add_string(table, it) for it in draw.shuffled(sorted({*names, b"unused"} - {b""}))}
        for user, name in zip(users, names):
            user.name = places[name]
        file.set_symbols(symbols)


def type_strings_laid_out(file: ElfFile, draw: Draw) -> None:
    with contextlib.ExitStack() as stack:
        btf, extension = stack.enter_context(types_of(file)), stack.enter_context(records_of(file)) if file.find(b".BTF.ext") else None
        users = [(btf.words, it) for it in btf.names()]
        boxes = [[it.name] for it in extension.groups()] if extension else []
        users += [(it, 0) for it in boxes]
        users += [(record, it) for part in (extension.parts if extension else []) for record in part.records() for it in RECORDS[part.word][1]]
        if max(words[place] for words, place in users) >= len(btf.strings):
            return
        strings = [btf.string(words[place]) for words, place in users]
        btf.strings = bytearray(b"\0")
        places = {b"": 0} | {it: btf.add_string(it) for it in draw.shuffled(sorted({*strings, b"nobody uses this"} - {b""}))}
        for (words, place), string in zip(users, strings):
            words[place] = places[string]
        for group, box in zip(extension.groups() if extension else [], boxes):
            group.name = box[0]


def layout_changed(file: ElfFile, draw: Draw) -> None:
    """Contents in another sequence, not aligned, with other bytes between them; and the table of sections before them."""
    file.layout, file.padding = draw.shuffled(file.layout), draw.one(range(256))
    file.table_first = draw.one((False, False, True))
    for number in range(1, len(file.sections)) if draw.one((False, False, True)) else ():
        file.sections[number].alignment = file.sections[number].alignment if file.name(number) == b".maps" else 1


def lines_changed(file: ElfFile, draw: Draw) -> None:
    """Source lines move, as a comment in the source moves them, and their files and texts are others."""
    with types_of(file) as btf, records_of(file) as extension:
        text = btf.add_string(draw.one((b"/elsewhere/source.c", b"", b"\treturn 2; /* a note */", b"x" * 300)))
        place, by = draw.one((0, 1, 2)), draw.one(range(9)) << 10
        for record in extension.part(LINES).records():
            record[3] = record[3] + by & 0xFFFFFFFF
            record[place] = text if place else record[0]


def note_added(file: ElfFile, draw: Draw) -> None:
    name, kind = draw.one(((b".comment", PROGBITS), (b".note.x", NOTE), (b".debug_notes", PROGBITS), (b".strtab2", STRTAB)))
    content = bytearray(b"\0made by a test\0")
    file.insert(len(file.sections), Section(file.add_string(file.names, name), kind, 0, 0, 0, 0, 1, 0, content, len(content)))


def types_moved(file: ElfFile, draw: Draw) -> None:
    """Types whose order a compiler leaves to chance are elsewhere, and all numbers of types follow."""
    with types_of(file) as btf, contextlib.ExitStack() as stack:
        kinds = [(it.kind, it) for it in Types(bytes(btf.write())).records]
        moved = [number for number, (kind, _) in enumerate(kinds) if kind in ("VAR", "FWD", "TYPE_TAG")]
        order = [number for number in range(len(kinds)) if number not in moved]
        for number in draw.shuffled(moved):
            order.insert(draw.one(range(1, len(order) + 1)), number)
        numbers = {old: new for new, old in enumerate(order)}
        rows = [kinds[old][1] for old in order[1:]]
        btf.words = [numbers[word] if field == TYPE else word for it in rows for field, word in zip(it.fields, it.words)]
        extension = stack.enter_context(records_of(file)) if file.find(b".BTF.ext") else None
        for record in [it for word in (FUNCTIONS, CORE) for it in extension.part(word).records()] if extension else []:
            record[1] = numbers.get(record[1], record[1])


KEPT: tuple[Change, ...] = (
    debug_removed, symbols_reordered, labels_removed, label_added, names_laid_out, type_strings_laid_out, layout_changed, lines_changed,
    note_added, types_moved,
)  # fmt: skip


def change_bytes(data: bytearray, draw: Draw) -> None:
    """A byte anywhere, or a field of a row of the table of sections."""
    sign = "<" if data[5:6] == b"\1" else ">"
    (table,), (count,) = struct.unpack_from(sign + "Q", data, 40), struct.unpack_from(sign + "H", data, 60)
    place, form = draw.one(range(len(data))), "B"
    if draw.one((True, False)):
        number = draw.one(range(len(ROW)))
        place, form = table + 64 * draw.one(range(max(count, 1))) + struct.calcsize("<" + ROW[:number]), ROW[number]
    (old,) = struct.unpack_from(sign + form, data, place)
    struct.pack_into(sign + form, data, place, draw.number(old, form, len(data)))


@strategies.composite
def changed(draw: Any, bases: Sequence[bytes]) -> bytes:
    """One of these objects after some changes. A file that earlier ones have made inconsistent may have nothing for one."""
    own = Draw(draw)
    file = ElfFile.read(own.one(bases))
    for changes, counts in (MEANT, (0, 1, 1, 1, 1, 2, 3)), (KEPT, (0, 0, 1, 2)):
        for _ in range(own.one(counts)):
            with contextlib.suppress(IndexError, ValueError, struct.error, Refused):
                own.one(changes)(file, own)
    data = file.write()
    if own.one((False, False, False, False, False, False, True)):
        with contextlib.suppress(IndexError, struct.error):
            change_bytes(data, own)
    return bytes(data)


def each_changed(bases: Sequence[bytes]) -> Callable[[Callable[[bytes], None]], Callable[[], None]]:
    """A test of COUNT changed objects, which depend on CHANGED_SEED."""
    how = settings(max_examples=COUNT, deadline=None, database=None, phases=(Phase.generate, Phase.shrink), suppress_health_check=list(HealthCheck))
    return lambda test: seed(os.environ.get("CHANGED_SEED", "1"))(how(given(changed(bases))(test)))
