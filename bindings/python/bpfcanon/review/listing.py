"""The instructions of the sections of code, each with the rows of tables that are about it."""

from __future__ import annotations

import bisect
from collections import defaultdict
from typing import Iterator, Optional

from ..insn_types import CallLocal
from .accepted import Accepted, Row, Symbol
from .code import SLOT, Instruction, instructions
from .notation import Notation
from .tables import Table, tables

NAMED = ("FUNC", "OBJECT")  # types of symbols: those of functions, and of variables and maps


class Listing:
    """The listings of an object file.

    code    the instructions of each section of code, by its index
    tables  the tables in the sequence of the file, and whether the rows of each stand at the instructions: those of the first one of a
            kind and a section do, if nothing of it is lost so
    """

    def __init__(self, object: Accepted, notation: Optional[Notation]) -> None:
        self.code = {it.index: list(instructions(it.content, object.order)) for it in object.sections.values() if it.is_code}
        self.tables: list[tuple[Table, bool]] = []
        self._notes: dict[tuple[int, int], list[Row]] = defaultdict(list)
        self._symbols: dict[int, list[tuple[int, int, Symbol]]] = defaultdict(list)
        for row in sorted((it.value, number, it) for number, it in enumerate(object.symbols) if it.type in NAMED):
            self._symbols[row[2].section].append(row)
        self._add(tables(object, notation))

    def _add(self, found: Iterator[Table]) -> None:
        places = {index: {it.offset for it in listing} for index, listing in self.code.items()}
        seen: set[tuple[str, int]] = set()
        for table in found:
            section = table.section.index if table.section else 0
            is_shown = (table.kind, section) not in seen and table.is_shown_at(places.get(section, set()))
            seen.add((table.kind, section))
            self.tables.append((table, is_shown))
            for row in table.rows if is_shown else ():
                self._notes[section, row.offset].append(row)

    def text(self, section: int, it: Instruction, labels: dict[int, str]) -> str:
        """Return the text of an instruction, with the label that it jumps to, and what is said of it."""
        target, text = it.target, it.text
        if target is not None:
            text += labels.get(target) or f"{(target - it.offset) // SLOT - 1:+d}"
        rows = self._notes.get((section, it.offset), [])
        notes = [self._note(row, it) for row in rows]
        if isinstance(it.value, CallLocal) and not rows:
            notes = [self.name_at(section, it.offset + it.addend)]
        return "  ; ".join([text, *filter(None, notes)])

    def _note(self, row: Row, it: Instruction) -> str:
        """Return the text of a row. A symbol of a whole section is followed by what the instruction means there."""
        return f"{row.text} {self.name_at(row.section, it.addend)}".rstrip() if row.section else row.text

    def name_at(self, section: int, offset: int) -> str:
        """Return the last function or variable of a section that begins at or before an offset; "" if there is none."""
        found = self._symbols.get(section, [])
        before = bisect.bisect_left(found, (offset + 1,))
        if not before:
            return ""
        start, _, symbol = found[before - 1]
        return symbol.label if start == offset else f"{symbol.label}+{offset - start:#x}"

    def cuts(self, section: int, size: int, type: str) -> Iterator[tuple[str, int, int]]:
        """Yield what a section consists of: names of functions or of variables, with the offsets at which they begin and end."""
        names = {start: it.label for start, _, it in reversed(self._symbols.get(section, [])) if it.type == type and start < size}
        starts = sorted({0, *names}) if size else []
        for start, end in zip(starts, [*starts[1:], size]):
            yield names.get(start, "<unnamed>"), start, end
