"""Where the instructions of a program are when it is loaded: those of the functions that it calls follow its own, and the kernel numbers them all."""

from __future__ import annotations

import bisect
from dataclasses import dataclass
from itertools import accumulate
from typing import Iterable, Optional

from ..insn_types import CallLocal, Wide
from .accepted import Accepted, Section
from .code import SLOT, instructions

SHARED = ".text"  # the section with the functions that aren't programs


@dataclass(frozen=True)
class Function:
    """A function: its label, the index of its section, and where it begins and ends there."""

    label: str
    section: int
    start: int
    end: int


class Functions:
    """The functions of an object file."""

    def __init__(self, object: Accepted) -> None:
        self._object = object
        sections = object.sections.values()
        code = {it.index for it in sections if it.is_code}
        symbols = (it for it in object.symbols if it.type == "FUNC" and it.section in code)
        found = [Function(it.label, it.section, it.value, it.value + it.size) for it in symbols]
        self._at = {(it.section, it.start): it for it in reversed(found)}
        # The functions that a loader may load as programs.
        self.programs = [it for it in found if self.section(it).name != SHARED]
        self._calls: dict[Function, dict[int, Function]] = {}
        tables = [it for it in sections if it.type == "REL" and it.target in code]
        self._symbols = {(table.target, offset): symbol for table in tables for offset, _, symbol in object.relocated(table)}
        groups = ((object.code[it.section].index, it) for it in object.extension.core if it.section in object.code)
        # Loaders rewrite these instructions for the kernel that they find.
        self.rewritten = {(index, record[0]) for index, group in groups for record in group.records}

    def section(self, function: Function) -> Section:
        """Return the section of a function."""
        return self._object.sections[function.section]

    def calls(self, function: Function) -> dict[int, Function]:
        """Return what a function calls, or takes the address of, by the offsets of the instructions that do. Raises OutOfMemoryError."""
        if function not in self._calls:
            code = self.section(function).content[function.start : function.end]
            found = ((function.start + it.offset, it) for it in instructions(code, self._object.order) if isinstance(it.value, (CallLocal, Wide)))
            targets = ((offset, self._target(function.section, offset, it.addend, isinstance(it.value, Wide))) for offset, it in found)
            self._calls[function] = {offset: target for offset, target in targets if target}
        return self._calls[function]

    def _target(self, section: int, offset: int, addend: int, is_load: bool) -> Optional[Function]:
        symbol = self._symbols.get((section, offset))
        if symbol is None:
            return None if is_load else self._at.get((section, offset + addend))
        return self._at.get((symbol.section, symbol.value + addend))

    def layouts(self, program: Function) -> list[Layout]:
        """Return the layouts that loaders make of a program: that of libbpf, and that of cilium/ebpf."""
        return [Layout(self, self._by_depth(program)), Layout(self, self._by_name(program))]

    def _by_depth(self, program: Function) -> list[Function]:
        """Return a program and what it calls as libbpf does: each function is followed by what it is the first to call."""
        found, waiting = {program: True}, [iter(self.calls(program).values())]
        while waiting:
            callee = next(waiting[-1], None)
            if callee is None:
                waiting.pop()
            elif callee not in found:
                found[callee] = True
                waiting.append(iter(self.calls(callee).values()))
        return list(found)

    def _by_name(self, program: Function) -> list[Function]:
        """Return a program and what it calls as cilium/ebpf does: what a function calls is in the sequence of the names."""
        found, order = {program}, [program]
        for function in order:
            callees = sorted(set(self.calls(function).values()) - found, key=lambda it: it.label)
            found.update(callees)
            order += callees
        return order


class Layout:
    """A program and the functions that it calls, in the sequence in which a loader puts them."""

    def __init__(self, functions: Functions, order: list[Function]) -> None:
        self._functions, self._order, self.program = functions, order, order[0]
        self._starts = list(accumulate(((it.end - it.start) // SLOT for it in order), initial=0))
        self._number_of = dict(zip(order, self._starts))

    def place(self, number: int) -> Optional[tuple[Function, int]]:
        """Return the function with the instruction of a number, and the offset of this in its section; None if there is none."""
        index = bisect.bisect_right(self._starts, number) - 1
        if index >= len(self._order):
            return None
        function = self._order[index]
        return function, function.start + SLOT * (number - self._starts[index])

    def misfit(self, seen: Iterable[tuple[str, Optional[str], Optional[str]]]) -> Optional[str]:
        """Return the number of the first instruction that is another one than a log says; None if there is none."""
        return next((it[0] for it in seen if not self._has(*it)), None)

    def _has(self, number: str, opcode: Optional[str], distance: Optional[str]) -> bool:
        found = self.place(int(number))
        if found is None:
            return False
        function, offset = found
        if not opcode or (function.section, offset) in self._functions.rewritten:
            return True
        callee = self._functions.calls(function).get(offset) if distance else None
        is_there = callee is None or self._number_of[callee] == int(number) + 1 + int(distance or 0)
        return is_there and self._functions.section(function).content[offset] == int(opcode, 16)
