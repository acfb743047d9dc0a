"""A verifier's log of a canonical file with the source lines of the original, as the kernel prints them if the original is loaded."""

from __future__ import annotations

import re
from typing import Iterator, Optional

import bpfcanon

from .accepted import Accepted
from .labels import printed, printable_line
from .layout import Functions, Layout
from .source import SourceLine, Sources

UNSIGNED = '# not signed: the lines that begin with "; ", which are of '
# An instruction: its number, its opcode, and the distance of a call of a function. libbpf writes <invalid ..> over some.
NUMBERED = re.compile(r"(\s*)([0-9]{1,7}): (?:\(([0-9a-f]{2})\) (?:call pc([+-][0-9]{1,7})\b)?|<invalid )")
EMPTY = re.compile(r"\s*;\s*(?:@ :0\s*)?")  # the source line of a canonical file
# Logs of failures leave out the paths that end well. What follows is then in the line of a branch, or after its number.
REJOINED, FROM = re.compile(r" [0-9]+: "), re.compile(r"\s*from ([0-9]+) to ")
# Where libbpf or cilium/ebpf begins or ends the log of a program, and words that are in each such line.
BORDERS = ("LOG --", "load program: ")
BORDER = re.compile(r"(?:prog '([^']*)': )?-- (?:BEGIN|END) |(?:program (\S+): )?load program: ")


Seen = tuple[str, Optional[str], Optional[str]]  # the number, the opcode and the distance in a line


class LogError(bpfcanon.BpfcanonError):
    """A log that isn't of a canonical file, or of another one."""


def parts_of(text: str) -> Iterator[tuple[str, list[str]]]:
    """Yield the logs in a text, each with the name of its program or "", and the lines that begin or end one."""
    name, lines = "", list[str]()
    for line in text.split("\n"):
        border = BORDER.search(line) if BORDERS[0] in line or BORDERS[1] in line else None
        if border:
            yield name, lines
            yield "", [line]
            name, lines = border[1] or border[2] or "", []
        else:
            lines.append(line)
    yield name, lines


class Annotator:
    """Puts the source lines of an original into the logs of its canonical file; with the name of a program, only into those of this program."""

    def __init__(self, object: Accepted, program: str = "") -> None:
        self._object, self._wanted = object, printed(program) if program else ""
        self._functions, self._sources = Functions(object), Sources(object.original)

    def lines(self, log: bytes) -> Iterator[str]:
        """Yield the lines of a log. Raises LogError, OutOfMemoryError."""
        text = log.decode(errors="surrogateescape").replace("\r\n", "\n").removesuffix("\n")
        for name, lines in parts_of(text):
            label = printed(name) if name else self._wanted
            # Of a first line the beginning may be cut off.
            numbered = [None, *map(NUMBERED.match, lines[1:])]
            if any(numbered) and self._wanted in ("", label):
                if any(it.lstrip().startswith(";") and not EMPTY.fullmatch(it) for it in lines):
                    raise LogError("the log has source lines, so it isn't of a canonical file")
                seen = dict.fromkeys((found[2], found[3], found[4]) for found in numbered if found)
                lines = [*self._annotated(lines, numbered, self._layout(label, [*seen]))]
            yield from map(printable_line, lines)

    def _layout(self, label: str, seen: list[Seen]) -> Layout:
        """Return the layout that has the instructions of a log; that of libbpf, if two of a program have them."""
        programs = [it for it in self._functions.programs if label in ("", it.label)]
        layouts = [it for program in programs for it in self._functions.layouts(program)]
        fitting = [it for it in layouts if it.misfit(seen) is None]
        labels = dict.fromkeys(it.program.label for it in fitting)
        if not programs:
            raise LogError(f"the original has no program {label}".rstrip())
        if not fitting and len(programs) == 1:
            raise LogError(f"instruction {layouts[0].misfit(seen)} isn't that of {programs[0].label}: the log is of another program or build")
        if not fitting:
            raise LogError("no program of the original has these instructions: the log is of another program or build")
        if len(labels) > 1:
            raise LogError(f"the log may be of {' or '.join(labels)}: say which by --program")
        return fitting[0]

    def _annotated(self, lines: list[str], numbered: list[Optional[re.Match[str]]], layout: Layout) -> Iterator[str]:
        """Yield the lines of one log. Like the kernel, this writes a line once until there is another one, or a function or a path begins."""
        previous, last = None, ""
        for line, found in zip(lines, numbered):
            if EMPTY.fullmatch(line):
                previous = None
                continue
            back = FROM.match(line)
            source = self._source(layout, int(found[2])) if found else None
            if back and back[1] == last:
                previous = None
            if found and source and (source.file, source.number) != previous:
                previous = source.file, source.number
                yield f"{found[1]}{self._sources.logged(source)}"
            if found and REJOINED.search(line, found.end()):
                previous = None
            last = found[2] if found else "" if line else last
            yield line

    def _source(self, layout: Layout, number: int) -> Optional[SourceLine]:
        """Return the source line of an instruction. Of several sections with one name, only the first has some."""
        place = layout.place(number)
        section = self._functions.section(place[0]) if place else None
        if place is None or section is None or self._object.code.get(section.name) is not section:
            return None
        return self._sources.line(section.name, place[1])
