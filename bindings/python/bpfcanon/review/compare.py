"""What differs between two object files: the parts, with the source lines of changed instructions."""

from __future__ import annotations

import difflib
import itertools
import os
from dataclasses import dataclass
from typing import Iterator, NamedTuple, Optional, Sequence

from .accepted import Accepted
from .parts import Line, Part, parts
from .source import Sources

MAX_LINES = 4_000  # of two texts; longer ones aren't compared line by line, because difflib takes quadratic time
CONTEXT = 2  # lines around a difference
# What follows comes from the original file, and neither its key nor a signature of its canonical file covers it. Names have no # outside quotes
# after a blank, so nothing else looks like it.
UNSIGNED = "  # not signed: "
Operation = tuple[str, int, int, int, int]  # as difflib has them


class DiffLine(NamedTuple):
    """A line of a unified diff: its sign, which is a blank, - or +, its text, and the source of an instruction as what isn't signed."""

    sign: str
    text: str
    source: str = ""

    def __str__(self) -> str:
        return f"{self.sign}{self.text}" + (f"{UNSIGNED}{self.source}" if self.source else "")


@dataclass(frozen=True)
class Hunk:
    """Differences that are close together, with the lines around them: where it begins in the old and in the new text, from 0 on."""

    old_start: int
    new_start: int
    lines: tuple[DiffLine, ...]

    @property
    def head(self) -> str:
        """Where it begins, as a unified diff has it."""
        return f"@@ -{self.old_start + 1} +{self.new_start + 1} @@"

    @property
    def old_end(self) -> int:
        """Where it ends in the old text."""
        return self.old_start + sum(it.sign != "+" for it in self.lines)


@dataclass(frozen=True)
class Change:
    """A part that is added, removed or changed: the word for this, its title, and a unified diff; of a function also its digests."""

    word: str
    title: str
    digests: tuple[DiffLine, ...]
    hunks: tuple[Hunk, ...]

    @property
    def text(self) -> str:
        """The word and the title."""
        return f"{self.word} {self.title}"

    @property
    def lines(self) -> tuple[str, ...]:
        """The digests and the unified diff as lines of text."""
        hunks = ((it.head, *map(str, it.lines)) for it in self.hunks)
        return (*map(str, self.digests), *itertools.chain.from_iterable(hunks))


class Side:
    """One of two files that are compared, with its parts by their titles."""

    def __init__(self, object: Accepted) -> None:
        self.parts: dict[str, Part] = {it.title: it for it in parts(object)}
        self._sources = Sources(object.original)

    def lines(self, title: str) -> tuple[Line, ...]:
        """Return the lines of a part; none if there is none."""
        return self.parts[title].lines if title in self.parts else ()

    def changed(self, sign: str, lines: Sequence[Line]) -> Iterator[DiffLine]:
        """Yield lines that only this file has, with the source of instructions."""
        for it in lines:
            yield DiffLine(sign, it.text, self._sources.at(it.section, it.offset) if it.section else "")


def compare(old: Accepted, new: Accepted) -> Iterator[Change]:
    """Yield what differs, and at last the titles of what is in another sequence. Nothing if and only if the canonical files are equal."""
    if old.canonical == new.canonical:
        return
    one, two = Side(old), Side(new)
    for title in dict.fromkeys([*one.parts, *two.parts]):
        before, after = one.parts.get(title), two.parts.get(title)
        if before != after:
            word = "added" if before is None else "removed" if after is None else "changed"
            hunks = unified(one, two, one.lines(title), two.lines(title))
            yield Change(word, title, (*digest("-", before), *digest("+", after)), tuple(hunks))
    titles = [tuple(Line(it) for it in side.parts if it in one.parts and it in two.parts) for side in (one, two)]
    if titles[0] != titles[1]:
        yield Change("changed", "sequence", (), tuple(unified(one, two, *titles)))


def digest(sign: str, it: Optional[Part]) -> Iterator[DiffLine]:
    """Yield the digest of a function, as `list` has it."""
    if it and it.kind == "function":
        yield DiffLine(sign, f"\tdigest={it.digest}")


def unified(one: Side, two: Side, first: Sequence[Line], second: Sequence[Line]) -> Iterator[Hunk]:
    """Yield the hunks of a unified diff."""
    for group in operations([it.text for it in first], [it.text for it in second]):
        lines: list[DiffLine] = []
        for word, start, end, other_start, other_end in group:
            if word == "equal":
                lines += (DiffLine(" ", it.text) for it in first[start:end])
            else:
                lines += (*one.changed("-", first[start:end]), *two.changed("+", second[other_start:other_end]))
        yield Hunk(group[0][1], group[0][3], tuple(lines))


def operations(first: list[str], second: list[str]) -> list[list[Operation]]:
    """Return what makes one text of another, in groups of what is close together."""
    if len(first) + len(second) <= MAX_LINES:
        return list(difflib.SequenceMatcher(None, first, second).get_grouped_opcodes(CONTEXT))
    start = len(os.path.commonprefix([first, second]))
    end = len(os.path.commonprefix([first[start:][::-1], second[start:][::-1]]))
    return [[("replace", start, len(first) - end, start, len(second) - end)]]
