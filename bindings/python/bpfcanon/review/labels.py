"""Names as they are printed: each in one word, and no two things by one name."""

from __future__ import annotations

import json
from collections import Counter

MARKS = frozenset(' "#<>')


def printed(name: str) -> str:
    """Return a name as it is, or in quotes if it isn't one word of printable ASCII."""
    is_word = name != "" and name.isascii() and name.isprintable() and not MARKS.intersection(name)
    return name if is_word else json.dumps(name)


class Labels:
    """What things are called: NAME, and NAME#2 is the second one of this name."""

    def __init__(self) -> None:
        self._counts: Counter[str] = Counter()

    def next(self, name: str) -> str:
        """Return the label of the next thing with a name."""
        self._counts[name] += 1
        return name if self._counts[name] == 1 else f"{name}#{self._counts[name]}"


def printable(text: str) -> str:
    """Return a text from a file without anything that a terminal or a log would act on."""
    return text if text.isprintable() else text.encode("unicode_escape", "surrogateescape").decode()


def printable_line(text: str) -> str:
    """Return a line of a text, in which tabs are what they are."""
    return text if text.replace("\t", " ").isprintable() else printable(text)
