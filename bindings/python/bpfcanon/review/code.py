"""The instructions of a section, as the core lists them. A slot that the core refuses is shown as bytes, and what follows as instructions."""

from __future__ import annotations

from dataclasses import dataclass
from typing import Iterator, Optional

import bpfcanon

from ..header import Order
from ..errors import FaultError
from ..insn_types import Branch, CallLocal, Insn, Jump, JumpLong, Number, Wide

WINDOW = 4_096  # bytes that are read at once: a fault ends what is read
SLOT = 8


@dataclass(frozen=True)
class Instruction:
    """An instruction: its offset in the section, its text without the distance of a jump, and its value; None for bytes that are refused."""

    offset: int
    text: str
    value: Optional[Insn] = None

    @property
    def target(self) -> Optional[int]:
        """The offset that it jumps to."""
        distance = distance_of(self.value)
        return None if distance is None else self.offset + SLOT * (distance + 1)

    @property
    def addend(self) -> int:
        """The offset, in the section of its relocation, of what it refers to."""
        if isinstance(self.value, CallLocal):
            return SLOT * (self.value.imm + 1)
        return self.value.what.value if isinstance(self.value, Wide) and isinstance(self.value.what, Number) else 0


def distance_of(value: Optional[Insn]) -> Optional[int]:
    """Return how many slots a jump skips; None for other instructions."""
    if isinstance(value, (Jump, Branch)):
        return value.off
    return value.imm if isinstance(value, JumpLong) else None


def instructions(code: bytes, order: Order) -> Iterator[Instruction]:
    """Yield the instructions of a section. Raises OutOfMemoryError."""
    place = 0
    while place < len(code):
        front = bpfcanon.insn_front(code[place : place + WINDOW], order=order)
        if front.error and not isinstance(front.error, FaultError):
            raise front.error
        yield from listed(front.output, place)
        if front.read == 0:
            yield Instruction(place, f".bytes {code[place : place + SLOT].hex(' ')}")
        place += front.read or SLOT


def listed(code: bytes, place: int) -> Iterator[Instruction]:
    """Yield canonical instructions, the first of which is at a place."""
    for text, (offset, value) in zip(bpfcanon.insn_show(code).splitlines(), bpfcanon.insns(code)):
        distance = distance_of(value)
        yield Instruction(place + offset, text if distance is None else text.removesuffix(f"{distance:+d}"), value)
