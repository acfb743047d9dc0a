"""Programs as instructions, decoded by one call and made when they are asked for, and the way back."""

from __future__ import annotations

import operator
import struct
from itertools import takewhile
from typing import Iterable, Iterator, Sequence, Union, overload

from ._library import Buffer
from .errors import EncodeInsnError, check
from .header import INSN, Group, InsnCause, InsnRecord, Order, Status
from .insn_records import insn_of, record_of
from .insn_types import Insn
from .records import decode_insns, encode_insns


class Program(Sequence[Insn]):
    """The instructions of a program, a sequence.

    records  their records, a read-only memoryview of bytes in the format bpfcanon.records.INSN
    """

    def __init__(self, program: Buffer, *, order: Order = Order.LITTLE) -> None:
        """Decode a program in the byte order `order`.

        No later change of the buffer has an effect. Raises FaultError with an InsnCause, OutOfMemoryError.
        """
        self.records = decode_insns(program, order)

    def __len__(self) -> int:
        return len(self.records) // INSN.size

    @overload
    def __getitem__(self, index: int) -> Insn: ...

    @overload
    def __getitem__(self, index: slice) -> tuple[Insn, ...]: ...

    def __getitem__(self, index: Union[int, slice]) -> Union[Insn, tuple[Insn, ...]]:
        if isinstance(index, slice):
            return tuple(self[it] for it in range(*index.indices(len(self))))
        return insn_of(self.record(index))

    def __iter__(self) -> Iterator[Insn]:
        return map(insn_of, INSN.iter_unpack(self.records))

    def __repr__(self) -> str:
        return f"<Program of {len(self)} instructions>"

    def record(self, index: int) -> InsnRecord:
        """Return the record of an instruction, by its index as in a list. Raises IndexError."""
        return InsnRecord._make(INSN.unpack_from(self.records, INSN.size * range(len(self))[operator.index(index)]))

    def offset(self, index: int) -> int:
        """Return the offset of an instruction in the program, in bytes. Raises IndexError."""
        return self.record(index).offset

    def group(self, index: int) -> Group:
        """Return the conformance group of an instruction, without the groups that it includes. Raises IndexError."""
        return Group(self.record(index).group)

    def with_offsets(self) -> Iterator[tuple[int, Insn]]:
        """Yield each instruction after its offset in the program, in bytes."""
        return ((it[-1], insn_of(it)) for it in INSN.iter_unpack(self.records))


def insns(program: Buffer, *, order: Order = Order.LITTLE) -> Iterator[tuple[int, Insn]]:
    """Decode a program, and yield each instruction after its offset in bytes.

    The whole program is decoded before the first one. Raises FaultError with an InsnCause, OutOfMemoryError.
    """
    return Program(program, order=order).with_offsets()


def insn_encode(values: Iterable[Insn], *, to: Order = Order.LITTLE) -> bytes:
    """Return instructions as bytes in the byte order `to`; little-endian is canonical.

    Raises EncodeInsnError for the first value that isn't an instruction, OrderError.
    """
    given = list(values)
    # The records before the first value that has none: the library may refuse one of them.
    records = list(takewhile(bool, map(packed, given)))
    answer, out = encode_insns(b"".join(records), to)
    is_fault = answer.status == Status.FAULT
    if not is_fault:
        check(answer, InsnCause)
    index = answer.offset if is_fault else len(records)
    if index < len(given):
        raise EncodeInsnError(index, given[index])
    return bytes(out)


def packed(value: Insn) -> bytes:
    """Return the record of an instruction, or b"" for a value that has none."""
    try:
        return record_of(value)
    except (KeyError, TypeError, struct.error):
        return b""
