"""The exceptions of the package, and how an answer of the library turns into one."""

from typing import Any, Optional

from .causes import Cause, KnownCause, OtherCause, cause_of
from .header import Status


class BpfcanonError(Exception):
    """Base class of the errors that the calls of this package raise.

    The others are TypeError, and OSError if the library can't be loaded.
    """


class FaultError(BpfcanonError, ValueError):
    """The first fault of an input.

    cause   an InsnCause, a LineCause, a BtfCause or an ObjectCause, or an OtherCause
    offset  the offset of the fault in bytes; 0 in a listing
    line    the line of the fault in a listing, from 1; 0 in other inputs
    second  whether the fault is in the second of two inputs and the first is valid
    """

    def __init__(self, cause: Cause, offset: int = 0, line: int = 0, second: bool = False) -> None:
        super().__init__(cause, offset, line, second)
        self.cause = cause
        self.offset = offset
        self.line = line
        self.second = second

    def __str__(self) -> str:
        position = f"line {self.line}" if self.line else f"byte {self.offset}"
        return f"{'second input: ' if self.second else ''}{position}: {self.cause.label}: {self.cause.text}"


class UnknownCauseError(FaultError):
    """The first fault of an input, with a cause that only a newer library has: an OtherCause."""

    @property
    def number(self) -> int:
        """The number of the cause in the header of the library."""
        return self.cause.value


class UnknownRecordError(BpfcanonError):
    """A record with a form, a kind or an operation that only a newer library has.

    record  the record, as in bpfcanon.records
    """

    def __init__(self, record: tuple[int, ...]) -> None:
        super().__init__(record)
        self.record = record

    def __str__(self) -> str:
        return f"this version of the package doesn't know {self.record}"


class OutOfMemoryError(BpfcanonError, MemoryError):
    """The library ran out of memory."""


class OrderError(BpfcanonError, ValueError):
    """An argument is not a valid byte order."""


class NoSuchTypeError(BpfcanonError, IndexError):
    """A type ID that a BTF file doesn't have.

    id     the ID
    count  the number of types of the file, whose IDs are 1 to this number; 0 is void
    """

    def __init__(self, id: object, count: int) -> None:
        super().__init__(id, count)
        self.id = id
        self.count = count

    def __str__(self) -> str:
        return f"there is no type {self.id!r}: the file has {self.count} types"


class TypeCycleError(BpfcanonError, ValueError):
    """A chain of qualifiers, typedefs and type tags without an end, such as a `const` of itself, which is valid BTF.

    id  the ID from which it was followed
    """

    def __init__(self, id: int) -> None:
        super().__init__(id)
        self.id = id

    def __str__(self) -> str:
        return f"type {self.id} leads back to itself"


class EncodeInsnError(BpfcanonError, ValueError):
    """A value that isn't an instruction: a register over 10, an operation of another form, a number that its field can't hold.

    index  the index of the value among those that were to be encoded, from 0
    insn   the value
    """

    def __init__(self, index: int, insn: object) -> None:
        super().__init__(index, insn)
        self.index = index
        self.insn = insn

    def __str__(self) -> str:
        return f"instruction {self.index} can't be encoded: {self.insn!r}"


class EncodeBtfError(BpfcanonError, ValueError):
    """A value that can't be encoded as a type of BTF.

    index  the index of the value among those that were to be encoded, from 0; its ID is 1 more
    type   the value
    cause  what is wrong, such as BtfCause.REFERENCE if an ID is over the number of types; None for a value that no BTF holds: of
           another class, with a field of another type, a number that its field can't hold, or a name with a NUL
    """

    def __init__(self, index: int, type: object, cause: Optional[Cause]) -> None:
        super().__init__(index, type, cause)
        self.index = index
        self.type = type
        self.cause = cause

    def __str__(self) -> str:
        reason = f"{self.cause.label}: {self.cause.text}" if self.cause else repr(self.type)
        return f"the type with index {self.index} can't be encoded: {reason}"


def error_of(answer: Any, kind: type[KnownCause]) -> Optional[BpfcanonError]:
    """Return the exception that an answer stands for, or None."""
    if answer.status in (Status.DONE, Status.DIFFERENT):
        return None
    if answer.status in (Status.FAULT, Status.FAULT_SECOND):
        cause = cause_of(kind, answer.cause)
        error = UnknownCauseError if isinstance(cause, OtherCause) else FaultError
        return error(cause, answer.offset, answer.line, answer.status == Status.FAULT_SECOND)
    if answer.status == Status.OUT_OF_MEMORY:
        return OutOfMemoryError("out of memory")
    if answer.status == Status.ORDER:
        return OrderError("no such byte order")
    return BpfcanonError(f"unexpected status {answer.status}")


def check(answer: Any, kind: type[KnownCause]) -> Any:
    """Return the answer of a call that succeeded, or raise its exception."""
    error = error_of(answer, kind)
    if error is not None:
        raise error
    return answer
