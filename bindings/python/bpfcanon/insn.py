"""Calls on BPF instructions (RFC 9669) and their listings."""

from typing import Iterable, Iterator, NamedTuple, Optional, Union

from . import _library
from ._library import Buffer
from .errors import BpfcanonError, FaultError, check, error_of
from .header import Group, InsnCause, LineCause, Order, Status


def insn_canon(program: Buffer, *, order: Order = Order.LITTLE, to: Order = Order.LITTLE) -> bytes:
    """Convert a program from the byte order `order` to the byte order `to`.

    With `to` little the result is its canonical bytes. It is as long as the program.
    Raises FaultError with an InsnCause, OutOfMemoryError.
    """
    answer, out = _library.write("insn_canon", _library.size_of(program), order, to, program)
    check(answer, InsnCause)
    return bytes(out)


def insn_show(program: Buffer, *, order: Order = Order.LITTLE) -> str:
    """Return the listing of a program: one line for each instruction, with a newline.

    docs/FORMATS.md describes the lines. Raises FaultError with an InsnCause, OutOfMemoryError.
    """
    # The longest line is 4 times as long as its instruction.
    answer, out = _library.write("insn_show", 4 * _library.size_of(program), order, program)
    check(answer, InsnCause)
    return str(out, "ascii")


def insn_read(listing: Union[str, Buffer], *, to: Order = Order.LITTLE) -> bytes:
    """Return the instructions of a listing, in the byte order `to`.

    Comments, blank lines and hexadecimal numbers are allowed. Raises FaultError with a LineCause and the
    line, OutOfMemoryError.
    """
    text = listing.encode() if isinstance(listing, str) else listing
    # Most lines are longer than their instruction. "exit" with its newline is not: 5 bytes for 8.
    answer, out = _library.write("insn_read", _library.size_of(text), to, text)
    check(answer, LineCause)
    return bytes(out)


def insn_groups(program: Buffer, *, order: Order = Order.LITTLE) -> Group:
    """Return the conformance groups that a program needs, and the groups that these include.

    Raises FaultError with an InsnCause.
    """
    return Group(check(_library.ask("insn_groups", order, program), InsnCause).groups)


def insn_same(
    first: Buffer, second: Buffer, *, first_order: Order = Order.LITTLE, second_order: Order = Order.LITTLE
) -> bool:
    """Return whether two programs, each in its own byte order, have the same instructions.

    Raises FaultError with an InsnCause.
    """
    answer = _library.ask("insn_same", first_order, first, second_order, second)
    return bool(check(answer, InsnCause).status == Status.DONE)


class Front(NamedTuple):
    """The complete instructions at the start of a buffer.

    output  the instructions, in the byte order `to`
    read    how many bytes of the input they are
    error   why the call stopped there: a FaultError, which remains whatever bytes follow, OutOfMemoryError or
            OrderError; None if fewer than 16 bytes are left, which may begin an instruction
    """

    output: bytes
    read: int
    error: Optional[BpfcanonError]


def insn_front(piece: Buffer, *, order: Order = Order.LITTLE, to: Order = Order.LITTLE) -> Front:
    """Convert the complete instructions at the start of a buffer.

    A BpfcanonError is returned in the Front, not raised.
    """
    answer, out = _library.write("insn_front", _library.size_of(piece), order, to, piece)
    return Front(bytes(out), answer.read, error_of(answer, InsnCause))


def insn_stream(pieces: Iterable[Buffer], *, order: Order = Order.LITTLE, to: Order = Order.LITTLE) -> Iterator[bytes]:
    """Convert a stream of instructions in pieces, which may be cut anywhere.

    Yields the instructions that each piece completes, and holds fewer than 16 bytes between pieces.
    A fault is raised after the instructions before it, with its offset in the stream.
    Raises FaultError with an InsnCause, OutOfMemoryError, and TypeError if a piece isn't a buffer. Put a single buffer into a list:
    iterating over the buffer itself yields integers.
    """
    held, done = b"", 0
    for piece in pieces:
        given = held + memoryview(piece).tobytes()
        front = insn_front(given, order=order, to=to)
        if front.output:
            yield front.output
        if front.error is not None:
            raise moved(front.error, done)
        held, done = given[front.read :], done + front.read
    try:
        insn_canon(held, order=order, to=to)
    except BpfcanonError as error:
        raise moved(error, done) from None


def moved(error: BpfcanonError, offset: int) -> BpfcanonError:
    """Return the error with its offset counted from the start of the stream."""
    return type(error)(error.cause, offset + error.offset) if isinstance(error, FaultError) else error
