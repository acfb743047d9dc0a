"""Calls on BTF, the types of BPF programs (Linux Documentation/bpf/btf.rst)."""

from . import _library
from ._library import Buffer
from .errors import check
from .header import BtfCause, Order, Status


def btf_canon(types: Buffer, *, to: Order = Order.LITTLE) -> bytes:
    """Return BTF in canonical form, in the byte order `to`.

    With `to` little these are its canonical bytes. They are never longer than the input.
    Raises FaultError with a BtfCause, OutOfMemoryError.
    """
    answer, out = _library.write("btf_canon", _library.size_of(types), to, types)
    check(answer, BtfCause)
    return bytes(out)


def btf_show(types: Buffer) -> str:
    """Return a listing of the types: one line for each type and each of its items, with a newline.

    docs/FORMATS.md describes the lines. Raises FaultError with a BtfCause, OutOfMemoryError.
    """
    # The listing of a kernel's types is about twice as long as they are.
    answer, out = _library.write("btf_show", 3 * _library.size_of(types), types)
    check(answer, BtfCause)
    return str(out, "utf-8")


def btf_check(types: Buffer) -> int:
    """Return the number of types, not counting type 0, void.

    Raises FaultError with a BtfCause, OutOfMemoryError.
    """
    return int(check(_library.ask("btf_check", types), BtfCause).types)


def btf_same(first: Buffer, second: Buffer) -> bool:
    """Return whether two BTF inputs, in any byte order, have the same types in the same order.

    Raises FaultError with a BtfCause, OutOfMemoryError.
    """
    return bool(check(_library.ask("btf_same", first, second), BtfCause).status == Status.DONE)
