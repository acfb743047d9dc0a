"""Canonical BPF object files, and keys of object files.

A canonical file is an object file that loaders read like the original, except for source lines. Two
accepted files hold the same parts if and only if their canonical files are equal. docs/OBJECTS.md
defines the file and the causes for which an object file is refused, and says what is proved and
which loaders were compared.

No call reads a path. A program passes the bytes that it then loads, so that nobody can exchange a
file between the check and the load.

Each call raises a FaultError with the first fault of a file that is refused. Its cause is an ObjectCause
or, for a fault of .BTF by itself, a BtfCause; its offset counts from the first byte of the file.
"""

from typing import Any

from .. import _library
from .._library import Buffer
from ..causes import KnownCause
from ..errors import check as checked
from ..header import KEY_SIZE, OBJECT_MAX, BtfCause, ObjectCause, Status

__all__ = ["KEY_SIZE", "MAX_SIZE", "canon", "check", "key", "same"]

# The length in bytes of the longest object file that is accepted, and of the longest canonical one.
MAX_SIZE = OBJECT_MAX


def canon(data: Buffer) -> bytes:
    """Return the canonical file of an object file. It may be longer than that."""
    answer, out = _library.write("object_canon", _library.size_of(data), data)
    _checked(answer)
    return out.tobytes()


def key(data: Buffer) -> bytes:
    """Return the SHA-256 of the canonical file of an object file."""
    answer, out = _library.write("object_key", KEY_SIZE, data)
    _checked(answer)
    return out.tobytes()


def same(first: Buffer, second: Buffer) -> bool:
    """Return whether two object files hold the same parts, that is, whether their canonical files are equal.

    The fault of the second one is raised if the first has none.
    """
    return bool(_checked(_library.ask("object_same", first, second)).status == Status.DONE)


def check(data: Buffer) -> None:
    """Raise the first fault of an object file that has no canonical file. Its instructions aren't checked."""
    _checked(_library.ask("object_check", data))


def _checked(answer: Any) -> Any:
    """Return the answer of a call that succeeded. A fault of .BTF by itself has its number of BTF."""
    kind: type[KnownCause] = BtfCause if answer.cause < ObjectCause.FILE_TOO_LARGE.value else ObjectCause
    return checked(answer, kind)
