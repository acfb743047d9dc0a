"""Canonical bytes of BPF instructions (RFC 9669) and of BTF (Linux Documentation/bpf/btf.rst).

Instructions and BTF can be encoded in either byte order, and BTF can lay out its strings in any
way. Two inputs that are accepted hold the same instructions, or the same types in the same order,
if and only if their canonical bytes are equal. Every other input raises a FaultError with the offset and
the cause of its first fault.

Instructions and types can also be looked at as values: Program and Btf are sequences of the frozen
dataclasses of bpfcanon.insn_types and bpfcanon.types, and insn_encode and btf_encode encode these.

The work is done by the C library libbpfcanon, whose core is proved to meet its contracts. The few
lines of C around that core and this package are tested. The library is loaded at the first call:
libbpfcanon.so.0, or the file that BPFCANON_LIBRARY names.

Inputs are bytes, bytearray, memoryview or mmap. bytes and writable buffers are not copied, except
that insn_stream copies each piece; other read-only buffers are copied. Calls release the
interpreter lock, so several threads can run them at the same time. No thread may write to an input
during a call.
"""

import importlib
from typing import TYPE_CHECKING

from . import _library
from ._library import Buffer
from .btf import btf_canon, btf_check, btf_same, btf_show
from .causes import Cause, OtherCause
from .errors import BpfcanonError, EncodeBtfError, EncodeInsnError, FaultError, NoSuchTypeError, OrderError, OutOfMemoryError
from .errors import TypeCycleError, UnknownCauseError, UnknownRecordError
from .header import BtfCause, Group, InsnCause, LineCause, ObjectCause, Order
from .insn import Front, insn_canon, insn_front, insn_groups, insn_read, insn_same, insn_show, insn_stream

__version__ = "0.1.0"

__all__ = [
    "BpfcanonError", "Btf", "BtfCause", "Buffer", "Cause", "EncodeBtfError", "EncodeInsnError", "FaultError", "Front",
    "Group", "InsnCause", "LineCause", "NoSuchTypeError", "ObjectCause", "Order", "OrderError", "OtherCause",
    "OutOfMemoryError", "Program", "TypeCycleError", "UnknownCauseError", "UnknownRecordError", "btf_canon",
    "btf_check", "btf_encode", "btf_same", "btf_show", "insn_canon", "insn_encode", "insn_front", "insn_groups",
    "insn_read", "insn_same", "insn_show", "insn_stream", "insns", "library_version",
]

# Typed values are loaded when they are first used: their classes take longer to make than the rest of the package.
if TYPE_CHECKING:
    from .program import Program, insn_encode, insns
    from .type_encoding import btf_encode
    from .type_table import Btf
else:
    _TYPED = {"Btf": "type_table", "Program": "program", "btf_encode": "type_encoding", "insn_encode": "program", "insns": "program"}

    def __getattr__(name):
        if name not in _TYPED:
            raise AttributeError(f"module {__name__!r} has no attribute {name!r}")
        return getattr(importlib.import_module(f"{__name__}.{_TYPED[name]}"), name)

    def __dir__():
        return sorted({*globals(), *_TYPED})


def library_version() -> str:
    """Return the version of the C library, for example "0.1.0"."""
    return _library.string("version")
