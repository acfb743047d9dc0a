"""Records of instructions, types and items, as the library decodes them: their layout, and the memory that they are in.

A record has a fixed size and integers as fields, in the byte order of the machine and without padding. capi/bpfcanon.h says what
each field means. An array of records is a read-only memoryview of bytes. `struct` reads it with INSN, TYPE or ITEM, and numpy without a copy:

    numpy.frombuffer(btf.type_records, dtype=TYPE_FIELDS)
"""

from __future__ import annotations

import ctypes
import struct
import weakref
from typing import Any, Optional

from . import _library
from ._library import Buffer
from .errors import check
from .header import BTF_MAX, INSN, ITEM, TYPE, BtfCause, InsnCause, InsnRecord, ItemRecord, Order, TypeRecord


def fields_of(names: tuple[str, ...], layout: struct.Struct) -> list[tuple[str, str]]:
    """Return the fields of a record in sequence, each with its name and its format. numpy makes a dtype of them."""
    return list(zip(names, layout.format.lstrip("=")))


INSN_FIELDS = fields_of(InsnRecord._fields, INSN)
TYPE_FIELDS = fields_of(TypeRecord._fields, TYPE)
ITEM_FIELDS = fields_of(ItemRecord._fields, ITEM)


def decode_insns(program: Buffer, order: Order) -> memoryview:
    """Return the records of the instructions of a program. Raises FaultError with an InsnCause, OutOfMemoryError, OrderError."""
    insns = ctypes.c_void_p()
    answer = check(_library.ask("insn_decode_new", order, program, insns), InsnCause)
    return owned(insns.value, INSN.size * answer.written)


def decode_types(file: bytes) -> tuple[memoryview, memoryview]:
    """Return the records of the types of BTF, and those of the items of all types. Raises FaultError with a BtfCause, OutOfMemoryError."""
    types, items = ctypes.c_void_p(), ctypes.c_void_p()
    answer = check(_library.ask("btf_decode_new", file, types, items), BtfCause)
    return owned(types.value, TYPE.size * answer.types), owned(items.value, ITEM.size * answer.written)


def encode_insns(records: bytes, to: Order) -> tuple[Any, memoryview]:
    """Return the answer of the library to records of instructions, and their bytes.

    A fault has the index of the first record that says no instruction as its `offset`, and no cause.
    """
    count = len(records) // INSN.size
    # The longest instruction has two slots.
    return _library.write("insn_encode", 16 * count, to, aligned(records), count)


def encode_types(types: bytearray, items: bytearray, strings: bytearray, to: Order) -> tuple[Any, memoryview]:
    """Return the answer of the library to records of types, and their canonical BTF. A fault has the index of a type as its `offset`."""
    counts = len(types) // TYPE.size, len(items) // ITEM.size
    # A type has at most 24 bytes without its items, and an item 12.
    capacity = min(BTF_MAX, 32 + 24 * counts[0] + 12 * counts[1] + len(strings))
    return _library.write("btf_encode", capacity, to, aligned(types), counts[0], aligned(items), counts[1], strings)


def aligned(records: Buffer) -> Any:
    """Return a pointer to records. A bytearray is aligned as records have to be, unless it is empty."""
    return _library.pointer_to(records if records and isinstance(records, bytearray) else bytearray(records or 8))


def owned(block: Optional[int], size: int) -> memoryview:
    """Return the bytes of a block of the library, from its address.

    The block is freed when no view of these bytes is left. At the exit of the interpreter it isn't, because a view may be read even
    then.
    """
    if block is None:
        return memoryview(b"")
    memory = (ctypes.c_ubyte * size).from_address(block)
    weakref.finalize(memory, free, block).atexit = False
    return memoryview(memory).toreadonly().cast("B")


def free(block: int) -> None:
    """Free a block of the library."""
    _library.function("free")(block)
