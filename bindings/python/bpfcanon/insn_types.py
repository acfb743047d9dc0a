"""Instructions as values (RFC 9669; section numbers are those of this document).

A form of instruction is a frozen dataclass, and its fields have the types of this module. Values are equal if they are the same
instruction. A slot has 8 bytes; in the formulas, `off` is in bytes.
"""

from __future__ import annotations

import enum
from dataclasses import dataclass
from typing import Union

from .header import AluOp as AluOp
from .header import AtomicOp as AtomicOp
from .header import BranchOp as BranchOp
from .header import SwapKind as SwapKind


class Reg(enum.IntEnum):
    """A register, r0 to r10 (section 3.1)."""

    R0 = 0
    R1 = 1
    R2 = 2
    R3 = 3
    R4 = 4
    R5 = 5
    R6 = 6
    R7 = 7
    R8 = 8
    R9 = 9
    R10 = 10


class Width(enum.Enum):
    """The width in bits of an arithmetic, jump or atomic operation (sections 4.1, 4.3 and 5.3)."""

    W32 = 32
    W64 = 64


class Size(enum.Enum):
    """The size in bits of the data that a load or store transfers (section 5)."""

    B = 8
    H = 16
    W = 32
    D = 64  # DW in the standard


class SmallSize(enum.Enum):
    """The size in bits of a sign-extending load or of a load from packet data (sections 5.2 and 5.5)."""

    B = 8
    H = 16
    W = 32


class MovsxForm(enum.Enum):
    """The widths of a sign-extending move (section 4.1): the bits of the destination, and how many low bits of the source it reads."""

    W32_FROM8 = (32, 8)
    W32_FROM16 = (32, 16)
    W64_FROM8 = (64, 8)
    W64_FROM16 = (64, 16)
    W64_FROM32 = (64, 32)


class SwapBits(enum.Enum):
    """The width in bits of a byte swap (section 4.2)."""

    B16 = 16
    B32 = 32
    B64 = 64


@dataclass(frozen=True)
class Imm:
    """A second operand that is the signed 32-bit immediate (source bit K, section 4)."""

    value: int


# The second operand of an operation: an immediate, or a register (source bit X, section 4).
Operand = Union[Imm, Reg]


@dataclass(frozen=True)
class Number:
    """What a wide load loads: an unsigned 64-bit number (src 0, section 5.4)."""

    value: int


@dataclass(frozen=True)
class MapFd:
    """What a wide load loads: a map, by its file descriptor (src 1, section 5.4)."""

    fd: int


@dataclass(frozen=True)
class MapValueFd:
    """What a wide load loads: the address at `offset` bytes in the value of a map, by its file descriptor (src 2, section 5.4)."""

    fd: int
    offset: int


@dataclass(frozen=True)
class VarAddr:
    """What a wide load loads: a platform variable, by its ID (src 3, section 5.4).

    On Linux, loaders store the file descriptor of a module's BTF in `next_imm`.
    """

    id: int
    next_imm: int


@dataclass(frozen=True)
class CodeAddr:
    """What a wide load loads: the address of the instruction `imm` slots after the next one (src 4, section 5.4)."""

    imm: int


@dataclass(frozen=True)
class MapIdx:
    """What a wide load loads: a map, by its index (src 5, section 5.4)."""

    index: int


@dataclass(frozen=True)
class MapValueIdx:
    """What a wide load loads: the address at `offset` bytes in the value of a map, by its index (src 6, section 5.4)."""

    index: int
    offset: int


WideOf = Union[Number, MapFd, MapValueFd, VarAddr, CodeAddr, MapIdx, MapValueIdx]


@dataclass(frozen=True)
class Alu:
    """An arithmetic operation on `dst` and `arg` (section 4.1)."""

    width: Width
    op: AluOp
    dst: Reg
    arg: Operand


@dataclass(frozen=True)
class Movsx:
    """A sign-extending move, MOVSX, from `src` to `dst` (section 4.1)."""

    form: MovsxForm
    dst: Reg
    src: Reg


@dataclass(frozen=True)
class Neg:
    """`dst = -dst` (section 4.1)."""

    width: Width
    dst: Reg


@dataclass(frozen=True)
class Swap:
    """A byte swap of the low bits of `dst` (section 4.2)."""

    kind: SwapKind
    bits: SwapBits
    dst: Reg


@dataclass(frozen=True)
class Jump:
    """A jump by `off` slots, relative to the next instruction (section 4.3)."""

    off: int


@dataclass(frozen=True)
class JumpLong:
    """A jump by `imm` slots, relative to the next instruction (section 4.3)."""

    imm: int


@dataclass(frozen=True)
class Branch:
    """A jump by `off` slots, relative to the next instruction, if the comparison of `dst` and `arg` holds (section 4.3)."""

    width: Width
    op: BranchOp
    dst: Reg
    arg: Operand
    off: int


@dataclass(frozen=True)
class CallHelper:
    """A call of a helper function by its static ID (section 4.3.1)."""

    id: int


@dataclass(frozen=True)
class CallLocal:
    """A call of a function of the same program, `imm` slots relative to the next instruction (section 4.3.2)."""

    imm: int


@dataclass(frozen=True)
class CallBtf:
    """A call of a helper function by its BTF ID (section 4.3.1).

    On Linux, loaders store in `off` which module's BTF has the ID.
    """

    id: int
    off: int


@dataclass(frozen=True)
class Exit:
    """A return from the function (section 4.3)."""


@dataclass(frozen=True)
class Load:
    """`dst = *(src + off)` (section 5.1)."""

    size: Size
    dst: Reg
    src: Reg
    off: int


@dataclass(frozen=True)
class LoadSigned:
    """`dst = *(src + off)`, sign-extended (section 5.2)."""

    size: SmallSize
    dst: Reg
    src: Reg
    off: int


@dataclass(frozen=True)
class StoreImm:
    """`*(dst + off) = imm` (section 5.1)."""

    size: Size
    dst: Reg
    off: int
    imm: int


@dataclass(frozen=True)
class StoreReg:
    """`*(dst + off) = src` (section 5.1)."""

    size: Size
    dst: Reg
    src: Reg
    off: int


@dataclass(frozen=True)
class Atomic:
    """An atomic operation on `*(dst + off)` with `src` (section 5.3)."""

    width: Width
    op: AtomicOp
    dst: Reg
    src: Reg
    off: int


@dataclass(frozen=True)
class Wide:
    """A load of a 64-bit value, the only instruction that has two slots (section 5.4)."""

    dst: Reg
    what: WideOf


@dataclass(frozen=True)
class PacketAbs:
    """A load from packet data at the byte offset `imm` (section 5.5)."""

    size: SmallSize
    imm: int


@dataclass(frozen=True)
class PacketInd:
    """A load from packet data at the byte offset `src + imm` (section 5.5)."""

    size: SmallSize
    src: Reg
    imm: int


Insn = Union[
    Alu, Movsx, Neg, Swap, Jump, JumpLong, Branch, CallHelper, CallLocal, CallBtf, Exit, Load, LoadSigned, StoreImm,
    StoreReg, Atomic, Wide, PacketAbs, PacketInd,
]
