"""The enums and structs of capi/bpfcanon.h, from which tools/to_python makes this module."""

import ctypes
import enum
import struct
from typing import NamedTuple

from .causes import KnownCause

BTF_MAX = 50335744
OBJECT_MAX = 67108864
KEY_SIZE = 32


class Order(enum.IntEnum):
    """A byte order."""

    LITTLE = 0
    BIG = 1


class Status(enum.IntEnum):
    """How a call ended."""

    DONE = 0
    DIFFERENT = 1
    FAULT = 2
    FAULT_SECOND = 3
    OUT_OF_MEMORY = 4
    ROOM = 5
    ORDER = 6
    ALIGNMENT = 7


class Group(enum.IntFlag):
    """Conformance groups (RFC 9669 section 2.4), as bits of a mask."""

    BASE32 = 1
    BASE64 = 2
    ATOMIC32 = 4
    ATOMIC64 = 8
    DIVMUL32 = 16
    DIVMUL64 = 32
    PACKET = 64


class InsnCause(KnownCause):
    """The causes of faults of instructions."""

    TRUNCATED = 1
    OPCODE = 2
    DST = 3
    SRC = 4
    OFFSET = 5
    IMM = 6
    RESERVED = 7
    NEXT_IMM = 8


class LineCause(KnownCause):
    """The causes of faults of listings, which bpfcanon_insn_read reports."""

    CHAR = 1
    WORD = 2
    SHAPE = 3
    RANGE = 4


class BtfCause(KnownCause):
    """The causes of faults of BTF."""

    SHORT_HEADER = 1
    MAGIC = 2
    VERSION = 3
    FLAGS = 4
    HEADER_LENGTH = 5
    HEADER_TAIL = 6
    TYPE_LENGTH = 7
    STRING_LENGTH = 8
    SECTIONS = 9
    FILE_LENGTH = 10
    FIRST_STRING = 11
    LAST_STRING = 12
    RECORD_CUT = 13
    INFO_BITS = 14
    KIND_NUMBER = 15
    FLAG_SET = 16
    VLEN = 17
    TAIL_CUT = 18
    NAME_RANGE = 19
    NAME_UTF8 = 20
    NAME_MISSING = 21
    NAME_UNWANTED = 22
    TEXTS_TOO_LONG = 23
    NOT_ZERO = 24
    SIZE = 25
    REFERENCE = 26
    TARGET_KIND = 27
    INT_WORD = 28
    MEMBER_INT = 29
    MEMBER_PLACE = 30
    LINKAGE = 31
    COMPONENT = 32


class ObjectCause(KnownCause):
    """The causes of faults of object files, from 101 to BPFCANON_OBJECT_CAUSE_MAX."""

    FILE_TOO_LARGE = 101
    FILE_CUT = 102
    MAGIC = 103
    CLASS = 104
    BYTE_ORDER = 105
    IDENT_VERSION = 106
    FILE_TYPE = 107
    MACHINE = 108
    FILE_VERSION = 109
    HEADER_SIZE = 110
    SEGMENTS = 111
    SECTION_HEADER_SIZE = 112
    SECTION_COUNT = 113
    SECTION_TABLE = 114
    NAMES_INDEX = 115
    FIRST_SECTION = 116
    NAMES_TABLE = 117
    SECTION_CUT = 118
    SECTION_NAME = 119
    SECTION_KIND = 120
    SECTION_TWICE = 121
    RELOCATION_TARGET = 122
    NO_SYMBOLS = 123
    SYMBOL_TABLE_SIZE = 124
    SYMBOL_ENTRY_SIZE = 125
    SYMBOL_NAMES = 126
    FIRST_SYMBOL = 127
    SYMBOL_NAME = 128
    SYMBOL_SECTION = 129
    SYMBOL_PLACE = 130
    RELOCATION_TABLE_SIZE = 131
    RELOCATION_ENTRY_SIZE = 132
    RELOCATION_SYMBOLS = 133
    RELOCATION_SYMBOL = 134
    TYPES_TOO_LARGE = 135
    TYPES_ORDER = 136
    TYPES_LAYOUT = 137
    TYPES_NAME = 138
    TYPES_SECTION = 139
    TYPES_FLAG = 140
    EXTENSION_WITHOUT_TYPES = 141
    EXTENSION_CUT = 142
    EXTENSION_MAGIC = 143
    EXTENSION_VERSION = 144
    EXTENSION_FLAGS = 145
    EXTENSION_HEADER_SIZE = 146
    EXTENSION_PART = 147
    EXTENSION_RECORD_SIZE = 148
    EXTENSION_GROUP = 149
    EXTENSION_STRING = 150
    EXTENSION_LINES = 151
    RESULT_TOO_LARGE = 152
    SECTIONS_TOO_LARGE = 153
    SYMBOL_DROPPED = 154
    EXTENSION_GROUP_TWICE = 155
    FUNCTION_LINES = 156
    TYPES_NAME_TAKEN = 157


class Form(enum.IntEnum):
    """The form of an instruction (RFC 9669 sections 4 and 5)."""

    ALU = 1
    MOVSX = 2
    NEG = 3
    SWAP = 4
    JUMP = 5
    JUMP_LONG = 6
    BRANCH = 7
    CALL_HELPER = 8
    CALL_LOCAL = 9
    CALL_BTF = 10
    EXIT = 11
    LOAD = 12
    LOAD_SIGNED = 13
    STORE_IMM = 14
    STORE_REG = 15
    ATOMIC = 16
    WIDE = 17
    PACKET_ABS = 18
    PACKET_IND = 19


class AluOp(enum.Enum):
    """An arithmetic operation: its code in the standard, and 16 more for the signed divisions."""

    ADD = 0
    SUB = 1
    MUL = 2
    DIV = 3
    OR = 4
    AND = 5
    LSH = 6
    RSH = 7
    MOD = 9
    XOR = 10
    MOV = 11
    ARSH = 12
    SDIV = 19
    SMOD = 25


class BranchOp(enum.Enum):
    """The comparison of a branch: its code in the standard."""

    EQ = 1
    GT = 2
    GE = 3
    SET = 4
    NE = 5
    SGT = 6
    SGE = 7
    LT = 10
    LE = 11
    SLT = 12
    SLE = 13


class SwapKind(enum.Enum):
    """A byte swap: its opcode."""

    LE = 0xd4
    BE = 0xdc
    BYTES = 0xd7


class AtomicOp(enum.Enum):
    """An atomic operation: its immediate."""

    ADD = 0x00
    OR = 0x40
    AND = 0x50
    XOR = 0xa0
    FETCH_ADD = 0x01
    FETCH_OR = 0x41
    FETCH_AND = 0x51
    FETCH_XOR = 0xa1
    XCHG = 0xe1
    CMPXCHG = 0xf1


class WideKind(enum.IntEnum):
    """What a wide load loads: its src field."""

    NUMBER = 0
    MAP_FD = 1
    MAP_VALUE_FD = 2
    VAR_ADDR = 3
    CODE_ADDR = 4
    MAP_IDX = 5
    MAP_VALUE_IDX = 6


class Kind(enum.IntEnum):
    """The kind of a type (btf.rst section 2.2)."""

    INT = 1
    PTR = 2
    ARRAY = 3
    STRUCT = 4
    UNION = 5
    ENUM = 6
    FWD = 7
    TYPEDEF = 8
    VOLATILE = 9
    CONST = 10
    RESTRICT = 11
    FUNC = 12
    FUNC_PROTO = 13
    VAR = 14
    DATASEC = 15
    FLOAT = 16
    DECL_TAG = 17
    TYPE_TAG = 18
    ENUM64 = 19


class ItemKind(enum.IntEnum):
    """The kind of an item."""

    MEMBER = 1
    ENUM_VALUE = 2
    ENUM64_VALUE = 3
    PARAM = 4
    ENTRY = 5


class Encoding(enum.Enum):
    """The encoding of an INT (btf.rst section 2.2.1)."""

    PLAIN = 0
    SIGNED = 1
    CHAR = 2
    BOOL = 4


class Linkage(enum.Enum):
    """The linkage of a function or variable (btf.rst sections 2.2.12 and 2.2.14)."""

    STATIC = 0
    GLOBAL = 1
    EXTERN = 2


class InsnRecord(NamedTuple):
    """struct bpfcanon_insn."""

    form: int
    op: int
    bits: int
    from_bits: int
    dst: int
    src: int
    by_reg: int
    len: int
    off: int
    group: int
    imm: int
    next_imm: int
    zero: int
    offset: int


class TypeRecord(NamedTuple):
    """struct bpfcanon_btf_type."""

    kind: int
    flag: int
    encoding: int
    linkage: int
    bit_offset: int
    bits: int
    items: int
    name: int
    name_len: int
    size: int
    target: int
    index_type: int
    elements: int
    component: int
    first: int


class ItemRecord(NamedTuple):
    """struct bpfcanon_btf_item."""

    name: int
    name_len: int
    target: int
    bit_offset: int
    width: int
    offset: int
    size: int
    kind: int
    value: int


# The format of each record as `struct` writes it: native byte order, no padding.
INSN = struct.Struct("=BBBBBBBBhHiiIQ")
TYPE = struct.Struct("=BBBBBBHIIIIIIiI")
ITEM = struct.Struct("=IIIIIIIIQ")


class Answer(ctypes.Structure):
    """struct bpfcanon_answer."""

    status: int
    cause: int
    offset: int
    line: int
    read: int
    written: int
    needed: int
    types: int
    groups: int
    _fields_ = [
        ("status", ctypes.c_uint32),
        ("cause", ctypes.c_uint32),
        ("offset", ctypes.c_uint64),
        ("line", ctypes.c_uint64),
        ("read", ctypes.c_size_t),
        ("written", ctypes.c_size_t),
        ("needed", ctypes.c_size_t),
        ("types", ctypes.c_uint32),
        ("groups", ctypes.c_uint32),
    ]
