"""Inputs, and builders of BTF, for several tests. The worked examples are in testdata/vectors.tsv."""

import struct

EXIT = bytes.fromhex("95 00 00 00 00 00 00 00")
MOV_BIG = bytes.fromhex("bf 12 00 00 00 00 00 00")
MOV = bytes.fromhex("bf 21 00 00 00 00 00 00")
WIDE_BIG = bytes.fromhex("18 10 00 00 55 66 77 88 00 00 00 00 11 22 33 44")
WIDE = bytes.fromhex("18 01 00 00 88 77 66 55 00 00 00 00 44 33 22 11")
THREE_INSTRUCTIONS = bytes.fromhex("37 01 01 00 03 00 00 00 db 21 f8 ff f1 00 00 00") + EXIT
SOURCE_BESIDE_IMMEDIATE = bytes.fromhex("04 10 00 00 05 00 00 00")
CALL_BY_REGISTER = bytes.fromhex("8d 00 00 00 00 00 00 00")
THREE_LINES = b"sdiv r1, 3\ncmpxchg [r1-8], r2\nexit\n"
NO_TYPES = bytes.fromhex("9f eb 01 00 18 00 00 00 00 00 00 00 00 00 00 00 00 00 00 00 01 00 00 00 00")
INT_BIG = bytes.fromhex(
    "eb 9f 01 00 00 00 00 18 00 00 00 00 00 00 00 10 00 00 00 10 00 00 00 05"
    "00 00 00 01 01 00 00 00 00 00 00 04 01 00 00 20 00 69 6e 74 00"
)
INT = bytes.fromhex(
    "9f eb 01 00 18 00 00 00 00 00 00 00 10 00 00 00 10 00 00 00 05 00 00 00"
    "01 00 00 00 00 00 00 01 04 00 00 00 20 00 00 01 00 69 6e 74 00"
)
# The header is 28 bytes long, the strings precede the types, and no type uses one of them.
LOOSE_INT = bytes.fromhex(
    "9f eb 01 00 1c 00 00 00 07 00 00 00 10 00 00 00 00 00 00 00 07 00 00 00 00 00 00 00"
    "00 78 00 69 6e 74 00 03 00 00 00 00 00 00 01 04 00 00 00 20 00 00 01"
)
INT_TEXT = b'[1] int "int" size=4 encoding=signed offset=0 bits=32\n'


def btf(order, words, strings):
    """A file of these 32-bit fields and strings."""
    mark, size = {"little": "<", "big": ">"}[order], 4 * len(words)
    return struct.pack(f"{mark}HBB{5 + len(words)}I", 0xEB9F, 1, 0, 24, 0, size, size, len(strings), *words) + strings


def floats(names):
    """The records of 8-byte floats, one for each of these name offsets."""
    return [word for name in names for word in (name, 0x1000_0000, 8)]
