"""The largest inputs of each command, and one byte more.

Instructions and listings have 67,108,864 bytes at most, BTF 50,335,744, and two files twice that. All of these are small enough to be run
as they are. The rows make theirs when they are run.
"""

import functools
import struct

import pytest

from tests.command import Ran, refused
from tests.samples import EXIT

INSTRUCTIONS = 67_108_864 // len(EXIT)
INT_RECORDS = 33_554_432 // 16
STRINGS = 16_777_216
HEADER = 4_096
BTF_LIMIT = HEADER + 16 * INT_RECORDS + STRINGS
INSN_LIMIT = INSTRUCTIONS * len(EXIT)
SAME = b"same\n"
EMPTY = bytes


def exits(count=INSTRUCTIONS):
    return EXIT * count


def btf_header(header_length, types, strings):
    return struct.pack("<HBBIIIII", 0xEB9F, 1, 0, header_length, 0, types, types, strings)


def int_records(name):
    """As many records of a signed int as a file may have, all with the name at this offset."""
    return struct.pack("<IIII", name, 0x0100_0000, 4, 0x0100_0020) * INT_RECORDS


@functools.lru_cache(maxsize=1)
def largest_btf():
    """A file of the limit in each of its parts, whose types all have the last two letters of the strings for a name."""
    strings = b"\0" + b"a" * (STRINGS - 2) + b"\0"
    header = btf_header(HEADER, 16 * INT_RECORDS, STRINGS)
    return header + bytes(HEADER - len(header)) + int_records(STRINGS - 3) + strings


def largest_btf_canonical():
    strings = b"\0aa\0"
    return btf_header(24, 16 * INT_RECORDS, len(strings)) + int_records(1) + strings


def largest_btf_text():
    return "".join(f'[{i + 1}] int "aa" size=4 encoding=signed offset=0 bits=32\n' for i in range(INT_RECORDS)).encode()


# A command with an input of the limit, what it prints, and what it prints of one byte more before it is too long.
LIMITS = {
    "insn-canon": (exits, exits, exits),
    "insn-show": (exits, lambda: b"exit\n" * INSTRUCTIONS, EMPTY),
    "insn-read": (lambda: b"exit   \n" * INSTRUCTIONS, exits, EMPTY),
    "insn-groups": (exits, lambda: b"base32\n", EMPTY),
    f"insn-same --split {INSN_LIMIT}": (lambda: exits(2 * INSTRUCTIONS), lambda: SAME, EMPTY),
    "btf-check": (largest_btf, lambda: f"ok {INT_RECORDS} types\n".encode(), EMPTY),
    "btf-canon": (largest_btf, largest_btf_canonical, EMPTY),
    "btf-show": (largest_btf, largest_btf_text, EMPTY),
    f"btf-same --split {BTF_LIMIT}": (lambda: largest_btf() * 2, lambda: SAME, EMPTY),
    "insn-read, a comment": (lambda: b"exit;" + b"\xff" * (INSN_LIMIT - 5), lambda: EXIT, EMPTY),
    "insn-read, many lines": (lambda: b"\n" * (INSN_LIMIT - 5) + b"exit\n", lambda: EXIT, EMPTY),
    "insn-read, digits": (lambda: b"mov r1, " + b"0" * (INSN_LIMIT - 9) + b"7", lambda: bytes.fromhex("b7 01 00 00 07 00 00 00"), EMPTY),
}


@pytest.mark.parametrize("row", LIMITS)
def test_limit(run, row):
    """The input of the limit is answered, and one byte more is too long."""
    (given, output, output_of_more), line = LIMITS[row], row.partition(",")[0]
    given = given()
    assert len(given) == (INSN_LIMIT if line.startswith("insn") else BTF_LIMIT) * (2 if "split" in line else 1)
    assert run(line, given) == Ran(0, output())
    assert run(line, given + b"\n") == refused("too long", output_of_more())
