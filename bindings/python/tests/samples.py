"""Worked inputs: rows of RFC 9669 and of btf.rst, and the compiled files of testdata/."""

import pathlib
import struct

TOP = pathlib.Path(__file__).resolve().parents[3]
TESTDATA = TOP / "testdata"

# A line of a listing, and its instruction in little-endian and in big-endian order.
INSNS = [
    ("mov r1, r2", "bf 21 0000 00000000", "bf 12 0000 00000000"),
    ("lddw r1, 1234605616436508552", "18 01 0000 88776655 00000000 44332211", "18 10 0000 55667788 00000000 11223344"),
    ("jeq32 r3, -2, +5", "16 03 0500 feffffff", "16 30 0005 fffffffe"),
    ("stxdw [r10-8], r1", "7b 1a f8ff 00000000", "7b a1 fff8 00000000"),
    ("cmpxchg [r1-8], r2", "db 21 f8ff f1000000", "db 12 fff8 000000f1"),
    ("exit", "95 00 0000 00000000", "95 00 0000 00000000"),
]


def unhex(text: str) -> bytes:
    return bytes.fromhex(text)


def load(name: str) -> bytes:
    return (TESTDATA / name).read_bytes()


def btf(order: str, records: tuple[list[int], bytes]) -> bytes:
    """BTF with a 24-byte header, these 32-bit fields as its records and this string section; `order` is "<" or ">"."""
    words, names = records
    size = 4 * len(words)
    header = struct.pack(f"{order}HBBIIIII", 0xEB9F, 1, 0, 24, 0, size, size, len(names))
    return header + struct.pack(f"{order}{len(words)}I", *words) + names
