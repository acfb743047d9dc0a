"""Compares the shared library with the reference checker, on BTF that differs from worked files in a byte or two.

For each file: the first fault, or the canonical bytes in both orders and whether it holds the same types as the file it was made of.
"""

import random

import pytest

from tests.reference import btf_reference
from tests.samples import btf, floats
from tests.vector_rows import data, rows

# Names, and strings that are none, from each of their bytes on.
STRINGS = [
    b"\0\xc3\xa9\0\xe2\x82\xac\0\xf0\x9f\x98\x80b\0",
    b"\0a\xffb\0\xc3\xa9\0",
    b"\0\xe2\x82\0\x82a\0\xe2\x28\xa1c\0",
    b"\0\xed\xa0\x80d\0\xc0\x80\0\xf5\x80\x80\x80e\0",
    b"\0ab\xc3\0\xa9cd\xf0\x90\x80\0",
]


@pytest.fixture
def compare(bpfcanon):
    """Compares the library's answers with the reference's for a changed file, by itself and against the canonical bytes of its origin."""

    def answer(call, *given, **orders):
        try:
            return call(*given, **orders)
        except bpfcanon.FaultError as fault:
            return fault.offset, fault.cause.label

    def compare(file, origin):
        fault = btf_reference.first_fault(file)
        little, big = (fault, fault) if fault else (btf_reference.canonical(file), btf_reference.canonical(file, ">"))
        answers = [answer(bpfcanon.btf_canon, file), answer(bpfcanon.btf_canon, file, to=bpfcanon.Order.BIG)]
        answers.append(answer(bpfcanon.btf_same, file, origin))
        assert answers == [little, big, fault or little == origin], file.hex()

    return compare


def changed(file):
    """The file with each byte changed in ten ways, with two bytes changed that are drawn from the same seed in each run, and cut anywhere."""
    for pos, old in enumerate(file):
        for value in {old ^ 1 << bit for bit in range(8)} | {0, 255}:
            yield file[:pos] + bytes([value]) + file[pos + 1 :]
    draw = random.Random(9669)
    for _ in range(500):
        copy = bytearray(file)
        for _ in range(2):
            copy[draw.randrange(4, len(file))] = draw.choice([0, 1, 2, 3, 5, 8, draw.randrange(256)])
        yield bytes(copy)
    yield from (file[:length] for length in range(len(file)))
    yield file + b"\0"


# Each file except the one with a 4,096-byte header.
@pytest.mark.parametrize("row", [row for row in rows("btf") if len(data(row[1])) < 1000], ids=lambda row: row[0])
def test_changed(row, compare):
    for file in {*map(data, row[1:4])}:
        origin = btf_reference.canonical(file)
        for other in changed(file):
            compare(other, origin)


@pytest.mark.parametrize("strings", STRINGS)
def test_strings(strings, compare):
    for offset in range(len(strings) + 1):
        compare(btf("little", floats([offset]), strings), btf_reference.canonical(btf("little", [], b"\0")))
