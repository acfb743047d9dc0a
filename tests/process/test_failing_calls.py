"""Runs the built program with calls that move few bytes and of which one fails: each call of each command in turn."""

import pytest

from tests import long_listings
from tests.command import Ran
from tests.samples import INT, INT_BIG, INT_TEXT, MOV, MOV_BIG, NO_TYPES, THREE_INSTRUCTIONS, THREE_LINES

# A line of each command, and of those that write in another order; with its input and its output.
LINES = [
    ("", THREE_INSTRUCTIONS, THREE_INSTRUCTIONS),
    ("insn-canon --order big", MOV_BIG, MOV),
    ("insn-show", THREE_INSTRUCTIONS, THREE_LINES),
    ("insn-read", THREE_LINES, THREE_INSTRUCTIONS),
    ("insn-groups", THREE_INSTRUCTIONS, b"base32\natomic32\natomic64\ndivmul32\ndivmul64\n"),
    ("insn-same --split 0", b"", b"same\n"),
    ("btf-canon", INT_BIG, INT),
    ("btf-canon --to big", INT, INT_BIG),
    ("btf-show", INT, INT_TEXT),
    ("btf-check", NO_TYPES, b"ok 0 types\n"),
    ("btf-same --split 25", NO_TYPES + NO_TYPES, b"same\n"),
]


class Paced:
    """The program, whose calls move few bytes and may fail."""

    def __init__(self, program, shared_object):
        self.program, self.shared_object = program, shared_object

    def run(self, line, given, most, **failing):
        """Calls move `most` bytes at most; `read`, `write` or `message` is the number of the call that fails."""
        settings = {"LD_PRELOAD": str(self.shared_object), "MOVE_AT_MOST": str(most)}
        settings |= {f"FAIL_{stream.upper()}": str(number) for stream, number in failing.items()}
        return self.program.run(line, given, env=settings)


@pytest.fixture
def paced(program, failing):
    return Paced(program, failing)


@pytest.mark.parametrize("line, given, output", LINES, ids=[line for line, *_ in LINES])
def test_each_read(paced, line, given, output):
    """One byte comes at a time, and one more read finds the end."""
    # insn-canon has written the instructions that were read, 8 bytes each
    streams = line == "" or line.startswith("insn-canon")
    for number in range(1, len(given) + 2):
        written = output[: (number - 1) // 8 * 8] if streams else b""
        ran = paced.run(line, given, 1, read=number)
        assert ran == Ran(3, written, b"read failed\n"), f"{line}, read {number}"
    ran = paced.run(line, given, 1, read=len(given) + 2)
    assert ran == Ran(0, output, b""), f"{line}, after the end"


@pytest.mark.parametrize("line, given, output", LINES, ids=[line for line, *_ in LINES])
def test_each_write(paced, line, given, output):
    """One byte goes at a time."""
    for number in range(1, len(output) + 1):
        ran = paced.run(line, given, 1, write=number)
        assert ran == Ran(3, output[: number - 1], b"write failed\n"), f"{line}, write {number}"
    ran = paced.run(line, given, 1, write=len(output) + 1)
    assert ran == Ran(0, output, b""), f"{line}, after the end"


# A text in pieces with its command; then rows of how many bytes a call moves, the write that fails, and how many bytes have gone by then.
PIECES = {
    # 15,000 bytes in two pieces: 1,639 lines are the first 8,192 or more
    "a listing": ("insn-show", lambda: long_listings.exits(3_000), [(1_000, 9, 8_000), (1_000, 10, 8_195), (1, 8_196, 8_195)]),
    # 15,192 bytes in two pieces: the lines of 489 types are the first
    "types": ("btf-show", lambda: long_listings.nameless(0, 900), [(1_000, 9, 8_000), (1_000, 10, 8_205), (1, 8_206, 8_205)]),
    # 20,022 bytes: 13 before the name, 8,192 for each of two chunks, 3,616 for the third, and 9 after it; in pieces of 8,205, 8,192 and 3,625
    "a long name": ("btf-show", lambda: long_listings.controls(5_000), [(1_000, 10, 8_205), (1_000, 18, 16_205), (1, 16_398, 16_397)]),
}


@pytest.mark.parametrize("name", PIECES)
def test_writes_of_pieces(paced, name):
    line, make, failing = PIECES[name]
    file, text = make()
    for most, number, taken in failing:
        assert paced.run(line, file, most, write=number) == Ran(3, text[:taken], b"write failed\n"), f"write {number} of {most}"
    for most in 1, 1_000, 4_096:
        assert paced.run(line, file, most) == Ran(0, text, b""), f"by {most} bytes"
