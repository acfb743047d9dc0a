"""Runs the built command with each of its allocations refused in turn, by itself and with all that follow.

What the command allocates for its arguments
and for clap is refused too, which no test inside the crates can do.

Whatever is refused, three results are right: the one with ample memory; status 3 with `no memory`; status 3 with
`no words`, if the command couldn't store its own arguments. Nothing is written then, except a prefix of the output by
insn-canon, which writes as it reads, and the first piece or nothing by a command that writes in pieces.
"""

import os

import pytest

from tests import long_listings
from tests.command import Ran
from tests.vector_rows import Example, examples

# No line needs that many allocations: a loop that gets here would not end.
MOST_ALLOCATIONS = 2_000
NAMES = [bytes([letter]) for letter in b"abcdefghijklmnopqrstuvwx"]
# A file of TYPEDEFs with these names, which is canonical, and its listing.
MANY_NAMES, MANY_LINES = long_listings.typedefs(range(1, 48, 2), b"\0" + b"\0".join(NAMES) + b"\0", NAMES)
WITH_MANY_NAMES = [
    Example("canonical names", "btf-canon", MANY_NAMES, Ran(0, MANY_NAMES)),
    Example("names shown", "btf-show", MANY_NAMES, Ran(0, MANY_LINES)),
    Example("names checked", "btf-check", MANY_NAMES, Ran(0, b"ok 24 types\n")),
    Example("the same names", f"btf-same --split {len(MANY_NAMES)}", MANY_NAMES * 2, Ran(0, b"same\n")),
]
# Lines whose output is written in two pieces, and the length of the first. The second needs more memory.
IN_PIECES = [("insn-show", long_listings.negations_and_exits(), 8_192), ("btf-show", long_listings.nameless(2, 1_000), 8_192)]
IN_PIECES += [("btf-show", long_listings.letters_and_controls(), 8_205)]


def each_answer():
    """Of each command, an example of each kind of answer: that with the longest input. All commands refuse a line alike."""
    found = {}
    for it in sorted(examples(), key=lambda it: len(it.input)):
        command, right = it.line.partition(" ")[0], it.right
        found[command if right.status != 2 else "", right.status, right.output == b"different\n", right.message[:6]] = it
    return [*found.values()]


def run_refused(program, shared_object, example, first, last):
    """Runs a line with these allocations refused, and returns whether any was."""
    reading, writing = os.pipe()
    try:
        settings = {
            "LD_PRELOAD": str(shared_object),
            "REFUSE_FROM": str(first),
            "REFUSE_TO": str(last),
            "REFUSE_REPORT": str(writing),
        }
        ran = program.run(example.line, example.input, env=settings, pass_fds=[writing])
    finally:
        os.close(writing)
        with os.fdopen(reading, "rb") as reader:
            was_refused = reader.read(1) != b""
    return ran, was_refused


def is_refusal(ran, example, first_piece):
    """Whether the program reported that it is out of memory, and wrote nothing that it shouldn't."""
    if example.line == "" or example.line.startswith("insn-canon"):
        is_written = example.right.output.startswith(ran.output)
    else:
        is_written = ran.output in (b"", example.right.output[:first_piece])
    return ran.status == 3 and ran.message in (b"no memory\n", b"no words\n") and is_written


def refuse_each(program, shared_object, example, only_one, first_piece=0):
    """Refuses the first allocation, the second and so on, until the line ends before it; returns the messages and outputs."""
    written = set()
    what = "alone" if only_one else "and all that follow"
    for number in range(1, MOST_ALLOCATIONS):
        last = number if only_one else MOST_ALLOCATIONS
        ran, was_refused = run_refused(program, shared_object, example, number, last)
        where = f"{example.name} ({example.line}), allocation {number} {what}"
        if not was_refused:
            assert ran == example.right, f"{where}, which does not exist"
            return written
        right = f"right is {example.right} or status 3 with `no memory` or `no words`"
        is_right = ran == example.right or is_refusal(ran, example, first_piece)
        assert is_right, f"{where}: it gave {ran}, and {right}"
        written |= {ran.message, ran.output}
    pytest.fail(f"{example.name} ({example.line}): more than {MOST_ALLOCATIONS} allocations")


@pytest.mark.parametrize("only_one", [True, False], ids=["alone", "all that follow"])
@pytest.mark.parametrize("example", [*each_answer(), *WITH_MANY_NAMES], ids=lambda it: f"{it.line}: {it.name}")
def test_refused(program, refusing, example, only_one):
    """Each line allocates for the arguments of the process, and again for clap."""
    assert {b"no words\n", b"no memory\n"} <= refuse_each(program, refusing, example, only_one)


@pytest.mark.parametrize("only_one", [True, False], ids=["alone", "all that follow"])
@pytest.mark.parametrize("line, answer, first_piece", IN_PIECES, ids=["a listing", "types", "a long name"])
def test_refused_after_a_piece(program, refusing, line, answer, first_piece, only_one):
    given, output = answer
    example = Example("in pieces", line, given, Ran(0, output))
    assert output[:first_piece] in refuse_each(program, refusing, example, only_one, first_piece)
