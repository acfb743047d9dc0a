"""Reads testdata/vectors.tsv, whose README describes the columns."""

from typing import NamedTuple

from tests import TOP
from tests.command import Ran

TESTDATA = TOP / "testdata"
VECTORS = TESTDATA / "vectors.tsv"
# The fields of each kind of row after the kind, as the README names them.
COLUMNS = {
    "insn": ["line", "little", "big", "group"],
    "insn-fault": ["name", "little", "big", "offset", "cause"],
    "listing": ["name", "listing", "lines"],
    "listing-fault": ["name", "listing", "line", "cause"],
    "btf": ["name", "file", "little", "big", "count", "listing"],
    "btf-fault": ["name", "little", "big", "offset", "cause"],
    "run": ["name", "arguments", "input", "status", "output", "error"],
}


def rows(kind):
    """The fields of each row of a kind, without the kind."""
    lines = VECTORS.read_text().splitlines()
    return [line.split("\t")[1:] for line in lines if line.startswith(f"{kind}\t")]


def text(field):
    """The bytes of a field that is a string."""
    return b"" if field == "-" else field.encode().decode("unicode_escape").encode("latin-1")


def data(field):
    """The bytes of a field of hexadecimal digits."""
    return b"" if field == "-" else bytes.fromhex(field)


def is_bytes(line):
    """Whether the output of a command is bytes, and not a string."""
    return line == "-" or line.startswith(("insn-canon", "insn-read", "btf-canon"))


class Example(NamedTuple):
    """A command line, its standard input, and the right answer."""

    name: str
    line: str
    input: bytes
    right: Ran


def examples():
    """The rows of command lines."""
    for name, words, given, status, output, message in rows("run"):
        line = "" if words == "-" else words
        right = Ran(int(status), data(output) if is_bytes(words) else text(output), text(message) + b"\n" * (message != "-"))
        yield Example(name, line, text(given) if line.startswith("insn-read") else data(given), right)
