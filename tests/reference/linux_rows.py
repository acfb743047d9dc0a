"""What docs/linux.tsv says of instructions: with which row of it each one came."""

import functools
import re
from typing import NamedTuple

from tests.reference import insn_reference
from tests.reference.insn_forms import REGISTERS, SLOT, forms
from tests.sources.tables import DOCS


class Row(NamedTuple):
    """A row: a release of Linux, and the first version of clang's -mcpu that writes these instructions."""

    linux: tuple[int, ...]
    name: str
    instructions: str
    mcpu: int

    @property
    def release(self):
        return "linux-" + ".".join(map(str, self.linux))


@functools.cache
def rows():
    lines = [line.split("\t") for line in (DOCS / "linux.tsv").read_text().splitlines() if not line.startswith("#")]
    return [Row(tuple(map(int, linux.split("."))), name, text, int(mcpu[1:])) for linux, name, text, mcpu, _ in lines[1:]]


def adds(row, form):
    """Whether a row has a form of RFC 9669: `NAME, NAME`, or `NAME OPERATION, OPERATION` and perhaps a width, or `NAME except OPERATION`."""
    text, _, bits = row.instructions.partition(" on ")
    name, *others = re.findall(r"\w+", text)
    if others and {name, *others} <= {it.name for it in forms()} and text.startswith(f"{name}, "):
        return form.name in (name, *others)
    is_listed = not others or (form.operation.lower() in map(str.lower, others)) != (others[0] == "except")
    return form.name == name and is_listed and bits in ("", f"{form.bits} bits")


def pattern(row):
    """The values of the fields of an instruction that isn't in RFC 9669: opcodes, and then fields with their values."""
    opcodes, *fields = re.findall(r"((?:\b[0-9a-f]{2}\b(?:, )?)+)?(?:(dst|src|offset|imm) ([\w ]+))?", row.instructions)
    found = {"opcode": {int(it, 16) for it in re.findall(r"\w+", opcodes[0])}}
    for _, name, text in (opcodes, *fields):
        if name:
            found[name] = REGISTERS if text == "reg" else {int(it) for it in text.split(" or ")}
    return found


def row_at(code, order):
    """The row of the first instruction of the bytes, and its length."""
    read, fault = insn_reference.decoded(code, order)
    if read:
        form, _ = read
        return [row for row in rows() if row.name == "base" or adds(row, form)][-1], 2 * SLOT if form.is_wide else SLOT
    insn = insn_reference.fields_of(code[:SLOT], order)
    for row in rows():
        if row.instructions[2:3] == "," and all(getattr(insn, name) in allowed for name, allowed in pattern(row).items()):
            return row, SLOT
    raise AssertionError(f"{code[:SLOT].hex()}: {fault}")


def rows_of(code, order="little"):
    """The rows of all instructions of the bytes."""
    at = 0
    while at < len(code):
        row, size = row_at(code[at:], order)
        yield row
        at += size
