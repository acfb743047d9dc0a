"""The forms of instructions: each with the values of its fields, by the table and the codes of docs/FORMATS.md."""

import functools
import re
from typing import NamedTuple

from tests.sources.tables import DOCS, numbers, table

REGISTERS = range(11)
ANY = {"offset": range(-(1 << 15), 1 << 15), "imm": range(-(1 << 31), 1 << 31)}
STARTS = [0, 1, 2, 4, 8, 12, 16]
BYTES = dict(zip(["opcode", "registers", "offset", "imm", "reserved", "next_imm"], map(slice, STARTS, STARTS[1:])))
SLOT, TWO = 8, 16
# The code of each size, and its bytes.
SIZES = {"W": (0, 4), "H": (1, 2), "B": (2, 1), "DW": (3, 8)}


def codes(head):
    """The codes of a list of the page such as "Or 4, Div and Sdiv 3"."""
    text = re.search(rf"^. {head}:? (?:\| )?([^.;|]*)", (DOCS / "FORMATS.md").read_text(), re.MULTILINE)[1]
    return {name: int(code, 16) for *names, code in map(str.split, text.split(",")) for name in names if name != "and"}


CLASSES, MODES, ALU, BRANCH = map(codes, ["Classes", "Modes", "Alu codes", "Branch codes"])
ATOMIC = {name.lower(): code for name, code in codes("Atomic operations").items()}
ATOMIC |= {f"fetch_{name}": code + 1 for name, code in ATOMIC.items()} | {"xchg": 0xE1, "cmpxchg": 0xF1}
# What a wide load loads, by its src, and the values of its second number.
NONE = frozenset([0])
WIDE = [("Number", ANY["imm"]), ("MapFd", NONE), ("MapValueFd", ANY["imm"]), ("VarAddr", ANY["imm"]), ("CodeAddr", NONE)]
WIDE += [("MapIdx", NONE), ("MapValueIdx", ANY["imm"])]


class Form(NamedTuple):
    """A kind of instruction: its name on the page, its operation and width, and the values that each field may hold."""

    name: str
    operation: str
    bits: int
    opcode: int
    dst: range
    src: range
    offset: range
    imm: range
    next_imm: range = None

    @property
    def is_wide(self):
        return self.next_imm is not None


def values(field, text):
    """The values of a cell: `reg`, `any`, a range or a list of numbers."""
    if text in ("reg", "any"):
        return REGISTERS if text == "reg" else ANY[field]
    found = numbers(text)
    return range(found[0], found[1] + 1) if " to " in text else frozenset(found)


def operation_forms(name, s, offset, fields):
    """The forms of Alu and Branch, one of each operation and width."""
    name = name.partition(" ")[0]
    offset, _, signed = offset.partition("; ")
    for operation, code in (ALU if name == "Alu" else BRANCH).items():
        offsets = frozenset(numbers(signed)) if operation in re.findall(r"\w+", signed) else values("offset", offset)
        for bits, kind in (32, "ALU"), (64, "ALU64"):
            kind = kind if name == "Alu" else kind.replace("ALU64", "JMP").replace("ALU", "JMP32")
            yield Form(name, operation, bits, 16 * code + 8 * s + CLASSES[kind], **fields | {"offset": offsets})


def code_forms(name, code, s, offset, fields):
    """The forms of Movsx and Neg, whose cell has their code."""
    offset, _, more = offset.partition("; also ")
    for bits, kind in (32, "ALU"), (64, "ALU64"):
        for each in sorted(numbers(offset) + (numbers(more)[:1] if more.endswith(f" {kind}") else [])):
            yield Form(name, str(each), bits, 16 * code + 8 * s + CLASSES[kind], **fields | {"offset": frozenset([each])})


def swap_forms(names, opcodes, fields):
    for order, code in zip(names.split(", "), opcodes.split(", "), strict=True):
        yield from (Form("Swap", order.lower(), bits, int(code, 16), **fields | {"imm": {bits}}) for bits in sorted(fields["imm"]))


def memory_forms(name, mode, kind, sizes, fields):
    for size in SIZES if sizes == "all sizes" else sizes.replace(" or ", " ").split():
        code, bits = SIZES[size][0], 8 * SIZES[size][1]
        opcode = 32 * MODES[mode] + 8 * code + CLASSES[kind]
        if name == "Atomic":
            yield from (Form(name, operation, bits, opcode, **fields | {"imm": frozenset([it])}) for operation, it in ATOMIC.items())
        else:
            yield Form(name, size, bits, opcode, **fields)


def forms_of_row(name, opcode, *texts):
    fields = {field: values(field, text) for field, text in zip(["dst", "src", "offset", "imm"], texts)}
    coded = re.fullmatch(r"(?:code (\w), )?s ([01])", opcode)
    if coded and not coded[1]:
        return operation_forms(name, int(coded[2]), texts[2], fields)
    if coded:
        return code_forms(name, int(coded[1], 16), int(coded[2]), texts[2], fields)
    if name.startswith("Swap "):
        return swap_forms(name.removeprefix("Swap "), opcode, fields)
    if name == "Wide":
        return (Form(name, what, 64, int(opcode, 16), **fields | {"src": {src}}, next_imm=second) for src, (what, second) in enumerate(WIDE) if src in fields["src"])
    return memory_forms(name, *opcode.split(", "), fields) if ", " in opcode else [Form(name, name, 0, int(opcode, 16), **fields)]


@functools.cache
def forms():
    rows = table("FORMATS.md", "Instruction", "opcode", "dst", "src", "offset", "imm", "RFC 9669")
    return [form for row in rows for form in forms_of_row(*row[:6])]
