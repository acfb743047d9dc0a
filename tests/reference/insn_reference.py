"""What docs/FORMATS.md and docs/FAULTS.md say about instructions: the first fault of bytes, the line of an instruction, its group.

The tables of FORMATS list all forms of instructions (insn_forms.py). An instruction is checked field by field: the forms that match
its bytes so far remain, and the field for which none remains is faulty.
"""

import functools
import re
from typing import NamedTuple

from tests.reference.insn_forms import ANY, BYTES, REGISTERS, SLOT, TWO, forms
from tests.sources.tables import causes, numbers, table

# The register in the upper half of its byte, and that in the lower one, in each byte order.
HALVES = {"little": ("src", "dst"), "big": ("dst", "src")}
FIELDS = ["Opcode", "Dst", "Src", "Offset", "Imm", "Reserved", "NextImm"]


class Insn(NamedTuple):
    """The fields of one slot or two, in the sequence in which they are checked."""

    opcode: int
    dst: int
    src: int
    offset: int
    imm: int
    reserved: int = 0
    next_imm: int = 0


# ---- bytes


def fields_of(code, order):
    """The fields of the bytes of a slot, or of two."""
    read = {name: int.from_bytes(code[where], order, signed=True) for name, where in BYTES.items() if where.stop <= len(code)}
    registers = dict(zip(HALVES[order], divmod(code[1], 16)))
    opcode = code[BYTES["opcode"]][0]
    return Insn(opcode, registers["dst"], registers["src"], *(read.get(name, 0) for name in ("offset", "imm", "reserved", "next_imm")))


def bytes_of(insn, is_wide, order):
    upper, lower = (getattr(insn, name) for name in HALVES[order])
    written = {"opcode": insn.opcode, "registers": 16 * upper + lower}
    written |= {name: getattr(insn, name) for name in ("offset", "imm", "reserved", "next_imm")}
    code = bytearray(TWO if is_wide else SLOT)
    for name, where in BYTES.items():
        if where.stop <= len(code):
            size = where.stop - where.start
            code[where] = (written[name] % (1 << 8 * size)).to_bytes(size, order)
    return bytes(code)


@functools.cache
def offsets():
    """The offset of each cause, and that of an incomplete second slot."""
    found = {name: numbers(offset) for _, name, _, offset in causes("insn")}
    return {name: first for name, (first, *_) in found.items()}, found["Truncated"][1]


def holds(form, field, value):
    """Whether a form allows this value in a field. The reserved field is 0 in all."""
    allowed = {"Opcode": {form.opcode}, "Dst": form.dst, "Src": form.src, "Offset": form.offset, "Imm": form.imm}
    return value in (allowed | {"Reserved": {0}, "NextImm": form.next_imm})[field]


def field_fault(insn, allowed, fields):
    """The forms that agree with these fields, or the first field with which none of them does."""
    for field, value in zip(fields, insn):
        allowed = [form for form in allowed if holds(form, field, value)]
        if not allowed:
            return [], field
    return allowed, None


def decoded(code, order):
    """The form and fields of the first instruction, or the offset and the cause of its fault."""
    offset_of, cut = offsets()
    if len(code) < SLOT:
        return None, (offset_of["Truncated"], "Truncated")
    left, fault = field_fault(fields_of(code[:SLOT], order), forms(), FIELDS[:5])
    if not fault and left[0].is_wide:
        if len(code) < TWO:
            return None, (cut, "Truncated")
        left, fault = field_fault(fields_of(code[:TWO], order), left, FIELDS)
    if fault:
        return None, (offset_of[fault], fault)
    (form,) = left
    return (form, fields_of(code[: TWO if form.is_wide else SLOT], order)), None


# ---- lines

SIZE_LETTERS = {"W": "w", "H": "h", "B": "b", "DW": "dw"}
PARTS = re.compile(r"((?:`[^`]*` ?)+)(\(32\))? ?(.*)")


@functools.cache
def templates():
    """The row and the operands of each mnemonic, from the table of lines."""
    found = {}
    for name, line in table("FORMATS.md", "Instruction", "Line"):
        for part in line.split("; "):
            words, both, operands = PARTS.fullmatch(part).groups()
            for word in words.replace("`", "").split():
                for suffix in ["", "32"] if both else [""]:
                    found[word + suffix] = (name, operands.partition(": ")[0])
    return found


@functools.cache
def last_mnemonics():
    """The last mnemonic of each row, which is the only one of most rows."""
    return {name: word for word, (name, _) in templates().items()}


def mnemonic_of(form):
    """The mnemonic of a form. test_formats.py checks this rule against the page."""
    letter = SIZE_LETTERS.get(form.operation, "")
    suffix = "32" if form.bits == 32 else ""
    of_name = {
        "Alu": form.operation.lower() + suffix,
        "Movsx": f"movsx{form.operation}{'_32' if form.bits == 32 else ''}",
        "Neg": f"neg{suffix}",
        "Swap": f"{form.operation}{form.bits}",
        "Jump": "ja",
        "JumpLong": "ja32",
        "Branch": f"j{form.operation.lower()}{suffix}",
        "Load": f"ldx{letter}",
        "LoadSigned": f"ldxs{letter}",
        "StoreImm": f"st{letter}",
        "StoreReg": f"stx{letter}",
        "PacketAbs": f"ldabs{letter}",
        "PacketInd": f"ldind{letter}",
    }
    if form.name == "Wide":
        wides = {"Number": "", "MapFd": "_map", "MapValueFd": "_map_value", "VarAddr": "_var", "CodeAddr": "_code"}
        return "lddw" + (wides | {"MapIdx": "_idx", "MapValueIdx": "_idx_value"})[form.operation]
    if form.name == "Atomic":
        word = form.operation if form.operation.startswith(("fetch", "xchg", "cmpxchg")) else f"atomic_{form.operation}"
        return word + suffix
    return of_name.get(form.name) or last_mnemonics()[form.name]


def line_of(form, insn):
    """The line of an instruction, by the operands that the page lists for its mnemonic."""
    word = mnemonic_of(form)
    _, operands = templates()[word]
    signed = insn.offset if form.offset == ANY["offset"] else insn.imm
    whole = (insn.next_imm & 0xFFFF_FFFF) << 32 | insn.imm & 0xFFFF_FFFF
    is_register = form.src == REGISTERS and form.name in ("Alu", "Branch")
    words = {
        "the number, unsigned": whole,
        "next_imm": insn.next_imm,
        "offset": insn.offset,
        "imm": insn.imm,
        "id": insn.imm,
        "ARG": f"r{insn.src}" if is_register else insn.imm,
        "DST": f"r{insn.dst}",
        "SRC": f"r{insn.src}",
        "SIGNED": f"{signed:+}",
    }
    memory = re.compile(r"MEM\((\w+), offset\)")
    text = memory.sub(lambda found: f"[{words[found[1]]}{insn.offset:+}]", operands)
    text = re.sub("|".join(words), lambda found: str(words[found[0]]), text)
    return f"{word} {text}".rstrip()


# ---- groups


@functools.cache
def groups():
    """The rows of the table of groups: the name of each, its instructions, and the group that it includes."""
    return [(name, text.split("; "), included) for name, text, included in table("FORMATS.md", "Group", "Instructions", "Includes")]


def included():
    """Each group with those that it includes, itself last."""
    return {name: [*filter(None, [other]), name] for name, _, other in groups()}


def is_of(form, part):
    """Whether a form is of a part of a row, and if so whether the part names it by its operation."""
    names, bits, sizes = re.fullmatch(r"([\w, ]+?)(?: on (\d+) bits| of ([\d, or]+) (?:bits|bytes))?", part).groups()
    if form.name not in names.split(", ") and form.operation not in names.split(", "):
        return False
    if bits:
        return form.bits == int(bits)
    scale = 8 if part.endswith("bytes") else 1
    return not sizes or form.bits in [scale * it for it in numbers(sizes)]


def group_of(form):
    """The group of a form: that of the row which names its operation, if there is one."""
    found = {name: part for name, parts, _ in groups() for part in parts if is_of(form, part)}
    named = [name for name, part in found.items() if form.operation in re.findall(r"\w+", part)]
    names = named if form.name == "Alu" and named else list(found)
    (name,) = names
    return name
