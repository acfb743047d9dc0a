"""Makes instructions of their records, and records of instructions.

A form of the header has a class. The type of a field of the class says which fields of a record it is, and its name does if it is a
number or a register. The library decides whether a record says an instruction: it refuses a register over 10,
for example. Here a value is refused that is of another type than its field, or that no field of a record can hold.
"""

from __future__ import annotations

import enum
import struct
from operator import itemgetter
from typing import Any, Callable, get_type_hints

from . import insn_types as insn
from .errors import UnknownRecordError
from .header import INSN, Form, InsnRecord, WideKind
from .insn_types import Imm, Insn, Operand, Reg, WideOf

FIELDS_BY_TYPE = {
    insn.Width: "bits", insn.Size: "bits", insn.SmallSize: "bits", insn.SwapBits: "bits", insn.MovsxForm: "bits from_bits",
    insn.AluOp: "op", insn.AtomicOp: "op", insn.BranchOp: "op", insn.SwapKind: "op",
    Operand: "by_reg src imm", WideOf: "bits op imm next_imm",
}  # fmt: skip
FIELDS_BY_NAME = {"id": "imm"}
BLANK = dict.fromkeys(InsnRecord._fields, 0)
REGS = {it.value: it for it in Reg}
# A 64-bit number, and the two immediates of the wide load of it, of which the first is the low half.
NUMBER = struct.Struct("<Q")
HALVES = struct.Struct("<ii")


def value_of(kind: type[enum.Enum], member: object) -> Any:
    """Return the value of a member of an enum. Raises TypeError for anything else, such as a member of another enum."""
    if not isinstance(member, kind):
        raise TypeError(f"{member!r} is no {kind.__name__}")
    return member.value


def operand(numbers: tuple[int, int, int]) -> Operand:
    by_reg, src, imm = numbers
    return REGS[src] if by_reg else Imm(imm)


def of_operand(arg: object) -> tuple[int, int, int]:
    return (0, 0, arg.value) if isinstance(arg, Imm) else (1, value_of(Reg, arg), 0)


def wide(numbers: tuple[int, ...]) -> WideOf:
    kind, immediates = WIDES[numbers[1]], numbers[2:]
    if kind is insn.Number:
        immediates = NUMBER.unpack(HALVES.pack(*immediates))
    what: WideOf = kind(*immediates[: len(kind.__dataclass_fields__)])
    return what


def of_wide(what: WideOf) -> tuple[int, ...]:
    immediates = HALVES.unpack(NUMBER.pack(what.value)) if isinstance(what, insn.Number) else vars(what).values()
    return (64, OF_WIDES[type(what)], *immediates)


def of_members(kind: type[enum.Enum]) -> tuple[Callable[[Any], Any], Callable[[Any], Any]]:
    """Return what finds the member of an enum with a value, and its value."""
    return {it.value: it for it in kind}.__getitem__, lambda member: value_of(kind, member)


class Part:
    """A field of a class: which fields of a record it is, the value of their numbers, and the numbers of a value."""

    def __init__(self, name: str, kind: Any) -> None:
        self.name, self.fields = name, FIELDS_BY_TYPE.get(kind, FIELDS_BY_NAME.get(name, name)).split()
        self.get = itemgetter(*map(InsnRecord._fields.index, self.fields))
        if kind in OWN:
            self.value, self.numbers = OWN[kind]
        elif kind is int:
            self.value, self.numbers = int, lambda value: value
        else:
            self.value, self.numbers = of_members(kind)


OWN: dict[Any, tuple[Callable[[Any], Any], Callable[[Any], Any]]] = {
    Operand: (operand, of_operand),
    WideOf: (wide, of_wide),
    Reg: (REGS.__getitem__, lambda number: number),
}


def classes(module: Any, of: type[enum.Enum]) -> dict[int, Any]:
    """Return the class of each member of an enum: that of CALL_HELPER is CallHelper."""
    return {it.value: getattr(module, it.name.title().replace("_", "")) for it in of}


WIDES = classes(insn, WideKind)
OF_WIDES = {kind: op for op, kind in WIDES.items()}
FORMS = {form: (kind, [Part(*it) for it in get_type_hints(kind).items()]) for form, kind in classes(insn, Form).items()}
OF_FORMS = {kind: (form, parts) for form, (kind, parts) in FORMS.items()}


def insn_of(record: tuple[int, ...]) -> Insn:
    """Return the instruction that the fields of a record of the library say. Raises UnknownRecordError."""
    try:
        kind, parts = FORMS[record[0]]
        made: Insn = kind(*[it.value(it.get(record)) for it in parts])
        return made
    except KeyError:
        raise UnknownRecordError(InsnRecord._make(record)) from None


def record_of(it: Insn) -> bytes:
    """Return the record that says an instruction, without its length, group and offset.

    Raises KeyError for a value of another class, TypeError for a field of another type, and struct.error for a number that its
    field can't hold.
    """
    form, parts = OF_FORMS[type(it)]
    record = BLANK.copy()
    record["form"] = form
    for part in parts:
        numbers = part.numbers(getattr(it, part.name))
        record.update(zip(part.fields, numbers if len(part.fields) > 1 else [numbers]))
    return INSN.pack(*record.values())
