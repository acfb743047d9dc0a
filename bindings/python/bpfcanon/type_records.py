"""Makes types and their items of their records.

A kind of the header has a class. A field of the class is the field of a record with its name, or that of FIELDS.
"""

from __future__ import annotations

import operator
from dataclasses import fields
from typing import Any, Callable, Iterator, Optional, Sequence, TypeVar, Union, get_type_hints, overload

from . import types as btf
from .errors import UnknownRecordError
from .header import ITEM, Encoding, ItemRecord, Kind, Linkage, TypeRecord
from .insn_records import classes
from .types import Entry, EnumValue, Item, Member, Param, Type

T = TypeVar("T", bound=Item)


class Items(Sequence[T]):
    """The items of a type, each made when it is asked for. It is equal to a tuple of the same items, and pickled as one."""

    __slots__ = ("_make", "_names", "_records")

    def __init__(self, make: Callable[[bytes, ItemRecord], T], names: bytes, records: memoryview) -> None:
        self._make, self._names, self._records = make, names, records

    def __len__(self) -> int:
        return len(self._records) // ITEM.size

    @overload
    def __getitem__(self, index: int) -> T: ...

    @overload
    def __getitem__(self, index: slice) -> tuple[T, ...]: ...

    def __getitem__(self, index: Union[int, slice]) -> Union[T, tuple[T, ...]]:
        if isinstance(index, slice):
            return tuple(self[it] for it in range(*index.indices(len(self))))
        place = ITEM.size * range(len(self))[operator.index(index)]
        return self._make(self._names, ItemRecord._make(ITEM.unpack_from(self._records, place)))

    def __iter__(self) -> Iterator[T]:
        make, names = self._make, self._names
        return (make(names, ItemRecord._make(it)) for it in ITEM.iter_unpack(self._records))

    def __eq__(self, other: object) -> bool:
        if not isinstance(other, (Items, tuple)):
            return NotImplemented
        return tuple(self) == tuple(other)

    def __hash__(self) -> int:
        return hash(tuple(self))

    def __repr__(self) -> str:
        return repr(tuple(self))

    def __reduce__(self) -> tuple[object, ...]:
        return tuple, (tuple(self),)


def name_of(names: bytes, it: Union[TypeRecord, ItemRecord]) -> str:
    """Return the name that a record has in its file."""
    return names[it.name : it.name + it.name_len].decode()


def signed(value: int, bits: int) -> int:
    """Return the signed number with the same lowest bits as an unsigned one."""
    return value - (1 << bits) if value >> bits - 1 else value


def member(names: bytes, it: ItemRecord) -> Member:
    return Member(name_of(names, it), it.target, it.bit_offset, it.width)


def enum_value(names: bytes, it: ItemRecord) -> EnumValue:
    return EnumValue(name_of(names, it), it.value)


def signed_enum_value(names: bytes, it: ItemRecord) -> EnumValue:
    return EnumValue(name_of(names, it), signed(it.value, 32))


def signed_enum64_value(names: bytes, it: ItemRecord) -> EnumValue:
    return EnumValue(name_of(names, it), signed(it.value, 64))


def param(names: bytes, it: ItemRecord) -> Param:
    return Param(name_of(names, it), it.target)


def entry(names: bytes, it: ItemRecord) -> Entry:
    return Entry(it.target, it.offset, it.size)


class File:
    """What types are made of: their file, where their names are, and the records of all items."""

    __slots__ = ("items", "names")

    def __init__(self, names: bytes, items: memoryview) -> None:
        self.names, self.items = names, items

    def name(self, it: TypeRecord) -> str:
        return name_of(self.names, it)

    def items_of(self, it: TypeRecord, make: Callable[[bytes, ItemRecord], T]) -> Items[T]:
        return Items(make, self.names, self.items[ITEM.size * it.first : ITEM.size * (it.first + it.items)])

    def values(self, it: TypeRecord) -> Items[EnumValue]:
        return self.items_of(it, (signed_enum64_value if it.kind == Kind.ENUM64 else signed_enum_value) if it.flag else enum_value)


FIELDS = {"signed": "flag", "is_union": "flag", "index": "index_type", "count": "elements"}
FIELDS.update(dict.fromkeys(["members", "values", "params", "entries"], "items"))
# The members of enums by their values: to call an enum takes longer.
MEMBERS = {f"{kind.__name__}s": {it.value: it for it in kind} for kind in (Encoding, Linkage)}
# The value of a field, by its type, and of items by their name.
VALUES: dict[Any, str] = {
    int: "it.{field}", str: "file.name(it)", bool: "bool(it.{field})", Optional[int]: "None if it.{field} < 0 else it.{field}",
    Encoding: "Encodings[it.{field}]", Linkage: "Linkages[it.{field}]", "values": "file.values(it)",
    "members": "file.items_of(it, member)", "params": "file.items_of(it, param)", "entries": "file.items_of(it, entry)",
}  # fmt: skip


def expressions(kind: Any, of: dict[Any, str]) -> dict[str, str]:
    """Return the expression of each field of a class, by the field of a record that it is."""
    hints, named = get_type_hints(kind), [(it.name, FIELDS.get(it.name, it.name)) for it in fields(kind)]
    return {field: (of.get(name) or of[hints[name]]).format(name=name, field=field) for name, field in named}


def making(kind: Any) -> Callable[[File, TypeRecord], Type]:
    """Return what makes a type of its record. It is compiled, as dataclasses are: a loop over the fields takes longer."""
    source = f"lambda file, it: kind({', '.join(expressions(kind, VALUES).values())})"
    made: Callable[[File, TypeRecord], Type] = eval(source, {"kind": kind, "member": member, "param": param, "entry": entry, **MEMBERS})
    return made


BY_KIND = {number: making(kind) for number, kind in classes(btf, Kind).items()}
# The kinds that `resolve` follows.
FOLLOWED = frozenset({Kind.TYPEDEF, Kind.VOLATILE, Kind.CONST, Kind.RESTRICT, Kind.TYPE_TAG})


def type_of(file: File, record: TypeRecord) -> Type:
    """Return the type that a record of the library says. Raises UnknownRecordError."""
    try:
        return BY_KIND[record.kind](file, record)
    except LookupError:
        raise UnknownRecordError(record) from None
