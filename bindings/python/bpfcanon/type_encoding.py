"""Makes records of types and their items, which the library encodes.

The library decides what is valid. Here a value is refused that is of another type than its field, or that no field of a record can
hold.
"""

from __future__ import annotations

import struct
from typing import Any, Callable, Iterable, Optional, Sequence, TypeVar, Union

from . import types as btf
from .causes import cause_of
from .errors import EncodeBtfError, check
from .header import ITEM, BtfCause, Encoding, ItemKind, Kind, Linkage, Order, Status, TypeRecord
from .insn_records import classes, value_of
from .records import encode_types
from .type_records import Items, expressions, member, param
from .types import Entry, EnumValue, Member, Param, Type

T = TypeVar("T")
MOST_ITEMS = 0xFFFF
# Numbers, since a member of an enum takes longer to find.
MEMBER, PARAM, ENTRY = int(ItemKind.MEMBER), int(ItemKind.PARAM), int(ItemKind.ENTRY)
VALUE, VALUE64 = int(ItemKind.ENUM_VALUE), int(ItemKind.ENUM64_VALUE)
# Where a name is in the strings, and its length in bytes, as both are in records. If the length is 0, the library doesn't read where.
NAME = struct.Struct("=II")
NO_NAME = NAME.pack(0, 0)
# The layouts of TYPE and ITEM, with a name in one piece, and an item in two.
pack_type = struct.Struct("=BBBBBBH8sIIIIiI").pack
pack_item = struct.Struct("=8sIIIIIIQ").pack
DECODED_ITEM = struct.Struct("=II32s")


class Names(dict[str, bytes]):
    """Where each name is in the strings, to which one that is new is added."""

    def __init__(self) -> None:
        super().__init__({"": NO_NAME})
        self.strings = bytearray()

    def __missing__(self, name: str) -> bytes:
        # The library refuses a surrogate, which isn't UTF-8. Anything but a str raises TypeError.
        encoded = str.encode(name, "utf-8", "surrogatepass")
        found = self[name] = NAME.pack(len(self.strings), len(encoded))
        self.strings += encoded + b"\0"
        return found


class Records:
    """The records of types and of their items, with their names."""

    def __init__(self) -> None:
        self.types, self.items, self.names = bytearray(), bytearray(), Names()
        self.first = 0  # the index of the first item of the type that is added

    def add(self, it: Type) -> None:
        """Add the record of a type. Raises KeyError, TypeError, ValueError, struct.error if it has none."""
        self.first = len(self.items) // ITEM.size
        self.types += BY_CLASS[type(it)](self, it)

    def _add(self, records: list[bytes]) -> int:
        """Add records of items, and return how many there are. Raises ValueError."""
        if len(records) > MOST_ITEMS:
            raise ValueError("a type has at most 65,535 items")
        self.items += b"".join(records)
        return len(records)

    def _add_decoded(self, given: Items[Any]) -> int:
        """Add records that the library has decoded: only their names are elsewhere."""
        names, file = self.names, given._names
        return self._add([names[file[at : at + size].decode()] + rest for at, size, rest in DECODED_ITEM.iter_unpack(given._records)])

    def members(self, given: Sequence[Member]) -> int:
        if isinstance(given, Items) and given._make is member:
            return self._add_decoded(given)
        names, found = self.names, all_of(Member, given)
        return self._add([pack_item(names[it.name], it.target, it.bit_offset, it.width, 0, 0, MEMBER, 0) for it in found])

    def values(self, given: Sequence[EnumValue], of: Union[btf.Enum, btf.Enum64]) -> int:
        names, found = self.names, all_of(EnumValue, given)
        bits, kind = (64, VALUE64) if isinstance(of, btf.Enum64) else (32, VALUE)
        least, mask = -of.signed << bits - 1, (1 << bits) - 1
        # The library refuses a value that isn't one of 32 bits, and a record has none of more than 64.
        values = [it.value & mask if 0 <= it.value - least <= mask else 1 << bits for it in found]
        return self._add([pack_item(names[it.name], 0, 0, 0, 0, 0, kind, value) for it, value in zip(found, values)])

    def params(self, given: Sequence[Param]) -> int:
        if isinstance(given, Items) and given._make is param:
            return self._add_decoded(given)
        names = self.names
        return self._add([pack_item(names[it.name], it.target, 0, 0, 0, 0, PARAM, 0) for it in all_of(Param, given)])

    def entries(self, given: Sequence[Entry]) -> int:
        return self._add([pack_item(NO_NAME, it.target, 0, 0, it.offset, it.size, ENTRY, 0) for it in all_of(Entry, given)])


def all_of(kind: type[T], given: Sequence[T]) -> tuple[T, ...]:
    """Return items. Raises TypeError if one is of another class."""
    found = tuple(given)
    if not {kind}.issuperset(map(type, found)):
        wrong = next(it for it in found if type(it) is not kind)
        raise TypeError(f"{wrong!r} isn't of the class {kind.__name__}")
    return found


def flag_of(flag: object) -> int:
    """Return the number of a bool. Raises TypeError for anything else."""
    if not isinstance(flag, bool):
        raise TypeError(f"the flag {flag!r} isn't a bool")
    return int(flag)


def component_of(index: Optional[int]) -> int:
    """Return the component of a DECL_TAG. Raises ValueError."""
    if index is not None and index < 0:
        raise ValueError("a component is the index of a member or parameter")
    return -1 if index is None else index


# The number of a field, by its type, and of items by their name.
NUMBERS: dict[Any, str] = {
    int: "it.{name}", str: "to.names[it.{name}]", bool: "flag_of(it.{name})", Optional[int]: "component_of(it.{name})",
    Encoding: "value_of(Encoding, it.{name})", Linkage: "value_of(Linkage, it.{name})", "values": "to.values(it.values, it)",
    "members": "to.members(it.members)", "params": "to.params(it.params)", "entries": "to.entries(it.entries)",
}  # fmt: skip


def packing(number: int, kind: Any) -> Callable[[Records, Any], bytes]:
    """Return what makes the record of a type of a class. It is compiled, too."""
    record = {**dict.fromkeys(TypeRecord._fields, "0"), "kind": str(number), "name": "NO_NAME", "first": "to.first"}
    del record["name_len"]
    source = f"lambda to, it: pack_type({', '.join({**record, **expressions(kind, NUMBERS)}.values())})"
    made: Callable[[Records, Any], bytes] = eval(source, {**globals(), "value_of": value_of})
    return made


BY_CLASS: dict[Any, Callable[[Records, Any], bytes]] = {
    kind: packing(number, kind) for number, kind in {0: btf.Void, **classes(btf, Kind)}.items()
}


def btf_encode(types: Iterable[Type], *, to: Order = Order.LITTLE) -> bytes:
    """Return the canonical form of the BTF that has these types, in the byte order `to`; with `to` little its canonical bytes.

    The first type has the ID 1, and types refer to each other by their IDs. Members, values, parameters and entries may be lists or
    tuples. The names, each counted once and with a NUL, are at most 16 MiB long, and the records of the types at most 32 MiB.
    Raises EncodeBtfError for a value that can't be encoded. One that has no record of bpfcanon.h comes before all others: of another
    class, with a field of another type, a number that the field of the record can't hold (but not a value of an Enum), or more than
    65,535 items. The order of the other faults is that of bpfcanon_btf_encode in bpfcanon.h. OutOfMemoryError, OrderError.
    """
    given, records = list(types), Records()
    for index, it in enumerate(given):
        try:
            records.add(it)
        except (KeyError, TypeError, ValueError, struct.error):
            raise EncodeBtfError(index, it, None) from None
    answer, out = encode_types(records.types, records.items, records.names.strings, to)
    if answer.status == Status.FAULT and answer.offset < len(given):
        raise EncodeBtfError(answer.offset, given[answer.offset], cause_of(BtfCause, answer.cause) if answer.cause else None)
    check(answer, BtfCause)
    return bytes(out)
