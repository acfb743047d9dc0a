"""The types of BTF and their items as values (Linux Documentation/bpf/btf.rst).

A kind of type is a frozen dataclass, and so is a kind of item. A `name` is "" if there is none. A `size` is in bytes. A `target` is
the ID of a type of the same file; 0 is void. Members, values, parameters and entries are sequences, which make an item when it is
asked for. Types are equal if all of their fields and items are; IDs are compared, and not what they refer to.
"""

from __future__ import annotations

import typing
from dataclasses import dataclass
from typing import Optional, Sequence

from .header import Encoding as Encoding
from .header import Linkage as Linkage


@dataclass(frozen=True)
class Member:
    """A member of a struct or union (btf.rst section 2.2.4).

    `bit_offset` counts bits from the start of the struct or union. `width` is the number of bits of a bit-field, and 0 for other
    members.
    """

    name: str
    target: int
    bit_offset: int
    width: int


@dataclass(frozen=True)
class EnumValue:
    """A value of an ENUM or ENUM64, read as the type's `signed` says (btf.rst sections 2.2.6 and 2.2.19)."""

    name: str
    value: int


@dataclass(frozen=True)
class Param:
    """A parameter of a function prototype (btf.rst section 2.2.13). The last one has no name and target 0 if it is `...`."""

    name: str
    target: int


@dataclass(frozen=True)
class Entry:
    """A variable or function in a data section (btf.rst section 2.2.15): its offset in the section and its size, in bytes."""

    target: int
    offset: int
    size: int


Item = typing.Union[Member, EnumValue, Param, Entry]


class HasItems:
    """A type with items. A list of them becomes a tuple, so that types with equal fields and items are equal, with equal hashes."""

    _items: typing.ClassVar[str]

    def __init_subclass__(cls, items: str = "") -> None:
        if items:
            cls._items = items

    def __post_init__(self) -> None:
        value = getattr(self, self._items)
        if isinstance(value, list):
            object.__setattr__(self, self._items, tuple(value))


@dataclass(frozen=True)
class Void:
    """Type 0, which has no record in a file."""


@dataclass(frozen=True)
class Int:
    """An integer (btf.rst section 2.2.1): `bits` is its number of bits, and `bit_offset` is where they start."""

    name: str
    size: int
    encoding: Encoding
    bit_offset: int
    bits: int


@dataclass(frozen=True)
class Ptr:
    """A pointer to `target` (btf.rst section 2.2.2)."""

    target: int


@dataclass(frozen=True)
class Array:
    """An array of `count` elements of type `target`; `index` is the ID of the index type (btf.rst section 2.2.3)."""

    target: int
    index: int
    count: int


@dataclass(frozen=True)
class Struct(HasItems, items="members"):
    """A struct (btf.rst section 2.2.4)."""

    name: str
    size: int
    members: Sequence[Member]


@dataclass(frozen=True)
class Union(HasItems, items="members"):
    """A union (btf.rst section 2.2.5)."""

    name: str
    size: int
    members: Sequence[Member]


@dataclass(frozen=True)
class Enum(HasItems, items="values"):
    """An enum with 32-bit values (btf.rst section 2.2.6). `signed` is its kind_flag."""

    name: str
    signed: bool
    size: int
    values: Sequence[EnumValue]


@dataclass(frozen=True)
class Fwd:
    """A forward declaration of a union or a struct (btf.rst section 2.2.7)."""

    name: str
    is_union: bool


@dataclass(frozen=True)
class Typedef:
    """A typedef of `target` (btf.rst section 2.2.8)."""

    name: str
    target: int


@dataclass(frozen=True)
class Volatile:
    """A volatile `target` (btf.rst section 2.2.9)."""

    target: int


@dataclass(frozen=True)
class Const:
    """A const `target` (btf.rst section 2.2.10)."""

    target: int


@dataclass(frozen=True)
class Restrict:
    """A restrict `target` (btf.rst section 2.2.11)."""

    target: int


@dataclass(frozen=True)
class Func:
    """A function; `target` is its prototype (btf.rst section 2.2.12)."""

    name: str
    linkage: Linkage
    target: int


@dataclass(frozen=True)
class FuncProto(HasItems, items="params"):
    """A function prototype, which returns `target` (btf.rst section 2.2.13)."""

    target: int
    params: Sequence[Param]


@dataclass(frozen=True)
class Var:
    """A variable of type `target` (btf.rst section 2.2.14)."""

    name: str
    target: int
    linkage: Linkage


@dataclass(frozen=True)
class Datasec(HasItems, items="entries"):
    """A data section (btf.rst section 2.2.15)."""

    name: str
    size: int
    entries: Sequence[Entry]


@dataclass(frozen=True)
class Float:
    """A floating-point number (btf.rst section 2.2.16)."""

    name: str
    size: int


@dataclass(frozen=True)
class DeclTag:
    """A declaration tag (btf.rst section 2.2.17). `flag` is its kind_flag.

    It tags the member or parameter of `target` with the index `component`, counted from 0, or the complete `target` if that is None.
    """

    name: str
    flag: bool
    target: int
    component: Optional[int]


@dataclass(frozen=True)
class TypeTag:
    """A type tag of `target` (btf.rst section 2.2.18). `flag` is its kind_flag."""

    name: str
    flag: bool
    target: int


@dataclass(frozen=True)
class Enum64(HasItems, items="values"):
    """An enum with 64-bit values (btf.rst section 2.2.19). `signed` is its kind_flag."""

    name: str
    signed: bool
    size: int
    values: Sequence[EnumValue]


Type = typing.Union[
    Void, Int, Ptr, Array, Struct, Union, Enum, Fwd, Typedef, Volatile, Const, Restrict, Func, FuncProto, Var, Datasec,
    Float, DeclTag, TypeTag, Enum64,
]
