"""Types as text: each has a label, by which others refer to it instead of its ID, so that a type more doesn't change the lines of others."""

from __future__ import annotations

import dataclasses
import enum
from typing import Iterator, Union

from .. import types as btf
from ..type_table import Btf
from ..types import Item, Type
from .labels import Labels, printed

MAX_DEPTH, MAX_LABEL = 20, 120  # of the types in a label, and characters; then the ID stands for a type
REFERENCES = ("target", "index")
WORDS = {
    btf.Struct: "struct", btf.Union: "union", btf.Enum: "enum", btf.Enum64: "enum", btf.Fwd: "fwd", btf.Func: "func", btf.Var: "var",
    btf.Datasec: "datasec", btf.DeclTag: "tag",
}  # fmt: skip
QUALIFIERS = {btf.Const: "const", btf.Volatile: "volatile", btf.Restrict: "restrict", btf.Ptr: "*"}


class Notation:
    """The labels and definitions of the types of a file."""

    def __init__(self, types: Btf) -> None:
        self._types, self._labels = types, Labels()
        self._found = {0: self._labels.next("void")}
        for id in range(len(types)):
            self.label(id)

    def label(self, id: int, depth: int = 0) -> str:
        """Return what a type is called. An ID that the file doesn't have is its own label."""
        if id not in self._found:
            if id not in range(len(self._types)) or depth > MAX_DEPTH:
                return f"type {id}"
            text = self._text(self._types[id], depth + 1)
            # A type that leads back to itself has its label by now.
            if id not in self._found:
                self._found[id] = self._labels.next(text if len(text) <= MAX_LABEL else f"type {id}")
        return self._found[id]

    def _text(self, it: Type, depth: int) -> str:
        given: str = getattr(it, "name", "")
        name = printed(given) if given else ""
        if type(it) in WORDS:
            return f"{WORDS[type(it)]} {name}".rstrip()
        if isinstance(it, (btf.Ptr, btf.Const, btf.Volatile, btf.Restrict)):
            return f"{self.label(it.target, depth)} {QUALIFIERS[type(it)]}"
        if isinstance(it, btf.TypeTag):
            return f"{self.label(it.target, depth)} tag({name})"
        if isinstance(it, btf.Array):
            return f"{self.label(it.target, depth)}[{it.count}]"
        if isinstance(it, btf.FuncProto):
            return f"{self.label(it.target, depth)} ({', '.join(self.label(one.target, depth) for one in it.params[:MAX_DEPTH])})"
        return name

    def lines(self, id: int) -> Iterator[str]:
        """Yield the definition of a type: a line with all of its fields, and one for each of its items."""
        it = self._types[id]
        yield self._fields(it)
        for field in dataclasses.fields(it):
            value = getattr(it, field.name)
            if is_list(value):
                yield from (f"\t{self._fields(one)}" for one in value)

    def _fields(self, it: Union[Type, Item]) -> str:
        values = ((field.name, getattr(it, field.name)) for field in dataclasses.fields(it))
        words = [f"{name}={self.label(value) if name in REFERENCES else shown(value)}" for name, value in values if not is_list(value)]
        return " ".join([type(it).__name__.lower(), *words])


def is_list(value: object) -> bool:
    """Whether a field has the items of a type."""
    return hasattr(value, "__len__") and not isinstance(value, str)


def shown(value: object) -> str:
    if isinstance(value, enum.Enum):
        return value.name.lower()
    return printed(value) if isinstance(value, str) else str(value).lower()
