"""The types of a BTF file by ID and by name, decoded by one call and made when they are asked for."""

from __future__ import annotations

import operator
from functools import cached_property
from typing import Iterator, Sequence, Union, overload

from ._library import Buffer
from .errors import NoSuchTypeError, TypeCycleError
from .header import TYPE, TypeRecord
from .records import decode_types
from .type_records import FOLLOWED, File, name_of, type_of
from .types import Type, Void

VOID = Void()


class Btf(Sequence[Type]):
    """The types of a BTF file, a sequence: the index of a type is its ID, and the first one is Void(), with ID 0.

    type_records  the records of the types from ID 1 on, in the format bpfcanon.header.TYPE
    item_records  the records of the items of all types, in the format bpfcanon.header.ITEM

    The records are read-only memoryviews of bytes. An ID that the file doesn't have raises NoSuchTypeError, an IndexError. Types may form
    a cycle: a `const` whose target is itself is accepted, so code that follows targets has to note where it was.
    """

    def __init__(self, data: Buffer) -> None:
        """Decode the types of a file. Anything but bytes is copied. Raises FaultError with a BtfCause, OutOfMemoryError."""
        names = data if isinstance(data, bytes) else memoryview(data).tobytes()
        self.type_records, self.item_records = decode_types(names)
        self._file = File(names, self.item_records)
        self._count = len(self.type_records) // TYPE.size

    def __len__(self) -> int:
        return self._count + 1

    @overload
    def __getitem__(self, id: int) -> Type: ...

    @overload
    def __getitem__(self, id: slice) -> tuple[Type, ...]: ...

    def __getitem__(self, id: Union[int, slice]) -> Union[Type, tuple[Type, ...]]:
        if isinstance(id, slice):
            return tuple(self[it] for it in range(*id.indices(len(self))))
        at = operator.index(id)
        record = self._record(at + len(self) if at < 0 else at)
        return type_of(self._file, record) if record else VOID

    def __iter__(self) -> Iterator[Type]:
        yield VOID
        file = self._file
        for it in map(TypeRecord._make, TYPE.iter_unpack(self.type_records)):
            yield type_of(file, it)

    def __repr__(self) -> str:
        return f"<Btf of {self._count} types>"

    def _record(self, id: int) -> Union[TypeRecord, None]:
        """Return the record of a type, None for void."""
        if not 0 <= id <= self._count:
            raise NoSuchTypeError(id, self._count)
        return TypeRecord._make(TYPE.unpack_from(self.type_records, TYPE.size * (id - 1))) if id else None

    def name(self, id: int) -> str:
        """Return the name of the type with an ID, without making the type; "" if it has none."""
        record = self._record(id)
        return self._file.name(record) if record else ""

    def by_name(self, name: str) -> tuple[int, ...]:
        """Return the IDs of the types with a name, in ascending order. Types without a name aren't found.

        The first call makes an index of all names.
        """
        return tuple(self._ids.get(name, ()))

    @cached_property
    def _ids(self) -> dict[str, list[int]]:
        found: dict[str, list[int]] = {}
        for id, it in enumerate(TYPE.iter_unpack(self.type_records), 1):
            name = name_of(self._file.names, TypeRecord._make(it))
            if name:
                found.setdefault(name, []).append(id)
        return found

    def resolve(self, id: int) -> int:
        """Return the ID of the first type that isn't a const, volatile, restrict, typedef or type tag, following targets from an ID.

        Raises TypeCycleError if they form a cycle.
        """
        at = id
        for _ in range(len(self)):
            record = self._record(at)
            if record is None or record.kind not in FOLLOWED:
                return at
            at = record.target
        raise TypeCycleError(id)
