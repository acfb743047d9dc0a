"""Types whose records are in another order in a canonical file: that order, written by hand, and an original that has them mixed."""

from __future__ import annotations

import struct
from typing import NamedTuple, Union

from docs import canon
from docs.canon import FIELDS, ITEM_FIELDS, NAME, TYPE, Record
from tools.objects.edited import Edited

TYPES, EXTENSION = b".BTF", b".BTF.ext"
FLAG = 1 << 31


class Row(NamedTuple):
    """A record: its kind, its name, and its words after name_off and info, in which a type is the label of its row."""

    kind: str
    name: bytes = b""
    words: tuple[Union[int, str], ...] = (0,)
    flag: int = 0

    @property
    def info(self) -> int:
        fields = ITEM_FIELDS.get(self.kind)
        count = (len(self.words) - len(FIELDS[self.kind])) // len(fields) if fields else 0
        return self.flag | list(FIELDS).index(self.kind) << 24 | count


# In the order of a canonical file, after the records of the base that aren't moved: those of C first.
OTHERS = {
    "chain": Row("PTR", words=("rcu user",)),
    "structs": Row("ARRAY", words=(0, "struct s", "union s", 2)),
    "pointers": Row("FUNC_PROTO", words=("union s", 0, "chain", 0, "me", 0, "percpu user")),
    "tagged": Row("DECL_TAG", b"note", ("second", 0xFFFFFFFF)),
}
# By the length of the name, then by its bytes; of two names that are equal, the first stays before the second.
VARIABLES = {
    "b": Row("VAR", b"b", ("structs", 1)),
    "aa": Row("VAR", b"aa", ("chain", 0)),
    "first": Row("VAR", b"same", ("me", 0)),
    "second": Row("VAR", b"same", ("chain", 0)),
}
BASE_VARIABLES = ("27", "28")  # counts and _license
# After the VAR, in the order of the original: the kernel checks the size of a VAR only if it is before its section.
SECTIONS = ("29", "30")
# By the name, then a struct before a union.
FORWARD = {
    "struct s": Row("FWD", b"s"),
    "union s": Row("FWD", b"s", flag=FLAG),
    "ab": Row("FWD", b"ab"),
}
# Those on other types: by the name, kind_flag, and the number of the type, of which void is the first.
TAGS = {
    "rcu void": Row("TYPE_TAG", b"rcu", ("0",)),
    "rcu int": Row("TYPE_TAG", b"rcu", ("21",)),
    "rcu struct": Row("TYPE_TAG", b"rcu", ("struct s",)),
    "rcu union": Row("TYPE_TAG", b"rcu", ("union s",)),
    "rcu attribute": Row("TYPE_TAG", b"rcu", ("0",), FLAG),
    "user": Row("TYPE_TAG", b"user", ("ab",)),
}
# Those on a tag of the layer before, by the same.
SECOND = {
    "rcu rcu": Row("TYPE_TAG", b"rcu", ("rcu union",)),
    "rcu user": Row("TYPE_TAG", b"rcu", ("user",)),
    "percpu user": Row("TYPE_TAG", b"percpu", ("user",)),
}
THIRD = {
    "a": Row("TYPE_TAG", b"a", ("percpu user",)),
    "z": Row("TYPE_TAG", b"z", ("rcu rcu",)),
}
# Loops, and what leads to one, in the order of the original.
LOOPS = {
    "one": Row("TYPE_TAG", b"z", ("two",)),
    "two": Row("TYPE_TAG", b"b", ("one",)),
    "me": Row("TYPE_TAG", b"a", ("me",)),
    "leads": Row("TYPE_TAG", b"a", ("one",)),
}
ROWS = {**OTHERS, **VARIABLES, **FORWARD, **TAGS, **SECOND, **THIRD, **LOOPS}
MOVED = [*VARIABLES, *BASE_VARIABLES, *SECTIONS, *FORWARD, *TAGS, *SECOND, *THIRD, *LOOPS]


def canonical_order(it: Edited) -> None:
    rewrite(it, [*kept_labels(it), *OTHERS, *MOVED])


def mixed_order(it: Edited) -> None:
    """The moved records from the last to the first, but for those whose order counts, each before one that isn't moved."""
    fixed = ["first", "second", *SECTIONS, *LOOPS]
    mixed = iter([*fixed, *(label for label in reversed(MOVED) if label not in fixed)])
    others = [*kept_labels(it), *OTHERS]
    order = [label for other in others for label in (next(mixed, ""), other) if label]
    rewrite(it, [*order, *mixed])


def kept_labels(it: Edited) -> list[str]:
    """The numbers of the base's records that aren't moved."""
    records = canon.Types(it.bytes_of(TYPES)).records
    return [str(number) for number, record in enumerate(records) if number and record.kind not in canon.MOVED]


def rewrite(it: Edited, labels: list[str]) -> None:
    """Writes .BTF with these records in this order, and their numbers in .BTF.ext, where one CO-RE relocation has a type that is moved, and one a
    number past the last type."""
    types = canon.Types(it.bytes_of(TYPES))
    strings = bytearray(types.strings)
    numbers = {"0": 0, **{label: number for number, label in enumerate(labels, 1)}}
    words = []
    for label in labels:
        record = types.records[int(label)] if label.isdigit() else record_of(ROWS[label], strings)
        pairs = zip(record.fields, record.words)
        words += [numbers[str(word)] if field == TYPE else word for field, word in pairs]
    size = 4 * len(words)
    header = struct.pack(f"{it.elf.mark}HBB5I", canon.BTF_MAGIC, 1, 0, 24, 0, size, size, len(strings))
    for part, column in (0, 4), (2, 4):
        for group in canon.read_extension(it.elf, types)[part]:
            for index, one in enumerate(group.records):
                it.put(group.place + 8 + 4 * len(one) * index + column, 4, numbers[str(one[1])])
    for index, number in enumerate((numbers["struct s"], len(numbers))):
        it.put(it.group(2) + 8 + 16 * index + 4, 4, number)
    it.replace(TYPES, header + struct.pack(f"{it.elf.mark}{len(words)}I", *words) + strings)


def record_of(row: Row, strings: bytearray) -> Record:
    name = len(strings) if row.name else 0
    strings += row.name + b"\0" if row.name else b""
    fields = NAME, "info", *FIELDS[row.kind], *ITEM_FIELDS.get(row.kind, ()) * (row.info & 0xFFFF)
    return Record(fields, (name, row.info, *row.words))
