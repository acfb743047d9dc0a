"""Tables of what is said of places in a section: relocations, functions and CO-RE relocations."""

from __future__ import annotations

from dataclasses import dataclass
from typing import Iterator, Optional

from .accepted import Accepted, Row, Section
from .labels import printed
from .notation import Notation

# The kinds of CO-RE relocations by their numbers (enum bpf_core_relo_kind in linux/bpf.h).
CORE_KINDS = dict(enumerate((
    "byte_off", "byte_size", "exists", "signed", "lshift_u64", "rshift_u64",
    "local_type_id", "target_type_id", "type_exists", "type_size", "enumval_exists", "enumval", "type_matches",
)))  # fmt: skip


@dataclass(frozen=True)
class Table:
    """The rows of one table, or of one group of .BTF.ext; `section` is what they are about, if the file has it."""

    kind: str
    name: str
    section: Optional[Section]
    rows: tuple[Row, ...]

    def is_shown_at(self, places: set[int]) -> bool:
        """Whether its rows can be shown at these places, which are in sequence, without a loss."""
        offsets = [it.offset for it in self.rows]
        return places.issuperset(offsets) and offsets == sorted(offsets)


def tables(object: Accepted, notation: Optional[Notation]) -> Iterator[Table]:
    """Yield the tables in the sequence of the file."""
    for section in object.sections.values():
        if section.type == "REL":
            yield Table("relocations", section.label, object.sections[section.target], tuple(object.relocations(section)))
    if notation:
        yield from extension_tables(object, notation)


def extension_tables(object: Accepted, notation: Notation) -> Iterator[Table]:
    """Yield the groups of functions and of CO-RE relocations."""
    for group in object.extension.functions:
        functions = (Row(offset, f"type {notation.label(type)}") for offset, type in group.records)
        yield Table("types", printed(group.section), object.code.get(group.section), tuple(functions))
    for group in object.extension.core:
        rows = (
            Row(offset, f"core {CORE_KINDS.get(kind, kind)} {notation.label(type)} {printed(object.extension.string(access))}")
            for offset, type, access, kind in group.records
        )
        yield Table("core", printed(group.section), object.code.get(group.section), tuple(rows))
