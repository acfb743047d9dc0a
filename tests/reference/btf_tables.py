"""BTF as docs/FORMATS.md defines it: the header, the kinds and their lines by the tables of the page, and the rest as btf.rst has it.

The causes and their offsets are those of docs/causes.tsv, of which docs/FAULTS.md is made.
"""

import functools
import re
from typing import NamedTuple

from tests.sources.tables import causes, numbers, table

NUMBERS = {name: number for number, name, _, _ in causes("btf")}
OFFSETS = {name: offset for _, name, _, offset in causes("btf")}


@functools.cache
def offset_of(cause):
    """Where a cause is reported: a number, an offset from the record for each kind (or for all, which is None), or a phrase."""
    text = OFFSETS[cause]
    if text.isdigit():
        return int(text)
    parts = [re.fullmatch(r"(?:([A-Z_]+) )?r(?: \+ (\d+))?", part) for part in text.split(", ")]
    return {part[1]: int(part[2] or 0) for part in parts} if all(parts) else text


# ---- the header

MAGIC = 0xEB9F
MARKS = {b"\x9f\xeb": "<", b"\xeb\x9f": ">"}
HEADER = {name: (numbers(where), numbers(value)) for name, where, value in table("FORMATS.md", "Field", "Bytes", "Value")}
BYTES = {name: slice(where[0], where[-1] + 1) for name, (where, _) in HEADER.items()}
(VERSION,), (FLAGS,) = HEADER["version"][1], HEADER["flags"][1]
SHORTEST, LONGEST, *_ = HEADER["hdr_len"][1]
TYPES, STRINGS = HEADER["type_len"][1][0], HEADER["str_len"][1]

# ---- records


class Bits(NamedTuple):
    """A range of bits of a 32-bit field."""

    low: int
    high: int

    def of(self, word):
        return word >> self.low & (1 << self.high - self.low + 1) - 1

    @property
    def mask(self):
        return (1 << self.high + 1) - (1 << self.low)


VLEN_BITS, KIND_BITS, FLAG_BIT = Bits(0, 15), Bits(24, 28), Bits(31, 31)
UNUSED = 0xFFFF_FFFF & ~(VLEN_BITS.mask | KIND_BITS.mask | FLAG_BIT.mask)
ENCODING_BITS, OFFSET_IN_INT, SIZE_IN_INT = Bits(24, 27), Bits(16, 23), Bits(0, 7)
INT_UNUSED = 0xFFFF_FFFF & ~(ENCODING_BITS.mask | OFFSET_IN_INT.mask | SIZE_IN_INT.mask)
# The bits of a member's offset if kind_flag is 1; above them is the width.
OFFSET_BITS = 24


class Layout(NamedTuple):
    """The layout of a kind's record: its name, its size or type, whether it has a kind_flag, and the 32-bit fields after it and of each item."""

    word: str
    name: str
    third: str
    has_flag: bool
    words: list
    item: list

    def size(self, vlen):
        """The number of 32-bit fields of a record with this vlen."""
        return 3 + len(self.words) + vlen * len(self.item)


def layouts():
    """The layout of each kind, by its number. A cell in parentheses isn't a list of fields."""
    for kinds, name, third, flag, after in table("FORMATS.md", "Kind", "Name", "Size or type", "kind_flag", "After it"):
        item = re.findall(r"\w+", after.removeprefix("vlen of")) if after.startswith("vlen of") else []
        words = [] if item or after.startswith("(") else re.findall(r"\w+", after)
        yield from ((int(code), Layout(word, name, third, flag != "0", words, item)) for code, word in map(str.split, kinds.split(", ")))


LAYOUTS = dict(layouts())
# The kinds for which kind_flag is part of what a record means.
MEANT = {"ENUM", "ENUM64", "FWD", "DECL_TAG", "TYPE_TAG"}

# ---- the fields of records

SIZES = {"ENUM": {1, 2, 4, 8}, "ENUM64": {1, 2, 4, 8}, "FLOAT": {2, 4, 8, 12, 16}}
TARGETS = {"FUNC": {"FUNC_PROTO"}, "DATASEC": {"VAR", "FUNC"}, "DECL_TAG": {"STRUCT", "UNION", "FUNC", "VAR", "TYPEDEF"}}
INT_MOST, INT_TIMES = 128, 8
MEMBER_BITS = {8, 16, 32, 64, 128}
NO_COMPONENT, WITHOUT_PARTS, WITH_PARTS = 0xFFFF_FFFF, {"VAR", "TYPEDEF"}, {"STRUCT", "UNION"}

# ---- type listings

LINES = {word: (line.strip("`"), item.strip("`")) for word, line, item in table("FORMATS.md", "Kind", "Line", "Lines of its items")}
WIDTHS = {"ENUM": 32, "ENUM64": 64}
SIGN, FORWARD = ("unsigned", "signed"), ("struct", "union")
ENCODINGS = {0: "plain", 1: "signed", 2: "char", 4: "bool"}
LINKAGES = ["static", "global", "extern"]
