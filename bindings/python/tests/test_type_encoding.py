"""Types that are encoded, by hand from btf.rst; values that are refused, with their index and cause; and the limits of the sections."""

from __future__ import annotations

import pickle
import unittest
from typing import Any, Optional

from bpfcanon import Btf, BtfCause, EncodeBtfError, Order, btf_canon, btf_encode
from bpfcanon.types import Array, Const, Datasec, DeclTag, Encoding, Entry, Enum, Enum64, EnumValue, Float, Func, FuncProto, Fwd, Int
from bpfcanon.types import Linkage, Member, Param, Ptr, Restrict, Struct, Type, TypeTag, Typedef, Union, Var, Void, Volatile

from .samples import btf

STRINGS = b"\0a\0bc\0"


def info(kind: int, vlen: int = 0, flag: int = 0) -> int:
    return flag << 31 | kind << 24 | vlen


# A type of each kind with its words by btf.rst section 2.2: "a" is at 1 of the strings, "bc" at 3.
WRITTEN: list[tuple[Type, list[int]]] = [
    (Int("a", 4, Encoding.BOOL, 2, 7), [1, info(1), 4, 0x04020007]),
    (Struct("bc", 8, [Member("a", 4, 5, 3), Member("", 5, 32, 0)]), [3, info(4, 2, 1), 8, 1, 4, 0x03000005, 0, 5, 32]),
    (FuncProto(1, (Param("bc", 1), Param("", 0))), [0, info(13, 2), 1, 3, 1, 0, 0]),
    (Enum("", True, 4, [EnumValue("a", -2)]), [0, info(6, 1, 1), 4, 1, 0xFFFFFFFE]),
    (Enum("a", False, 4, [EnumValue("bc", 0xFFFFFFFE)]), [1, info(6, 1), 4, 3, 0xFFFFFFFE]),
    (Ptr(24), [0, info(2), 24]),
    (Array(1, 4, 9), [0, info(3), 0, 1, 4, 9]),
    (Union("", 1 << 29, [Member("a", 1, 0xFF000000, 0)]), [0, info(5, 1), 1 << 29, 1, 1, 0xFF000000]),
    (Fwd("bc", True), [3, info(7, 0, 1), 0]),
    (Fwd("bc", False), [3, info(7), 0]),
    (Typedef("a", 1), [1, info(8), 1]),
    (Volatile(2), [0, info(9), 2]),
    (Const(0), [0, info(10), 0]),
    (Restrict(6), [0, info(11), 6]),
    (Func("a", Linkage.EXTERN, 3), [1, info(12, 2), 3]),
    (Var("bc", 1, Linkage.GLOBAL), [3, info(14), 1, 1]),
    (Datasec("a", 9, [Entry(16, 4, 5)]), [1, info(15, 1), 9, 16, 4, 5]),
    (Float("a", 8), [1, info(16), 8]),
    (DeclTag("bc", False, 2, 1), [3, info(17), 2, 1]),
    (DeclTag("a", True, 15, None), [1, info(17, 0, 1), 15, 0xFFFFFFFF]),
    (TypeTag("a", False, 1), [1, info(18), 1]),
    (TypeTag("a", True, 1), [1, info(18, 0, 1), 1]),
    (Enum64("a", True, 8, [EnumValue("bc", -(1 << 63) + 2)]), [1, info(19, 1, 1), 8, 3, 2, 0x80000000]),
    (Enum64("a", False, 8, [EnumValue("bc", (1 << 63) + 2)]), [1, info(19, 1), 8, 3, 2, 0x80000000]),
    (Int("bc", 1, Encoding.PLAIN, 0, 8), [3, info(1), 1, 8]),
    (Int("bc", 1, Encoding.SIGNED, 0, 8), [3, info(1), 1, 0x01000008]),
    (Int("bc", 1, Encoding.CHAR, 0, 8), [3, info(1), 1, 0x02000008]),
    (Func("a", Linkage.STATIC, 3), [1, info(12), 3]),
]

# Values that no BTF holds.
NO_TYPES: list[Any] = [
    None,
    "int",
    Ptr,
    Member("a", 0, 0, 0),
    Fwd("a\0", False),
    Fwd(b"a", False),  # type: ignore[arg-type]
    Fwd(None, False),  # type: ignore[arg-type]
    Fwd("a", 1),  # type: ignore[arg-type]
    Ptr(-1),
    Ptr(1 << 32),
    Ptr(1 << 80),
    Ptr("a"),  # type: ignore[arg-type]
    Int("a", 4, 0, 0, 8),  # type: ignore[arg-type]
    Int("a", 4, Linkage.STATIC, 0, 8),  # type: ignore[arg-type]
    Int("a", 4, Encoding.PLAIN, 256, 8),
    Int("a", 4, Encoding.PLAIN, 0, -1),
    Func("a", 0, 1),  # type: ignore[arg-type]
    Var("a", 1, Encoding.PLAIN),  # type: ignore[arg-type]
    Struct("a", 4, None),  # type: ignore[arg-type]
    Struct("a", 4, [EnumValue("a", 1)]),  # type: ignore[list-item]
    Struct("a", 4, [Member("\0", 0, 0, 0)]),
    Struct("a", 4, [Member("", 0, 0, 256)]),
    Struct("a", 4, [Member("", 0, 0, -1)]),
    Struct("a", 4, [Member("", 0, 0, None)]),  # type: ignore[arg-type]
    Struct("a", 4, [Member("", 0, 1 << 32, 0)]),
    Struct("a", 1 << 30, [Member("", 0, 0, 1), Member("", 0, 1 << 24, 0)]),
    Struct("a", 4, [Member("", 0, 0, 0)] * (1 << 16)),
    Enum("a", False, 4, [EnumValue("a", -1)]),
    Enum("a", False, 4, [EnumValue("a", 1 << 32)]),
    Enum("a", True, 4, [EnumValue("a", 1 << 31)]),
    Enum("a", True, 4, [EnumValue("a", -(1 << 31) - 1)]),
    Enum64("a", False, 8, [EnumValue("a", -1)]),
    Enum64("a", True, 8, [EnumValue("a", 1 << 63)]),
    FuncProto(0, [Member("", 0, 0, 0)]),  # type: ignore[list-item]
    Datasec("a", 4, [Entry(0, -1, 1)]),
    DeclTag("a", False, 1, -1),
    DeclTag("a", False, 1, 0xFFFFFFFF),
]
# Values that the library refuses, with the cause. Type 1 is a struct without members.
FAULTY: list[tuple[Type, BtfCause]] = [
    (Void(), BtfCause.KIND_NUMBER),
    (Struct("", 8, [Member("", 0, 0, 0), Member("", 9, 0, 0)]), BtfCause.REFERENCE),
    (Typedef("\ud800", 0), BtfCause.NAME_UTF8),
    (Struct("", 8, [Member("", 1, 0, 0), Member("\udfff", 1, 0, 0)]), BtfCause.NAME_UTF8),
    (Typedef("", 0), BtfCause.NAME_MISSING),
    (DeclTag("a", False, 1, 1 << 16), BtfCause.COMPONENT),
]
# Types of which several are refused, with the index and the cause of the first in the order of bpfcanon.h.
WIDE = Enum("", False, 4, [EnumValue("a", 1 << 32)])
FIRST: list[tuple[list[Any], int, Optional[BtfCause]]] = [
    ([Void(), Ptr(9), Ptr(-1)], 2, None),  # one that has no record comes before all others
    ([DeclTag("t", False, 2, None), Struct("s", -1, [])], 1, None),
    ([Func("f", Linkage.STATIC, 2), FuncProto(0, [Param("", 0)] * (1 << 16))], 1, None),
    ([WIDE, Ptr(9), Typedef("", 0)], 1, BtfCause.REFERENCE),
]


class Encoded(unittest.TestCase):
    def test_a_type_of_each_kind(self) -> None:
        types, words = [it for it, _ in WRITTEN], [word for _, it in WRITTEN for word in it]
        for to in Order:
            want = btf_canon(btf("<", (words, STRINGS)), to=to)
            self.assertEqual(btf_encode(types, to=to), want)
            self.assertEqual(btf_encode(iter(Btf(want)[1:]), to=to), want)
            self.assertEqual(list(Btf(want)[1:]), types)



class Refused(unittest.TestCase):
    def refused(self, types: list[Any], index: int, cause: Optional[BtfCause]) -> None:
        with self.assertRaises(EncodeBtfError) as raised:
            btf_encode(types)
        self.assertEqual(raised.exception.args, (index, types[index], cause))

    def test_a_value_that_is_no_type_is_named(self) -> None:
        for number, it in enumerate(NO_TYPES):
            before = number % 3
            self.refused([Struct("a", 0, [])] * before + [it, Ptr(0)], before, None)

    def test_a_fault_names_its_type(self) -> None:
        for it, cause in FAULTY:
            for before in 1, 2, 3:
                self.refused([Struct("a", 0, [])] * before + [it, Ptr(0)], before, cause)

    def test_the_first_is_named(self) -> None:
        for types, index, cause in FIRST:
            self.refused(types, index, cause)

    def test_sections_have_a_limit(self) -> None:
        types: list[Any] = [Fwd(chr(97 + it) * ((1 << 20) - 1), False) for it in range(16)]
        self.refused([*types, Fwd("last", False)], 15, BtfCause.STRING_LENGTH)
        types[15] = Fwd("z" * ((1 << 20) - 2), False)  # the section begins with a NUL
        self.assertEqual(len(btf_encode(types)), 24 + 16 * 12 + (1 << 24))
        most = Struct("", 0, [Member("", 0, 0, 0)] * 0xFFFF)  # 786,432 bytes
        self.refused([most] * 43, 42, BtfCause.TYPE_LENGTH)

    def test_errors_have_a_text_and_are_pickled(self) -> None:
        error = EncodeBtfError(3, Ptr(9), BtfCause.REFERENCE)
        self.assertEqual(str(error), "the type with index 3 can't be encoded: Reference: the type ID is over the number of types")
        self.assertEqual(str(EncodeBtfError(0, Ptr(-1), None)), "the type with index 0 can't be encoded: Ptr(target=-1)")
        self.assertEqual(pickle.loads(pickle.dumps(error)).args, error.args)


if __name__ == "__main__":
    unittest.main()
