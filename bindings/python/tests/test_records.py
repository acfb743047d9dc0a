"""The layout of records is that of the header, their memory is freed with the last view of it, and numpy reads it in place."""

from __future__ import annotations

import gc
import importlib.util
import re
import unittest
from typing import Any, Callable, get_args
from unittest import mock

from bpfcanon import Btf, FaultError, Program, UnknownRecordError, _library, insn_encode, records
from bpfcanon import header, insn_records, type_records, types
from bpfcanon.types import Member, Struct

from .samples import INSNS, TOP, load, unhex

STRUCTS: list[tuple[Any, list[tuple[str, str]]]] = [
    (header.INSN, records.INSN_FIELDS),
    (header.TYPE, records.TYPE_FIELDS),
    (header.ITEM, records.ITEM_FIELDS),
]


class Layout(unittest.TestCase):
    def test_records_have_their_sizes(self) -> None:
        self.assertEqual([layout.size for layout, _ in STRUCTS], [32, 40, 40])

    def test_classes_have_the_fields_that_the_header_lists(self) -> None:
        forms = {it.name: {field for part in insn_records.FORMS[it][1] for field in part.fields} for it in header.Form}
        kinds = {it.name: set(type_records.expressions(kind, type_records.VALUES)) for it, kind in zip(header.Kind, get_args(types.Type)[1:])}
        text = (TOP / "capi" / "bpfcanon.h").read_text()
        for prefix, found, known in ("FORM", forms, header.InsnRecord._fields), ("BTF_KIND", kinds, header.TypeRecord._fields):
            rows = re.findall(rf"^\tBPFCANON_{prefix}_(\w+) = \d+,? *(?:/\* (.*) \*/)?$", text, re.MULTILINE)
            self.assertEqual({name: set(re.findall(r"\w+", about)) & set(known) for name, about in rows}, found)


class Newer(unittest.TestCase):
    def test_a_record_of_a_newer_library_is_named(self) -> None:
        insn = header.InsnRecord._make([0] * len(records.INSN_FIELDS))._replace(form=1, bits=64, len=8)
        for change in {"form": 200}, {"form": 0}, {"op": 8}, {"bits": 128}, {"form": 17, "op": 7}:
            with self.assertRaises(UnknownRecordError) as raised:
                insn_records.insn_of(insn._replace(**change))
            self.assertEqual(raised.exception.args, (insn._replace(**change),))
        blank = header.TypeRecord._make([0] * len(records.TYPE_FIELDS))
        for change in {"kind": 200}, {"kind": 1, "encoding": 3}, {"kind": 12, "linkage": 3}:
            with self.assertRaises(UnknownRecordError):
                type_records.type_of(type_records.File(b"", memoryview(b"")), blank._replace(**change))


def counted_free() -> Any:
    """Counts the blocks that the library frees."""
    loaded = _library.library()
    return mock.patch.object(loaded, "bpfcanon_free", wraps=loaded.bpfcanon_free)


class Memory(unittest.TestCase):
    def test_blocks_are_freed_with_their_last_view(self) -> None:
        with counted_free() as freed:
            btf, program = Btf(load("flow_table.little.btf")), Program(load("packet_filter.little.bin"))
            held, part = btf[3], program.records[32:64]
            del btf
            gc.collect()
            self.assertEqual(freed.call_count, 1)  # the types; a struct has its items
            assert isinstance(held, Struct)
            self.assertEqual(held.members[2], Member("closed", 5, 160, 1))
            del held, program
            gc.collect()
            self.assertEqual(freed.call_count, 2)
            self.assertEqual(len(bytes(part)), 32)
            del part
            gc.collect()
            self.assertEqual(freed.call_count, 3)
            addresses = [it.args[0] for it in freed.call_args_list]
            self.assertEqual(len(set(addresses)), 3)

    def test_a_fault_leaves_no_block(self) -> None:
        with counted_free() as freed:
            calls: list[Callable[[], object]] = [lambda: Btf(b""), lambda: Program(b"\xff")]
            for call in calls:
                with self.assertRaises(FaultError):
                    call()
            self.assertEqual(freed.call_count, 0)

    def test_records_are_read_only(self) -> None:
        btf = Btf(load("flow_table.little.btf"))
        for view in btf.type_records, btf.item_records, Program(unhex(INSNS[0][1])).records:
            self.assertEqual((view.readonly, view.format, view.c_contiguous), (True, "B", True))

    def test_an_input_may_change_afterwards(self) -> None:
        given = bytearray(load("flow_table.little.btf"))
        btf, program = Btf(given), bytearray(unhex(INSNS[0][1]))
        decoded = Program(program)
        given[:], program[:] = bytes(len(given)), b""
        self.assertEqual(btf.name(3), "flow")
        self.assertEqual(insn_encode(decoded), unhex(INSNS[0][1]))

    def test_nothing_has_no_records(self) -> None:
        empty = Btf(unhex("9feb 01 00 18000000 00000000 00000000 00000000 01000000 00"))
        self.assertEqual((len(Program(b"")), list(Program(b"")), list(empty)), (0, [], [types.Void()]))


@unittest.skipUnless(importlib.util.find_spec("numpy"), "there is no numpy")
class Arrays(unittest.TestCase):
    def test_numpy_reads_records_in_place(self) -> None:
        numpy: Any = importlib.import_module("numpy")
        btf, program = Btf(load("flow_table.big.btf")), Program(load("packet_filter.little.bin"))
        for view, (layout, fields) in zip([program.records, btf.type_records, btf.item_records], STRUCTS):
            array = numpy.frombuffer(view, dtype=fields)
            self.assertEqual(array.dtype.itemsize, layout.size)
            self.assertEqual([tuple(it) for it in array.tolist()], list(layout.iter_unpack(view)))
            self.assertTrue(numpy.shares_memory(array, numpy.frombuffer(view, dtype="B")))
            self.assertFalse(array.flags.writeable)
        kinds = numpy.frombuffer(btf.type_records, dtype=records.TYPE_FIELDS)["kind"]
        self.assertEqual(int((kinds == 4).sum()), sum(isinstance(it, Struct) for it in btf[1:]))


if __name__ == "__main__":
    unittest.main()
