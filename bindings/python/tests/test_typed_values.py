"""Programs and type tables: lookup, resolution, equality, and values that are refused."""

from __future__ import annotations

import copy
import pickle
import subprocess
import sys
import unittest
from collections.abc import Sequence
from dataclasses import fields
from typing import Any, Callable, get_args

import bpfcanon
from bpfcanon import Btf, EncodeInsnError, NoSuchTypeError, Order, Program, TypeCycleError, insn_encode, insns
from bpfcanon import insn_types as insn
from bpfcanon.insn_types import Alu, AluOp, AtomicOp, Atomic, Branch, BranchOp, CallBtf, Exit, Imm, Insn, Jump, Load, LoadSigned
from bpfcanon.insn_types import MapValueFd, MovsxForm, Number, Reg, Size, SmallSize, StoreImm, SwapBits, SwapKind, Wide, Width
from bpfcanon.types import Const, Encoding, Int, Member, Struct, Typedef, Void

from .samples import INSNS, btf, load, unhex

# The instructions of INSNS, by hand.
VALUES: list[Insn] = [
    Alu(Width.W64, AluOp.MOV, Reg.R1, Reg.R2),
    Wide(Reg.R1, Number(0x1122334455667788)),
    Branch(Width.W32, BranchOp.EQ, Reg.R3, Imm(-2), 5),
    bpfcanon.insn_types.StoreReg(Size.D, Reg.R10, Reg.R1, -8),
    Atomic(Width.W64, AtomicOp.CMPXCHG, Reg.R1, Reg.R2, -8),
    Exit(),
]
# A line of a listing with its instruction: the other forms, and the kinds of a wide load.
SHOWN: dict[str, Insn] = {
    "sub32 r3, -4": Alu(Width.W32, AluOp.SUB, Reg.R3, Imm(-4)),
    "movsx8_32 r1, r2": insn.Movsx(MovsxForm.W32_FROM8, Reg.R1, Reg.R2),
    "movsx16_32 r1, r2": insn.Movsx(MovsxForm.W32_FROM16, Reg.R1, Reg.R2),
    "movsx8 r1, r2": insn.Movsx(MovsxForm.W64_FROM8, Reg.R1, Reg.R2),
    "movsx16 r1, r2": insn.Movsx(MovsxForm.W64_FROM16, Reg.R1, Reg.R2),
    "movsx32 r1, r2": insn.Movsx(MovsxForm.W64_FROM32, Reg.R1, Reg.R2),
    "neg32 r3": insn.Neg(Width.W32, Reg.R3),
    "le16 r4": insn.Swap(SwapKind.LE, SwapBits.B16, Reg.R4),
    "be32 r4": insn.Swap(SwapKind.BE, SwapBits.B32, Reg.R4),
    "swap64 r4": insn.Swap(SwapKind.BYTES, SwapBits.B64, Reg.R4),
    "ja +5": Jump(5),
    "ja32 -6": insn.JumpLong(-6),
    "jsgt r3, r4, -7": Branch(Width.W64, BranchOp.SGT, Reg.R3, Reg.R4, -7),
    "call 8": insn.CallHelper(8),
    "call_local -9": insn.CallLocal(-9),
    "call_btf 10, 11": CallBtf(10, 11),
    "ldxb r5, [r6+7]": Load(Size.B, Reg.R5, Reg.R6, 7),
    "ldxsh r5, [r6-7]": LoadSigned(SmallSize.H, Reg.R5, Reg.R6, -7),
    "stw [r7+8], -9": StoreImm(Size.W, Reg.R7, 8, -9),
    "lddw_map r1, 2": Wide(Reg.R1, insn.MapFd(2)),
    "lddw_map_value r1, 2, 3": Wide(Reg.R1, MapValueFd(2, 3)),
    "lddw_var r1, 4, 5": Wide(Reg.R1, insn.VarAddr(4, 5)),
    "lddw_code r1, 6": Wide(Reg.R1, insn.CodeAddr(6)),
    "lddw_idx r1, 7": Wide(Reg.R1, insn.MapIdx(7)),
    "lddw_idx_value r1, 8, 9": Wide(Reg.R1, insn.MapValueIdx(8, 9)),
    "ldabsw 10": insn.PacketAbs(SmallSize.W, 10),
    "ldindb r1, 11": insn.PacketInd(SmallSize.B, Reg.R1, 11),
}
# Values with a field that no instruction has, in a good field of its type or not.
WRONG: list[Any] = [
    Alu(Width.W64, AluOp.MOV, 11, Imm(0)),  # type: ignore[arg-type]
    Alu(Width.W64, AluOp.MOV, Reg.R1, 5),  # type: ignore[arg-type]
    Alu(Width.W64, BranchOp.EQ, Reg.R1, Imm(0)),  # type: ignore[arg-type]
    Alu(Width.W64, AluOp.MOV, Reg.R1, Imm(1 << 31)),
    Alu(None, AluOp.MOV, Reg.R1, Imm(0)),  # type: ignore[arg-type]
    Load(Size.B, Reg.R1, -1, 0),  # type: ignore[arg-type]
    Load(Size.B, Reg.R1, 256, 0),  # type: ignore[arg-type]
    LoadSigned(Size.D, Reg.R1, Reg.R2, 0),  # type: ignore[arg-type]
    StoreImm(Size.B, Reg.R1, 0, "1"),  # type: ignore[arg-type]
    Jump(1 << 15),
    Jump(-(1 << 15) - 1),
    CallBtf(1, 1 << 15),
    Wide(Reg.R1, Number(-1)),
    Wide(Reg.R1, Number(1 << 64)),
    Wide(Reg.R1, MapValueFd(1, 1 << 31)),
    Wide(Reg.R1, 7),  # type: ignore[arg-type]
    "exit",
    None,
    Imm(1),
    Exit,
]


def table(*records: list[int]) -> Btf:
    """Types without names but "a" at offset 1 and "b" at offset 3."""
    return Btf(btf("<", ([word for record in records for word in record], b"\0a\0b\0")))


def info(kind: int, vlen: int = 0, flag: int = 0) -> int:
    return flag << 31 | kind << 24 | vlen


class Programs(unittest.TestCase):
    def test_worked_instructions(self) -> None:
        for order, column in (Order.LITTLE, 1), (Order.BIG, 2):
            code = b"".join(unhex(it[column]) for it in INSNS)
            program = Program(code, order=order)
            self.assertEqual(list(program), VALUES)
            self.assertEqual(list(insns(code, order=order)), list(zip([0, 8, 24, 32, 40, 48], VALUES)))
            self.assertEqual(insn_encode(VALUES, to=order), code)

    def test_instructions_are_those_of_the_listing(self) -> None:
        code = bpfcanon.insn_read("\n".join(SHOWN), to=Order.BIG)
        self.assertEqual(list(Program(code, order=Order.BIG)), list(SHOWN.values()))
        self.assertEqual(insn_encode(SHOWN.values(), to=Order.BIG), code)

    def test_a_program_is_a_sequence(self) -> None:
        program = Program(b"".join(unhex(it[1]) for it in INSNS))
        self.assertEqual((program[0], program[-1], program[1:3]), (VALUES[0], VALUES[5], tuple(VALUES[1:3])))
        self.assertEqual((len(program), program.index(Exit()), VALUES[2] in program), (6, 5, True))
        self.assertEqual([program.offset(it) for it in (1, 2, -1)], [8, 24, 48])
        self.assertEqual(program.group(4), bpfcanon.Group.ATOMIC64)
        calls: list[Callable[[int], object]] = [program.__getitem__, program.offset, program.group]
        for index in 6, -7:
            for call in calls:
                with self.assertRaises(IndexError):
                    call(index)

    def test_a_value_that_is_no_instruction_is_named(self) -> None:
        for count, wrong in enumerate(WRONG):
            with self.assertRaises(EncodeInsnError) as raised:
                insn_encode([*VALUES[: count % 4], wrong, Exit()])
            self.assertEqual(raised.exception.args, (count % 4, wrong))
        self.assertIn("instruction 0 can't be encoded: Jump(off=32768)", str(EncodeInsnError(0, Jump(1 << 15))))

    def test_the_first_of_two_is_named(self) -> None:
        late, early = Jump(1 << 15), Load(Size.B, 11, Reg.R1, 0)  # type: ignore[arg-type]
        orders: list[list[Insn]] = [[Exit(), early, late], [Exit(), late, early]]
        for values in orders:
            with self.assertRaises(EncodeInsnError) as raised:
                insn_encode(values)
            self.assertEqual(raised.exception.index, 1)

    def test_nothing_is_encoded_as_nothing(self) -> None:
        self.assertEqual(insn_encode([]), b"")
        self.assertEqual(insn_encode(iter(VALUES)), insn_encode(tuple(VALUES)))



class Types(unittest.TestCase):
    def test_types_are_found_by_id_and_by_name(self) -> None:
        found = Btf(load("flow_table.little.btf"))
        (id,) = found.by_name("flow")
        self.assertEqual((id, found.name(id)), (3, "flow"))
        self.assertEqual(found[5], Int("unsigned int", 4, Encoding.PLAIN, 0, 32))
        self.assertEqual((found[0], found.name(0), found.name(2)), (Void(), "", ""))
        self.assertEqual([found.by_name(it) for it in ("", "none")], [(), ()])
        two = table([1, info(8), 0], [1, info(8), 1], [3, info(8), 0])
        self.assertEqual([two.by_name("a"), two.by_name("b")], [(1, 2), (3,)])

    def test_an_id_that_isnt_there_is_named(self) -> None:
        found = table([1, info(8), 0])
        for id in 2, 1 << 40:
            calls: list[Callable[[int], object]] = [found.__getitem__, found.name, found.resolve]
            for call in calls:
                with self.assertRaises(NoSuchTypeError) as raised:
                    call(id)
                self.assertEqual(raised.exception.args, (id, 1))
        self.assertIsInstance(raised.exception, IndexError)
        self.assertEqual(str(raised.exception), "there is no type 1099511627776: the file has 1 types")
        for call in found.name, found.resolve:
            with self.assertRaises(NoSuchTypeError):
                call(-1)

    def test_types_are_a_sequence(self) -> None:
        found = table([1, info(8), 0], [3, info(8), 1])
        right = [Void(), Typedef("a", 0), Typedef("b", 1)]
        self.assertEqual((list(found), len(found), list(reversed(found))), (right, 3, right[::-1]))
        self.assertEqual((found[-1], found[1:], found[:0], found.index(right[2])), (right[2], tuple(right[1:]), (), 2))
        self.assertNotIn(Typedef("b", 0), found)
        with self.assertRaises(NoSuchTypeError):
            found[-4]

    def test_modifiers_and_typedefs_are_followed(self) -> None:
        tag, pointer = [1, info(18), 6], [0, info(2), 5]
        found = table([1, info(8), 2], [0, info(10), 3], [0, info(9), 4], [0, info(11), 5], tag, pointer, [0, info(10), 0])
        self.assertEqual([found.resolve(id) for id in range(8)], [0, 6, 6, 6, 6, 6, 6, 0])

    def test_a_cycle_has_no_end(self) -> None:
        found = table([0, info(10), 1], [0, info(10), 3], [1, info(8), 2], [0, info(9), 2], [0, info(2), 5])
        for id in range(1, 5):
            with self.assertRaises(TypeCycleError) as raised:
                found.resolve(id)
            self.assertEqual(str(raised.exception), f"type {id} leads back to itself")
        self.assertEqual(found.resolve(5), 5)
        self.assertEqual(found[1], Const(1))

    def test_equal_types_have_equal_hashes(self) -> None:
        record = [1, info(4, 1), 4, 3, 0, 0]
        first, second = table(record)[1], table([1, info(8), 0], record)[2]
        value = Struct("a", 4, (Member("b", 0, 0, 0),))
        self.assertEqual({first, second, Struct("a", 4, [Member("b", 0, 0, 0)])}, {value})
        self.assertNotEqual(first, table([1, info(4, 1), 4, 3, 0, 1])[1])
        self.assertEqual(repr(first), repr(value))

    def test_values_can_be_pickled(self) -> None:
        for value in *VALUES, *Btf(load("flow_table.little.btf"))[1:]:
            self.assertEqual(pickle.loads(pickle.dumps(value)), value)
            self.assertEqual(copy.deepcopy(value), value)

    def test_items_are_a_sequence(self) -> None:
        flow = Btf(load("flow_table.little.btf"))[3]
        assert isinstance(flow, Struct) and isinstance(flow.members, Sequence)
        self.assertEqual([it.name for it in flow.members[-2:]], ["host", "name"])
        self.assertEqual((len(flow.members), flow.members[0].name, flow.members[-1].name), (7, "source", "name"))
        for index in 7, -8:
            with self.assertRaises(IndexError):
                flow.members[index]

    @unittest.skipIf(sys.version_info < (3, 10), "there is no match statement")
    def test_values_are_matched_by_position(self) -> None:
        for kind in *get_args(Insn), *get_args(bpfcanon.types.Type), Member, MapValueFd, Imm:
            self.assertEqual(kind.__match_args__, tuple(it.name for it in fields(kind)))

    def test_values_are_frozen(self) -> None:
        value: Any = Typedef("t", 1)
        for name in "target", "other":
            with self.assertRaises(AttributeError):
                setattr(value, name, 2)


class Package(unittest.TestCase):
    def test_typed_values_are_loaded_when_they_are_used(self) -> None:
        script = "import sys, bpfcanon; loaded = [it for it in sys.modules if it.startswith('bpfcanon.')]; "
        script += "print('dataclasses' in sys.modules, *sorted(it[9:] for it in loaded)); bpfcanon.Btf; bpfcanon.insns"
        done = subprocess.run([sys.executable, "-c", script], capture_output=True, text=True, check=True)
        self.assertEqual(done.stdout.split(), ["False", "_library", "btf", "causes", "errors", "header", "insn"])

    def test_no_other_name_is_found(self) -> None:
        with self.assertRaisesRegex(AttributeError, "module 'bpfcanon' has no attribute 'Insns'"):
            getattr(bpfcanon, "Insns")


if __name__ == "__main__":
    unittest.main()
