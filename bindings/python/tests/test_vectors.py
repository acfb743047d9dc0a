"""Values that are decoded from the rows of testdata/vectors.tsv, the faults of all calls, and a sample of each call.

testdata/README.md describes the columns. The tests from C have each row by each call on bytes.
"""

import itertools
import unittest
from typing import Callable

import bpfcanon
from bpfcanon import Btf, BtfCause, FaultError, Group, InsnCause, LineCause, Order, Program

from .samples import INSNS, TESTDATA, load, unhex

ORDERS = [Order.LITTLE, Order.BIG]
EXIT = bytes.fromhex("9500000000000000")


def rows(kind: str) -> list[list[str]]:
    """The fields of each row of a kind, without the kind."""
    lines = (TESTDATA / "vectors.tsv").read_text().splitlines()
    found = [line.split("\t")[1:] for line in lines if line.startswith(f"{kind}\t")]
    assert found, f"no row of {kind}"
    return found


def text(field: str) -> bytes:
    return b"" if field == "-" else field.encode().decode("unicode_escape").encode("latin-1")


def data(field: str) -> bytes:
    return b"" if field == "-" else bytes.fromhex(field)


class Vectors(unittest.TestCase):
    def faults(self, calls: list[Callable[[], object]], *args: object) -> None:
        for call in calls:
            with self.assertRaises(FaultError) as raised:
                call()
            self.assertEqual(raised.exception.args, args)

    def test_instructions(self) -> None:
        """Each is decoded from each byte order and encoded in each."""
        for line, *files, group in rows("insn"):
            programs = dict(zip(ORDERS, map(data, files)))
            for order, to in itertools.product(ORDERS, ORDERS):
                decoded = Program(programs[order], order=order)
                self.assertEqual((len(decoded), decoded.offset(0), decoded.group(0)), (1, 0, Group[group.upper()]), line)
                self.assertEqual(bpfcanon.insn_encode(decoded, to=to), programs[to], line)

    def test_calls_on_instructions(self) -> None:
        listing = "".join(f"{line}\n" for line, *_ in INSNS)
        programs = {order: b"".join(unhex(it[column]) for it in INSNS) for column, order in enumerate(ORDERS, 1)}
        for order, program in programs.items():
            for to in ORDERS:
                self.assertEqual(bpfcanon.insn_canon(program, order=order, to=to), programs[to])
                self.assertIs(bpfcanon.insn_same(program, programs[to], first_order=order, second_order=to), True)
            self.assertIs(bpfcanon.insn_same(program, EXIT, first_order=order), False)
            self.assertEqual(bpfcanon.insn_show(program, order=order), listing)
            self.assertEqual(bpfcanon.insn_read(listing, to=order), program)
            groups = bpfcanon.insn_groups(program, order=order)
            self.assertEqual(groups, Group.BASE32 | Group.BASE64 | Group.ATOMIC32 | Group.ATOMIC64)

    def test_faulty_instructions(self) -> None:
        for name, *files, pos, cause in rows("insn-fault"):
            with self.subTest(name):
                found = next(it for it in InsnCause if it.label == cause)
                for order, program in zip(ORDERS, map(data, files)):
                    calls: list[Callable[[], object]] = [
                        lambda: bpfcanon.insn_canon(program, order=order),
                        lambda: bpfcanon.insn_show(program, order=order),
                        lambda: bpfcanon.insn_groups(program, order=order),
                        lambda: Program(program, order=order),
                        lambda: bpfcanon.insn_same(program, EXIT, first_order=order),
                    ]
                    self.faults(calls, found, int(pos), 0, False)
                    self.faults([lambda: bpfcanon.insn_same(EXIT, program, second_order=order)], found, int(pos), 0, True)

    def test_faulty_listings(self) -> None:
        for name, given, line, cause in rows("listing-fault"):
            with self.subTest(name):
                found = next(it for it in LineCause if it.label == cause)
                self.faults([lambda: bpfcanon.insn_read(text(given))], found, 0, int(line), False)

    def test_types(self) -> None:
        """They are decoded from each file and encoded in each byte order."""
        for name, *files, count, _ in rows("btf"):
            for given, (to, canonical) in itertools.product(map(data, files), zip(ORDERS, map(data, files[1:]))):
                decoded = Btf(given)
                self.assertEqual(len(decoded), int(count) + 1, name)
                self.assertEqual(bpfcanon.btf_encode(decoded[1:], to=to), canonical, name)

    def test_calls_on_types(self) -> None:
        files = [load(f"flow_table.{it.name.lower()}.btf") for it in ORDERS]
        canonical = {to: bpfcanon.btf_canon(files[0], to=to) for to in ORDERS}
        self.assertEqual({it[:2] for it in canonical.values()}, {b"\x9f\xeb", b"\xeb\x9f"})
        for given in files:
            for to, want in canonical.items():
                self.assertEqual(bpfcanon.btf_canon(given, to=to), want)
                self.assertIs(bpfcanon.btf_same(given, want), True)
            self.assertIs(bpfcanon.btf_same(given, bpfcanon.btf_encode([])), False)
            self.assertEqual(bpfcanon.btf_check(given) + 1, len(Btf(given)))
            self.assertEqual(bpfcanon.btf_show(given), bpfcanon.btf_show(canonical[Order.LITTLE]))

    def test_faulty_types(self) -> None:
        good = data(rows("btf")[0][1])
        for name, *files, pos, cause in rows("btf-fault"):
            with self.subTest(name):
                found = next(it for it in BtfCause if it.label == cause)
                for given in map(data, files):
                    calls: list[Callable[[], object]] = [
                        lambda: bpfcanon.btf_canon(given),
                        lambda: bpfcanon.btf_show(given),
                        lambda: bpfcanon.btf_check(given),
                        lambda: Btf(given),
                        lambda: bpfcanon.btf_same(given, good),
                    ]
                    self.faults(calls, found, int(pos), 0, False)
                    self.faults([lambda: bpfcanon.btf_same(good, given)], found, int(pos), 0, True)


if __name__ == "__main__":
    unittest.main()
