"""Instructions and listings, with the bytes of RFC 9669."""

import unittest

import bpfcanon
from bpfcanon import FaultError, InsnCause, Order

from .samples import INSNS, load, unhex

EXIT = unhex("95 00 0000 00000000")


class Instructions(unittest.TestCase):
    def test_little_endian_is_the_order_if_none_is_given(self) -> None:
        little = unhex(INSNS[0][1])
        self.assertEqual(bpfcanon.insn_canon(little), little)
        self.assertEqual(bpfcanon.insn_read("mov r1, r2"), little)

    def test_comments_of_a_listing_may_hold_any_bytes(self) -> None:
        self.assertEqual(bpfcanon.insn_read("exit ; \u00e9\n"), EXIT)
        self.assertEqual(bpfcanon.insn_read(b"exit # \xff\n"), EXIT)
        self.assertEqual(bpfcanon.insn_read("exit\n" * 100), 100 * EXIT)


class Streams(unittest.TestCase):
    def test_streams_may_be_cut_anywhere(self) -> None:
        little, big = load("packet_filter.little.bin"), load("packet_filter.big.bin")
        for size in range(1, 60):
            pieces = [big[k : k + size] for k in range(0, len(big), size)]
            self.assertEqual(b"".join(bpfcanon.insn_stream(pieces, order=Order.BIG)), little)
        self.assertEqual(list(bpfcanon.insn_stream([])), [])

    def test_a_fault_comes_after_the_instructions_before_it(self) -> None:
        stream = unhex(INSNS[0][2] + INSNS[1][2] + "04 01 0000 00000005") + EXIT
        good = unhex(INSNS[0][1] + INSNS[1][1])
        for size in range(1, len(stream) + 1):
            pieces, output = [stream[k : k + size] for k in range(0, len(stream), size)], b""
            with self.assertRaises(FaultError) as raised:
                for canonical in bpfcanon.insn_stream(pieces, order=Order.BIG):
                    output += canonical
            self.assertEqual((raised.exception.args, output), ((InsnCause.SRC, 25, 0, False), good))

    def test_the_end_of_a_stream_may_be_cut(self) -> None:
        ends = [("95", 8), ("18 10 0000 55667788", 16), ("18 10 0000 55667788 00000000 112233", 16)]
        # Register 10 is the destination; in little-endian order it would be the source.
        ends += [("18 a0 0000 55667788", 16)]
        for end, pos in ends:
            with self.assertRaises(FaultError) as raised:
                list(bpfcanon.insn_stream([EXIT, unhex(end)], order=Order.BIG))
            self.assertEqual(raised.exception.args, (InsnCause.TRUNCATED, pos, 0, False))

    def test_the_start_of_a_piece_has_its_fault(self) -> None:
        front = bpfcanon.insn_front(EXIT + unhex("04 10 0000 05000000"))
        self.assertEqual((front.output, front.read), (EXIT, 8))
        self.assertIsInstance(front.error, FaultError)
        self.assertEqual(front.error and front.error.args, (InsnCause.SRC, 9, 0, False))
        self.assertEqual(bpfcanon.insn_front(EXIT + b"\x18"), (EXIT, 8, None))


if __name__ == "__main__":
    unittest.main()
