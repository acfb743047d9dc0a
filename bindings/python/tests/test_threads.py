"""Calls by many threads, and what other threads do while a call runs."""

import sys
import threading
import time
import unittest
from concurrent.futures import ThreadPoolExecutor
from types import FrameType
from typing import Callable

import bpfcanon

from .samples import load, unhex

EXIT = unhex("95 00 0000 00000000")


def ticks_during(call: Callable[[], object]) -> int:
    """How often this thread runs while another one is in the middle half of a call."""
    moments: list[float] = []
    ends: list[float] = []

    def timed() -> None:
        ends.append(time.monotonic())
        call()
        ends.append(time.monotonic())

    caller = threading.Thread(target=timed)
    caller.start()
    while caller.is_alive():
        moments.append(time.monotonic())
        time.sleep(0.0005)
    caller.join()
    quarter = (ends[1] - ends[0]) / 4
    return sum(ends[0] + quarter < moment < ends[1] - quarter for moment in moments)


class Threads(unittest.TestCase):
    def test_threads_call_at_the_same_time(self) -> None:
        little, big = load("flow_table.little.btf"), load("flow_table.big.btf")
        want = bpfcanon.btf_canon(little)
        with ThreadPoolExecutor(8) as threads:
            self.assertEqual(set(threads.map(bpfcanon.btf_canon, [little, big] * 200)), {want})

    def test_frames_of_calls_may_be_kept(self) -> None:
        """A profiler of another thread keeps frames as `sys._current_frames` returns them, and Dask has one on each worker."""
        types, program = load("flow_table.little.btf"), load("packet_filter.little.bin")
        calls: list[Callable[[], object]] = [
            lambda: bpfcanon.btf_canon(types),
            lambda: bpfcanon.btf_show(types),
            lambda: bpfcanon.insn_front(program + b"\x95"),
            lambda: bpfcanon.insn_read("exit\n" * 100),
        ]
        want = [call() for call in calls]
        frames: list[FrameType] = []
        sys.setprofile(lambda frame, *_: frames.append(frame))
        try:
            got = [call() for call in calls]
        finally:
            sys.setprofile(None)
        self.assertEqual(got, want)

    def test_other_threads_run_during_a_call(self) -> None:
        program = EXIT * 4_000_000
        # A busy machine may run no other thread during a short call. A call that keeps the lock never lets one run.
        calls: list[Callable[[], object]] = [lambda: bpfcanon.insn_canon(program), lambda: bpfcanon.insn_groups(program)]
        for call in calls:
            self.assertTrue(any(ticks_during(call) for _ in range(30)))


if __name__ == "__main__":
    unittest.main()
