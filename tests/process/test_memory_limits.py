"""Limits by how much the command may grow while it runs: insn-canon on the largest input, and btf-show on names that share their bytes.

test_refused_memory.py refuses the allocations of each command one by one.
"""

import fcntl
import os
import resource
import sys
import termios

from tests.command import Ran
from tests.process.test_limits import INSTRUCTIONS
from tests.process.test_streams import Running
from tests.samples import EXIT, btf, floats

MEGABYTE = 1 << 20


def unread(stream):
    """How many bytes are in a pipe."""
    return int.from_bytes(fcntl.ioctl(stream.fileno(), termios.FIONREAD, bytes(4)), sys.byteorder)


def run_growing(program, more, line, given):
    """Feeds the first bytes of an input, lets the address space grow by this many bytes at most, and feeds the rest."""
    first = 16_384
    with Running(program, line) as running:
        process = running.process
        os.write(process.stdin.fileno(), given[:first])
        while unread(process.stdin):
            os.sched_yield()
        with open(f"/proc/{process.pid}/statm") as file:
            limit = more + int(file.read().split()[0]) * resource.getpagesize()
        resource.prlimit(process.pid, resource.RLIMIT_AS, (limit, limit))
        running.feed([given[first:]])
        return running.end(running.read(1 << 30))


def test_streams_in_little_memory(program):
    """insn-canon doesn't keep its input, so it needs no more for the largest than for the first piece."""
    given = EXIT * INSTRUCTIONS
    assert run_growing(program, 256 << 10, "insn-canon", given) == Ran(0, given, b"")


def test_shows_names_in_little_memory(program):
    """All names end in one 1 MB string, so the listing is 64 times as long as the file: btf-show stores no more of it than a line."""
    name, count = b"n" * MEGABYTE, 64
    given = btf("little", floats(range(1, count + 1)), b"\0" + name + b"\0")
    text = b"".join(b'[%d] float "%s" size=8\n' % (number, name[number - 1 :]) for number in range(1, count + 1))
    assert run_growing(program, 8 * MEGABYTE, "btf-show", given) == Ran(0, text, b"")
