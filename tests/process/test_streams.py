"""Runs the built command as users do: its streams, and how it ends when one of them fails, is cut off or never ends.

No contract says what the system passes to `main`, nor which stream a line goes to. test_failing_calls.py has reads and writes that move
single bytes, and lets each of them fail once.
"""

import contextlib
import os
import select
import subprocess
import threading

import pytest

from tests.command import SECONDS, Ran
from tests.samples import CALL_BY_REGISTER, EXIT, INT_BIG, LOOSE_INT, MOV, MOV_BIG, SOURCE_BESIDE_IMMEDIATE

READ_FAILED = Ran(3, b"", b"read failed\n")
WRITE_FAILED = Ran(3, b"", b"write failed\n")
TOO_LONG = Ran(1, b"", b"too long\n")

# A line of each command that writes something, with its input.
EACH_COMMAND = [
    ("", EXIT),
    ("insn-canon --order big", MOV_BIG),
    ("insn-show", EXIT),
    ("insn-read", b"exit"),
    ("insn-groups", EXIT),
    ("insn-same --split 8 --order big", MOV_BIG + MOV),
    ("btf-canon", INT_BIG),
    ("btf-show", INT_BIG),
    ("btf-check", INT_BIG),
    ("btf-same --split 45", INT_BIG + LOOSE_INT),
]
each_command = pytest.mark.parametrize("line, given", EACH_COMMAND, ids=[line or "no command" for line, _ in EACH_COMMAND])


# ---- streams that fail


@contextlib.contextmanager
def pipe():
    ends = os.pipe()
    try:
        yield ends
    finally:
        for end in ends:
            with contextlib.suppress(OSError):
                os.close(end)


@each_command
def test_failing_reads(program, line, given):
    """A folder, a closed input, and a pipe that would block."""
    folder = os.open("/", os.O_RDONLY)
    assert program.run(line, stdin=folder) == READ_FAILED
    os.close(folder)
    assert program.run(line, preexec_fn=lambda: os.close(0)) == READ_FAILED
    with pipe() as (reader, _):
        os.set_blocking(reader, False)
        assert program.run(line, stdin=reader) == READ_FAILED


@each_command
def test_failing_writes(program, line, given):
    """A full device, a closed output, and a pipe that nobody reads."""
    with open("/dev/full", "wb") as full:
        assert program.run(line, given, stdout=full) == WRITE_FAILED
    assert program.run(line, given, preexec_fn=lambda: os.close(1)) == WRITE_FAILED
    with pipe() as (reader, writer):
        os.close(reader)
        assert program.run(line, given, stdout=writer) == WRITE_FAILED


@pytest.mark.parametrize(
    "line, given, status, output",
    [
        ("insn-canon", EXIT + SOURCE_BESIDE_IMMEDIATE, 1, EXIT),
        ("insn-show", EXIT + SOURCE_BESIDE_IMMEDIATE, 1, b""),
        ("insn-same", b"", 2, b""),
        ("insn-show", EXIT, 0, b"exit\n"),
    ],
)
def test_failing_fault_lines(program, line, given, status, output):
    """Where the line on standard error can't be written, the status and the output are as ever."""
    with open("/dev/full", "wb") as full:
        assert program.run(line, given, stderr=full) == Ran(status, output, b"")
    assert program.run(line, given, preexec_fn=lambda: os.close(2)) == Ran(status, output, b"")
    with pipe() as (reader, writer):
        os.close(reader)
        assert program.run(line, given, stderr=writer) == Ran(status, output, b"")


# ---- pipes that are cut off or never end


class Running:
    """A program between two pipes. Whatever happens, it doesn't outlive its `with`."""

    def __init__(self, program, line):
        # SIGPIPE is as it is by default, so that a program that doesn't see to it is killed
        pipes = {"stdin": subprocess.PIPE, "stdout": subprocess.PIPE, "stderr": subprocess.PIPE}
        self.process = subprocess.Popen([program.path, *line.split()], bufsize=0, **pipes)

    def __enter__(self):
        return self

    def __exit__(self, *_):
        self.process.kill()
        self.process.wait()
        for stream in self.process.stdin, self.process.stdout, self.process.stderr:
            with contextlib.suppress(OSError):
                stream.close()

    def feed(self, pieces):
        """Writes pieces from a thread of its own until they end, then closes the input. Ends if nobody reads it."""
        self.cut = threading.Event()
        threading.Thread(target=self.feed_now, args=[pieces], daemon=True).start()

    def feed_now(self, pieces):
        try:
            for piece in pieces:
                rest = memoryview(piece)
                while rest:
                    rest = rest[os.write(self.process.stdin.fileno(), rest) :]
            self.process.stdin.close()
        except (OSError, ValueError):
            self.cut.set()

    def read(self, count, stream=None):
        """The next bytes of the output or of another stream, fewer if they are late or if it ends."""
        stream, read = stream or self.process.stdout, bytearray()
        while len(read) < count and select.select([stream], [], [], SECONDS)[0]:
            more = os.read(stream.fileno(), min(count - len(read), 1 << 20))
            if not more:
                break
            read += more
        return bytes(read)

    def end(self, output=b""):
        """How the command ended, with the output that was read before. Raises `subprocess.TimeoutExpired` if it hangs."""
        self.process.wait(SECONDS)
        return Ran(self.process.returncode, output, self.process.stderr.read())


def endless(piece):
    while True:
        yield piece * 10_000


def test_cut_amid_an_endless_input(program):
    with Running(program, "insn-canon --order big") as running:
        running.feed(endless(MOV_BIG))
        read = running.read(1_000)
        running.process.stdout.close()
        assert running.end(read) == Ran(3, (MOV * 125)[:1_000], b"write failed\n")
        assert running.cut.wait(SECONDS)


@pytest.mark.parametrize("line", [line for line, _ in EACH_COMMAND if line and "canon --order" not in line])
def test_endless_zeros(program, line):
    with open("/dev/zero", "rb") as zeros:
        assert program.run(line, stdin=zeros) == TOO_LONG


@pytest.mark.parametrize("line, given, output", [("", EXIT, EXIT), ("insn-canon --order big", MOV_BIG, MOV)])
def test_answers_amid_the_input(program, line, given, output):
    """Each instruction is written when its last byte has come."""
    with Running(program, line) as running:
        for _ in range(3):
            for at in range(len(given)):
                running.process.stdin.write(given[at : at + 1])
            assert running.read(len(output)) == output
        running.process.stdin.write(CALL_BY_REGISTER)
        message = b"fault 24 Opcode\n"
        assert running.read(len(message), running.process.stderr) == message
        assert running.process.wait(SECONDS) == 1
