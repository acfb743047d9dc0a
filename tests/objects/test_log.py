"""The source lines that bpfcanon-review puts into logs of a canonical file, and its stored originals."""

from __future__ import annotations

import hashlib
import re
import time
from pathlib import Path
from typing import Any

import pytest

from docs import canon
from tests import object_vectors
from tests.objects.conftest import Review, Run
from tests.objects.test_review import compiled

pytestmark = pytest.mark.needs("elftools")
CALLS, OTHER = (object_vectors.FOLDER / f"{name}.little.typed.o" for name in ("calls", "core"))
SOURCE = (object_vectors.FOLDER / "calls.c").read_text().splitlines()
KEY = hashlib.sha256(canon.canonical(CALLS.read_bytes())).hexdigest()
Lines = list[tuple[str, int]]  # the number of an instruction, and that of the line of calls.c before it

DROP = """\
0: R1=ctx() R10=fp0
;  @ :0
0: (b7) r2 = 1                        ; R2=1
1: (7b) *(u64 *)(r10 -8) = r2         ; R2=1 R10=fp0 fp-8=1
2: (61) r2 = *(u32 *)(r1 +4)          ; R1=ctx() R2=scalar()
3: (bf) r1 = r10                      ; R1=fp0 R10=fp0
4: (07) r1 += -8                      ; R1=fp-8
5: (85) call pc+2
8: frame1: R1=fp[0]-8 R2=scalar() R10=fp0
8: (bc) w2 = w2                       ; frame1: R2=scalar()
9: (79) r0 = *(u64 *)(r1 +0)          ; frame1: R0=1 R1=fp[0]-8
"""
IN_DROP = [("0", 37), ("1", 39), ("2", 41), ("4", 0), ("5", 41), ("8", 9)]
BRANCH = "12: R1=scalar()\n13: (55) if r1 != 0x0 goto pc+1"
# Logs, and the lines that the kernel would put into them.
LOGS: dict[str, tuple[str, Lines]] = {
    "a program": (DROP, IN_DROP),
    "an older kernel": (DROP.replace(";  @ :0", "; "), IN_DROP),
    "lines that end as in Windows": (DROP.replace("\n", "\r\n"), IN_DROP),
    "the end is cut off": (DROP[:-30], IN_DROP),
    "the beginning is cut off": (DROP[DROP.index(": (61)") :], [("3", 41), *IN_DROP[3:]]),
    "a number is cut off": ("5: (95) exit\n13: (55) if r1 != 0x0 goto pc+1", [("13", 34)]),
    "an instruction is cut": ("9: R1=ctx()\n1: (7", []),
    "two functions begin": (f"{DROP}Validating drop() func#0...\n{DROP}", [*IN_DROP, *IN_DROP]),
    "a function that libbpf appends": (f"{BRANCH}\n10: (85) call pc+16\n27: (bf) r6 = r1", [("13", 34), ("27", 18)]),
    "a function that cilium/ebpf appends": (f"{BRANCH}\n10: (85) call pc+5\n16: (bf) r6 = r1", [("13", 34), ("16", 18)]),
    "a callback that libbpf appends": (f"{BRANCH}\n16: (bc) w3 = w1\n26: (95) exit", [("13", 34), ("16", 23), ("26", 10)]),
    "a callback that cilium/ebpf appends": (f"{BRANCH}\n24: (bc) w3 = w1\n38: (95) exit", [("13", 34), ("24", 23), ("38", 10)]),
    "the other path": (f"{BRANCH}\n14: (b4) w0 = 0\n15: (95) exit\n\nfrom 13 to 15: R0=1\n15: (95) exit", [("13", 34)]),
    "the other path is like a known one": (f"{BRANCH}\n14: safe\n\nfrom 13 to 15: R0=1\n15: (95) exit", [("13", 34)]),
    "a path is left out": (f"{BRANCH} 15: R0=1\n15: (95) exit", [("13", 34), ("15", 34)]),
    "a path is left out by an older kernel": (f"{BRANCH}\n\nfrom 13 to 15: R0=1\n15: (95) exit", [("13", 34), ("15", 34)]),
    "indented, with the name": (f"program drop: load program: invalid argument:\n\t{DROP}".replace("\n", "\n\t"), IN_DROP),
    "libbpf's messages": (
        f"libbpf: prog 'drop': -- BEGIN PROG LOAD LOG --\n{DROP}-- END PROG LOAD LOG --\nlibbpf: failed to load object 'calls.o'\n"
        "libbpf: prog 'classify': -- BEGIN PROG LOAD LOG --\n0: R1=ctx()\n;  @ :0\n2: (61) r1 = *(u32 *)(r1 +4)\n-- END PROG LOAD LOG --\n",
        [*IN_DROP, ("2", 33)],
    ),
    "no instruction": ("processed 0 insns (limit 1000000)\n", []),
    "nothing": ("", []),
}


def annotated(review: Review, data: bytes, log: str, program: str = "") -> list[str]:
    annotator = review.module("log").Annotator(review.accepted(data), program)
    return [*annotator.lines(log.encode())]


def with_lines(log: str, lines: Lines) -> str:
    """A log with these source lines, each before the next instruction with its number."""
    found: list[str] = []
    waiting = [*lines]
    for line in re.sub(r"^;.*\n", "", log.replace("\r", ""), flags=re.MULTILINE).removesuffix("\n").split("\n"):
        number = re.match(r"(\s*)(\d+): \(\w\w\) ", line) if found else None
        if number and waiting and number[2] == waiting[0][0]:
            source = waiting.pop(0)[1]
            found.append(f"{number[1]}; {SOURCE[source - 1].lstrip() if source else ''} @ calls.c:{source}")
        found.append(line)
    assert waiting == []
    return "\n".join(found)


@pytest.mark.parametrize("order", ("little", "big"))
@pytest.mark.parametrize("case", LOGS)
def test_log(case: str, order: str, review: Review) -> None:
    log, lines = LOGS[case]
    data = (object_vectors.FOLDER / f"calls.{order}.typed.o").read_bytes()
    assert "\n".join(annotated(review, data, log)) == with_lines(log.replace("\t;  @ :0\n", ""), lines)


@pytest.mark.parametrize("line", ("0: (79) r2 = *(u64 *)(r1 +8)", "0: <invalid CO-RE relocation>"))
def test_relocated_instruction(line: str, review: Review) -> None:
    """A loader changes the size of a CO-RE access, or takes the access out of the log."""
    found = annotated(review, compiled("flows", "little"), f"\n;  @ :0\n{line}")
    assert found == ["", "; struct flow flow = {host->id, host->counts[2]}; @ flows.c:41", line]


NAMED = "libbpf: prog '{}': -- BEGIN PROG LOAD LOG --\n"
OTHER_PROGRAM, NO_PROGRAM = ("instruction {} isn't that of drop: ", "no program of the original has these instructions: the log is of another")
# Logs without an answer, and why.
REFUSED = {
    "of the original": ("0: R1=ctx()\n; s64 total = 1; @ calls.c:39\n1: (7b) *(u64 *)(r10 -8) = r2", "the log has source lines, so"),
    "of another program": (NAMED.format("drop") + DROP.replace("1: (7b)", "1: (95)"), OTHER_PROGRAM.format(1)),
    "of another function": (NAMED.format("drop") + DROP.replace("pc+2", "pc+3"), OTHER_PROGRAM.format(5)),
    "past the end": (NAMED.format("drop") + DROP + "13: (95) exit\n", OTHER_PROGRAM.format(13)),
    "past all numbers": (NAMED.format("drop") + DROP + "9999999: (95) exit\n", OTHER_PROGRAM.format(9999999)),
    "of no program": (DROP.replace("1: (7b)", "1: (95)"), NO_PROGRAM),
    "of a program that isn't there": (NAMED.format("gone") + DROP, "the original has no program gone"),
    "of either": ("\n1: (7b) *(u64 *)(r10 -8) = r2", "the log may be of classify or drop: say which by --program"),
}


@pytest.mark.parametrize("case", REFUSED)
def test_refused_log(case: str, run: Run) -> None:
    log, message = REFUSED[case]
    done = run("log", CALLS, input=log.encode())
    first, second = done.stderr.decode().splitlines()
    assert (done.returncode, done.stdout, first) == (2, b"", f"{KEY}  {CALLS}")
    assert second.startswith(f"bpfcanon-review: -: {message}")


def test_log_without_end(run: Run) -> None:
    done = run("log", CALLS, "/dev/zero")
    assert (done.returncode, done.stdout) == (2, b"")
    assert done.stderr.endswith(b"\nbpfcanon-review: /dev/zero: it is longer than 67108864 bytes\n")


def test_program(review: Review) -> None:
    """--program says whose log it is, and leaves those of others as they are."""
    log = "prog 'gone': -- BEGIN PROG LOAD LOG --\n\n1: (18) r1 = 0x0\n-- END PROG LOAD LOG --\n\n1: (7b) *(u64 *)(r10 -8) = r2"
    found = annotated(review, CALLS.read_bytes(), log, "drop")
    assert found == [*log.split("\n")[:-1], "; s64 total = 1; @ calls.c:39", log.split("\n")[-1]]


def test_unsigned_lines_are_marked(run: Run, tmp_path: Path) -> None:
    (tmp_path / "load.log").write_text(DROP)
    first, *lines = run("log", CALLS, "load.log", cwd=tmp_path).stdout.decode().split("\n")
    assert first == f'# not signed: the lines that begin with "; ", which are of {CALLS}'
    assert "\n".join(lines) == f"{with_lines(DROP, IN_DROP)}\n"


# What is asked of a folder with the original, and with another file under the name OTHER: status, and the last line on standard error.
WRONG = "0" * 64
ASKED: dict[str, tuple[tuple[Any, ...], int, str]] = {
    "the key": (("--key", KEY, CALLS), 0, ""),
    "another key": (("--key", WRONG, CALLS), 1, f"bpfcanon-review: {CALLS}: its key is {KEY}"),
    "the store": (("--store", "store", "--key", KEY), 0, ""),
    "another file in the store": (("--store", "store", "--key", WRONG), 1, f"bpfcanon-review: store/{WRONG}: its key is "),
    "no such file": (("--store", "store", "--key", "1" * 64), 2, f"bpfcanon-review: store/{'1' * 64}: No such file or directory"),
    "no key": (("--store", "store"), 2, "bpfcanon-review: log: the files are "),
    "no original": ((), 2, "bpfcanon-review: log: the files are "),
    "a file too many": (("--store", "store", "--key", KEY, "load.log", "load.log"), 2, "bpfcanon-review: log: the files are "),
    "a key that is a path": (("--store", "store", "--key", "../load.log"), 2, "bpfcanon-review log: error: argument --key: a key has 64 digits"),
}


@pytest.mark.parametrize("case", ASKED)
def test_original_by_key(case: str, run: Run, tmp_path: Path) -> None:
    words, status, message = ASKED[case]
    assert run("store", "store", CALLS, cwd=tmp_path).stdout == f"{KEY}  {CALLS}\n".encode()
    (tmp_path / "store" / WRONG).write_bytes(OTHER.read_bytes())
    done = run("log", *words, cwd=tmp_path, input=DROP.encode())
    last = done.stderr.decode().splitlines()[-1:]
    assert (done.returncode, bool(done.stdout)) == (status, status == 0)
    assert last == [] if not message else last[0].startswith(message)


def test_store(run: Run, tmp_path: Path) -> None:
    """A file that has the key of a stored one replaces it, and nothing else is left; a refused one doesn't end the work."""
    canonical = canon.canonical(CALLS.read_bytes())
    (tmp_path / "canonical.o").write_bytes(canonical)
    done = run("store", "store", "canonical.o", "/dev/null", CALLS, OTHER, cwd=tmp_path)
    assert done.returncode == 2 and done.stdout.count(KEY.encode()) == 2
    stored = {it.name: it.read_bytes() for it in (tmp_path / "store").iterdir()}
    assert stored[KEY] == CALLS.read_bytes() != canonical and len(stored) == 2
    done = run("store", "canonical.o", CALLS, cwd=tmp_path)
    assert (done.returncode, done.stdout, done.stderr) == (2, b"", f"bpfcanon-review: {CALLS}: canonical.o: File exists\n".encode())


def test_long_log(review: Review) -> None:
    """A log of 1 MB is read in a fraction of a second, and one that is ten times as long in about ten times as long."""
    seconds = []
    for size in 1_000_000, 10_000_000:
        start = time.process_time()
        lines = annotated(review, CALLS.read_bytes(), DROP * (size // len(DROP)), "drop")
        seconds.append(time.process_time() - start)
        assert len(lines) > size // len(DROP) * len(IN_DROP)
    assert seconds[0] < 1 and seconds[1] < 20 * seconds[0]
