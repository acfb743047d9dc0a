"""bpfcanon-review makes of the kernel's log of a canonical file what the kernel logs of the original."""

from __future__ import annotations

import importlib
import re
import shutil
import subprocess
from pathlib import Path
from typing import Any

import pytest

from docs import canon
from tests.objects.conftest import each
from tests.objects.files import HERE, Made
from tests.objects.loaders import NEEDED, cilium
from tests.objects.test_kernel import LOADABLE

# One of two programs is refused, and loaders differ in where they put the functions.
LOGGED = Made(HERE / "sources/logs.c", "little", ("-g", "-mcpu=v3"))
ALL = "-d"  # with it libbpf asks for all that the kernel logs, and without it for the path to what is refused
pytestmark = pytest.mark.needs("elftools")


def by_libbpf(content: bytes, folder: Path, pins: Path, *options: str) -> str:
    """The logs in what libbpf prints; the numbers of sections in other messages differ."""
    path, place = folder / "logged.o", pins / "logged"
    path.write_bytes(content)
    done = subprocess.run(["bpftool", *options, "prog", "loadall", path, place], capture_output=True, text=True, check=False)
    shutil.rmtree(place, ignore_errors=True)
    return lasting("\n".join(re.findall(r"(?s)libbpf: prog '\w+': -- BEGIN .*?-- END .*?\n", done.stderr)))


def by_cilium(content: bytes, folder: Path) -> str:
    path = folder / "logged.o"
    path.write_bytes(content)
    return lasting(subprocess.run([*cilium(folder, "logs"), path, "accepted", "refused"], capture_output=True, text=True, check=True).stdout)


def lasting(log: str) -> str:
    """A log without the addresses of maps, the time, and the numbers of types in CO-RE relocations, which canonical files change."""
    return re.sub(r"\n\s*verification time .*|(?<= \(18\) r\d = )0xffff\w+|(?<=_off> )\[\d+\] ", "", log)


def with_lines(original: bytes, log: str) -> str:
    """The log with the lines of the original; nothing of what is refused before there is one."""
    accepted, annotator = (importlib.import_module(f"bpfcanon.review.{it}") for it in ("accepted", "log"))
    return "\n".join([*annotator.Annotator(accepted.Accepted(original)).lines(log.encode()), ""]) if log else ""


@each([LOGGED, *LOADABLE])
def test_libbpf(made: bytes, folder: Path, pins: Path, bpfcanon: Any) -> None:
    original, log = (by_libbpf(it, folder, pins, ALL) for it in (made, canon.canonical(made)))
    assert with_lines(made, log) == original


def without_repeated_lines(log: str) -> list[str]:
    found, last = [], ""
    for line in log.split("\n"):
        found += [line] if line != last else []
        last = line if line.startswith("; ") else last
    return found


@each([LOGGED])
def test_refused_program(made: bytes, folder: Path, pins: Path, bpfcanon: Any) -> None:
    """The kernel has taken paths out of such a log, and a line may follow one that it has in common with what is left."""
    original, log = (by_libbpf(it, folder, pins) for it in (made, canon.canonical(made)))
    assert "prog 'refused'" in original and original.count("\n; ") > 2
    assert without_repeated_lines(with_lines(made, log)) == without_repeated_lines(original)


@pytest.mark.needs(*NEEDED["cilium"])
@each([LOGGED])
def test_cilium(made: bytes, folder: Path, pins: Path, bpfcanon: Any) -> None:
    original, log = (by_cilium(it, folder) for it in (made, canon.canonical(made)))
    assert original.count("load program: ") == 2 and original.count("\n\t; ") > 2
    assert with_lines(made, log) == original
