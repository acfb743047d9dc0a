"""One source has one canonical file, also of compilers that order types by the addresses of their memory."""

from __future__ import annotations

import functools
import os
import random
import subprocess
from dataclasses import dataclass
from pathlib import Path
from typing import Iterator

import pytest

from tests.needs import need
from tests.objects import files
from tests.objects.conftest import Keys, Tally

RUNS = 20
KERNEL = Path("/sys/kernel/btf/vmlinux")
TEXT = (files.HERE / "sources/chance.c").read_text()


@dataclass(frozen=True)
class Compiler:
    """A compiler and its options, of this system or of a release of Debian."""

    command: str
    options: tuple[str, ...]
    suite: str = ""
    package: str = ""

    def __str__(self) -> str:
        return f"{self.command} {self.suite}".strip()

    def root(self, folder: Path) -> Path:
        """The folder in which the compiler sees its files."""
        if not self.suite:
            need(self.command)
            return folder
        need("mmdebstrap")
        if os.geteuid():
            pytest.skip("a chroot needs the right of root")
        return unpacked(self.suite, self.package, folder / self.suite)

    def line(self, root: Path, place: Path, *flags: str) -> list[str]:
        """The command line that makes chance.o of chance.c in a place."""
        inside = Path("/") / place.relative_to(root) if self.suite else place
        files = [f"-I{inside.parent}", *flags, "-c", str(inside / "chance.c"), "-o", str(inside / "chance.o")]
        return [*(["chroot", str(root)] if self.suite else []), self.command, *self.options, "-O2", "-mcpu=v3", *files]


CLANG = ("-target", "bpf", "-g")
COMPILERS = (Compiler("clang", CLANG), Compiler("clang-19", CLANG), Compiler("bpf-gcc", ("-gbtf", "-Wno-attributes"), "trixie", "gcc-bpf"))
each_compiler = pytest.mark.parametrize("compiler", COMPILERS, ids=str)


@functools.lru_cache(maxsize=None)
def unpacked(suite: str, package: str, root: Path) -> Path:
    """A folder with a package of a release of Debian and what it needs, none of it configured."""
    mirror = [it for it in [os.environ.get("DEBIAN_MIRROR")] if it]
    subprocess.run(["mmdebstrap", "--quiet", "--variant=extract", f"--include={package}", suite, root, *mirror], check=True)
    for name in ("lib", "lib64"):
        if not (root / name).exists():
            (root / name).symlink_to(f"usr/{name}")
    return root


@pytest.fixture(scope="session")
def header() -> bytes:
    """A vmlinux.h with the types of this kernel."""
    need("bpftool")
    if not KERNEL.exists():
        pytest.skip("the kernel has no types")
    return subprocess.run(["bpftool", "btf", "dump", "file", KERNEL, "format", "c"], capture_output=True, check=True).stdout


@pytest.fixture
def root(compiler: Compiler, header: bytes, folder: Path) -> Path:
    """The folder in which a compiler sees its files, with vmlinux.h."""
    root = compiler.root(folder)
    (root / "vmlinux.h").write_bytes(header)
    return root


def environments(compiler: Compiler) -> Iterator[dict[str, str]]:
    """The size of an environment moves the compiler's stack, and small mappings move its heap."""
    chance = random.Random(str(compiler))
    for run in range(RUNS):
        heap = {"MALLOC_MMAP_THRESHOLD_": "4096", "MALLOC_TOP_PAD_": str(chance.randrange(1 << 20))} if run % 3 == 2 else {}
        yield {"FILL": "x" * chance.randrange(60_000), **heap}


def compiled(compiler: Compiler, root: Path, place: Path, own: dict[str, str], *flags: str, text: str = TEXT) -> bytes:
    place.mkdir(exist_ok=True)
    (place / "chance.c").write_text(text)
    subprocess.run(compiler.line(root, place, *flags), env={**os.environ, **own}, check=True)
    return (place / "chance.o").read_bytes()


@each_compiler
def test_each_run_gives_one_file(compiler: Compiler, root: Path, keys: Keys, tally: Tally) -> None:
    made = {compiled(compiler, root, root / "chance", own) for own in environments(compiler)}
    found = set(keys([*made]))
    tally[f"{compiler}, {RUNS} runs"].update({"object files": len(made), "canonical files": len(found)})
    assert len(found) == 1 and found != {""}


@each_compiler
def test_changes_give_one_file(compiler: Compiler, root: Path, keys: Keys, folder: Path) -> None:
    need("llvm-strip", "llvm-objcopy")
    place, chance = root / "chance", environments(compiler)
    made = [
        compiled(compiler, root, place, next(chance)),
        compiled(compiler, root, place, next(chance), text="/* a note */\n#define UNUSED 1\n" + TEXT),
        compiled(compiler, root, place, next(chance), text=TEXT.replace("\n", "\n\n")),
        compiled(compiler, root, root / "elsewhere", next(chance)),
        compiled(compiler, root, place, next(chance), "-save-temps=obj"),
        *(files.changed(compiled(compiler, root, place, next(chance)), tool, folder) for tool in ("stripped", "copied")),
    ]
    assert len(set(made)) >= len(made) - 1  # two runs may happen to agree
    (key,) = set(keys(made))
    assert key
