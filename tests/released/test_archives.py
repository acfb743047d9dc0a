"""The commands and the C library of the archives, where they are unpacked, and install.sh. What is for ARM runs in an emulator."""

import os
import pathlib
import re
import shlex
import shutil
import subprocess
import sys
from typing import NamedTuple

import pytest

from tests import TOP
from tests.needs import need
from tests.released.use import CANON_C, CANONICAL_OBJECT, COMMANDS, OBJECT, lines_of, output

# Tests that run the built commands: those of a release are other programs of the same sources.
TESTS = ["process/test_streams.py", "process/test_vectors.py", "test_object_program.py"]
# A processor that has x86-64-v2 and nothing later, and some that lack a part of it.
LEAST = "Nehalem"
OLD = ["qemu64,-sse3,-cx16,-svm", *(f"{LEAST},-{it}" for it in ("popcnt", "sse3", "ssse3", "cx16", "sse4.1", "sse4.2"))]
SENTENCE = b"bpfcanon: needs an x86-64-v2 processor (SSE4.2 and POPCNT)\n"
C_TESTS = ["calls", "blocks", "threads", "vectors"]
# What needs glibc, the page that says which, and the words around it.
GLIBC = [
    ("bpfcanon-*-x86_64-linux/lib/libbpfcanon.so", "README.md", "glibc {} or later"),
    ("bpfcanon-*-aarch64-linux/lib/libbpfcanon.so", "README.md", "and {} or later on ARM"),
    (f"{TOP}/crates/bpfcanon/out/bpfcanon", "docs/CONTRIBUTING.md", "glibc {} or later"),
]


# The compiler for a processor, and what runs its programs.
PROCESSORS = {"x86_64": ("cc", []), "aarch64": ("aarch64-linux-gnu-gcc", ["qemu-aarch64", "-L", "/usr/aarch64-linux-gnu"])}
ON_X86_64 = pytest.mark.parametrize("used", ["x86_64"], indirect=True)


class Used(NamedTuple):
    """The folder of a processor, and what it has and makes: each program with words, a file, and what it prints."""

    folder: pathlib.Path
    runner: list
    programs: dict


@pytest.fixture(scope="module", params=PROCESSORS)
def used(request, unpacked, tmp_path_factory):
    """The lines of the page build canon.c where the files are: with the shared library, and with the static one."""
    compiler, runner = PROCESSORS[request.param]
    need(*runner[:1])
    (folder,) = unpacked.glob(f"bpfcanon-*-{request.param}-linux")
    (folder / "canon.c").write_text(CANON_C)
    tools = tmp_path_factory.mktemp("tools")
    (tools / "cc").symlink_to(shutil.which(compiler))
    for name, line in zip(("shared", "static"), (it for it in lines_of(folder / "README") if it.startswith("cc"))):
        output("sh", "-euc", f"{line}mv canon {name}", cwd=folder, env={"PATH": f"{tools}:{os.environ['PATH']}"})
    programs = {folder / name: ([], OBJECT, CANONICAL_OBJECT) for name in ("shared", "static")}
    return Used(folder, runner, programs | {folder / "bin" / name: row for name, row in COMMANDS.items()})


def wrong_answers(used, *runner):
    return [it.name for it, (words, given, right) in used.programs.items() if output(*runner, it, *words, given=given) != right]


def test_answers(used):
    assert wrong_answers(used, *used.runner) == [] and b"NEEDED" not in output("readelf", "-d", used.folder / "static")


@ON_X86_64
def test_least_processor(used):
    need("qemu-x86_64")
    assert wrong_answers(used, "qemu-x86_64", "-cpu", LEAST) == []


@ON_X86_64
@pytest.mark.parametrize("processor", OLD)
def test_old_processor(used, processor):
    """It is refused in a sentence, with nothing written."""
    need("qemu-x86_64")
    for program, (words, given, _) in used.programs.items():
        done = subprocess.run(["qemu-x86_64", "-cpu", processor, program, *words], input=given.read_bytes(), capture_output=True)
        assert (done.returncode, done.stdout, done.stderr[-len(SENTENCE) :]) == (3, b"", SENTENCE), program.name


def test_tests_of_commands(used, tmp_path):
    """All but those that need a C library in the process, or that take an emulator a minute."""
    left_out = ["refused_memory", *(["longest"] if used.runner else [])]
    for name in COMMANDS:
        (tmp_path / name).write_text(f'#!/bin/sh\nexec {shlex.join(map(str, [*used.runner, used.folder / "bin" / name]))} "$@"\n')
        (tmp_path / name).chmod(0o755)
    options = [f"--program={tmp_path}/bpfcanon", f"--object-program={tmp_path}/bpfcanon-object", "-k", " and ".join(f"not {it}" for it in left_out)]
    line = [sys.executable, "-m", "pytest", "-q", *(f"tests/{it}" for it in TESTS), *options]
    assert re.search(r"\d+ passed", output(*line, cwd=TOP, timeout=900).decode())


def test_linked(used):
    """The commands need no C library, and nothing of the linker's stays writable in them and in the library."""
    for file in *(used.folder / "bin" / it for it in COMMANDS), used.folder / "lib" / "libbpfcanon.so":
        said = output("readelf", "-dlW", file).decode()
        assert ("NEEDED" in said) == (file.suffix == ".so"), file.name
        assert re.search("FLAGS.*NOW", said) and "GNU_RELRO" in said and not re.search("GNU_STACK.*E", said), file.name


@pytest.mark.parametrize("place, page, words", GLIBC)
def test_glibc(unpacked, place, page, words):
    """A page says which version of glibc is needed. The tag of the wheels, manylinux2014, promises 2.17, and rt links with that of Debian."""
    (file,) = unpacked.glob(place) if place.startswith("b") else [TOP / place]
    found = re.findall(r"GLIBC_([0-9.]+)", output("readelf", "--dyn-syms", "-W", file).decode())
    needed = max([*map(int, it.split("."))] for it in found)
    assert words.format(".".join(map(str, needed))) in " ".join((TOP / page).read_text().split()) and needed <= ([2, 17] if ".so" in place else [2, 34])


def test_staged(used, tmp_path):
    """install.sh copies each file below the prefix, with the modes of the archive, though those of a strict umask are other ones."""
    right = {it.relative_to(used.folder): it.lstat().st_mode for it in used.folder.rglob("*/*") if not it.is_dir()}
    shutil.copytree(used.folder, tmp_path / "from", symlinks=True)
    output("sh", "-euc", "chmod -R go= from; DESTDIR=$PWD/stage from/install.sh --prefix='/opt/two words'", cwd=tmp_path)
    root = tmp_path / "stage" / "opt" / "two words"
    assert {it.relative_to(root): it.lstat().st_mode for it in root.rglob("*") if not it.is_dir()} == right
    assert "prefix=/opt/two\\ words\n" in (root / "lib" / "pkgconfig" / "bpfcanon.pc").read_text()


@pytest.mark.parametrize("processor, word, right", [("x86_64", "--uninstall", "[--prefix=PREFIX]"), ("aarch64", "--prefix=/none", "for Linux on aarch64")])
def test_not_installed(unpacked, processor, word, right):
    done = subprocess.run([*unpacked.glob(f"bpfcanon-*-{processor}-linux/install.sh"), word], capture_output=True, text=True)
    assert done.returncode != 0 and right in done.stderr and not os.path.exists("/none")


def test_arm_sources(unpacked, tmp_path):
    """Meson builds the library for ARM from the sources, without Rattle, and its tests pass."""
    need("qemu-aarch64")
    (source,) = unpacked.glob("bpfcanon-source-*")
    (tmp_path / "qemu").write_text(f"[binaries]\nexe_wrapper = {PROCESSORS['aarch64'][1]}\n")
    crosses = [f"--cross-file={it}" for it in (source / "capi" / "aarch64.cross", tmp_path / "qemu")]
    output("meson", "setup", *crosses, "-Dtests=true", tmp_path / "built", source)
    said = output("meson", "test", "-C", tmp_path / "built", *C_TESTS).decode()
    assert re.search(rf"^Ok: +{len(C_TESTS)}\b", said, re.MULTILINE), said
