"""The loaders of examples/ load what was signed, in whatever file it is, and refuse what deceived another loader or an earlier key."""

from __future__ import annotations

import struct
from dataclasses import replace
from pathlib import Path
from typing import Callable

import pytest

from tests import TOP
from tests.examples.conftest import Done, Loader
from tests.objects.elf_file import ElfFile, Symbol
from tests.objects.files import kernel_headers
from tests.objects.known import code_twice, line_inside, number_of

SOURCES = {"two": Path(__file__).parent / "two.c", "plain": TOP / "tests" / "objects" / "sources" / "plain.c"}


def labels_exchanged(file: ElfFile) -> None:
    """cilium/ebpf takes these labels for the names of the programs at their places."""
    symbols = file.symbols()
    allow, deny = (symbols[number_of(file, it)] for it in (b"allow", b"deny"))
    labels = [Symbol(name.name, 0, 0, place.section, place.value, 0) for name, place in ((allow, deny), (deny, allow))]
    file.set_symbols([*symbols, *labels])


def symbols_twice(file: ElfFile) -> None:
    """cilium/ebpf takes the first table, and libbpf refuses the file."""
    file.insert(len(file.sections), replace(file.sections[file.symbol_table]))


ATTACKS: dict[str, tuple[str, Callable[[ElfFile], None]]] = {
    "labels exchange two programs": ("two", labels_exchanged),
    "a section of code is there twice": ("plain", code_twice),
    "a table of symbols is there twice": ("two", symbols_twice),
}


def is_loaded(done: Done) -> bool:
    """What was verified is listed. The kernel may refuse to load anything for this user."""
    return done.stdout != "" and (done.returncode == 0 or "operation not permitted" in done.stderr.lower())


def assert_refused(done: Done) -> None:
    assert (done.returncode, done.stdout) == (1, "")
    assert done.stderr.startswith("loader: ") and done.stderr.count("\n") == 1


def test_page(loader: Loader) -> None:
    assert loader.first.stdout == loader.page.printed, loader.first.stderr
    assert is_loaded(loader.first)


def canonical(loader: Loader) -> str:
    return "canonical.o"


def stripped(loader: Loader) -> str:
    assert loader.run("llvm-strip", "-g", "count.o", "-o", "stripped.o").returncode == 0
    return "stripped.o"


def other_comment(loader: Loader) -> str:
    source = loader.folder / "bin" / "commented.c"
    source.write_text("/* a comment\n */\n" + (TOP / "testdata" / "count.c").read_text())
    assert loader.compile(source, "commented.o", "-DMAP=packets", within="bin") != (loader.folder / "count.o").read_bytes()
    return "commented.o"


# Other files of the object that the page signs.
SAME = {"its canonical file": canonical, "without debugging information": stripped, "with a comment, in another folder": other_comment}


@pytest.mark.parametrize("file", SAME)
@pytest.mark.needs("llvm-strip")
def test_other_file_of_the_same_object(loader: Loader, file: str) -> None:
    assert is_loaded(loader.load(SAME[file](loader)))


@pytest.mark.parametrize("attack", ATTACKS)
def test_attack(loader: Loader, attack: str) -> None:
    source, change = ATTACKS[attack]
    file = ElfFile.read(loader.compile(SOURCES[source], "base.o"))
    loader.sign("base.o", "base.sig")
    assert loader.load("base.o", signature="base.sig").stdout != ""
    change(file)
    (loader.folder / "attack.o").write_bytes(file.write())
    assert_refused(loader.load("attack.o", signature="base.sig"))


def test_other_object(loader: Loader) -> None:
    loader.compile(loader.folder / "testdata" / "count.c", "errors.o", "-DMAP=errors")
    assert_refused(loader.load("errors.o"))


def test_cut_object(loader: Loader) -> None:
    (loader.folder / "cut.o").write_bytes((loader.folder / "count.o").read_bytes()[:-1])
    assert_refused(loader.load("cut.o"))


def unreadable(data: bytes) -> bytes:
    """A file of the same object. cilium/ebpf refuses a source line that begins inside a string, and the crate `object` misaligned headers."""
    file = ElfFile.read(data)
    line_inside(file)
    content = bytes(file.write())
    (table,) = struct.unpack_from("<Q", content, 40)
    return content[:40] + struct.pack("<Q", table + 1) + content[48:table] + b"\0" + content[table:]


def test_file_that_no_loader_reads(loader: Loader) -> None:
    """What is loaded is the canonical file, and not the one that was given. libbpf would take both: the next test looks at its bytes."""
    (loader.folder / "unreadable.o").write_bytes(unreadable((loader.folder / "count.o").read_bytes()))
    assert is_loaded(loader.load("unreadable.o"))


@pytest.mark.parametrize("loader", [pytest.param("loader_c", marks=pytest.mark.xdist_group("loader_c"))], indirect=True)
def test_bytes_for_libbpf(loader: Loader) -> None:
    source = Path(__file__).parent / "opened.c"
    assert loader.run("cc", "-shared", "-fPIC", source, "-o", "opened.so").returncode == 0
    done = loader.follow(f"LD_PRELOAD=./opened.so {loader.program} public.der count.sig count.o || true; cmp opened canonical.o")
    assert done.returncode == 0, done.stderr


def test_object_is_read_once(loader: Loader) -> None:
    """A pipe gives its bytes to the first who opens it, as a path may lead to another file by then."""
    done = loader.follow(f"cat count.o | {loader.program} public.der count.sig /dev/stdin")
    assert is_loaded(done), done.stderr


PUBLIC = "openssl pkey -inform DER -pubout -outform DER"
SIGN = "openssl pkeyutl -sign -rawin -in canonical.o"
# What stands for the key or the signature of the page, and how it is made.
WRONG = {
    "another key": f"openssl genpkey -algorithm ed25519 -outform DER | {PUBLIC} -out wrong.der",
    "a signature by another key": f"openssl genpkey -algorithm ed25519 -out other.pem && {SIGN} -inkey other.pem -out wrong.sig",
    "a key of ECDSA and its signature": "openssl genpkey -algorithm EC -pkeyopt ec_paramgen_curve:P-256 -out ec.pem && "
    f"openssl pkey -in ec.pem -pubout -outform DER -out wrong.der && {SIGN} -inkey ec.pem -out wrong.sig",
    "a key of X25519 with the same bytes": r"LC_ALL=C sed 's/\x2b\x65\x70/\x2b\x65\x6e/' public.der > wrong.der",
    "a key in PEM": "openssl pkey -in private.pem -pubout -out wrong.der",
    "a cut key": "head -c 43 public.der > wrong.der",
    "a longer key": "cat public.der public.der > wrong.der",
    "no key": "ln -s none wrong.der",
    "a signature of the object itself": "openssl pkeyutl -sign -rawin -inkey private.pem -in count.o -out wrong.sig",
    "a cut signature": "head -c 63 count.sig > wrong.sig",
    "a longer signature": "cat count.sig count.sig > wrong.sig",
    "an empty signature": ": > wrong.sig",
}


@pytest.mark.parametrize("wrong", WRONG)
def test_wrong_key_or_signature(loader: Loader, wrong: str) -> None:
    made = loader.follow(f"rm -f wrong.*; {WRONG[wrong]}; ls wrong.*")
    assert made.returncode == 0, made.stderr
    names = made.stdout.split()
    key, signature = (next((it for it in names if it.endswith(end)), right) for end, right in ((".der", "public.der"), (".sig", "count.sig")))
    assert names and {key, signature} >= {*names}
    assert_refused(loader.load("count.o", key, signature))


# How a loader of objects of version 2 and later is built, from the command with which a page builds one of all objects.
NEWER: dict[str, Callable[[str], str]] = {
    "loader_c": lambda build: build.replace("-o loader", "-DLEAST_VERSION=2 -o newer"),
    "loader_go": lambda build: build.replace("-o ../../loader", "-ldflags '-X main.leastVersion=2' -o ../../newer"),
    "loader_rust": lambda build: f"LEAST_VERSION=2 {build}; cp examples/loader_rust/target/debug/loader newer; {build}",
}


def test_lower_version(loader: Loader) -> None:
    """A signature never expires, so an attacker can offer an old release."""
    built = loader.follow(NEWER[loader.name](loader.page.commands.splitlines()[0]))
    assert built.returncode == 0, built.stderr
    for version, is_taken in ((1, False), (2, True), (1 << 24, True)):
        loader.compile(TOP / "examples/project/count.c", "version.o", f"-DVERSION={version}", f"-I{kernel_headers()}")
        loader.sign("version.o", "version.sig")
        done = loader.run(loader.folder / "newer", "public.der", "version.sig", "version.o")
        assert is_loaded(done) if is_taken else "has version 1" in done.stderr and done.stdout == "", done.stderr
    assert "has version 0" in loader.run(loader.folder / "newer", "public.der", "count.sig", "count.o").stderr


def test_usage(loader: Loader) -> None:
    done = loader.run(loader.folder / loader.program)
    assert (done.returncode, done.stdout, done.stderr) == (2, "", "loader: usage: loader KEY SIGNATURE OBJECT\n")
