"""The commands of the pages of the examples print what the pages say. The loaders and the rule for Bazel have tests of their own."""

from __future__ import annotations

from pathlib import Path

import pytest

from tests import TOP
from tests.examples.conftest import Page, Place
from tests.needs import need
from tests.samples import btf

COMPILED = ("bash", "clang")
NEEDS = {
    "cmake": (*COMPILED, "cmake", "ninja"),
    "git": (*COMPILED, "git"),
    "pre_commit": (*COMPILED, "git", "pre-commit"),
    "signing": (*COMPILED, "ssh-keygen", "openssl"),
}
OVER_LIBRARY = {"dask": (*COMPILED, "llvm-strip", "distributed"), "members_c": ("bash", "cc", "pkg-config")}


def assert_followed(place: Place, name: str) -> None:
    page = Page.read(TOP / "examples" / name / "README.md")
    done = place.follow(page.commands)
    assert (done.returncode, done.stdout) == (0, page.printed), done.stderr


@pytest.mark.parametrize("name", NEEDS)
def test_commands(object_program: Path, tmp_path: Path, name: str) -> None:
    need(*NEEDS[name])
    assert_followed(Place(tmp_path, object_program), name)


@pytest.mark.parametrize("name", OVER_LIBRARY)
def test_programs_over_the_library(object_program: Path, prefix: Path, tmp_path: Path, name: str) -> None:
    need(*OVER_LIBRARY[name])
    assert_followed(Place(tmp_path, object_program, prefix), name)


def test_members_whose_types_have_no_name(object_program: Path, prefix: Path, tmp_path: Path) -> None:
    """A PTR to the INT before it, as a member: the first type is `int`, and the second has no name."""
    need(*OVER_LIBRARY["members_c"])
    place, words = Place(tmp_path, object_program, prefix), [1, 0x0100_0000, 4, 0x0100_0020, 0, 0x0200_0000, 1, 5, 0x0400_0001, 8, 7, 2, 0]
    (tmp_path / "types.btf").write_bytes(btf("little", words, b"\0int\0s\0a\0"))
    commands = Page.read(TOP / "examples" / "members_c" / "README.md").commands
    assert place.follow(f"{commands.partition(' < ')[0]} < types.btf").stdout == "s.a 0 -\n"


@pytest.mark.needs(*COMPILED, "cmake", "ninja")
def test_cmake_follows_headers(object_program: Path, tmp_path: Path) -> None:
    """A header of the source changes, and each output is made again, of the one before it."""
    commands = """
        cp testdata/count.c examples/cmake && cd examples/cmake && touch more.h && echo '#include "more.h"' >> count.c
        cmake -G Ninja -S . -B build > message && cmake --build build -- --quiet
        echo 'int more = 1;' > more.h && cmake --build build -- --quiet
        bpfcanon-object canon build/count.o | cmp - build/count.canonical.o && cmp build/count.canonical.o build/image
    """
    done = Place(tmp_path, object_program).follow(commands)
    assert (done.returncode, done.stdout) == (0, "building the image\n" * 2), done.stderr


@pytest.mark.needs(*OVER_LIBRARY["dask"])
def test_dask_status(object_program: Path, prefix: Path, tmp_path: Path) -> None:
    """Folders below are included, and what can't be read doesn't end the work on other files."""
    place = Place(tmp_path, object_program, prefix)
    compiled = "mkdir -p objects/below && clang -target bpfel -O2 -g -DMAP=packets -c testdata/count.c -o objects/packets.o"
    count = "/usr/bin/python3 examples/dask/keys.py objects | sed 's/[0-9a-f]\\{64\\}/../'"
    done = place.follow(f"{compiled} && cp objects/packets.o objects/below && {count} && ln -s none objects/below/none.o && {count}")
    assert (done.returncode, done.stdout) == (1, "2 ..\n1 not read: No such file or directory\n2 ..\n"), done.stderr
