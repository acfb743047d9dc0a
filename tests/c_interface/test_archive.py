"""An archive of the proved calls belongs to the sources that it was made from: the build of the C library refuses another one, and
capi/archive --keep makes it again. Each is tried in a copy of the tree, with a stand-in of the kit.
"""

import os
import shutil
import subprocess

import pytest

from tests import TOP
from tests.command import SECONDS

HASH, HEAP = "sources.sha256", "heap.pic.o"
# A file, and whether the archive is made from it.
FILES = {
    "crates.txt": True,
    "crates/bpfcanon_c/src/answer.rt": True,
    "crates/bpf_object/specs/Lib.antt": True,
    "crates/bpf_words/proofs/Lib.antt": True,
    "crates/bpfcanon/src/main.rt": False,
    "capi/bpfcanon.c": False,
}
# A kit whose compiler makes an empty archive, its last word.
KIT = {"rt": """[ "$1" != doc ] || echo "$KIT/guide.md"\n""", "rattle": """for word; do target=$word; done\nar rcs "$target"\n"""}


@pytest.fixture(scope="module")
def tree(tmp_path_factory):
    """The files that the scripts of capi/ read, and the kit."""
    folder = tmp_path_factory.mktemp("sources") / "a tree"
    for source in [*TOP.glob("crates/*/src"), *TOP.glob("crates/*/specs"), *TOP.glob("crates/*/proofs"), TOP / "capi"]:
        shutil.copytree(source, folder / source.relative_to(TOP))
    shutil.copy(TOP / "crates.txt", folder)
    kit = folder.parent / "kit"
    (kit / "bin").mkdir(parents=True)
    (kit / "c").mkdir()
    for name, text in KIT.items():
        (kit / "bin" / name).write_text(f"#!/bin/sh\n{text}")
        (kit / "bin" / name).chmod(0o755)
    (kit / HEAP).write_text("a heap")
    subprocess.run(["ar", "rcs", kit / "c" / "liblibc_c.a", HEAP], cwd=kit, check=True)
    return folder


def ran(tree, *words):
    kit = tree.parent / "kit"
    own = {"PATH": f"{kit / 'bin'}:{os.environ['PATH']}", "KIT": str(kit)}
    return subprocess.run([tree / "capi" / words[0], *words[1:]], env=os.environ | own, capture_output=True, text=True, timeout=SECONDS)


@pytest.fixture
def archive(tree):
    """Made with the hash of its sources and the heap."""
    made = tree / "crates" / "bpfcanon_c" / "out" / "libbpfcanon_c.a"
    shutil.rmtree(made.parent, ignore_errors=True)
    assert ran(tree, "archive").returncode == 0
    return made


def member(archive, name):
    return subprocess.run(["ar", "p", archive, name], capture_output=True, text=True).stdout


def taken(tree, archive):
    return ran(tree, "take_archive", "ar", archive, archive.with_name("taken.a"))


def test_made(tree, archive):
    assert (member(archive, HEAP), member(archive, HASH)) == ("a heap", ran(tree, "sources").stdout)
    assert taken(tree, archive).returncode == 0 and member(archive.with_name("taken.a"), HASH) == ""


@pytest.mark.parametrize("name", FILES)
def test_changed(tree, archive, name):
    """A byte that is added to a source changes the hash, and then the archive is refused and not kept."""
    file = tree / name
    text = file.read_bytes()
    file.write_bytes(text + b"\n")
    os.utime(file, (0, 0))
    status, kept = taken(tree, archive).returncode, ran(tree, "archive", "--keep").stdout == ""
    file.write_bytes(text)
    assert (status, kept) == ((1, False) if FILES[name] else (0, True))
