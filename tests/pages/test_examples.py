"""Runs the examples of bpfcanon.1 and bpfcanon-object.1, and those of testdata/README.md, which make the files of that folder again."""

import hashlib
import os
import re
import shutil
import subprocess

import pytest

from docs.canon import canonical
from tests import TOP
from tests.command import SECONDS

TESTDATA = TOP / "testdata"
PAGE = (TESTDATA / "README.md").read_text()


def examples(page):
    part = (TOP / "man" / page).read_text().partition(".SH EXAMPLES\n")[2].partition(".SH ")[0]
    return [it.replace(r"\-", "-") for it in re.findall(r"^\.nf\n(.*?)^\.fi$", part, re.MULTILINE | re.DOTALL)]


def run(script, folder):
    own = os.environ | {"PATH": f"{folder}:{os.environ['PATH']}"}
    done = subprocess.run(["bash", "-euo", "pipefail", "-c", script], cwd=folder, env=own, timeout=SECONDS, capture_output=True, text=True)
    assert done.stderr == ""
    return done


@pytest.mark.needs("clang", "llvm-objcopy")
def test_manual(program, tmp_path):
    """Canonical bytes, a digest, and a difference, of which diff ends with 1."""
    for file, name in ("packet_filter.big", "program"), ("packet_filter.little", "old"), ("hash_words.little", "new"):
        shutil.copy(TESTDATA / f"{file}.bin", tmp_path / f"{name}.bin")
    (tmp_path / "bpfcanon").symlink_to(program.path)
    run(f"clang -target bpfel -O2 -g -c {TESTDATA}/flow_table.c -o program.o", tmp_path)
    canonical, digest, difference = (run(script, tmp_path) for script in examples("bpfcanon.1"))
    assert canonical.returncode == 0
    assert (tmp_path / "canonical.bin").read_bytes() == (TESTDATA / "packet_filter.little.bin").read_bytes()
    assert digest.stdout == f"{hashlib.sha256((tmp_path / 'canonical.btf').read_bytes()).hexdigest()}  canonical.btf\n"
    assert (difference.returncode, difference.stdout[:12]) == (1, "--- /dev/fd/")


def test_objects(object_program, tmp_path):
    """Keys of two files in a folder, a canonical file, the comparison of two other files, and two checks."""
    (tmp_path / "bpfcanon-object").symlink_to(object_program)
    (tmp_path / "objects").mkdir()
    for name, source in ("objects/a", "pass"), ("objects/b", "calls"), ("program", "pass"), ("old", "pass"), ("new", "calls"):
        made = TESTDATA / "objects" / f"{source}.little.{'debug' if source == 'pass' else 'typed'}.o"
        shutil.copy(made, tmp_path / f"{name}.o")
    ran = [run(it, tmp_path) for it in examples("bpfcanon-object.1")]
    printed = ["objects/a.o: OK\nobjects/b.o: OK\n", "", "different\n", "program.o: accepted\n", "program.o: accepted\n"]
    assert [(it.returncode, it.stdout) for it in ran] == list(zip((0, 0, 1, 0, 0), printed))
    right = canonical((tmp_path / "program.o").read_bytes())
    assert (tmp_path / "program.canonical.o").read_bytes() == right


@pytest.mark.needs("clang", "llvm-objcopy")
def test_compiled(tmp_path):
    """With the version of clang that the page names, the files are made as they are."""
    if f"version {re.search(r'clang ([0-9]+)', PAGE)[1]}." not in run("clang --version", tmp_path).stdout:
        pytest.skip("another version of clang")
    for source in TESTDATA.glob("*.c"):
        shutil.copy(source, tmp_path)
    for script in re.findall(r"^```sh\n(.*?)^```$", PAGE, re.MULTILINE | re.DOTALL):
        assert run(script, tmp_path).returncode == 0
    for file in [*TESTDATA.glob("*.bin"), *TESTDATA.glob("*.btf")]:
        assert (tmp_path / file.name).read_bytes() == file.read_bytes()
