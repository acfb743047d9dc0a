"""A release is made again with the same bytes, and only of what make check has passed."""

import os
import subprocess
import sys

import pytest

from tests.released.use import BUILT, RECORD, clone, output

# A file of a clone that is made empty, and why there is no release then.
REFUSED = {it: f"{it} is not the one that make check passed; run it again" for it in BUILT}
REFUSED |= {"README.md": "README.md is not as it was committed", RECORD: "the sources are not those that make check passed; run it again"}


def test_same_bytes(release_folder, again):
    folder, process = again
    assert process.wait() == 0
    found, right = ({it.name: it.read_bytes() for it in folder.iterdir()} for folder in (folder, release_folder))
    assert found.keys() == right.keys() and [name for name in right if found[name] != right[name]] == []


def test_sums(release_folder):
    assert output("sha256sum", "-c", "--quiet", "SHA256SUMS", cwd=release_folder) == b""
    listed = [it.split()[1] for it in (release_folder / "SHA256SUMS").read_text().splitlines()]
    assert listed == sorted(it.name for it in release_folder.iterdir() if it.name != "SHA256SUMS")


@pytest.fixture
def tree(release_folder, tmp_path):
    """A clone with what is built, and a record of it."""
    tree = clone(tmp_path / "a tree")
    (tree / "out").mkdir(exist_ok=True)
    (tree / RECORD).write_bytes(output(sys.executable, tree / "packaging" / "proved.py", os.devnull))
    return tree


def refusal(tree, out, **how):
    """The sentence with which no release is made."""
    done = subprocess.run([sys.executable, tree / "packaging" / "dist.py", out], capture_output=True, text=True, **how)
    assert (done.returncode, done.stdout, done.stderr[:6], done.stderr.count("\n")) == (1, "", "dist: ", 1), done.stderr
    return done.stderr


@pytest.mark.parametrize("name", REFUSED)
def test_refused(tree, tmp_path, name):
    (tree / name).write_bytes(b"")
    assert REFUSED[name] in refusal(tree, tmp_path / "out") and not (tmp_path / "out").exists()


def test_missing(tree, tmp_path):
    """All that is missing is said at once."""
    needed = [it for it in BUILT if it.endswith((".o", ".a"))] + [RECORD]
    for name in needed:
        (tree / name).unlink()
    said = refusal(tree, tmp_path / "out", env={"PATH": ""})
    assert [it for it in ["git", "meson", "cargo", "aarch64-linux-gnu-gcc", *needed] if it not in said] == []


def test_full_folder(tree):
    assert "is there, and is not an empty folder" in refusal(tree, tree)
