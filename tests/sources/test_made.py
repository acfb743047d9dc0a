"""What tools/ writes of other files is up to date."""

import subprocess

import pytest

from tests import TOP

TABLE = TOP / "crates" / "bpfcanon" / "src" / "tests" / "vectors.rt"
SYS = TOP / "bindings" / "rust" / "src" / "sys.rs"


@pytest.mark.parametrize("tool", ["from_causes", "from_header", "from_linux", "from_mnemonics"])
def test_made(tool):
    done = subprocess.run([TOP / "tools" / tool, "--check"], capture_output=True, text=True)
    assert (done.returncode, done.stdout, done.stderr) == (0, "", "")


def test_python():
    """The Python package has the enums and structs of the header."""
    made = TOP / "bindings" / "python" / "bpfcanon" / "header.py"
    assert subprocess.check_output([TOP / "tools" / "to_python"]) == made.read_bytes()


def test_rows():
    """The tests of the crate bpfcanon have the rows `run` of the vectors."""
    assert subprocess.check_output([TOP / "tools" / "to_rows"]) == TABLE.read_bytes()


@pytest.mark.needs("bindgen", "clang", "rustfmt")
def test_header():
    """The Rust crate has the numbers, structs and calls of the header."""
    assert subprocess.check_output([TOP / "tools" / "to_rust"]) == SYS.read_bytes()
