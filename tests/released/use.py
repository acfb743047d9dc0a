"""What the files of a release are used on, with the right answers, and the lines of their pages."""

import os
import re
import shutil
import subprocess

from docs.canon import canonical
from tests import TOP
from tests.reference import btf_reference

RECORD = "out/PROVED.txt"
# What make check builds for a release.
BUILT = [f"crates/bpfcanon_c/out/libbpfcanon_c{it}.a" for it in ("", ".aarch64")]
BUILT += [name for it in ("bpfcanon", "bpfcanon_object") for name in (f"crates/{it}/out/{it}", f"out/{it}.o", f"out/{it}.aarch64.o")]
DATA = TOP / "testdata"
# Types for a program over the library. The reference says what their canonical bytes are.
TYPES = DATA / "flow_table.big.btf"
CANONICAL = btf_reference.canonical(TYPES.read_bytes())
OBJECT = DATA / "objects" / "pass.little.debug.o"
CANONICAL_OBJECT = canonical(OBJECT.read_bytes())
KEY = re.search(rf"^object\t{OBJECT.name}\t(\w+)", (DATA / "objects" / "objects.tsv").read_text(), re.MULTILINE)[1]
# The commands with words, and what they print of a file.
COMMANDS = {
    "bpfcanon": (["insn-canon", "--order", "big"], DATA / "packet_filter.big.bin", (DATA / "packet_filter.little.bin").read_bytes()),
    "bpfcanon-object": (["key", "-"], OBJECT, f"{KEY}  -\n".encode()),
}
# What prints the key of an object by the package for Python.
PYTHON = "import sys; from bpfcanon.objects import key; print(key(sys.stdin.buffer.read()).hex(), end='  -\\n')"


def output(*words, given=None, env=None, **how):
    """What a program prints on the bytes of a file; it has to succeed."""
    how = {"timeout": 300} | how | {"env": os.environ | (env or {}), "input": given.read_bytes() if given else b"", "stdout": subprocess.PIPE}
    return subprocess.run([*map(str, words)], check=True, **how).stdout


def clone(folder):
    """Makes a clone of the tree with what is built."""
    output("git", "clone", "--quiet", TOP, folder)
    for name in filter(lambda it: (TOP / it).exists(), [*BUILT, RECORD]):
        (folder / name).parent.mkdir(parents=True, exist_ok=True)
        shutil.copy(TOP / name, folder / name)
    return folder


def lines_of(page, part=""):
    """The lines of a README that are indented by four blanks, or those of its part that begins with a name."""
    text = page.read_text()
    return re.findall(r"^    (.*\n)", re.search(rf"^{re.escape(part)}\n((?: .*\n|\n)*)", text, re.MULTILINE)[1] if part else text, re.MULTILINE)


def block_of(page, language, text=""):
    """The first block of a page in a language that contains a text."""
    return next(it for it in re.findall(rf"^```{language}\n(.*?)^```$", page.read_text(), re.MULTILINE | re.DOTALL) if text in it)


# Writes the canonical file of an object.
CANON_C = block_of(TOP / "docs" / "API.md", "c", "int main")
