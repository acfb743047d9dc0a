"""Compares the table of docs/GUIDE.md on what a signature covers with object files that differ in the change of a row."""

import importlib
import subprocess

import pytest

from docs.canon import SHF_EXECINSTR
from tests import TOP
from tests.command import SECONDS
from tests.sources.tables import cells

# A field that is read by CO-RE, variables, a map, a license, a function, and a program. A macro chooses each.
SOURCE = """
struct host { union { int first; int second; }; SHAPE third; } __attribute__((preserve_access_index));
int one = INITIAL, two = 1;
struct { int (*type)[1]; int (*max_entries)[ENTRIES]; int *key; long *value; } table __attribute__((section(".maps"), used));
char _license[] __attribute__((section("license"), used)) = LICENSE;
LINKAGE __attribute__((noinline)) int helper(PARAMETER number) { return number + 1; }
__attribute__((section(PLACE), used)) int program(struct host *host)
{
	return host->FIELD + VARIABLE + CONSTANT;
}
"""
WORDS = {"SHAPE": "int", "INITIAL": "1", "ENTRIES": "16", "LICENSE": '"GPL"', "LINKAGE": "", "PARAMETER": "int", "PLACE": '"socket"'}
WORDS |= {"FIELD": "first", "VARIABLE": "one", "CONSTANT": "1"}
HIDDEN = '__attribute__((visibility("hidden")))'
COMMENTED = SOURCE.replace("CONSTANT;", "CONSTANT; /* a note */").replace("int one", "/* another\n line */ int one")
FLAGS = ["-target", "bpfel", "-g"]
# The rows of the table, each with changes: of macros, of flags, or the source. What changes has to be the same for each.
ROWS = {
    "an instruction, or a constant in one": [{"CONSTANT": "2"}, {"VARIABLE": "two - 1"}],
    "which variable, map or function an instruction refers to": [{"VARIABLE": "two"}],
    "the section of a program, the license, initial data, `__hidden`": [
        {"PLACE": '"socket/other"'},
        {"LICENSE": '"MIT"'},
        {"INITIAL": "2"},
        {"LINKAGE": HIDDEN},
    ],
    "the field that CO-RE reads": [{"FIELD": "second"}],
    "the definition of a map": [{"ENTRIES": "32"}],
    "the members of a struct, the parameters of a function": [{"SHAPE": "unsigned"}, {"PARAMETER": "unsigned"}],
    "the byte order": [["-target", "bpfeb", "-g"]],
    "comments, source lines, DWARF, the folder": [COMMENTED, [*FLAGS, "-gdwarf-5", "-fdebug-compilation-dir=/elsewhere"]],
}


def rows():
    """The rows of the table by their first cells."""
    part = (TOP / "docs" / "GUIDE.md").read_text().partition("## Signing and loading\n")[2].partition("\n## ")[0]
    lines = [cells(line) for line in part.splitlines() if line.startswith("|")]
    return {first: others for first, *others in lines[2:]}


def covered(change, folder, bpfcanon, object_program):
    """The canonical instructions, types and file of the object file with a change."""
    words = WORDS | (change if isinstance(change, dict) else {})
    flags = change if isinstance(change, list) else FLAGS
    (folder / "program.c").write_text(change if isinstance(change, str) else SOURCE)
    macros = [f"-D{name}={word}" for name, word in words.items()]
    how = {"cwd": folder, "check": True, "timeout": SECONDS, "stdout": subprocess.PIPE}
    subprocess.run(["clang", "-mcpu=v3", "-O2", *flags, *macros, "-c", "program.c", "-o", "program.o"], **how)
    with (folder / "program.o").open("rb") as stream:
        elf = importlib.import_module("elftools.elf.elffile").ELFFile(stream)
        order = bpfcanon.Order.LITTLE if elf.little_endian else bpfcanon.Order.BIG
        code = [bpfcanon.insn_canon(it.data(), order=order) for it in elf.iter_sections() if it["sh_flags"] & SHF_EXECINSTR and it["sh_size"]]
        types = bpfcanon.btf_canon(elf.get_section_by_name(".BTF").data())
    return code, types, subprocess.run([object_program, "canon", "program.o"], **how).stdout


def test_rows():
    assert list(rows()) == list(ROWS)


@pytest.mark.needs("clang", "elftools")
def test_changes(bpfcanon, object_program, tmp_path):
    table, how = rows(), (tmp_path, bpfcanon, object_program)
    first = covered({}, *how)
    assert len(first[0]) == 2
    for row, changes in ROWS.items():
        for change in changes:
            second = covered(change, *how)
            found = ["no" if before == after else "yes" for before, after in zip(first, second)]
            assert found == table[row], f"{row}: {change}: it is {found}, and the page says {table[row]}"
