"""Runs the built command bpfcanon-object as a process: its verbs, its statuses, and what it does to files.

What it answers for a file that it has read is stated by contracts. Here are files, folders and words, and the comparison with the reference.
"""

from __future__ import annotations

import functools
import hashlib
import json
import os
import re
import stat
import subprocess
import unicodedata

import pytest

from docs.canon import Refused, canonical
from tests import TOP
from tests.command import SECONDS, Ran
from tests.needs import need
from tests.process.hard_objects import CODE, FAULT, Section, object_file
from tests.reference import linux_rows

CRATE = TOP / "crates" / "bpfcanon_object"
# The canonical file that the gate gives to the command on standard input.
CANONICAL = (CRATE / "stdin").read_bytes()
KEY = hashlib.sha256(CANONICAL).hexdigest()
# Others: a word of the code, and the reserved bits of the flags of the file, which are kept.
OTHER = CANONICAL[:48] + b"\1" + CANONICAL[49:]
CUT = CANONICAL[:40]
TARGETS = ("bpfel", "bpfeb")
LONGEST = 64 * 1024 * 1024
# The sentences of the causes of instructions and object files, as docs/FAULTS.md has them.
SENTENCES = {
    fields[2]: fields[3]
    for fields in (line.split("\t") for line in (TOP / "docs" / "causes.tsv").read_text().splitlines() if not line.startswith("#"))
    if fields[0] in ("insn", "object")
}
# An object file for x86-64: e_machine is 62.
HOST = CANONICAL[:18] + bytes([62, 0]) + CANONICAL[20:]
# Names that something could act on, and how they are printed. sha256sum escapes the first four in the same way.
NAMES = {
    "plain ü.o": "plain ü.o",
    "back\\slash.o": "back\\\\slash.o",
    "two\nlines.o": "two\\nlines.o",
    "carriage\rreturn.o": "carriage\\rreturn.o",
    "red\x1b[31m\x7f.o": "red\\x1b[31m\\x7f.o",
    "next\x85\x9b31m.o": "next\\x85\\x9b31m.o",
    "::error::\ttab, 100%.o": "::error::\\x09tab, 100%.o",
    "soft\u00ad\u202eo.fpb\u2066.o": "soft\\u{0000ad}\\u{00202e}o.fpb\\u{002066}.o",
    "line\u2028\ufefftag\U000e0041\U0001d173.o": "line\\u{002028}\\u{00feff}tag\\u{0e0041}\\u{01d173}.o",
}


@pytest.fixture
def run(object_program, tmp_path):
    """Runs the command in a folder of its own: its words, and its input."""

    def run(*words, input=b"", **how):
        how = {"stdout": subprocess.PIPE, "stderr": subprocess.PIPE, "cwd": tmp_path} | how
        done = subprocess.run([object_program, *words], input=input, timeout=SECONDS, check=False, **how)
        return Ran(done.returncode, done.stdout or b"", done.stderr or b"")

    return run


@pytest.fixture
def folder(tmp_path):
    """Writes files in the folder that the command runs in."""

    def write(**files):
        for name, content in files.items():
            (tmp_path / name).write_bytes(content)
        return tmp_path

    return write


def has_fault(ran, name, offset, output=b"", status=1):
    """Whether a file was refused: a message with the name, the offset of the fault and its cause."""
    line = rb"%s: byte %d: [A-Z]\w+: [ -~]+\n" % (re.escape(name.encode()), offset)
    return ran.status == status and ran.output == output and re.fullmatch(line, ran.message)


def has_trouble(ran, name, output=b""):
    """Whether nothing could be said of a file: status 2, and a message with its name."""
    return ran.status == 2 and ran.output == output and re.fullmatch(rb"bpfcanon-object: %s: [ -~]+\n" % re.escape(name.encode()), ran.message)


def test_canon(run, folder):
    """The canonical file goes to standard output, or to a file, and comes from a file or standard input."""
    made = folder(one=CANONICAL, two=OTHER)
    assert run("canon", "one") == run("canon", "-o", "-", "one") == run("canon", "-", input=CANONICAL) == Ran(0, CANONICAL)
    assert run("canon", "-o", "made", "one") == run("canon", "--output", "two", "-", input=CANONICAL) == Ran(0)
    assert (made / "made").read_bytes() == (made / "two").read_bytes() == CANONICAL
    assert sorted(it.name for it in made.iterdir()) == ["made", "one", "two"]


def test_canon_faults(run, folder):
    """A file that is refused, or that isn't there, leaves the output as it was."""
    made = folder(cut=CUT, output=b"before", empty=b"")
    assert has_fault(run("canon", "cut", "-o", "output"), "cut", len(CUT))
    assert has_fault(run("canon", "empty", "-o", "output"), "empty", 0)
    assert has_fault(run("canon", "-", "-o", "new", input=CUT), "-", len(CUT))
    assert has_trouble(run("canon", "missing", "-o", "output"), "missing")
    assert (made / "output").read_bytes() == b"before"
    assert sorted(it.name for it in made.iterdir()) == ["cut", "empty", "output"]


def test_canon_outputs(run, folder):
    """The output keeps its permissions, a link stays one, a device is written to, and other outputs are trouble."""
    made = folder(one=CANONICAL, output=b"before")
    (made / "output").chmod(0o600)
    (made / "link").symlink_to("output")
    assert run("canon", "one", "-o", "link") == run("canon", "one", "-o", "/dev/null") == Ran(0)
    assert (made / "link").is_symlink() and (made / "output").read_bytes() == CANONICAL
    assert stat.S_IMODE((made / "output").stat().st_mode) == 0o600
    assert stat.S_ISCHR(os.stat("/dev/null").st_mode)
    assert run("canon", "one", "-o", "/dev/stdout") == Ran(0, CANONICAL)
    (made / "dangling").symlink_to("folder/behind")
    (made / "folder").mkdir()
    (made / "folder" / "behind").symlink_to("new")
    assert run("canon", "one", "-o", "dangling") == Ran(0) and (made / "dangling").is_symlink()
    assert (made / "folder" / "new").read_bytes() == CANONICAL
    assert has_trouble(run("canon", "one", "-o", "."), ".")
    assert has_trouble(run("canon", "one", "-o", "missing/output"), "missing/output")
    assert sorted(it.name for it in made.iterdir()) == ["dangling", "folder", "link", "one", "output"]


def test_temporary_names(run, folder):
    """What killed runs left behind ends no later one, and the name of the output may be as long as a name can be."""
    long = "x" * 255
    made = folder(one=CANONICAL, **{f".bpfcanon-object.{number}.tmp": b"left" for number in range(200)})
    assert run("canon", "one", "-o", long) == Ran(0) and (made / long).read_bytes() == CANONICAL
    assert len(list(made.iterdir())) == 202


# What is refused, and what helps.
REMARKS = {
    "empty": (b"", "(it is empty)"),
    "archive": (b"!<arch>\n" + bytes(60), "(it is an archive: extract its members by ar x)"),
    "source": (b"int main(void) { return 0; }\n", "(it is text: compile a source file by clang -target bpf -O2 -g -c)"),
    "long source": (b"#include <linux/bpf.h>\n" * 9, "(it is text: compile a source file by clang -target bpf -O2 -g -c)"),
    "machine": (HOST, "(it is for x86-64)"),
    "program": (CANONICAL[:16] + bytes([2, 0, 183, 0]) + CANONICAL[20:], "(it is for 64-bit ARM)"),
}


@pytest.mark.parametrize("row", REMARKS.values(), ids=REMARKS)
def test_remarks(row, run):
    content, remark = row
    ran = run("key", "-", input=content)
    assert ran.status == 1 and ran.message.decode().endswith(f" {remark}\n")


# SHT_PREINIT_ARRAY, and SHT_NOBITS, to which llvm-objcopy sets the type of code.
KINDS = {
    16: '(section 2, "xdp", of sh_type 0x10)',
    8: '(section 2, "xdp", of sh_type 0x8: objcopy --only-keep-debug writes such sections, so name the file that it read)',
}


@pytest.mark.parametrize("kind", KINDS)
def test_section_of_a_fault(kind, run):
    """A fault in a section header names the section and its type."""
    made = bytearray(CANONICAL)
    row = int.from_bytes(CANONICAL[40:48], "little") + 2 * 64
    made[row + 4 : row + 8] = kind.to_bytes(4, "little")
    ran = run("check", "-", input=bytes(made))
    assert ran.message.decode().endswith(f" {KINDS[kind]}\n")


# Lines that people try, and what the message says. `out` is a folder, and `one` an object file.
HINTS = {
    "a command of another program": (("diff", "one", "two"), "bpfcanon-object: bpfcanon-review has diff, show and list"),
    "an output for key": (("key", "one", "-o", "keys"), "only canon has --output: the other commands write to standard output"),
    "a byte order": (("canon", "--to", "big", "one"), "a canonical file has the byte order of its original"),
    "no command": (("one.o",), "the command comes before the files, as in bpfcanon-object key FILE"),
    "a command with a mistake": (("cannon", "one"), "  tip: a similar subcommand exists: 'canon'"),
    "an option with a mistake": (("key", "--chek", "keys"), "  tip: a similar argument exists: '--check'"),
    "one file": (("same", "one"), "  <SECOND>"),
    "a folder as output": (("canon", "one", "-o", "out"), "bpfcanon-object: out: it is a folder: give --output the name of a file"),
    "a folder": (("canon", "out"), "bpfcanon-object: out: it is a folder, and only key and check take one"),
    "a folder as list": (("key", "--check", "out"), "bpfcanon-object: out: it is a folder, and a list of keys is a file that key has written"),
    "a folder in a list": (("key", "--check", "list"), "bpfcanon-object: out: it is a folder, and only a file has a key"),
    "an object file as list": (("key", "-c", "one"), "bpfcanon-object: one: it is an object file, and key --check reads lists that key has written"),
    "an empty list": (("key", "-c", "/dev/null"), "bpfcanon-object: /dev/null: it is empty, and no list of keys is"),
}


@pytest.mark.parametrize("row", HINTS.values(), ids=HINTS)
def test_hints(row, run, folder):
    """A message says what helps, in a line of its own, and no tip leads elsewhere."""
    words, said = row
    (folder(one=CANONICAL, list=f"{KEY}  out\n".encode()) / "out").mkdir()
    ran = run(*words)
    lines = ran.message.decode().split("\n")
    assert ran.status == 2 and any(said in it for it in lines), ran.message
    assert not re.search("to pass '|--version|\n\n\n|os error", ran.message.decode()), ran.message


def test_wrong_option(run):
    """An option before the command isn't taken for another one."""
    usage = "Usage: bpfcanon-object <COMMAND>\n\nFor more information, try '--help'.\n"
    assert run("--verbose", "key") == Ran(2, b"", f"error: unexpected argument '--verbose' found\n\n{usage}".encode())
    assert b"os error" not in run("same", "-", ".", input=CANONICAL).message + run("key", "missing").message


def test_longest(run, tmp_path):
    """A file of 64 MiB is accepted, a longer one is refused at that offset, and no more than that is read of a device without end."""
    (tmp_path / "long").write_bytes(with_code(bytes(LONGEST - len(CANONICAL)), b"\2"))
    assert run("check", "long") == Ran(0, b"long: accepted\n") and run("same", "long", "long") == Ran(0, b"same\n")
    with (tmp_path / "long").open("r+b") as file:
        file.truncate(LONGEST + 1)
    assert has_fault(run("canon", "long"), "long", LONGEST)
    assert has_fault(run("canon", "/dev/zero"), "/dev/zero", LONGEST)


@pytest.mark.parametrize("name", NAMES, ids=ascii)
def test_names(name, run, tmp_path):
    """A name is printed without control characters, read again from a list of keys, and the same in JSON."""
    (tmp_path / name).write_bytes(CANONICAL)
    printed, mark = NAMES[name].encode(), b"\\" * (NAMES[name] != name)
    line = b"%s%s  %s\n" % (mark, KEY.encode(), printed)
    assert run("key", name) == Ran(0, line)
    assert run("key", "--check", "-", input=line) == Ran(0, b"%s%s: OK\n" % (mark, printed))
    assert run("check", name) == Ran(0, b"%s: accepted\n" % printed)
    accepted = run("check", "--format", "json", name)
    assert json.loads(accepted.output) == {"file": name, "accepted": True}
    (tmp_path / name).write_bytes(CUT)
    refused = run("check", "--format", "json", name)
    assert refused.status == 1 and refused.message == b""
    assert json.loads(refused.output) == {"file": name, "accepted": False, "offset": len(CUT), "cause": "FileCut", "text": SENTENCES["FileCut"]}
    assert has_fault(run("key", name), NAMES[name], len(CUT))
    (tmp_path / name).unlink()
    assert has_trouble(run("key", name), NAMES[name])
    for ran in accepted, refused, run("same", name), run(name), run("check", "--format", name, name):
        text = (ran.output + ran.message).decode()
        assert text and {unicodedata.category(it) for it in text if it != "\n"}.isdisjoint({"Cc", "Cf", "Zl", "Zp"})


def test_key(run, folder):
    """A line for each file that has a key; the status is the worst one, and the others go on."""
    folder(one=CANONICAL, two=OTHER, cut=CUT)
    one, two = f"{KEY}  one\n".encode(), f"{hashlib.sha256(OTHER).hexdigest()}  two\n".encode()
    assert run("key", "one", "two") == Ran(0, one + two)
    assert run("key", "-", input=CANONICAL) == Ran(0, one.replace(b"one", b"-"))
    assert has_fault(run("key", "one", "cut", "two"), "cut", len(CUT), one + two)
    assert has_trouble(run("key", "one", "missing", "two"), "missing", one + two)
    both = run("key", "missing", "cut")
    assert both.status == 2 and len(both.message.splitlines()) == 2


def test_key_check(run, folder):
    """As `sha256sum -c` does: OK for a file that has its key, and FAILED for one that was changed, is refused or isn't there."""
    made = folder(one=CANONICAL, two=OTHER, three=CANONICAL)
    (made / "keys").write_bytes(run("key", "one", "two", "three").output)
    assert run("key", "--check", "keys") == Ran(0, b"one: OK\ntwo: OK\nthree: OK\n")
    folder(two=CANONICAL)
    changed = b"one: OK\ntwo: FAILED\nthree: OK\n"
    assert run("key", "-c", "keys") == run("key", "--check", "-", input=(made / "keys").read_bytes()) == Ran(1, changed)
    folder(two=CUT)
    assert has_fault(run("key", "--check", "keys"), "two", len(CUT), changed)
    (made / "two").unlink()
    assert has_trouble(run("key", "--check", "keys"), "two", changed.replace(b"FAILED", b"FAILED open or read"))


# Lines that no key has.
WRONG = {
    "upper case": KEY.upper().encode() + b"  one\n",
    "one blank": KEY.encode() + b" one\n",
    "an escape without a backslash before the line": KEY.encode() + b"  on\\\\e\n",
    "an unknown escape": b"\\" + KEY.encode() + b"  on\\te\n",
    "a control character": KEY.encode() + b"  on\x1be\n",
}


@pytest.mark.parametrize("line", WRONG.values(), ids=WRONG)
def test_wrong_lines(line, run, folder):
    """A line that `key` doesn't write is trouble, and the lines after it are read."""
    folder(one=CANONICAL, keys=line + f"{KEY}  one\n".encode())
    why = b"line 1 isn't one that key writes: 64 digits, two blanks and a name"
    assert run("key", "--check", "keys") == Ran(2, b"one: OK\n", b"bpfcanon-object: keys: %s\n" % why)


def test_wrong_lists(run, folder):
    folder(empty=b"", bytes=b"\xff\n")
    for name in "empty", "bytes", "missing", ".":
        assert has_trouble(run("key", "--check", name), name)


def test_same(run, folder):
    folder(one=CANONICAL, again=CANONICAL, two=OTHER, cut=CUT)
    assert run("same", "one", "again") == run("same", "-", "one", input=CANONICAL) == Ran(0, b"same\n")
    assert run("same", "one", "two") == run("same", "two", "-", input=CANONICAL) == Ran(1, b"different\n")
    assert has_fault(run("same", "cut", "one"), "cut", len(CUT), status=2)
    assert has_fault(run("same", "one", "cut"), "cut", len(CUT), status=2)
    assert has_trouble(run("same", "one", "missing"), "missing")
    assert has_trouble(run("same", "missing", "cut"), "missing")
    assert has_trouble(run("same", "-", "-", input=CANONICAL), "-")


def test_check(run, folder):
    """Each file is accepted, or its fault has an offset. In the formats for programs all answers are on standard output."""
    folder(**{"one": CANONICAL, "cut,:%": CUT})
    assert has_fault(run("check", "one", "cut,:%"), "cut,:%", len(CUT), b"one: accepted\n")
    assert run("check", "--format", "text", "one") == run("check", "one") == Ran(0, b"one: accepted\n")
    assert run("check", "--format", "github", "one") == Ran(0)
    found = run("check", "--format", "github", "cut,:%", "one")
    assert found.status == 1 and found.message == b""
    line = f"::error file=cut%2C%3A%25::cut,:%25: byte {len(CUT)}: FileCut: {SENTENCES['FileCut']}\n"
    assert found.output == line.encode()
    assert has_trouble(run("check", "--format", "json", "one", "missing"), "missing", b'{"file":"one","accepted":true}\n')


# Sections of code whose first fault is known (RFC 9669): two instructions, and what follows them. 0xff is no opcode, and a wide load (0x18) has
# two slots.
CODE_FAULTS = {
    "opcode": ("ff00000000000000", 0x10, "Opcode"),
    "second slot": ("1800000000000000 0100000000000000", 0x18, "Reserved"),
}


def with_code(code, flags=b"\6"):
    """The canonical file with other code in its section xdp, which is the second one, and at the end of the file."""
    row = int.from_bytes(CANONICAL[40:48], "little") + 2 * 64
    made = bytearray(CANONICAL) + code
    made[row + 8 : row + 9] = flags
    made[row + 24 : row + 40] = len(CANONICAL).to_bytes(8, "little") + len(code).to_bytes(8, "little")
    return bytes(made)


@pytest.mark.parametrize("fault", CODE_FAULTS.values(), ids=CODE_FAULTS)
def test_faults_of_code(fault, run, folder):
    """A file is accepted whatever its code is. The first fault of each section of code is reported, with its offset there."""
    behind, offset, cause = fault
    code = bytes.fromhex("b700000002000000 9500000000000000" + behind)
    folder(**{"one": CANONICAL, "odd": with_code(code), "data": with_code(code, b"\2"), "cut": CUT})
    place = f"xdp+{offset:#x}: {cause}: {SENTENCES[cause]}"
    assert run("check", "one", "odd", "data") == Ran(1, b"one: accepted\nodd: accepted\ndata: accepted\n", f"odd: {place}\n".encode())
    rows = [json.loads(it) for it in run("check", "--format", "json", "odd", "one").output.splitlines()]
    found = {"file": "odd", "section": "xdp", "offset": offset, "cause": cause, "text": SENTENCES[cause]}
    assert rows == [{"file": "odd", "accepted": True}, found, {"file": "one", "accepted": True}]
    assert run("check", "--format", "github", "one", "odd") == Ran(1, f"::error file=odd::odd: {place}\n".encode())


def test_long_section_name(run, folder):
    """The first 256 bytes of the name of a section are printed, also if they end in a character."""
    folder(odd=object_file([Section(0, flags=CODE, content=FAULT)], ("s" * 255 + "ü" * 100 + "\0").encode()))
    section, text = "s" * 255 + "\ufffd", SENTENCES["Opcode"]
    line = f"odd: {section}+0x0: Opcode: {text}\n".encode()
    assert run("check", "odd") == Ran(1, b"odd: accepted\n", line)
    rows = [json.loads(it) for it in run("check", "--format", "json", "odd").output.splitlines()]
    assert rows[1] == {"file": "odd", "section": section, "offset": 0, "cause": "Opcode", "text": text}
    assert run("check", "--format", "github", "odd") == Ran(1, b"::error file=odd::" + line)


# Code for targets (RFC 9669 section 2.4): its instructions, the groups of a target, and the offset and the group of the first instruction
# outside it. w0 = 2 and exit are in base32, r0 = 2 and a wide load in base64, which includes base32.
OUTSIDE = {
    "in the group that is included": ("b400000002000000 9500000000000000", "base64", None),
    "base64": ("b400000002000000 b700000002000000 bf10000000000000", "base32", (0x8, "base64")),
    "after a wide load": ("1800000000000000 0000000000000000 2000000000000000", "base64", (0x10, "packet")),
    "divmul32": ("2400000003000000 9500000000000000", "base64,atomic64,packet", (0x0, "divmul32")),
    "a fault": ("b700000002000000 ff00000000000000", "base32", (0x8, None)),
}


@pytest.mark.parametrize("row", OUTSIDE.values(), ids=OUTSIDE)
def test_target(row, run, folder):
    """Of each section of code without a fault, the first instruction outside the target is reported."""
    code, groups, found = row
    folder(**{"odd": with_code(bytes.fromhex(code)), "data": with_code(bytes.fromhex(code), b"\2"), "cut": CUT})
    offset, group = found or (0, None)
    cause, reason = ("Target", f"the target lacks {group}") if group else ("Opcode", SENTENCES["Opcode"])
    text = f"xdp+{offset:#x}: {cause}: {reason}"
    ran = run("check", "--target", groups, "data", "odd")
    assert ran == Ran(int(found is not None), b"data: accepted\nodd: accepted\n", f"odd: {text}\n".encode() if found else b"")
    rows = [json.loads(it) for it in run("check", "--format", "json", "--target", groups, "odd").output.splitlines()]
    assert rows[1:] == ([{"file": "odd", "section": "xdp", "offset": offset, "cause": cause, "text": reason}] if found else [])
    line = f"::error file=odd::odd: {text}\n".encode() if found else b""
    assert run("check", "--format", "github", f"--target={groups}", "odd") == Ran(int(found is not None), line)
    assert has_fault(run("check", "--target", groups, "cut"), "cut", len(CUT))


# An instruction of each row of docs/linux.tsv, after r0 = 2 and before exit.
ADDED = {
    "base": "b700000002000000",
    "packet": "3000000000000000",
    "jlt": "a500000005000000",
    "call_local": "8510000000000000",
    "arsh32": "c400000001000000",
    "jump32": "1600000000000000",
    "lddw_map_value": "1821000003000000 0000000004000000",
    "lddw_var": "1831000003000000 0000000000000000",
    "atomic": "db0af8ff01000000",
    "call_btf": "8520000007000000",
    "lddw_code": "1841000003000000 0000000000000000",
    "lddw_idx": "1851000003000000 0000000000000000",
    "ldxs": "91a1f8ff00000000",
    "movsx": "bf00080000000000",
    "swap": "d700000010000000",
    "sdiv": "3700010003000000",
    "ja32": "0600000000000000",
    "may_goto": "e500000000000000",
    "addr_space_cast": "bf11010001000000",
    "load_acquire": "dba1f8ff00010000",
    "store_release": "d30af8ff10010000",
}


def with_added(name):
    return with_code(bytes.fromhex(f"b700000002000000 {ADDED[name]} 9500000000000000"))


@pytest.mark.parametrize("row", linux_rows.rows(), ids=[it.name for it in linux_rows.rows()])
def test_added(row, run, folder):
    """A release and a version of -mcpu have an instruction, and those before lack it."""
    folder(odd=with_added(row.name))
    assert [it.name for it in linux_rows.rows_of(bytes.fromhex(ADDED[row.name]))] == [row.name]
    for target in row.release, f"v{row.mcpu}", "linux-6.18", "v4":
        assert run("check", "--target", target, "odd") == Ran(0, b"odd: accepted\n")
    major, minor = row.linux
    before = [f"linux-{major}.{minor - 1}" if minor else f"linux-{major - 1}.20"] if row.name != "base" else []
    needs = [f"needs Linux {major}.{minor}"] * len(before) + [f"needs -mcpu=v{row.mcpu}"] * (row.mcpu - 1)
    for target, lack in zip(before + [f"v{it}" for it in range(1, row.mcpu)], needs, strict=True):
        text = f"{lack}: {row.name}"
        ran = Ran(1, b"odd: accepted\n", f"odd: xdp+0x8: Target: {text}\n".encode())
        assert run("check", "--target", target, "odd") == ran
        rows = [json.loads(it) for it in run("check", "--format", "json", "--target", target, "odd").output.splitlines()]
        assert rows[1:] == [{"file": "odd", "section": "xdp", "offset": 8, "cause": "Target", "text": text}]
        line = f"::error file=odd::odd: xdp+0x8: Target: {text}\n".encode()
        assert run("check", "--format", "github", "--target", target, "odd") == Ran(1, line)


NEWER = ["may_goto", "addr_space_cast", "load_acquire", "store_release"]


@pytest.mark.parametrize("name", NEWER)
def test_newer(name, run, folder):
    """An instruction that isn't in RFC 9669 is no fault, is in no group, and with another register or immediate is a fault."""
    (row,) = (it for it in linux_rows.rows() if it.name == name)
    odd = bytearray.fromhex(ADDED[name])
    odd[1], odd[4] = 0xBB, 7
    folder(odd=with_added(name), fault=with_code(bytes(odd)))
    assert run("check", "odd").status == 0
    said = f"odd: xdp+0x8: Target: needs Linux {'.'.join(map(str, row.linux))}: {name}\n"
    groups = "base64,atomic64,divmul64,packet"
    assert run("check", "--target", groups, "odd") == Ran(1, b"odd: accepted\n", said.encode())
    assert [run("check", *words, "fault").status for words in ([], ["--target", "linux-6.18"])] == [1, 1]


# Names that are no target, and the one that the message has.
NO_TARGETS = {
    "an unknown group": ("base32,base16", "base16"),
    "a later release": ("linux-6.19", "linux-6.19"),
    "a release that there wasn't": ("linux-4.21", "linux-4.21"),
    "a release before the first": ("linux-3.17", "linux-3.17"),
    "a number with a zero": ("linux-5.04", "linux-5.04"),
    "a number with a sign": ("linux-5.+4", "linux-5.+4"),
    "a stable release": ("linux-5.4.1", "linux-5.4.1"),
    "a large number": ("linux-5.260", "linux-5.260"),
    "no number": ("linux-5", "linux-5"),
    "a version that there isn't": ("v5", "v5"),
    "a release and a group": ("linux-5.4,base32", "linux-5.4"),
    "two versions": ("v2,v3", "v2"),
    "nothing": ("", ""),
    "a control character": ("v\x1b[31m", "v\\x1b[31m"),
}


@pytest.mark.parametrize("row", NO_TARGETS.values(), ids=NO_TARGETS)
def test_no_target(row, run, folder):
    """The message has the name and says which there are, and no file is checked."""
    names, wrong = row
    folder(one=CANONICAL)
    groups = "base32, base64, atomic32, atomic64, divmul32, divmul64, packet"
    text = f"--target {wrong}: a target is linux-3.18 to linux-6.18, v1, v2, v3 or v4, or conformance groups: {groups}"
    assert run("check", "--target", names, "one") == Ran(2, b"", f"bpfcanon-object: {text}\n".encode())


def test_folders(run, folder):
    """A folder is all BPF object files in it, by name. Links in it, ELF files for another machine and other files are left out."""
    made = folder(b=CANONICAL, text=b"no object", empty=b"")
    for name in "a/z", "a/y", "c.o", "a.o":
        path = made / "top" / name
        path.parent.mkdir(parents=True, exist_ok=True)
        path.write_bytes(CANONICAL)
    (made / "top" / "notes").write_bytes(b"\x7fEL")
    (made / "top" / "program").write_bytes(HOST)
    (made / "top" / "link").symlink_to("../b")
    (made / "top" / "loop").symlink_to("..")
    found = ["top/a.o", "top/a/y", "top/a/z", "top/c.o"]
    assert run("check", "top") == Ran(0, "".join(f"{it}: accepted\n" for it in found).encode())
    assert run("key", "b", "top/a", "b").output.decode().split() == [KEY, "b", KEY, "top/a/y", KEY, "top/a/z", KEY, "b"]
    (made / "top" / "a" / "y").write_bytes(CANONICAL[:64])
    assert run("check", "top").status == 1
    (made / "none").mkdir()
    assert has_trouble(run("check", "none"), "none") and has_trouble(run("canon", "none"), "none")
    (made / "top" / os.fsdecode(b"\xff.o")).write_bytes(CANONICAL)
    other = run("check", "top/a", "top")
    assert other.status == 2 and other.output.count(b": accepted\n") == 4
    assert b"bpfcanon-object: top: the name of a file in it isn't UTF-8\n" in other.message
    (made / "none" / "program").write_bytes(HOST)
    assert has_trouble(run("key", "none"), "none") and has_fault(run("key", "none/program"), "none/program", 18)


WORDS = {
    "no verb": (),
    "an unknown verb": ("show",),
    "two files": ("canon", "one", "two"),
    "an unknown option": ("key", "--raw", "one"),
    "no output": ("canon", "one", "-o"),
    "an unknown format": ("check", "--format", "xml", "one"),
    "two targets": ("check", "--target", "base32", "--target", "base64", "one"),
}


@pytest.mark.parametrize("words", WORDS.values(), ids=WORDS)
def test_usage(words, run):
    ran = run(*words)
    assert ran.status == 2 and ran.output == b"" and ran.message.startswith(b"error: ")


def test_help(run):
    """The help and the version are on standard output. The version is that of the library."""
    version = re.search(r'BPFCANON_VERSION "(.*)"', (TOP / "capi" / "bpfcanon.h").read_text())[1]
    assert run("--version") == Ran(0, f"bpfcanon-object {version}\n".encode())
    assert run("version") == run("--version") and run("help") == run("--help")
    for words in (), ("canon",), ("key",), ("same",), ("check",):
        ran = run(*words, "--help")
        assert ran.status == 0 and ran.message == b"" and b"Usage: " in ran.output
        assert not re.search(rb"^ +(?:<\w+>|-\w, |--\w+)[^ ]*(?: <\w+>)?(?:\.\.\.)?$", ran.output, re.MULTILINE), "an argument has no text"


def test_names_that_are_no_text(run, folder):
    """A name that isn't UTF-8 is trouble for that file alone, and no other file is taken for it."""
    folder(**{"one": CANONICAL, "\ufffd": CANONICAL})
    right = Ran(2, f"{KEY}  one\n".encode(), "bpfcanon-object: \ufffd: its name isn't UTF-8\n".encode())
    assert run("key", b"\xff", "one") == right
    assert run("canon", "one", "-o", b"\xff") == Ran(2, b"", right.message)


def test_full_output(run, folder):
    """Output that can't be written is trouble."""
    folder(one=CANONICAL)
    with open("/dev/full", "wb") as full:
        for words in ("key", "one"), ("canon", "one"), ("check", "one"), ("same", "one", "one"):
            assert run(*words, stdout=full) == Ran(2, b"", b"bpfcanon-object: the output can't be written\n")
    assert has_trouble(run("canon", "one", "-o", "/dev/full"), "/dev/full")


# No line needs that many allocations: a loop that gets here would not end.
MOST_ALLOCATIONS = 2_000
REFUSED = {
    "key": ("key", "one", "cut", "two"),
    "key --check": ("key", "--check", "keys"),
    "canon": ("canon", "one"),
    "canon -o": ("canon", "one", "-o", "made"),
    "same": ("same", "one", "two"),
    "check": ("check", "--format", "json", "cut", "top"),
    "check of code as github": ("check", "--format", "github", "--target", "base64,packet", "odd", "source"),
    "help": ("--help",),
    "an unknown option": ("key", "--raw", "one"),
}
OUT_OF_MEMORY = re.compile(rb"bpfcanon-object: (?:[\w/.]+: )?out of memory|error: out of memory")


def is_refusal(ran, right):
    """Whether the command says that it is out of memory, and nothing else that it wouldn't say with ample memory."""
    messages = [it for it in ran.message.splitlines() if it not in right.message.splitlines()]
    lines = [it for it in ran.output.splitlines() if it not in right.output.splitlines() and not it.endswith(b": FAILED open or read")]
    return ran.status == 2 and messages and all(map(OUT_OF_MEMORY.fullmatch, messages)) and not lines


@pytest.mark.parametrize("only_one", [True, False], ids=["alone", "all that follow"])
@pytest.mark.parametrize("words", REFUSED.values(), ids=REFUSED)
def test_refused_memory(words, only_one, run, refusing, folder):
    """Whichever allocation is refused, no answer is wrong, and the output isn't a part of a file."""
    made = folder(one=CANONICAL, two=OTHER, cut=CUT, odd=with_code(b"\xff" + bytes(7)))
    if "source" in words:
        folder(source=with_fault("bpfel", 0))
    (made / "keys").write_bytes(run("key", "one", "two").output)
    (made / "top").mkdir()
    (made / "top" / "a.o").write_bytes(CANONICAL)
    right, seen = run(*words), set()
    for number in range(1, MOST_ALLOCATIONS):
        reading, writing = os.pipe()
        last = number if only_one else MOST_ALLOCATIONS
        settings = {"LD_PRELOAD": refusing, "REFUSE_FROM": str(number), "REFUSE_TO": str(last), "REFUSE_REPORT": str(writing)}
        ran = run(*words, env=os.environ | settings, pass_fds=[writing])
        os.close(writing)
        with os.fdopen(reading, "rb") as reader:
            was_refused = reader.read(1) != b""
        assert ran == right or (was_refused and is_refusal(ran, right)), f"allocation {number}: {ran}"
        assert not (made / "made").exists() or (made / "made").read_bytes() == CANONICAL
        if not was_refused:
            break
        seen.add(ran.message)
    assert b"bpfcanon-object: out of memory\n" in seen and not list(made.glob("*.tmp"))


@functools.lru_cache(maxsize=None)
def compiled(source, target, *flags):
    """An object file of a source in testdata."""
    need("clang")
    line = ["clang", "-target", target, "-O2", *flags, "-c", TOP / "testdata" / f"{source}.c", "-o", "-"]
    return subprocess.run(line, check=True, stdout=subprocess.PIPE).stdout


def with_fault(target, at, *flags):
    """The object file of testdata/pass.c, whose code is `return 2;` in line 6, with an opcode that doesn't exist at an offset of its code."""
    made = bytearray(compiled("pass", target, "-g", *flags))
    code = bytes.fromhex("b700000002000000 9500000000000000" if target == "bpfel" else "b700000000000002 9500000000000000")
    assert made.count(code) == 1
    made[made.index(code) + at] = 0xFF
    return bytes(made)


# How the folder of the source is named, and how the name of the source is then printed as text, and as a property of a workflow command.
FOLDERS = {
    "as it is": (str(TOP / "testdata"), str(TOP / "testdata"), str(TOP / "testdata")),
    "a name that something could act on": ("/a,b:c%\x1b\\", "/a,b:c%\\x1b\\\\", "/a%2Cb%3Ac%25\\x1b\\\\"),
    "a long name": ("/" + "d" * 300,) * 3,
}


@pytest.mark.parametrize("names", FOLDERS.values(), ids=FOLDERS)
@pytest.mark.parametrize("target", TARGETS)
def test_source_lines(target, names, run, folder):
    """What is reported of code has the line and column of source: of the return statement, as DWARF and `llvm-objdump -S` have them."""
    name, text, parameter = (f"{it}/pass.c"[:256] for it in names)
    flag = f"-fdebug-prefix-map={TOP / 'testdata'}={names[0]}"
    folder(first=with_fault(target, 0, flag), second=with_fault(target, 8, flag), good=compiled("pass", target, "-g", flag))
    opcode = f"Opcode: {SENTENCES['Opcode']}"
    lines = [f"first: xdp+0x0: {opcode}", f"second: xdp+0x8: {opcode}", "good: xdp+0x0: Target: the target lacks base64"]
    lines = [f"{it}, at {text}:6:2" for it in lines]
    files = "first", "second", "good"
    accepted = "".join(f"{it}: accepted\n" for it in files).encode()
    assert run("check", "--target", "base32", *files) == Ran(1, accepted, "".join(f"{it}\n" for it in lines).encode())
    rows = [json.loads(it) for it in run("check", "--format", "json", "second").output.splitlines()]
    found = {"section": "xdp", "offset": 8, "cause": "Opcode", "text": SENTENCES["Opcode"]}
    assert rows[1] == {"file": "second", **found, "source": name, "line": 6, "column": 2}
    message = f"second: xdp+0x8: {opcode}"
    assert run("check", "--format", "github", "second") == Ran(1, f"::error file={parameter},line=6,col=2::{message}\n".encode())


@pytest.mark.parametrize("target", TARGETS)
def test_no_source_lines(target, run, folder):
    """A file without .BTF.ext and a canonical file have no source lines."""
    made = compiled("pass", target)
    code = bytearray(made)
    code[made.index(b"\xb7")] = 0xFF
    folder(plain=bytes(code), canonical=canonical(with_fault(target, 0)))
    messages = "".join(f"{it}: xdp+0x0: Opcode: {SENTENCES['Opcode']}\n" for it in ("plain", "canonical"))
    assert run("check", "plain", "canonical") == Ran(1, b"plain: accepted\ncanonical: accepted\n", messages.encode())


@pytest.mark.parametrize("target", TARGETS)
def test_reference_faults(target, run, folder):
    """A file with a byte that is changed, or cut, has the first fault that docs/canon.py finds."""
    made = compiled("packet_filter", target, "-g")
    changed = [made[:at] + bytes([made[at] ^ 0x55]) + made[at + 1 :] for at in range(0, len(made), 41)]
    names = {str(number): content for number, content in enumerate([*changed, *(made[:at] for at in range(0, len(made), 199))])}
    folder(**names)
    right = []
    for name, content in names.items():
        try:
            canonical(content)
            right.append((name, True, None))
        except Refused as refused:
            right.append((name, False, refused.offset))
    rows = [json.loads(it) for it in run("check", "--format", "json", *names).output.splitlines()]
    assert [(it["file"], it["accepted"], it.get("offset")) for it in rows if "section" not in it] == right
