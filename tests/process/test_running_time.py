"""Limits the time and the memory of the BTF commands and of bpfcanon-object on large inputs that are hard for them, and the memory of two
commands for instructions on the largest programs.

Each BTF file goes through btf-check, btf-canon and btf-same. A run may need twenty times the processor time that was measured, and
an address space of eight times its input; valid names in the longest string section may need four times. The margins are wide, so
that a slower machine passes and another order of growth doesn't: a quadratic search needs hundreds of times as long here.
insn-groups and insn-same store their input and nothing else that grows with it, so they may need 1.1 times its length. bpfcanon-object may
need four times the object file and its canonical file together.

bench/hard_inputs measures the processor time and the least address space of each run, from which the constants below come.
"""

import hashlib
import os
import re
import resource
import subprocess
import tempfile
from typing import Callable, NamedTuple


import pytest

from tests.process import hard_objects
from tests.samples import EXIT, MOV, MOV_BIG, WIDE, WIDE_BIG, btf

MEGABYTE = 1 << 20
STRINGS = 16 * MEGABYTE
TIMES_THE_TIME = 20
TIMES_THE_INPUT = 8
TIMES_THE_PROGRAM = 1.1
TIMES_THE_OBJECT = 4
PROCESS = 8 * MEGABYTE  # the address space for a short object file
AMPLE = 1 << 36
LARGEST_PROGRAM = 64 * MEGABYTE
ENUM_VALUES = MEMBERS = 65_535
# This many structs and as many unions fill a file.
RECORDS_OF_MEMBERS = 20
# A longer run is ended.
MOST_SECONDS = 100


class Ran(NamedTuple):
    """What a run gave: its status, what it wrote, and its processor time."""

    status: int
    output: bytes
    seconds: float


def run(program, line, given, memory):
    """Runs the program on a file within an address space of these bytes."""

    def limit():
        resource.setrlimit(resource.RLIMIT_AS, (memory, memory))
        resource.setrlimit(resource.RLIMIT_CPU, (MOST_SECONDS, MOST_SECONDS))

    with tempfile.TemporaryFile() as source, tempfile.TemporaryFile() as sink:
        source.write(given)
        source.seek(0)
        process = subprocess.Popen([program, *line.split()], stdin=source, stdout=sink, stderr=subprocess.STDOUT, preexec_fn=limit)
        _, status, usage = os.wait4(process.pid, 0)
        process.returncode = os.waitstatus_to_exitcode(status)
        sink.seek(0)
        return Ran(process.returncode, sink.read(), usage.ru_utime + usage.ru_stime)


# ---- inputs


def enums(offsets):
    """ENUMs whose values have the names at these offsets, in order."""
    words = []
    for start in range(0, len(offsets), ENUM_VALUES):
        names = offsets[start : start + ENUM_VALUES]
        words += [0, 0x0600_0000 | len(names), 4]
        for name in names:
            words += [name, 0]
    return words


def named(names):
    """A file of ENUM values with these names, each stored on its own."""
    strings, offsets = b"\0" + b"\0".join(names) + b"\0", []
    at = 1
    for name in names:
        offsets.append(at)
        at += len(name) + 1
    return file_of(offsets, strings)


def file_of(offsets, strings):
    words = enums(offsets)
    assert len(strings) <= STRINGS and 4 * len(words) <= 2 * STRINGS
    return btf("little", words, strings)


def letters(number, width, alphabet=b"abcdefghijklmnopqrstuvwxyz"):
    """The name for a number, in a fixed width."""
    name = bytearray()
    for _ in range(width):
        number, digit = divmod(number, len(alphabet))
        name.append(alphabet[digit])
    return bytes(name)


def common_suffix():
    return named([letters(number, 4) + b"_" * 49 for number in range(300_000)])


def different_names():
    """Three million 4-letter names, from an alphabet of 94."""
    alphabet = bytes(range(0x21, 0x7F))
    names = [letters(number, 4, alphabet) for number in range(3_000_000)]
    return named(names)


def nested_suffixes():
    """Strings of 2,000 letters, each used from each of its bytes on: every name ends all those before it."""
    strings, offsets = bytearray(b"\0"), []
    for number in range(500):
        text = letters(number, 4) + b"a" * 1996
        offsets += range(len(strings), len(strings) + len(text))
        strings += text + b"\0"
    return file_of(offsets, bytes(strings))


def one_name():
    """A name of a million bytes that is used two million times."""
    return file_of([1] * 2_000_000, b"\0" + b"n" * 1_000_000 + b"\0")


def valid_utf8():
    """16 MB of characters of one to four bytes, and one name."""
    text = "aé€😀".encode() * ((STRINGS - 2) // 10)
    return file_of([1], b"\0" + text + b"a" * (STRINGS - 2 - len(text)) + b"\0")


def members():
    """Structs and unions of as many members as a record can have. Only the last member of each has a width."""
    words = [0, 0x0100_0000, 4, 32]
    for kind in [0x0400_0000, 0x0500_0000] * RECORDS_OF_MEMBERS:
        words += [0, 1 << 31 | kind | MEMBERS, 4]
        words += [0, 1, 0] * (MEMBERS - 1) + [0, 1, 1 << 24]
    return btf("little", words, b"\0")


class Input(NamedTuple):
    """A file, how many times its length its address space may be, and the seconds of each command (below)."""

    make: Callable[[], bytes]
    times: int
    is_canonical: bool
    seconds: tuple[float, float, float]


# The processor times of btf-check, btf-canon and btf-same, the least of three runs each, on a processor of 2.5 GHz that other
# work shared.
INPUTS = {
    "300,000 names with a common suffix": Input(common_suffix, TIMES_THE_INPUT, True, (0.03, 0.11, 0.05)),
    "three million different names": Input(different_names, TIMES_THE_INPUT, True, (0.08, 0.49, 0.13)),
    "a million nested suffixes of 500 strings": Input(nested_suffixes, TIMES_THE_INPUT, False, (0.02, 0.07, 0.04)),
    "a name of a million bytes, used two million times": Input(one_name, TIMES_THE_INPUT, True, (0.04, 0.07, 0.06)),
    "16 MB of valid UTF-8": Input(valid_utf8, 4, True, (0.05, 0.10, 0.06)),
    "members of which the last has a width": Input(members, TIMES_THE_INPUT, True, (0.06, 0.12, 0.13)),
}


def lines_of(file):
    """Each command with its input."""
    return [("btf-check", file), ("btf-canon", file), (f"btf-same --split {len(file)}", file + file)]


def largest_programs():
    """The lines for the largest programs of moves, wide loads and exits: each with its input, output and measured processor time."""
    little, big = (code * (LARGEST_PROGRAM // len(code)) for code in (MOV + WIDE + EXIT, MOV_BIG + WIDE_BIG + EXIT))
    return [
        ("insn-groups", little, b"base32\nbase64\n", 0.10),
        ("insn-groups --order big", big, b"base32\nbase64\n", 0.10),
        (f"insn-same --split {len(little)}", little + little, b"same\n", 0.15),
        (f"insn-same --split {len(little)} --other big", little + big, b"same\n", 0.15),
    ]


class Object(NamedTuple):
    """An object file, the greatest processor time of `canon`, `key` and `check`, the cause for which it is refused, the number of faults in its
    code, which `check` reports in each of its formats, and how many times the file and its canonical file the memory may be."""

    make: Callable[[], bytes]
    seconds: float
    cause: bytes = b""
    faults: int = 0
    times: int = TIMES_THE_OBJECT


OBJECTS = {
    "64 MiB of code": Object(hard_objects.code, 0.4),
    "64 MiB of data": Object(hard_objects.data, 0.4),
    "four million relocations": Object(hard_objects.relocations, 0.5),
    "relocation sections of the same rows": Object(hard_objects.shared_relocations, 0.01, b"SectionsTooLarge"),
    "1.6 million names": Object(hard_objects.distinct_symbols, 2.9),
    "1.6 million ends of strings": Object(hard_objects.symbols_in_strings, 0.5),
    "1.6 million symbols with one name": Object(hard_objects.symbols_of_one_string, 0.5),
    "64 names of 4,095 bytes, used often": Object(lambda: hard_objects.symbols_of_few_strings(4_095), 0.5),
    "64 names of 63 bytes, used often": Object(lambda: hard_objects.symbols_of_few_strings(63), 1.2),
    "as many ends of a string as fit": Object(lambda: hard_objects.ends_of_a_string(11_500), 0.5),
    "too many ends of a string": Object(lambda: hard_objects.ends_of_a_string(300_000), 0.07, b"ResultTooLarge"),
    "sections with ends of a string": Object(lambda: hard_objects.long_section_names(1), 0.07),
    "sections with long names": Object(lambda: hard_objects.long_section_names(60), 0.1, b"ResultTooLarge"),
    "a million names of types": Object(hard_objects.names_of_types, 1.0),
    "1.5 million groups of functions and lines": Object(hard_objects.groups, 4.0, b"ResultTooLarge"),
    "1.6 million groups of one section": Object(hard_objects.groups_of_one_section, 1.0, b"ExtensionGroupTwice"),
    "three million access strings": Object(lambda: hard_objects.access_strings(5_000), 0.5),
    "access strings of 14 MiB": Object(lambda: hard_objects.access_strings(14 * MEGABYTE), 0.1, b"ResultTooLarge"),
    "faults in all sections": Object(hard_objects.faults, 0.1, faults=hard_objects.MOST_SECTIONS - 3),
    "faults in sections with a long name": Object(lambda: hard_objects.faults(b"\x1b" * 1_023), 0.3, faults=hard_objects.MOST_SECTIONS - 3),
    "faults in sections with a long name of percent signs": Object(lambda: hard_objects.faults(b"%" * 1_023), 0.3, faults=hard_objects.MOST_SECTIONS - 3),
    "a long name of a source file": Object(lambda: hard_objects.faults_with_lines(200_000, 1_000), 0.1, faults=hard_objects.MOST_SECTIONS - 5),
    "400,000 lines before those of faults": Object(lambda: hard_objects.faults_with_lines(1_000, 400_000), 0.2, faults=hard_objects.MOST_SECTIONS - 5),
    "a chain of 900,000 TYPE_TAG": Object(lambda: hard_objects.type_tags(b"tag", 900_000, lambda number: number - 1), 1.0),
    "a loop of 900,000 TYPE_TAG": Object(lambda: hard_objects.type_tags(b"tag", 900_000, lambda number: number % 900_000 + 1), 1.0),
    "900,000 TYPE_TAG of two long names": Object(lambda: hard_objects.type_tags(b"a" * 1_000 + b"1\0" + b"a" * 1_000 + b"2", 900_000, lambda number: number - 1), 1.0),
    "400,000 VAR with a name of 8 MB": Object(lambda: hard_objects.variables(400_000, 8_000_000), 1.0, b"TypesName"),
    "400,000 VAR with a name of 1,024 bytes": Object(lambda: hard_objects.variables(400_000, 1_024), 1.0),
    "400,000 VAR named by the ends of two strings of 4 MB": Object(lambda: hard_objects.variables_of_equal_ends(2, 4_000_000, 400_000), 1.0, b"TypesName"),
    "400,000 VAR named by the ends of strings of 1,024 bytes": Object(
        lambda: hard_objects.variables_of_equal_ends(4_000, 1_024, 400_000), 2.0, b"ResultTooLarge", times=5
    ),
    "250,000 VAR named by ends": Object(lambda: hard_objects.variables_of_ends(250_000), 1.0),
    "400,000 VAR and 300,000 FUNC of two long names": Object(lambda: hard_objects.long_names_of_variables(400_000, 300_000, 1_023), 1.0),
    "a million VAR and FUNC named by ends": Object(lambda: hard_objects.variables_and_functions_of_ends(500_000), 2.0, b"ResultTooLarge", times=5),
}


# ---- checks


def is_output(line, output, file, is_canonical):
    """Whether a run wrote what is right. Canonical bytes are known of a file that is canonical."""
    if line == "btf-canon":
        return output == file if is_canonical else len(output) <= len(file)
    return output.startswith(b"ok ") if line == "btf-check" else output == b"same\n"


@pytest.mark.parametrize("name", INPUTS)
def test_types(program, name):
    input = INPUTS[name]
    file = input.make()
    for (line, given), seconds in zip(lines_of(file), input.seconds, strict=True):
        ran = run(program.path, line, given, input.times * len(given))
        assert ran.status == 0, f"{line} within {input.times} times its input: {ran.output[:40]}"
        assert is_output(line, ran.output, file, input.is_canonical), line
        assert ran.seconds <= TIMES_THE_TIME * seconds, line


@pytest.mark.parametrize("number", range(4))
def test_programs(program, number):
    line, given, output, seconds = largest_programs()[number]
    ran = run(program.path, line, given, int(TIMES_THE_PROGRAM * len(given)))
    assert (ran.status, ran.output) == (0, output), line
    assert ran.seconds <= TIMES_THE_TIME * seconds, line


# What each form of `check` writes of a file that is accepted, before what it reports of its code.
CHECKS = {"check -": b"-: accepted\n", "check --format json -": b'{"file":"-","accepted":true}\n', "check --format github -": b""}


def object_lines(object):
    return ["canon -", "key -", *(CHECKS if object.faults else ["check -"])]


def is_right(line, ran, object, canonical):
    """Whether an answer is that for an object file with this canonical file, or for one that is refused. `run` has messages in the output."""
    if object.cause:
        return ran.status == 1 and re.fullmatch(rb"-: byte \d+: %s: [^\n]*\n" % object.cause, ran.output)
    if line in CHECKS:
        first, reports = ran.output[: len(CHECKS[line])], ran.output[len(CHECKS[line]) :]
        is_whole = first == CHECKS[line] and reports.count(b"\n") == reports.count(b"Opcode") == object.faults
        return is_whole and ran.status == (1 if object.faults else 0)
    return ran.status == 0 and ran.output == (canonical if line == "canon -" else b"%s  -\n" % hashlib.sha256(canonical).hexdigest().encode())


@pytest.mark.parametrize("name", OBJECTS)
def test_objects(object_program, name):
    object = OBJECTS[name]
    file = object.make()
    assert len(file) <= LARGEST_PROGRAM
    canonical = b"" if object.cause else run(object_program, "canon -", file, AMPLE).output
    memory = object.times * (len(file) + len(canonical)) + PROCESS
    for line in object_lines(object):
        ran = run(object_program, line, file, memory)
        assert is_right(line, ran, object, canonical), f"{line} within {object.times} times its input: {ran.status} {ran.output[:80]}"
        assert ran.seconds <= TIMES_THE_TIME * object.seconds, line
