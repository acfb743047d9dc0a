"""Shows by the form of the sources that out of memory is only passed on, never invented.

No contract can say that an allocator failed, so a body that returns this error for an input would be proved. It would have to name the
error somewhere, though. rt ci refuses a file in another layout than rt fmt's, so each line of crates/*/src that names `AllocError`, a
variant whose name ends in `Memory`, or its status in C, has to be one of these lines: anything else is refused, right or not. Comments,
strings and types don't count, nor does what only clauses can write, such as `BtfError.Memory`.
"""

import re

import pytest

from tests import TOP

CRATES = TOP / "crates"
# comments, strings and characters
NOT_CODE = re.compile(r"""//[^\n]*|/\*.*?\*/|r(#*)".*?"\1|"(?:\\.|[^"\\])*"|'(?:\\.|[^'\\])'""", re.S)
NAME = re.compile(r"(?<!\.)\b(?:AllocError\b(?!>)|AllocFailed\b(?!<)|\w*Memory\b(?!\()|with_status\(4\))")
VARIANT, ENUM = "    Memory,", re.compile(r"(?:pub(?:\(crate\))? )?enum .*")
CONVERSION = re.compile(r" *fn from\(\w+: Alloc(?:Error|Failed<T>)\) -> \w+(?:<.*>)? \{")
# A pattern without a path could be a variable, which any value matches.
ANSWER = r"(?:\w+::)+\w*Memory"
LINES = [
    # imports by the same name, and what only proofs read
    r" *use (?!.* as ).*",
    r" *ghost .*",
    # what is reported of it: the statuses and the message
    r" *(?:\w+::\w+ \| )*\w+::Memory => (?:3|with_status\(4\)|report_line\(faults, b\"\"\)),",
    # an answer that is passed on as one, also by a conversion of another error
    rf" *(?:Err\()?{ANSWER}\)? => (?:return )?(?:Err\()?(?:\w+\()?{ANSWER}(?:, 0)?\)*,",
]


def code_of(source):
    """The lines of a source, with empty strings and without comments."""
    return NOT_CODE.sub(lambda it: ("" if it[0][0] == "/" else '""') + "\n" * it[0].count("\n"), source).splitlines()


def is_passed_on(lines, number):
    """Whether a line is one of the above, the variant of an enum, or the conversion of an allocator's error, whose body is one line."""
    line = lines[number].rstrip()
    if line == VARIANT:
        return bool(ENUM.fullmatch(next((it for it in lines[number::-1] if it[:1].strip()), "")))
    is_conversion = any(CONVERSION.fullmatch(it) for it in lines[max(number - 1, 0) : number + 1])
    return is_conversion or any(re.fullmatch(it, line) for it in LINES)


def wrong_lines(source):
    """Each line that isn't one of the above, with its number."""
    lines = code_of(source)
    return [(number + 1, line) for number, line in enumerate(lines) if NAME.search(line) and not is_passed_on(lines, number)]


FILES = [path for path in sorted(CRATES.glob("*/src/**/*.rt")) if "tests" not in str(path.relative_to(CRATES))]


@pytest.mark.parametrize("path", FILES, ids=lambda path: str(path.relative_to(CRATES)))
def test_source(path):
    """Out of memory is passed on."""
    assert not wrong_lines(path.read_text())
