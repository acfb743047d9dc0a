"""Compares docs/causes.tsv with what is written by hand: the sentences of the causes of object files, their page, and the vectors.

tests/sources/test_made.py has what tools/from_causes makes of it, which are the definitions of the crates too. By their contracts, the code
has the numbers, names and sentences of these.
"""

import re

import pytest

from tests import TOP
from tests.sources.tables import causes
from tests.vector_rows import rows

# The kind of vector for the faults of each kind, the column of its cause, and the cause that no input has.
VECTORS = {"insn": ("insn-fault", 4), "line": ("listing-fault", 3), "btf": ("btf-fault", 4)}
NEVER = "TextsTooLong"


def source(name):
    return (TOP / "crates" / name).read_text()


def in_errors(text, enum):
    """The sentence of each variant of an enum that thiserror displays, but for those that hold another cause."""
    body = re.search(rf"^pub enum {enum} \{{\n(.*?)^\}}", text, re.MULTILINE | re.DOTALL)[1]
    return re.findall(r'#\[error\("(.*)"\)\]\n    (\w+)(?: = \d+)?,', body)


def test_objects():
    """The causes of object files are those that the two crates declare. The page names each."""
    listed = causes("object")
    declared = in_errors(source("bpf_elf/src/fault.rt"), "ElfCause") + in_errors(source("bpf_object/src/fault.rt"), "ObjectCause")
    assert sorted((sentence, name) for _, name, sentence, _ in listed) == sorted(declared)
    page = (TOP / "docs" / "OBJECTS.md").read_text().partition("## Accepted files")[2].partition("\n### ")[0]
    assert {name for _, name, *_ in listed} <= set(re.findall(r"\w+", page))


@pytest.mark.parametrize("kind", VECTORS)
def test_uses(kind):
    """Each cause has a vector, and no vector has another one."""
    names, (vector, at) = {name for _, name, *_ in causes(kind)}, VECTORS[kind]
    assert {row[at] for row in rows(vector)} == names - {NEVER}
