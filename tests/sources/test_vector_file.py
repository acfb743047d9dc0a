"""Checks testdata/vectors.tsv by itself: its rows are distinct, have the fields of their kind, and are about all that the tables of the
pages name. Each cause has a row by tests/sources/test_causes.py.
"""

import re

import pytest

from tests.commands import COMMANDS, OPTIONS
from tests import TOP
from tests.reference import btf_reference, btf_tables, insn_forms, insn_reference
from tests.vector_rows import COLUMNS, VECTORS, data, rows

LINES = VECTORS.read_text().splitlines()
# Where a row can be told from another of its kind: all other fields may be those of other rows, the name too.
OWN = {"insn": ["little"], "listing": ["listing"], "listing-fault": ["listing"], "btf": ["file"], "run": ["arguments", "input"]}
OWN |= {"insn-fault": ["little", "big"], "btf-fault": ["little", "big"]}


def test_form():
    """The first comment names the canonical form, and each other line is a row or a comment."""
    form = re.search(r"\*\*The canonical form is form (\d+)\.\*\*", (TOP / "docs" / "FORMATS.md").read_text())[1]
    assert LINES[0].startswith(f"# Test vectors for BPF instructions (RFC 9669) and BTF, form {form}: ")
    assert {line.partition("\t")[0] for line in LINES if line and not line.startswith("#")} == set(COLUMNS)


@pytest.mark.parametrize("kind", COLUMNS)
def test_rows(kind):
    found, columns = rows(kind), COLUMNS[kind]
    assert all(len(row) == len(columns) and all(row) for row in found)
    assert len(found) == len({tuple(row[columns.index(it)] for it in OWN[kind]) for row in found})


# ---- what the rows are about, each by the pages and the sources and then by the rows


def form_of(form):
    """An instruction by its name, operation, width, and whether its second operand is a register."""
    return form.name, form.operation, form.bits, len(form.src) > 1


def forms():
    found = (insn_reference.decoded(data(little), "little")[0][0] for _, little, *_ in rows("insn"))
    return {*map(form_of, insn_forms.forms())}, {*map(form_of, found)}


def kinds():
    """The kinds of types, each with its kind_flag if that is part of what it means."""
    records = (it for row in rows("btf") for it in btf_reference.framed(btf_reference.sections_of(data(row[2])))[0])
    return {(it.word, flag) for it in btf_tables.LAYOUTS.values() for flag in ((0, 1) if it.word in btf_tables.MEANT else (0,))}, {
        (it.layout.word, it.flag if it.layout.word in btf_tables.MEANT else 0) for it in records
    }


def options():
    """Each command, and each of its options, a byte order with the value that isn't the default."""
    lines = [re.split("[ =]", row[1]) for row in rows("run") if row[3] != "2"]
    found = {(words[0], *pair) for words in lines for pair in [(), *zip(words[1::2], words[2::2])]}
    right = {(command,) for command in COMMANDS}
    right |= {(command, it, "big") for command, names in OPTIONS.items() for it in names if it != "--split"}
    return right | {(command, "--split") for command in COMMANDS if "--split" in OPTIONS[command]}, found | {it[:2] for it in found}


TABLES = {
    "forms": forms,
    "groups": lambda: (set(insn_reference.included()), {row[3] for row in rows("insn")}),
    "kinds": kinds,
    "options": options,
    "statuses": lambda: ({"0", "1", "2"}, {row[3] for row in rows("run")}),
}


@pytest.mark.parametrize("name", TABLES)
def test_tables(name):
    right, found = TABLES[name]()
    assert right and right - found == set()
