"""Readers of tables of docs/."""

import itertools
import re

from tests import TOP

DOCS = TOP / "docs"


def cells(row):
    return [cell.strip().replace(r"\|", "|") for cell in re.split(r"(?<!\\)\|", row)[1:-1]]


def table(page, *columns):
    """The rows of the one table of a page that has these columns."""
    lines = (DOCS / page).read_text().splitlines()
    (head,) = [at for at, line in enumerate(lines) if line.startswith("|") and cells(line) == [*columns]]
    return [cells(line) for line in itertools.takewhile(lambda it: it.startswith("|"), lines[head + 2 :])]


def numbers(text):
    """The decimal numbers in a cell such as "24 to 4,096"."""
    return [int(it.replace(",", "")) for it in re.findall(r"\d[\d,]*", text)]


def causes(kind):
    """The number, name, sentence and offset of each cause of a kind, of which tools/from_causes makes the tables of docs/FAULTS.md."""
    rows = [line.split("\t") for line in (DOCS / "causes.tsv").read_text().splitlines() if line.startswith(f"{kind}\t")]
    return [(int(number), name, sentence, offset) for _, number, name, sentence, _, offset, _ in rows]
