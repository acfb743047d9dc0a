"""Refuses a definition that imports a number, a table or a string from the code.

What a file of crates/NAME/specs says must not change with the code. It may name the types that the code declares, with their
variants, and no constant. A constant of `src` is in a module `TheConstants`, so a file of definitions doesn't contain this name, even
in a comment. Nor does it name proofs or contracts, since these may pass a constant on.
"""

import re

import pytest

from tests import TOP

# A part of a path, before or behind a dot: «proofs» is the same name.
NAMED = re.compile(r"\bTheConstants\b|\.«?(?:proofs|contracts)\b|\b(?:proofs|contracts)»?\.\w")


@pytest.mark.parametrize("file", sorted(TOP.glob("crates/*/specs/**/*.antt")), ids=lambda file: str(file.relative_to(TOP)))
def test_definitions(file):
    """A definition gives each number itself."""
    assert NAMED.search(file.read_text()) is None


@pytest.mark.parametrize("file", sorted(TOP.glob("crates/*/specs/**/private/*.antt")), ids=lambda file: str(file.relative_to(TOP)))
def test_private(file):
    """What only private contracts rest on stands in a folder `private`, so a public definition imports nothing from there."""
    name = re.compile(rf"\bprivate\.{file.stem}\b")
    others = (it for it in TOP.glob("crates/*/specs/**/*.antt") if "private" not in it.parts)
    assert [it for it in others if name.search(it.read_text())] == []
