"""Runs the built program on the rows `run` of testdata/vectors.tsv, which are command lines with their answers. testdata/README.md describes them.

That a command gives the answers of the call behind it is proved. The other rows are compared with the calls of the C library.
"""

from tests.vector_rows import examples


def test_rows(program):
    ran = [(it, program.run(it.line, it.input)) for it in examples()]
    assert ran and [f"{it.name} ({it.line}): {found}, and right is {it.right}" for it, found in ran if found != it.right] == []
