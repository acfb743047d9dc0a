"""The manual pages."""

import subprocess

from tests import TOP


def manual_pages():
    """The text of each page by its name: those of man/, and that of the library, which is made of the header."""
    pages = {path.name: path.read_text() for path in sorted(TOP.glob("man/*.1"))}
    return {**pages, "bpfcanon.3": subprocess.check_output([TOP / "tools" / "to_manual"], text=True)}
