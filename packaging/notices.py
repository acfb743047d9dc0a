"""The licence of bpfcanon, and those of the crates of Rattle's kit whose code is in the programs and in the library."""

from __future__ import annotations

import pathlib
import re

from tree import PROGRAMS, TOP, run


def find_kit() -> pathlib.Path:
    return pathlib.Path(run("rt", "doc").strip()).parent


def named_for(crates: set[str]) -> set[str]:
    """What crates.txt names for some crates and for the crates that these use. Their code may be inlined."""
    lines = re.findall(r"^(\w+)[^:#\n]*:(.*)$", (TOP / "crates.txt").read_text(), re.MULTILINE)
    used = {crate: set(names.split()) for crate, names in lines}
    return set().union(*(named_for(used.get(it, set())) | {it} for it in crates))


def third_party(objects: list[pathlib.Path]) -> str:
    """The contents of THIRD-PARTY. If a crate has two licences to choose from, the one that isn't Apache's."""
    symbols = "".join(run("nm", it) for it in objects)
    named = re.findall(r"^[ 0-9a-f]{16} \w <?([a-z_0-9]+)::", symbols, re.MULTILINE)
    texts = []
    for crate in sorted({*named, *named_for({"bpfcanon_c", *(it.crate for it in PROGRAMS)})}):
        found = sorted(it for it in (find_kit() / "rattle" / crate).glob("LICENSE*") if "APACHE" not in it.name)
        texts += [f"== {crate} ({it.name})\n\n{it.read_text().strip()}\n" for it in found]
    return "Code of these crates, ported to Rattle, is in the programs and in the library.\n\n" + "\n".join(texts)


def licence() -> str:
    """The licence in the file LICENSE at the top. Until that is there, the text that says what nobody may do without one."""
    file = TOP / "LICENSE"
    return (file if file.is_file() else TOP / "packaging" / "NO-LICENSE").read_text()
