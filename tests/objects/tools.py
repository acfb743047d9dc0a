"""What tools print about an object file."""

from __future__ import annotations

import hashlib
import json
import re
import subprocess
from dataclasses import dataclass
from pathlib import Path
from typing import Any

FILE = "object.o"
# What bpftool prints of each object with maps of an older kind, and as it falls back to an older libbpf.
USUAL = re.compile(r"libbpf: elf: skipping unrecognized data section.*|Warning: bpftool is now running.*|If it used to work.*")
# The kinds of types that have another place in a canonical file, and the names of bpftool for the number of a type.
MOVED = ("VAR", "DATASEC", "FWD", "TYPE_TAG")
NUMBERS = ("type_id", "ret_type_id", "index_type_id")


@dataclass(frozen=True)
class Said:
    """What a tool said: its status, its output and its warnings."""

    status: int
    output: str
    warnings: tuple[str, ...]


def ask(line: tuple[str, ...], content: bytes, folder: Path) -> Said:
    """Ask a tool about an object, whose name is the same for each. Numbers of sections are left out of its warnings."""
    (folder / FILE).write_bytes(content)
    done = subprocess.run([*line, FILE], cwd=folder, capture_output=True, check=False)
    said = re.sub(r"section\(\d+\)", "section", done.stderr.decode(errors="replace"))
    warnings = (it for it in said.splitlines() if it and not USUAL.fullmatch(it))
    return Said(done.returncode, done.stdout.decode(errors="replace"), tuple(warnings))


def without_file(skeleton: str) -> str:
    """A skeleton without the object file that it contains."""
    return re.sub(r"\*sz = \d+;|(return \(const void \*\)|data\[\] __attribute__\S+ = )\".*?\";", "", skeleton, flags=re.DOTALL)


def without_labels(listing: str) -> str:
    """A listing of llvm-objdump without labels, by which it names the target of a jump if there is one."""
    return re.sub(r" <[^<>]*>$|^\n[0-9a-f]+ <LBB\w+>:\n", "", listing, flags=re.MULTILINE)


def types_by_structure(answer: str) -> list[Any]:
    """bpftool's answer with a digest of what a type is in place of its number. The types that are moved come last, as digests."""
    types = json.loads(answer)["types"] if answer.startswith('{"types"') else []
    texts, count = dict.fromkeys((it["id"] for it in types), ""), 0
    while count < (count := len(set(texts.values()))):
        texts = {it["id"]: hashlib.sha256(repr(without_numbers(it, texts)).encode()).hexdigest() for it in types}
    moved = sorted(texts[it["id"]] for it in types if it["kind"] in MOVED)
    return [*(without_numbers(it, texts) for it in types if it["kind"] not in MOVED), *moved]


def without_numbers(value: Any, texts: dict[int, str]) -> Any:
    if isinstance(value, dict):
        return [(key, texts.get(it, it) if key in NUMBERS else without_numbers(it, texts)) for key, it in value.items() if key != "id"]
    return [without_numbers(it, texts) for it in value] if isinstance(value, list) else value
