"""The kernel loads the same from the canonical file: programs with their tags, maps and types. Nothing stays loaded."""

from __future__ import annotations

import json
import re
import shutil
import subprocess
from pathlib import Path
from typing import Any, Iterator

from tests.objects.conftest import Canon, Tally, each
from tests.objects.files import XDP_TOOLS, all_made
from tests.objects.tools import types_by_structure

PROGRAM = ("name", "type", "tag", "gpl_compatible", "bytes_xlated")
MAP = ("name", "type", "flags", "bytes_key", "bytes_value", "max_entries")
# The kernel refuses the other byte order, and loads of a copy what it loads of the first.
INSTALLED = [it for it in all_made() if it.source.name.endswith("-el.elf") or it.source.parent == XDP_TOOLS]
LOADABLE = [*(it for it in all_made() if it.order == "little" and it.tool in ("", "linked")), *INSTALLED]


def told(*words: str) -> str:
    return subprocess.run(["bpftool", "-j", *words], capture_output=True, text=True, check=True).stdout


def ask(*words: str) -> Any:
    return json.loads(told(*words))


def fields(answer: dict[str, Any], names: tuple[str, ...]) -> dict[str, Any]:
    return {it: answer.get(it) for it in names}


def types_of(program: dict[str, Any]) -> Any:
    return types_by_structure(told("btf", "dump", "id", str(program["btf_id"]))) if "btf_id" in program else None


def loaded(content: bytes, folder: Path, pins: Path) -> Iterator[Any]:
    """What the kernel has loaded of an object, or the first error without numbers of types. The names of maps begin with that of the file."""
    path, place = folder / "loaded.o", pins / "object"
    path.write_bytes(content)
    done = subprocess.run(["bpftool", "prog", "loadall", path, place], capture_output=True, text=True, check=False)
    if done.returncode:
        lines = (re.sub(r"\[\d+\]", "[]", it) for it in done.stderr.splitlines() if it.startswith("libbpf: "))
        yield next((it for it in lines if "rror" in it or "failed" in it), "refused")
    for pin in sorted(place.iterdir()) if place.is_dir() else ():
        program = ask("prog", "show", "pinned", str(pin))
        maps = (ask("map", "show", "id", str(it)) for it in program.get("map_ids", ()))
        yield pin.name, fields(program, PROGRAM), [fields(it, MAP) for it in maps], types_of(program)
    shutil.rmtree(place, ignore_errors=True)


@each(LOADABLE)
def test_kernel_loads_the_same(made: bytes, canon: Canon, folder: Path, pins: Path, tally: Tally) -> None:
    one, other = (list(loaded(it, folder, pins)) for it in (made, canon(made)))
    programs = sum(isinstance(it, tuple) for it in one)
    word = "accepted" if programs else "refused"
    tally["kernel"].update({f"the same, {word}" if one == other else "other": 1, "programs": programs})
    assert one == other
