"""Tools say of the canonical file what they say of the original, and warn of nothing new."""

from __future__ import annotations

import importlib
from pathlib import Path
from typing import Any, Callable, Iterator

import pytest

from tests.objects.conftest import Canon, Refused, Tally, each
from tests.objects.files import all_made
from tests.objects.tools import ask, types_by_structure, without_file, without_labels
from tests.needs import need

# Tools, with what is compared of their output.
SAY_THE_SAME: dict[str, tuple[tuple[str, ...], Callable[[str], object]]] = {
    "llvm-objdump -d -r": (("llvm-objdump", "-d", "-r"), without_labels),
    "bpftool btf dump": (("bpftool", "-j", "btf", "dump", "file"), types_by_structure),
    "bpftool gen skeleton": (("bpftool", "gen", "skeleton"), without_file),
}
# What they print has what is dropped and renumbered.
WARN_OF_NOTHING: dict[str, tuple[tuple[str, ...], Callable[[str], object]]] = {
    "llvm-objdump -t": (("llvm-objdump", "-t"), lambda output: ""),
    "llvm-readelf -a": (("llvm-readelf", "-aW"), lambda output: ""),
    "readelf -a": (("readelf", "-aW"), lambda output: ""),
}
DROPPED = (".debug_", ".rel.debug_", ".rel.BTF")
WRITTEN = ("", ".symtab", ".strtab", ".shstrtab", ".llvm_addrsig", ".BTF", ".BTF.ext")


@each(all_made())
@pytest.mark.parametrize("tool", [*SAY_THE_SAME, *WARN_OF_NOTHING])
def test_tool_says_the_same(tool: str, made: bytes, canon: Canon, folder: Path, tally: Tally) -> None:
    line, compared = {**SAY_THE_SAME, **WARN_OF_NOTHING}[tool]
    need(line[0])
    one, other = (ask(line, it, folder) for it in (made, canon(made)))
    texts = [compared(it.output) for it in (one, other)]
    is_same = texts[0] == texts[1] and one.status == other.status and set(other.warnings) <= set(one.warnings)
    word = "the same" if tool in SAY_THE_SAME else "no new warning"
    tally[tool].update([f"{word}, {'refused' if one.status else 'accepted'}" if is_same else "other"])
    assert texts[0] == texts[1]
    assert one.status == other.status
    assert set(other.warnings) <= set(one.warnings)


@each(all_made())
def test_linker_makes_the_same(made: bytes, canon: Canon, folder: Path, tally: Tally) -> None:
    need("bpftool")
    found = [linked(it, canon, folder) for it in (made, canon(made))]
    tally["bpftool gen object"].update([f"the same, {'accepted' if found[0] else 'refused'}" if found[0] == found[1] else "other"])
    assert found[0] == found[1]


def linked(data: bytes, canon: Canon, folder: Path) -> bytes:
    """The canonical file of what libbpf's linker makes; nothing if it refuses the object."""
    (folder / "out.o").unlink(missing_ok=True)
    done = ask(("bpftool", "gen", "object", "out.o"), data, folder)
    try:
        return canon((folder / "out.o").read_bytes()) if done.status == 0 else b""
    except Refused as refused:
        return str(refused).encode()


@each(all_made())
def test_pyelftools_reads_the_same(made: bytes, canon: Canon, folder: Path, tally: Tally) -> None:
    need("elftools")
    one, other = (list(rows(it, folder)) for it in (made, canon(made)))
    tally["pyelftools"].update(["the same, accepted" if one == other else "other"])
    assert one == other


def rows(data: bytes, folder: Path) -> Iterator[tuple[Any, ...]]:
    """What a canonical file keeps of sections, symbols and relocations, by names instead of numbers."""
    files = importlib.import_module("elftools.elf.elffile")
    (folder / "read.o").write_bytes(data)
    with (folder / "read.o").open("rb") as stream:
        elf = files.ELFFile(stream)
        kept = [it for it in elf.iter_sections() if it.name not in WRITTEN and not it.name.startswith(DROPPED)]
        fields = ("sh_type", "sh_flags", "sh_addr", "sh_size", "sh_addralign", "sh_entsize")
        yield from ((it.name, *(it[field] for field in fields), it.data() if it["sh_type"] == "SHT_PROGBITS" else b"") for it in kept)
        table, place = elf.get_section_by_name(".symtab"), {elf.get_section_index(it.name): number for number, it in enumerate(kept)}
        for symbol in table.iter_symbols():
            index, info = symbol["st_shndx"], symbol["st_info"]
            is_label = info["type"] == "STT_NOTYPE" and symbol.name.startswith("LBB")
            is_left_out = is_label or info["type"] == "STT_FILE" or isinstance(index, int) and index not in place
            if not (info["bind"] == "STB_LOCAL" and is_left_out):
                yield symbol.name, tuple(info.items()), symbol["st_other"], place.get(index, index), symbol["st_value"], symbol["st_size"]
        for section in (it for it in kept if it["sh_type"] == "SHT_REL"):
            for it in section.iter_relocations():
                symbol = table.get_symbol(it["r_info_sym"])
                yield section.name, it["r_offset"], it["r_info_type"], symbol.name, symbol["st_value"], place.get(symbol["st_shndx"])
