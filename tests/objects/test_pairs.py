"""Pairs of objects that mean two things to some loader: one is refused, or they have two canonical files."""

from __future__ import annotations

import struct
from pathlib import Path

import pytest

from tests.objects.conftest import Canon, Refused
from tests.objects.elf_file import NOBITS, ElfFile
from tests.objects.known import DIFFERENCES, PAIRS, Known, as_it_is, edited, line_inside


def form(data: bytes, canon: Canon) -> bytes:
    """The canonical file of an object, or nothing."""
    try:
        return canon(data)
    except Refused:
        return b""


@pytest.mark.parametrize("pair", PAIRS)
def test_pair_differs(pair: str, canon: Canon, folder: Path) -> None:
    source, *edits = PAIRS[pair]
    one, other = (canon(edited(source, it, folder)) for it in edits)
    assert one != other


@pytest.mark.parametrize("known", DIFFERENCES, ids=[it.name for it in DIFFERENCES])
def test_known_difference(known: Known, canon: Canon, folder: Path) -> None:
    """libbpf tells each of these from its base."""
    assert form(edited(known.base, known.change, folder), canon) != canon(edited(known.base, as_it_is, folder))


def test_line_inside_a_string_is_left_out(canon: Canon, folder: Path) -> None:
    """cilium/ebpf refuses the original, and the canonical file has no text of lines."""
    assert canon(edited("plain", line_inside, folder)) == canon(edited("plain", as_it_is, folder))


def test_zeros_behind_the_file_are_refused(canon: Canon, folder: Path) -> None:
    """Go refuses the sh_offset of .bss, which no loader needs."""
    data = bytearray(edited("data", as_it_is, folder))
    index = ElfFile.read(bytes(data)).of_type(NOBITS)[0]
    (table,) = struct.unpack_from("<Q", data, 40)
    struct.pack_into("<Q", data, table + 64 * index + 24, 1 << 63)
    assert form(bytes(data), canon) == b""
