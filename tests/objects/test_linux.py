"""docs/linux.tsv against the running kernel, which loads the instructions of its release and of those before, and refuses the later ones."""

from __future__ import annotations

import ctypes
import os
import platform
import re
import struct

import pytest

from tests.reference import linux_rows

BPF_MAP_CREATE, BPF_PROG_LOAD = 0, 5
ARRAY, ARENA, SOCKET_FILTER, MMAPABLE = 2, 33, 1, 1 << 10
# Where the pages of an arena are in a process, the field map_extra.
ARENA_ADDRESS = 1 << 44
NUMBERS = {"x86_64": 321, "aarch64": 280}
RELEASE = tuple(map(int, re.findall(r"\d+", os.uname().release)[:2]))
ZERO, EXIT, STORE = "b700000000000000", "9500000000000000", "7b0af8ff00000000"
# A program for each row that one can try without a loader: instructions, with MAP for the file descriptor of a map. r0 and the stack are set.
PROGRAMS = {
    "base": "",
    "packet": "bf16000000000000 3000000000000000 b700000000000000",
    "jlt": "a500000005000000",
    "call_local": "8510000001000000 9500000000000000 b700000000000000",
    "arsh32": "c400000001000000",
    "jump32": "1600000000000000",
    "lddw_map_value": "18210000MAP 0000000000000000 b700000000000000",
    "atomic": "db0af8ff01000000",
    "ldxs": "91a1f8ff00000000",
    "movsx": "bf00080000000000",
    "swap": "d700000010000000",
    "sdiv": "3700010003000000",
    "ja32": "0600000000000000",
    "may_goto": "e500000000000000",
    "addr_space_cast": "18110000ARENA 0000000000000000 b701000000000000 bf11010001000000 b700000000000000",
    "load_acquire": "dba1f8ff00010000",
    "store_release": "db0af8ff10010000",
}


def bpf(command: int, attributes: bytes) -> int:
    """The file descriptor that the system call gives, or -1."""
    library = ctypes.CDLL(None, use_errno=True)
    return int(library.syscall(NUMBERS[platform.machine()], command, ctypes.create_string_buffer(attributes, 128), 128))


def is_loaded(code: bytes) -> bool:
    instructions, license = ctypes.create_string_buffer(code, len(code)), ctypes.create_string_buffer(b"GPL")
    found = bpf(BPF_PROG_LOAD, struct.pack("=IIQQ", SOCKET_FILTER, len(code) // 8, ctypes.addressof(instructions), ctypes.addressof(license)))
    if found >= 0:
        os.close(found)
    return found >= 0


def program(text: str) -> bytes:
    """The bytes of a program, with the maps that it uses."""
    maps = {"MAP": (ARRAY, 4, 8, 1, 0, 0), "ARENA": (ARENA, 0, 0, 1, MMAPABLE, ARENA_ADDRESS)}
    for name, fields in maps.items():
        if re.search(rf"\d{name}\b", text):
            text = text.replace(name, struct.pack("<i", bpf(BPF_MAP_CREATE, struct.pack("=IIIII44xQ", *fields))).hex())
    return bytes.fromhex(f"{ZERO} {STORE} {text} {EXIT}")


@pytest.mark.parametrize("name", PROGRAMS)
def test_running_kernel(name: str) -> None:
    if not is_loaded(program("")):
        pytest.skip("this process may not load programs")
    (row,) = (it for it in linux_rows.rows() if it.name == name)
    assert is_loaded(program(PROGRAMS[name])) == (row.linux <= RELEASE)
