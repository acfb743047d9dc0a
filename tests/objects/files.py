"""The object files that are judged: sources that clang compiles in several ways in both byte orders, those of cilium/ebpf and of xdp-tools, and the
vectors."""

from __future__ import annotations

import functools
import re
import subprocess
from dataclasses import dataclass
from pathlib import Path
from typing import Iterator

from tests import TOP, object_vectors
from tests.needs import need

HERE = TOP / "tests/objects"
ORDERS = {"little": "bpfel", "big": "bpfeb"}
PLAIN, DEBUG = (), ("-g",)
# Without types libbpf refuses maps and externs, and CO-RE doesn't compile.
SOURCES: tuple[tuple[str, tuple[tuple[str, ...], ...]], ...] = (
    ("tests/objects/sources/maps.c", (PLAIN, DEBUG, ("-g", "-mcpu=v1"))),
    ("tests/objects/sources/tails.c", (DEBUG,)),
    ("tests/objects/sources/data.c", (PLAIN, DEBUG)),
    ("tests/objects/sources/calls.c", (PLAIN, DEBUG)),
    ("tests/objects/sources/core.c", (DEBUG,)),
    ("tests/objects/sources/externs.c", (DEBUG,)),
    ("tests/objects/sources/operations.c", (DEBUG,)),
    ("tests/objects/sources/plain.c", (PLAIN, DEBUG)),
    ("testdata/count.c", (("-g", "-DMAP=packets"), ("-g", "-DMAP=errors"))),
    ("testdata/packet_filter.c", (DEBUG,)),
    ("testdata/flow_table.c", (DEBUG,)),
    ("testdata/hash_words.c", (PLAIN, DEBUG)),
    ("testdata/pass.c", (DEBUG,)),
)
TRIED_TOO = ("-O1", "-mcpu=v2", "-mcpu=v3")
# Sources that are compiled in one way only, with their macros: those of other tests, and each part of kinds.c.
KINDS = HERE / "sources/kinds.c"
OTHERS: dict[str, tuple[str, ...]] = {
    "bindings/python/tests/compiled/flows.c": ("-DENTRIES=16", "-DLIMIT=10", "-DRETURNS=2"),
    **{f"testdata/objects/{it}.c": () for it in ("calls", "core", "data", "externs", "maps")},
    **dict.fromkeys(("examples/bazel/allow.c", "examples/bazel/deny.c", "tests/examples/two.c", "tests/objects/sources/kernel.c"), ()),
}
INSTALLED = Path("/usr/share/gocode/src/github.com/cilium/ebpf/testdata")
# Debian's libxdp1 has the programs of xdp-tools.
XDP_TOOLS = Path("/usr/lib/x86_64-linux-gnu/bpf")
# libbpf refuses the other byte order, so that a few are enough to be changed. Longer files take longer.
OTHER_ORDER, LARGEST = ("maps", "core", "packet_filter"), 60_000
# What tools make of an object; IN and OUT stand for both files. libbpf links only what has the byte order of the processor.
TOOLS = {
    "stripped": ("llvm-strip", "-g", "IN", "-o", "OUT"),
    "copied": ("llvm-objcopy", "IN", "OUT"),
    "compressed": ("llvm-objcopy", "--compress-debug-sections", "IN", "OUT"),
    "unneeded": ("llvm-strip", "--strip-unneeded", "IN", "-o", "OUT"),
    "linked": ("bpftool", "gen", "object", "OUT", "IN"),
}


@dataclass(frozen=True)
class Made:
    """An object that is made from a source, or one that a package has installed."""

    source: Path
    order: str = ""
    flags: tuple[str, ...] = ()
    tool: str = ""

    @property
    def name(self) -> str:
        return " ".join(it for it in (self.source.name, self.order, *self.flags, self.tool) if it)


def vectors() -> list[Made]:
    return [Made(object_vectors.FOLDER / row.file) for row in object_vectors.rows() if row.key]


# Those whose .BTF.ext has a part without records, which cilium/ebpf refuses.
WITHOUT_RECORDS = [it for it in vectors() if it.source.name.startswith(("changed.no_parts.", "changed.no_lines."))]


def all_made() -> Iterator[Made]:
    for path, variants in SOURCES:
        typed = [it for it in variants if it != ()]
        for order in ORDERS:
            for flags in (*variants, *((*typed[0], it) for it in TRIED_TOO)):
                yield Made(TOP / path, order, flags)
            yield from (Made(TOP / path, order, typed[0], it) for it in TOOLS if (order, it) != ("big", "linked"))
    kinds = re.findall(r"^#(?:el)?if defined\((\w+)\)", KINDS.read_text(), re.MULTILINE)
    singles = [*((TOP / path, flags) for path, flags in OTHERS.items()), *((KINDS, (f"-D{it}",)) for it in kinds)]
    yield from (Made(path, order, ("-g", "-mcpu=v3", *flags)) for path, flags in singles for order in ORDERS)
    yield from map(Made, sorted([*INSTALLED.glob("*.elf"), *XDP_TOOLS.glob("*.o")]))
    yield from (it for it in vectors() if it not in WITHOUT_RECORDS)


def bases() -> Iterator[Made]:
    """The objects that are changed."""
    for path, variants in SOURCES:
        for flags in variants:
            yield from (Made(TOP / path, "little", flags, it) for it in ("", "stripped") if not it or flags == DEBUG)
    yield from (named(it, "big") for it in OTHER_ORDER)
    yield from (Made(it) for it in sorted(INSTALLED.glob("*-el.elf")) if it.stat().st_size <= LARGEST)


def named(source: str, order: str = "little") -> Made:
    """An object of a source, with types."""
    path = next(TOP / path for path, _ in SOURCES if path.endswith(f"/{source}.c"))
    return Made(path, order, DEBUG)


@functools.lru_cache(maxsize=None)
def kernel_headers() -> str:
    """Where the headers of the kernel are that differ between processors; clang looks there only if it compiles for this one."""
    asked = subprocess.run(["cc", "-print-multiarch"], capture_output=True, text=True, check=True)
    return f"/usr/include/{asked.stdout.strip()}"


def compile_source(source: Path, target: str, flags: tuple[str, ...], out: Path) -> bytes:
    line = ["clang", "-target", target, "-O2", *flags, "-fdebug-compilation-dir=.", f"-I{kernel_headers()}", "-c", source, "-o", out]
    subprocess.run(line, capture_output=True, check=True)
    return out.read_bytes()


@functools.lru_cache(maxsize=None)
def content(made: Made, folder: Path) -> bytes:
    """The bytes of an object, which is made in a folder."""
    if not made.order:
        return made.source.read_bytes()
    need("clang", "cc", *TOOLS.get(made.tool, ())[:1])
    if made.tool:
        return changed(content(Made(made.source, made.order, made.flags), folder), made.tool, folder)
    return compile_source(made.source, ORDERS[made.order], made.flags, folder / f"{made.name.replace(' ', '_')}.o")


def changed(data: bytes, tool: str, folder: Path) -> bytes:
    """What a tool makes of an object."""
    first, second = folder / "object.o", folder / "changed.o"
    first.write_bytes(data)
    second.unlink(missing_ok=True)
    line = [{"IN": str(first), "OUT": str(second)}.get(it, it) for it in TOOLS[tool]]
    subprocess.run(line, check=True, capture_output=True)
    return second.read_bytes()
