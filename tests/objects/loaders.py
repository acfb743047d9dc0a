"""What loaders read from objects: libbpf, by the program `loaded`, and cilium/ebpf."""

from __future__ import annotations

import contextlib
import os
import struct
import subprocess
import threading
from pathlib import Path
from typing import IO, Optional

from tests.objects.files import HERE, INSTALLED, compile_source

PARTS = ("loaded.c", "object.c", "kernel.c", "calls.c", "types.c", "view.c")
REPLACED = ("syscall", "fopen64", "gzopen64", "btf__load_vmlinux_btf", "mkdir")
NEEDED = {"libbpf": ("cc", "clang", "libbpf"), "cilium": ("go", "github.com/cilium/ebpf")}
GO = {"GO111MODULE": "off", "GOENV": "off", "GOFLAGS": "", "GOTOOLCHAIN": "local", "GOPATH": str(INSTALLED.parents[4])}


class Loader:
    """One process that answers for many objects."""

    def __init__(self, name: str, folder: Path) -> None:
        self.name = name
        self._line = libbpf(folder) if name == "libbpf" else cilium(folder)
        self._process: Optional[subprocess.Popen[bytes]] = None

    def view(self, content: bytes) -> bytes:
        """What the loader says of an object."""
        return self.views([content])[0]

    def views(self, contents: list[bytes]) -> list[bytes]:
        """What it says of each object, whose bytes may end it. The next ones are sent while it answers."""
        found: list[bytes] = []
        while len(found) < len(contents):
            if self._process is None:
                self._process = subprocess.Popen(self._line, stdin=subprocess.PIPE, stdout=subprocess.PIPE)
            assert self._process.stdin and self._process.stdout
            sender = threading.Thread(target=send, args=[self._process.stdin, contents[len(found) :]])
            sender.start()
            found += answers(self._process.stdout, len(contents) - len(found))
            if len(found) < len(contents):
                self.close()
                found.append(b"the loader ends")
            sender.join()
        return found

    def close(self) -> None:
        if self._process:
            self._process.kill()
            self._process.wait()
        self._process = None


def send(stream: IO[bytes], contents: list[bytes]) -> None:
    with contextlib.suppress(OSError, ValueError):
        for content in contents:
            stream.write(struct.pack("<I", len(content)) + content)
            stream.flush()


def answers(stream: IO[bytes], count: int) -> list[bytes]:
    """As many answers, or those before the end of the loader."""
    found = []
    while len(found) < count:
        head = stream.read(4)
        if len(head) < 4:
            break
        found.append(stream.read(*struct.unpack("<I", head)))
    return found


def is_accepted(view: bytes) -> bool:
    return not view.startswith((b"refused", b"open fails", b"the loader ends"))


def libbpf(folder: Path) -> list[str]:
    """Compiles `loaded` over the archive of libbpf, as functions that a shared library calls in itself couldn't be replaced; and the types of its
    kernel."""
    program, kernel = folder / "loaded", folder / "kernel.o"
    wraps = [f"-Wl,--wrap={it}" for it in REPLACED]
    line = ["cc", "-std=gnu11", "-O2", "-g", "-Wall", "-Wextra", "-Werror", *(HERE / it for it in PARTS), "-o", program, *wraps]
    subprocess.run([*line, "-l:libbpf.a", "-lelf", "-lz"], check=True)
    compile_source(HERE / "sources/kernel.c", "bpf", ("-g",), kernel)
    return [str(program), str(kernel)]


def cilium(folder: Path, name: str = "cilium") -> list[str]:
    program = folder / name
    own = {**os.environ, **GO, "GOCACHE": os.environ.get("GOCACHE", str(folder / "go-cache"))}
    subprocess.run(["go", "build", "-o", program, HERE / f"{name}.go"], env=own, check=True)
    return [str(program)]
