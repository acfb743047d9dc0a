"""What the tests of object files share: what gives canonical files and keys, the loaders, bpfcanon-review, and the table of what each judge said."""

from __future__ import annotations

import collections
import contextlib
import ctypes
import importlib
import os
import subprocess
import sys
from dataclasses import dataclass
from pathlib import Path
from typing import Any, Callable, Iterable, Iterator

import pytest

from tests import TOP
from tests.command import SECONDS
from tests.needs import need
from tests.objects import files, loaders

Run = Callable[..., "subprocess.CompletedProcess[bytes]"]
Canon = Callable[[bytes], bytes]
Keys = Callable[[list[bytes]], list[str]]
Tally = dict[str, collections.Counter[str]]
CLONE_NEWNS = 0x20000
TALLY: Tally = collections.defaultdict(collections.Counter)


class Refused(Exception):
    """A file has no canonical form."""


@pytest.fixture(scope="session")
def folder(tmp_path_factory: pytest.TempPathFactory) -> Path:
    return tmp_path_factory.mktemp("objects")


@pytest.fixture(scope="session")
def bases(folder: Path) -> list[bytes]:
    """The objects that are changed."""
    return [files.content(it, folder) for it in files.bases()]


@pytest.fixture(scope="session")
def canon(object_program: Path, folder: Path) -> Canon:
    """What gives the canonical file of an object by the built command, or raises Refused."""

    def canon(data: bytes) -> bytes:
        path = folder / "input.o"
        path.write_bytes(data)
        done = subprocess.run([object_program, "canon", path], capture_output=True, check=False)
        assert done.returncode in (0, 1), done.stderr
        if done.returncode:
            raise Refused(done.stderr.decode())
        return done.stdout

    return canon


@pytest.fixture(scope="session")
def keys(object_program: Path, folder: Path) -> Keys:
    """What gives the keys of objects, which are the SHA-256 of their canonical files; that of a refused one is empty."""

    def keys(batch: list[bytes]) -> list[str]:
        for number, data in enumerate(batch):
            (folder / f"{number}.o").write_bytes(data)
        line = [object_program, "key", *(f"{number}.o" for number in range(len(batch)))]
        done = subprocess.run(line, cwd=folder, capture_output=True, text=True, check=False)
        assert done.returncode in (0, 1), done.stderr
        found = {name: key for key, _, name in (it.partition("  ") for it in done.stdout.splitlines())}
        return [found.get(f"{number}.o", "") for number in range(len(batch))]

    return keys


@pytest.fixture(scope="session", params=loaders.NEEDED)
def loader(request: pytest.FixtureRequest, folder: Path) -> Iterator[loaders.Loader]:
    need(*loaders.NEEDED[request.param])
    with contextlib.closing(loaders.Loader(request.param, folder)) as found:
        yield found


@pytest.fixture(scope="session")
def both(folder: Path) -> Iterator[list[loaders.Loader]]:
    """Both loaders."""
    need(*(tool for tools in loaders.NEEDED.values() for tool in tools))
    with contextlib.ExitStack() as stack:
        yield [stack.enter_context(contextlib.closing(loaders.Loader(it, folder))) for it in loaders.NEEDED]


@pytest.fixture(scope="session")
def pins(folder: Path) -> Path:
    """A folder of pins, which only this process and its children see."""
    need("bpftool")
    if os.geteuid() or ctypes.CDLL(None).unshare(CLONE_NEWNS):
        pytest.skip("only root may load, in a mount namespace of its own")
    pins = folder / "pins"
    pins.mkdir()
    mounts = (["mount", "--make-rprivate", "/"], ["mount", "-t", "bpf", "bpf", str(pins)])
    if any(subprocess.run(it, capture_output=True, check=False).returncode for it in mounts):
        pytest.skip("a bpffs can't be mounted")
    return pins


def each(made: Iterable[files.Made]) -> pytest.MarkDecorator:
    """A test of each of these objects."""
    found = list(made)
    return pytest.mark.parametrize("made", found, indirect=True, ids=[it.name for it in found])


@pytest.fixture
def made(request: pytest.FixtureRequest, folder: Path) -> bytes:
    """The bytes of an object that a test is parametrised by."""
    return files.content(request.param, folder)


@pytest.fixture
def tally() -> Tally:
    """How often each judge said what, for the end of the report."""
    return TALLY


def pytest_terminal_summary(terminalreporter: Any) -> None:
    for judge, counts in sorted(TALLY.items()):
        terminalreporter.write_line(f"{judge}: {', '.join(f'{word} {count}' for word, count in sorted(counts.items()))}")


@dataclass(frozen=True)
class Review:
    """The package, over the C library."""

    package: Any

    def module(self, name: str) -> Any:
        return importlib.import_module(f"bpfcanon.review.{name}")

    def accepted(self, data: bytes) -> Any:
        """The object file, or None if it is refused."""
        try:
            return self.module("accepted").Accepted(data)
        except self.package.FaultError:
            return None

    def lines(self, object: Any, title: str) -> list[str]:
        """The lines of a part."""
        (found,) = (it for it in self.module("parts").parts(object) if it.title == title)
        return [it.text.strip() for it in found.lines]

    def text(self, object: Any) -> str:
        """All that is shown except the key, which would hide what is missing."""
        lines = (line for it in self.module("parts").parts(object) for line in (it.title, *(one.text for one in it.lines)))
        return "\n".join(it for it in lines if not it.startswith("\tkey="))

    def changes(self, old: Any, new: Any) -> dict[str, list[str]]:
        """The lines of each change."""
        return {it.text: list(it.lines) for it in self.module("compare").compare(old, new)}


@pytest.fixture(scope="session")
def review(bpfcanon: Any) -> Review:
    return Review(bpfcanon)


@pytest.fixture(scope="session")
def run(prefix: Path) -> Run:
    """Runs bpfcanon-review."""
    own = {"BPFCANON_LIBRARY": f"{prefix}/lib/libbpfcanon.so.0", "PYTHONPATH": f"{TOP}/bindings/python"}
    line = [sys.executable, "-B", "-m", "bpfcanon.review"]
    return lambda *words, **how: subprocess.run([*line, *words], **{"env": os.environ | own, "capture_output": True, "timeout": SECONDS} | how)
