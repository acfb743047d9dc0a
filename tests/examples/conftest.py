"""The examples, copied into a folder whose commands are those of a reader: what they print, and what their pages say."""

from __future__ import annotations

import re
import shutil
import subprocess
from dataclasses import dataclass
from pathlib import Path

import pytest

from tests import TOP, reader
from tests.needs import need

# A build may take minutes on a busy machine.
SECONDS = 600
LOADERS = {
    "loader_c": ("cc", "pkg-config", "libbpf", "libcrypto"),
    "loader_go": ("go", "cc", "pkg-config", "github.com/cilium/ebpf"),
    "loader_rust": ("cargo", "cc", "pkg-config", "librust-object-dev", "librust-ring-dev"),
}
Done = subprocess.CompletedProcess[str]


@dataclass(frozen=True)
class Page:
    """The first shell block of a page, and what the block after it says that this prints."""

    commands: str
    printed: str

    @classmethod
    def read(cls, path: Path) -> Page:
        blocks = re.findall(r"^```(sh|text)\n(.*?)^```$", path.read_text(), re.MULTILINE | re.DOTALL)
        following = blocks[1][1] if blocks[1:] and blocks[1][0] == "text" else ""
        return cls(blocks[0][1], following)


class Place:
    """A copy of what the examples use of the tree, and the settings of their commands: nothing is from the network."""

    def __init__(self, folder: Path, program: Path, prefix: Path | None = None) -> None:
        self.folder = folder
        for name in "examples", "bindings/rust":
            shutil.copytree(TOP / name, folder / name, ignore=shutil.ignore_patterns("target", "Cargo.lock", "bazel-*"))
        (folder / "testdata").symlink_to(TOP / "testdata")
        self.settings: dict[str, str] = reader.settings(folder, {"bpfcanon-object": program}, prefix)

    def run(self, *words: str | Path, within: str = ".") -> Done:
        folder = self.folder / within
        return subprocess.run(words, cwd=folder, env=self.settings, timeout=SECONDS, capture_output=True, text=True, check=False)

    def follow(self, commands: str, within: str = ".") -> Done:
        return self.run("bash", "-euo", "pipefail", "-c", commands, within=within)


class Loader(Place):
    """A loader of an example, which its page has built. It signs what it is asked to, with the key of the page."""

    def __init__(self, name: str, folder: Path, program: Path, prefix: Path) -> None:
        super().__init__(folder, program, prefix)
        self.name = name
        self.page = Page.read(TOP / "examples" / name / "README.md")
        signed = self.follow(Page.read(TOP / "examples" / "README.md").commands)
        assert signed.returncode == 0, signed.stderr
        self.first = self.follow(self.page.commands)
        self.program = self.page.commands.splitlines()[-1].split()[0]

    def load(self, object: str, key: str = "public.der", signature: str = "count.sig") -> Done:
        return self.run(self.folder / self.program, key, signature, object)

    def compile(self, source: Path, out: str, *flags: str, within: str = ".") -> bytes:
        done = self.run("clang", "-target", "bpfel", "-mcpu=v3", "-O2", "-g", *flags, "-c", source, "-o", self.folder / out, within=within)
        assert done.returncode == 0, done.stderr
        return (self.folder / out).read_bytes()

    def sign(self, object: str, out: str) -> None:
        done = self.follow(
            f"bpfcanon-object canon -o signed.o {object} && openssl pkeyutl -sign -rawin -inkey private.pem -in signed.o -out {out}"
        )
        assert done.returncode == 0, done.stderr


@pytest.fixture(scope="session", params=[pytest.param(it, marks=pytest.mark.xdist_group(it)) for it in LOADERS])
def loader(request: pytest.FixtureRequest, prefix: Path, object_program: Path, tmp_path_factory: pytest.TempPathFactory) -> Loader:
    need("bash", "clang", "openssl", *LOADERS[request.param])
    return Loader(request.param, tmp_path_factory.mktemp(request.param), object_program, prefix)
