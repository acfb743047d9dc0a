"""Bazel finds what depends on canonical files in its cache again after a comment, and not after a change of the program, and each canonical
file is that of the object with its path.
"""

from __future__ import annotations

import json
import shutil
from pathlib import Path
from typing import Any, Iterator

import pytest

from tests.examples.conftest import Page, Place

HERE = "examples/bazel"


class Workspace(Place):
    """The example, with the program in it as its page says, and a disk cache."""

    def __init__(self, folder: Path, program: Path) -> None:
        super().__init__(folder, program)
        shutil.copy(program, folder / HERE / "bpfcanon-object")

    def found(self) -> dict[str, bool]:
        """Builds :image from nothing, and says of each output whether it was in the cache."""
        commands = 'bazel clean; bazel build :image --disk_cache="$HOME/cache" --execution_log_json_file="$HOME/log"'
        done = self.follow(commands, HERE)
        assert done.returncode == 0, done.stderr
        actions = read_log((self.folder / "log").read_text())
        return {out.partition("/bin/")[2]: it["remoteCacheHit"] for it in actions for out in it["listedOutputs"]}

    def edit(self, name: str, old: str, new: str) -> None:
        path = self.folder / HERE / name
        text = path.read_text()
        assert old in text
        path.write_text(text.replace(old, new))


def read_log(text: str) -> Iterator[dict[str, Any]]:
    """The objects that follow one another in a text."""
    decoder = json.JSONDecoder()
    while text := text.lstrip():
        value, end = decoder.raw_decode(text)
        text = text[end:]
        yield value


@pytest.fixture
def workspace(object_program: Path, tmp_path: Path) -> Iterator[Workspace]:
    made = Workspace(tmp_path, object_program)
    yield made
    made.run("bazel", "shutdown", within=HERE)


@pytest.mark.needs("bash", "bazel", "clang")
def test_cache(workspace: Workspace) -> None:
    page = Page.read(workspace.folder / HERE / "README.md")
    done = workspace.follow(page.commands, HERE)
    assert done.stdout.endswith(page.printed), done.stderr
    built = {"allow.o": True, "deny.o": False, "canonical/allow.o": False, "canonical/deny.o": False}
    workspace.edit("deny.c", "return 1;", "/* a comment */\n\treturn 1;")
    assert workspace.found() == built | {"image.bin": True}
    workspace.edit("deny.c", "return 1;", "return 0;")
    assert workspace.found() == built | {"image.bin": False}
    for name in "allow.o", "deny.o":
        assert workspace.follow(f"bpfcanon-object canon bazel-bin/{name} | cmp - bazel-bin/canonical/{name}", HERE).returncode == 0
    workspace.edit("BUILD", 'srcs = ["allow.o", "deny.o"]', 'srcs = ["allow.o", "more/allow.o"]')
    both = "mkdir more && cp bazel-bin/deny.o more/allow.o && bazel build :canonical && cd bazel-bin/canonical"
    done = workspace.follow(f"{both} && bpfcanon-object same allow.o ../allow.o && bpfcanon-object same more/allow.o ../deny.o", HERE)
    assert (done.returncode, done.stdout) == (0, "same\nsame\n"), done.stderr
