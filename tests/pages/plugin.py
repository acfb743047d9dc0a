"""Collects the blocks of the pages as tests: each is run, or says why not.

A comment on the line before a block says what it is:

    <!-- needs: clang llvm-objcopy -->   it is skipped without these tools
    <!-- file: key.c -->                 a file of this name
    <!-- go: key -->                     a program of this name, which is built of the block
    <!-- given: types.btf testdata/flow_table.big.btf -->   a copy of a file of the tree
    <!-- stand-in: rt -->                `rt run -- WORDS` and `rt try -- WORDS` run the built command
    <!-- not run: WHY -->                only read: a shell block has to be one, and to name files that exist

A block `sh` prints what the block `text` after it says, or nothing. A block `console` has lines after `$ `, each for a shell of its own,
with what it prints. A block `python` is a doctest. Each runs in the folder that the one before has left, which begins as the top of a
clone in which the command is built. All blocks of a page run in one process, and --dist loadgroup keeps that so.
"""

import os
import pathlib
import re
import shutil
import signal
import subprocess
import sys

import pytest
from markdown_it import MarkdownIt

from tests import TOP, reader
from tests.needs import built, need

PAGES = [
    str(it.relative_to(TOP))
    for it in sorted([*TOP.glob("*.md"), *TOP.glob("docs/*.md"), *TOP.glob("b*/**/README.md"), *TOP.glob("testdata/*.md")])
]
# Blocks that another test runs or compares, or that are pictures.
PYTHON_TESTS = "bindings/python/tests"
ELSEWHERE = {
    ("bindings/python/README.md", "python"): f"{PYTHON_TESTS}/test_package.py",
    ("bindings/rust/README.md", "rust"): "bindings/rust/src/lib.rs",
    ("bindings/rust/README.md", "toml"): "tests/released/test_languages.py",
    **{("docs/TRUST.md", language): "tests/pages/test_trust.py" for language in ("antt", "rattle", "text", "console")},
    ("testdata/README.md", "sh"): "tests/pages/test_examples.py",
    ("docs/CONTRIBUTING.md", "text"): "docs/CONTRIBUTING.md",
    ("docs/FORMATS.md", "text"): "docs/FORMATS.md",
}
COMMENT = re.compile(r"<!-- (needs|file|go|given|stand-in|not run): (.*?) -->")
RT = '#!/bin/sh\nshift\n[ "$1" != -- ] || shift\nexec bpfcanon "$@"\n'
NO_LINKS = {".git", "crates", "out"}
PROGRAMS = {"program": "bpfcanon", "object_program": "bpfcanon-object"}
SECONDS = 120


def pytest_collect_file(file_path, parent):
    if file_path.suffix == ".md" and str(file_path.relative_to(TOP)) in PAGES:
        return Page.from_parent(parent, path=file_path)


class Page(pytest.File):
    folder = None

    def collect(self):
        tokens = MarkdownIt().parse(self.path.read_text())
        used = set()
        for at, token in enumerate(tokens):
            if token.type != "fence" or at in used:
                continue
            said = dict(COMMENT.findall(tokens[at - 1].content if at and tokens[at - 1].type == "html_block" else ""))
            follows = tokens[at + 1 : at + 2]
            prints = ""
            if token.info == "sh" and follows and (follows[0].type, follows[0].info) == ("fence", "text"):
                prints = follows[0].content
                used.add(at + 1)
            test = ELSEWHERE.get((str(self.path.relative_to(TOP)), token.info))
            if said or test is None:
                yield Block.from_parent(self, name=f"line {token.map[0] + 1}", token=token, said=said, prints=prints)
            elif self.path.name not in (TOP / test).read_text() and test != str(self.path.relative_to(TOP)):
                raise self.CollectError(f"{test} doesn't name {self.path.name}, of which it runs blocks")

    def begin(self):
        """The top of a clone, by links to this tree."""
        tmp = self.config._tmp_path_factory.mktemp(self.path.stem)
        self.tools, self.folder, self.at = tmp / "tools", tmp / "clone", tmp / "at"
        self.folder.mkdir()
        for path in TOP.iterdir():
            if path.name not in NO_LINKS:
                (self.folder / path.name).symlink_to(path)
        programs = {name: built(self.config.getoption(option), "all") for option, name in PROGRAMS.items()}
        for name, program in programs.items():
            crate = name.replace("-", "_")
            place = self.folder / "crates" / crate / "out" / crate
            place.parent.mkdir(parents=True)
            place.symlink_to(program)
        self.settings = reader.settings(self.tools, programs, self.config.getoption("prefix").resolve())


class Block(pytest.Item):
    def __init__(self, *, token, said, prints, **how):
        super().__init__(**how)
        self.text, self.language, self.said, self.prints = token.content, token.info, said, prints
        self.line = token.map[0]
        self.add_marker("pages")
        self.add_marker("command")
        self.add_marker(pytest.mark.xdist_group(str(self.parent.path.relative_to(TOP))))

    def reportinfo(self):
        return self.path, self.line, f"{self.path.name}, line {self.line + 1}: {self.text.splitlines()[0]}"

    def repr_failure(self, excinfo):
        return str(excinfo.value)

    def compare(self, printed, right):
        if printed != right:
            pytest.fail(f"{self.text}--- the page says\n{right}--- and it printed\n{printed}", pytrace=False)

    def runtest(self):
        if self.parent.folder is None:
            self.parent.begin()
        language = next((it.replace(" ", "_") for it in ("file", "go", "not run") if it in self.said), self.language)
        way = getattr(self, f"run_{language}", None)
        if way is None:
            pytest.fail(f"no test runs a block of the language {self.language!r}", pytrace=False)
        need(*self.said.get("needs", "").split(), path=self.parent.settings["PATH"])
        if "given" in self.said:
            place, source = self.said["given"].split()
            shutil.copy(TOP / source, self.parent.folder / place)
        way()

    def shell(self, words, **how):
        settings = self.parent.settings
        if "stand-in" in self.said:
            reader.write(self.parent.tools / "stand-in" / self.said["stand-in"], RT, 0o755)
            settings = settings | {"PATH": f"{self.parent.tools}/stand-in:{settings['PATH']}"}
        how |= {"cwd": self.parent.folder, "env": settings, "stdout": subprocess.PIPE, "text": True, "start_new_session": True}
        with subprocess.Popen(words, **how) as process:
            try:
                printed, _ = process.communicate(timeout=SECONDS)
            except subprocess.TimeoutExpired:
                os.killpg(process.pid, signal.SIGKILL)  # what it has started too
                pytest.fail(f"{self.text}--- no end within {SECONDS} seconds", pytrace=False)
        return subprocess.CompletedProcess(words, process.returncode, printed)

    def run_file(self):
        reader.write(self.parent.folder / self.said["file"], self.text)
        assert f"`{self.said['file']}`" in self.path.read_text(), "the page doesn't name the file"

    def run_go(self):
        name = self.said["go"]
        reader.write(self.parent.folder / name / "main.go", self.text)
        done = self.shell(
            [
                "sh",
                "-c",
                f'test -z "$(gofmt -l {name})" && go vet ./{name} && go build -o program ./{name} && rm -r {name} && mv program {name}',
            ]
        )
        self.compare(f"{done.stdout}{done.returncode}", "0")

    def run_not_run(self):
        if self.language == "sh":
            self.compare(self.shell(["bash", "-n", "-c", self.text], stderr=subprocess.STDOUT).stdout, "")
            for name in re.findall(r"(?:^|[ ;(])(?:\./)?((?:[a-z_]+/)*[a-z_]+/?[a-z_]*)(?=[ \n;]|$)", self.text):
                assert "/" not in name or name.startswith(("path/to", "out/")) or (TOP / name).exists(), f"there is no {name}"

    def run_sh(self):
        done = self.shell(["bash", "-euo", "pipefail", "-c", f"{self.text}\npwd > '{self.parent.at}'"])
        self.compare(done.stdout if done.returncode == 0 else f"{done.stdout}status {done.returncode}\n", self.prints)
        self.parent.folder = pathlib.Path(self.parent.at.read_text().rstrip("\n"))

    def run_console(self):
        for part in re.split(r"^\$ ", self.text, flags=re.MULTILINE)[1:]:
            line, _, right = part.partition("\n")
            self.compare(self.shell(["sh", "-c", line], stderr=subprocess.STDOUT).stdout, right)

    def run_python(self):
        assert ">>>" in self.text, "it has no example"
        reader.write(self.parent.tools / "block.txt", self.text)
        done = self.shell([sys.executable, "-m", "doctest", self.parent.tools / "block.txt"], stderr=subprocess.STDOUT)
        self.compare(done.stdout, "")
