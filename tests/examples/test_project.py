"""The project of docs/PROJECT.md: the loader loads its release, and its workflow says of a pull request what it changes, and tests that alone."""

from __future__ import annotations

import json
import re
import shutil
from pathlib import Path
from typing import Any

import pytest

from tests import TOP
from tests.examples.conftest import Done, Place
from tests.needs import need

PAGE = re.findall(r"^```(sh|text)\n(.*?)^```$", (TOP / "docs" / "PROJECT.md").read_text(), re.MULTILINE | re.DOTALL)
LOAD = next(at for at, (_, text) in enumerate(PAGE) if text.startswith("./loader public.der"))
READ = ["/usr/bin/python3", "-c", "import json, sys, yaml; print(json.dumps(yaml.safe_load(open(sys.argv[1]))))"]
TESTS = '#!/bin/sh\necho "$*" >> calls\n'
# What stands for the commands of a runner: nothing is installed, and a comment is a file.
RUNNER = {"sudo": "#!/bin/sh\n", "gh": TESTS}


class Project(Place):
    """The project after its first release, with the commands of a runner, and as the branch that a pull request is for."""

    def __init__(self, folder: Path, program: Path, prefix: Path) -> None:
        super().__init__(folder, program, prefix)
        for commands in [text for language, text in PAGE[:LOAD] if language == "sh"]:
            done = self.follow(commands, "." if "cp -r" in commands else "counter")
            assert done.returncode == 0, done.stderr
        self.top = folder / "counter"
        shutil.copytree(self.top, self.top / "base")
        self.write("test_on_kernels", TESTS)
        for name, text in RUNNER.items():
            self.write(f"../bin/{name}", text)
        self.settings["GITHUB_STEP_SUMMARY"] = "summary"
        self.steps: list[dict[str, Any]] = json.loads(self.run(*READ, self.top / ".github/workflows/objects.yml").stdout)["jobs"]["objects"]["steps"]

    def write(self, name: str, text: str) -> None:
        (self.top / name).write_text(text)
        (self.top / name).chmod(0o755)

    def edit(self, old: str, new: str) -> None:
        text = (self.top / "count.c").read_text()
        assert old in text
        self.write("count.c", text.replace(old, new))

    def check(self) -> Done:
        """Runs the commands of the workflow up to the first that fails, which is returned, or the last."""
        for script in [step["run"] for step in self.steps if "run" in step]:
            done = self.run("bash", "--noprofile", "--norc", "-eo", "pipefail", "-c", script, within="counter")
            if done.returncode:
                break
        return done

    def made(self, name: str) -> str:
        """A file that the workflow has made, or nothing."""
        return (self.top / name).read_text() if (self.top / name).exists() else ""


@pytest.fixture
def project(object_program: Path, prefix: Path, tmp_path: Path) -> Project:
    need("bash", "clang", "make", "cc", "pkg-config", "libbpf", "libcrypto", "openssl", "python3-yaml")
    return Project(tmp_path, object_program, prefix)


def test_release_is_loaded(project: Project) -> None:
    done = project.follow(PAGE[LOAD][1], "counter")
    assert done.stdout == PAGE[LOAD + 1][1], done.stderr
    assert done.returncode == 0 or "operation not permitted" in done.stderr.lower()


def test_comment(project: Project) -> None:
    """The key of the cache is of the canonical files, so the tests of the release aren't repeated."""
    before = (project.top / "count.canonical.o").read_bytes()
    project.edit("return XDP_PASS;", "/* A comment. */\n\treturn XDP_PASS;")
    assert project.check().returncode == 0
    assert project.made("comment") == project.made("summary") == "    count.canonical.o: OK\n"
    assert project.made("calls").splitlines() == ["pr comment  --edit-last --create-if-none --body-file comment", "count.canonical.o"]
    assert (project.top / "count.canonical.o").read_bytes() == before
    (cache,) = [step["with"] for step in project.steps if step.get("uses", "").startswith("actions/cache@")]
    assert cache["path"] == "tested" and re.findall(r"'(.*?)'", cache["key"]) == ["*.canonical.o", "test_on_kernels"]


def test_change(project: Project) -> None:
    """Each line is indented, so a source line that ends a block of Markdown has no effect."""
    project.edit("return XDP_PASS;", "return XDP_DROP; /* ``` */")
    assert project.check().returncode == 0
    lines = project.made("comment").splitlines()
    assert lines[0] == "    count.canonical.o: FAILED" and all(it.startswith("    ") for it in lines)
    assert "      +\tmov32 r0, 1  # not signed: ./count.c:23: return XDP_DROP; /* ``` */" in lines


def test_new_object(project: Project) -> None:
    """It is listed whole."""
    project.follow("sed 's/count(/other(/' count.c > other.c && sed -i 's/^OBJECTS.*/& other.o/' Makefile", "counter")
    assert project.check().returncode == 0
    assert "other" in project.made("comment")


def test_failed_tests_are_repeated(project: Project) -> None:
    """The cache keeps the file `tested`, so there is none."""
    project.write("test_on_kernels", TESTS + "exit 3\n")
    assert project.check().returncode == 3
    assert project.made("calls") and not (project.top / "tested").exists()


def test_fault(project: Project) -> None:
    """A faulty object ends the workflow before the tests."""
    project.edit("return XDP_PASS;\n}\n", 'return XDP_PASS;\n}\nint faulty(void) { __asm__ volatile(".quad 0xffff"); return 0; }\n')
    done = project.check()
    assert done.returncode != 0 and not project.made("calls"), done.stdout + done.stderr
    assert re.search("^::error file=./count.c,line=25,", done.stdout, re.MULTILINE), done.stdout + done.stderr
