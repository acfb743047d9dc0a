"""The hooks for git and for pre-commit refuse the commits that their pages say, also for objects in folders below."""

from __future__ import annotations

from pathlib import Path
from typing import NamedTuple

import pytest

from tests.examples.conftest import Place
from tests.needs import need

COMPILE = "clang -target bpfel -mcpu=v3 -O2 -g -c"
PROJECT = f"""
git init -q project && cd project && mkdir below
git config user.name reader && git config user.email reader@example.org
{COMPILE} -DMAP=packets ../testdata/count.c -o count.o && {COMPILE} -DMAP=errors ../testdata/count.c -o below/errors.o
bpfcanon-object key count.o below/errors.o > objects.keys
"""
INSTALL = {
    "git": "cp ../examples/git/pre-commit .git/hooks",
    "pre-commit": "cp ../examples/pre_commit/.pre-commit-config.yaml . && pre-commit install > message",
}
FIRST = "\ngit add . && git commit -qm first && git tag first"
FAULTY = 'int faulty(void) { __asm__ volatile(\\".quad 0xffff\\"); return 0; }'  # no instruction has the opcode 0xff


class Commit(NamedTuple):
    """What is committed, and the hooks that refuse it."""

    commands: str
    refused: tuple[str, ...] = tuple(INSTALL)


COMMITS = {
    "another file of an object": Commit("cp count.o below && llvm-strip -g below/count.o && mv below/count.o . && git add .", ()),
    "another object": Commit("cp below/errors.o count.o && git add ."),
    "another object below": Commit("cp count.o below/errors.o && git add ."),
    "another object that isn't committed": Commit("echo text > text && git add . && cp count.o below/errors.o", ()),
    "what isn't an object": Commit("echo text > below/errors.o && git add ."),
    "no object": Commit("git rm -q below/errors.o"),
    "no list": Commit("git rm -q objects.keys"),
    "a faulty object below": Commit(f'echo "{FAULTY}" > faulty.c && {COMPILE} faulty.c -o below/faulty.o && git add .', ("pre-commit",)),
}


@pytest.fixture(scope="module", params=INSTALL)
def project(request: pytest.FixtureRequest, object_program: Path, tmp_path_factory: pytest.TempPathFactory) -> tuple[str, Place]:
    """A repository with a hook and two objects, and the name of the hook."""
    need("bash", "clang", "llvm-strip", "git", request.param)
    place = Place(tmp_path_factory.mktemp("hook"), object_program)
    done = place.follow(PROJECT + INSTALL[request.param] + FIRST)
    assert done.returncode == 0, done.stderr
    return request.param, place


@pytest.mark.parametrize("commit", COMMITS)
def test_commit(commit: str, project: tuple[str, Place]) -> None:
    hook, place = project
    made = place.follow(f"git reset -q --hard first && git clean -fdq && {COMMITS[commit].commands}", "project")
    assert made.returncode == 0, made.stderr
    done = place.run("git", "commit", "-qm", commit, within="project")
    assert done.returncode == int(hook in COMMITS[commit].refused), done.stdout + done.stderr
