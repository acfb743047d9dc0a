"""The tree that is released: what is built of it, its version and its time. Also how other programs are run."""

from __future__ import annotations

import functools
import os
import pathlib
import re
import subprocess
import sys
from typing import NamedTuple

TOP = pathlib.Path(__file__).resolve().parent.parent


def ending(processor: str) -> str:
    """What the names of files for a processor end with."""
    return "" if processor == "x86_64" else f".{processor}"


class Program(NamedTuple):
    """A program of a release."""

    crate: str

    @property
    def built(self) -> pathlib.Path:
        """What rt links, over the C library of this machine. What a release has is linked from the object."""
        return TOP / "crates" / self.crate / "out" / self.crate

    def linked(self, processor: str) -> pathlib.Path:
        """What meson.build installs: that of rt, or of a release that for a processor."""
        return self.built.with_name(f"{self.crate}{ending(processor)}")

    def object(self, processor: str) -> pathlib.Path:
        """What a release links it from."""
        return TOP / "out" / f"{self.crate}{ending(processor)}.o"


PROGRAMS = [Program("bpfcanon"), Program("bpfcanon_object")]
MACHINES = ["x86_64", "aarch64"]
# The archives of the proved calls (capi/archive).
ARCHIVES = [TOP / "crates" / "bpfcanon_c" / "out" / f"libbpfcanon_c{ending(it)}.a" for it in MACHINES]
# How meson builds for ARM.
CROSS_FILE = TOP / "capi" / "aarch64.cross"
# What make check passed (packaging/proved.py).
RECORD = TOP / "out" / "PROVED.txt"
VERSION = re.findall(r'^#define BPFCANON_VERSION "(.*)"$', (TOP / "capi" / "bpfcanon.h").read_text(), re.MULTILINE)[0]


class Refused(Exception):
    """Why no release is made: one sentence."""


def run(*words: str | pathlib.Path, cwd: pathlib.Path | None = None, **variables: str) -> str:
    """What a program prints. If it fails, all that it says is shown."""
    done = subprocess.run(words, cwd=cwd, env=os.environ | variables, stdout=subprocess.PIPE, stderr=subprocess.PIPE, text=True)
    if done.returncode != 0:
        sys.stderr.write(done.stdout + done.stderr)
        raise Refused(f"{words[0]} failed with status {done.returncode}")
    return done.stdout


@functools.lru_cache(maxsize=None)
def epoch() -> str:
    """The time of all that is made, in seconds: SOURCE_DATE_EPOCH, or that of the last commit."""
    return os.environ.get("SOURCE_DATE_EPOCH") or run("git", "-C", TOP, "log", "-1", "--format=%ct").strip()


def page(path: pathlib.Path) -> str:
    """A page without links to other pages of the tree, and with the version."""
    return re.sub(r"\[([^\]]*)\]\(\.\./\.\./[^)]*\)", r"`\1` of the sources", path.read_text()).replace("@VERSION@", VERSION)
