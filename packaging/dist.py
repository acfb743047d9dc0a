#!/usr/bin/env python3
"""Makes the files of a release from a tree that make check has passed; README.release says what they are.

The bytes of these files depend only on the commit and the tools. All times are SOURCE_DATE_EPOCH, or that of the last commit.
Each file has LICENSE in it: that at the top of the tree or, if there is none, packaging/NO-LICENSE.
"""

from __future__ import annotations

import argparse
import importlib.util
import os
import pathlib
import shutil
import sys
import tempfile

import proved
from folders import PROCESSORS, link_programs, stage_go, stage_processor, stage_source, stage_vectors
from notices import licence, third_party
from packages import make_crate, make_debs, make_wheel, pack
from tree import ARCHIVES, MACHINES, PROGRAMS, RECORD, TOP, VERSION, Refused, page, run

# What is kept of the environment: nothing else decides how the parts are built.
KEPT = ["PATH", "HOME", "TMPDIR", "SOURCE_DATE_EPOCH", "RUSTUP_HOME", "RUSTUP_TOOLCHAIN"]
TOOLS = ["git", "rt", "cc", "nm", "meson", "ninja", "tar", "xz", "sha256sum", "cargo", "dpkg-buildpackage", "dh", "dh_python3"]
TOOLS += ["aarch64-linux-gnu-gcc", "aarch64-linux-gnu-objcopy"]
MODULES = ["build", "setuptools", "wheel"]
OBJECTS = [it.object(machine) for machine in MACHINES for it in PROGRAMS]


def check_tree(is_unverified: bool) -> str:
    """What PROVED.txt says. All that is missing is said at once."""
    files = [*OBJECTS, *ARCHIVES, *([] if is_unverified else [RECORD])]
    missing = [it for it in TOOLS if not shutil.which(it)] + [it for it in MODULES if not importlib.util.find_spec(it)]
    missing += [str(it.relative_to(TOP)) for it in files if not it.is_file()]
    if missing:
        raise Refused(f"these are missing: {', '.join(missing)}; make check makes the files")
    changed = run("git", "-C", TOP, "status", "--porcelain", "--untracked-files=no").splitlines()
    if changed:
        raise Refused(f"{changed[0][3:]} is not as it was committed")
    if f"\n## {VERSION}" not in (TOP / "CHANGELOG.md").read_text():
        raise Refused(f"CHANGELOG.md has no section for {VERSION}")
    text = proved.UNVERIFIED if is_unverified else proved.check()
    return f"bpfcanon {VERSION}, commit {run('git', '-C', TOP, 'rev-parse', 'HEAD').strip()}\n{text}"


def make(out: pathlib.Path, work: pathlib.Path, proof: str) -> None:
    documents = {"LICENSE": licence(), "THIRD-PARTY": third_party([*OBJECTS, *ARCHIVES]), "PROVED.txt": proof}
    source = stage_source(documents, work)
    pack(source, out)
    folders = {}
    for it in PROCESSORS:
        link_programs(it, source)
        folders[it.port] = stage_processor(it, source, work)
        make_wheel(it.name, folders[it.port], source, documents, out)
    for folder in *folders.values(), stage_go(folders, source, documents, work), stage_vectors(source, work):
        pack(folder, out)
    make_crate(source, work, out)
    make_debs(source, out)
    for name in "LICENSE", "PROVED.txt":
        (out / name).write_text(documents[name])
    (out / "README").write_text(page(TOP / "packaging" / "README.release"))
    (out / "SHA256SUMS").write_text(run("sha256sum", *sorted(it.name for it in out.iterdir()), cwd=out))


def release(out: pathlib.Path, is_unverified: bool) -> None:
    if out.exists() and (not out.is_dir() or any(out.iterdir())):
        raise Refused(f"{out} is there, and is not an empty folder")
    proof = check_tree(is_unverified)
    out.parent.mkdir(parents=True, exist_ok=True)
    # Only a complete release gets its name. The work is in another folder, since debhelper accepts no path with a blank.
    with tempfile.TemporaryDirectory(dir=out.parent, prefix=".release-") as folder, tempfile.TemporaryDirectory() as work:
        made = pathlib.Path(folder, "made")
        made.mkdir()
        make(made, pathlib.Path(work), proof)
        made.rename(out)
    print(f"made {out}")


def main() -> int:
    parser = argparse.ArgumentParser(description=(__doc__ or "").splitlines()[0])
    parser.add_argument("out", nargs="?", type=pathlib.Path, default=TOP / "out" / "release", help="a new or an empty folder")
    parser.add_argument("--unverified", action="store_true", help="use the built files as they are, and say so in PROVED.txt")
    given = parser.parse_args()
    os.umask(0o022)
    kept = {name: os.environ[name] for name in KEPT if name in os.environ}
    os.environ.clear()
    os.environ.update(kept, LC_ALL="C.UTF-8", TZ="UTC", PYTHONDONTWRITEBYTECODE="1")
    try:
        release(given.out.absolute(), given.unverified)
    except (Refused, OSError) as reason:
        print(f"dist: {reason}", file=sys.stderr)
        return 1
    return 0


if __name__ == "__main__":
    sys.exit(main())
