"""The release that is tested, another one that is made beside the tests, and chroots of Debian."""

import contextlib
import os
import re
import subprocess
import sys
import tarfile

import pytest

from tests import TOP
from tests.needs import need
from tests.released.use import RECORD, clone

# What compilers, packagers, tar and xz read.
OTHER = {"TZ": "Asia/Tokyo", "LC_ALL": "C", "CC": "false", "AR": "false", "CPPFLAGS": "-DOTHER", "CFLAGS": "-O0", "LDFLAGS": "-Wl,--strip-all"}
OTHER |= {"DESTDIR": "/none", "DEB_BUILD_OPTIONS": "noopt", "XZ_OPT": "--check=none", "TAR_OPTIONS": "--mtime=@0", "CARGO_HOME": "/none"}
# An older and the present Debian, and what is installed in both.
SUITES = ["bullseye", "bookworm"]
PACKAGES = "gcc,libc6-dev,meson,pkg-config,python3-pyelftools,python3-venv,xz-utils"


def dist(tree, out):
    """What makes the release of a tree. Without a record of make check it is made unverified."""
    return [sys.executable, tree / "packaging" / "dist.py", *([] if (TOP / RECORD).exists() else ["--unverified"]), out]


@pytest.fixture(scope="session")
def chroots(tmp_path_factory):
    """The folder of each chroot, and what makes it."""
    need("mmdebstrap")
    if os.geteuid() != 0:
        pytest.skip("chroots need the right of root")
    folder, mirror = tmp_path_factory.mktemp("chroots"), [it for it in [os.environ.get("DEBIAN_MIRROR")] if it]
    words = ["mmdebstrap", "--quiet", "--variant=minbase", "--format=directory", f"--include={PACKAGES}"]
    return {it: (folder / it, subprocess.Popen([*words, it, folder / it, *mirror])) for it in SUITES}


@pytest.fixture(scope="session")
def release_folder(tmp_path_factory):
    """The folder of the release. Without what it takes the tests are skipped; with CI=true they fail."""
    out = tmp_path_factory.mktemp("made") / "release"
    done = subprocess.run(dist(TOP, out), stderr=subprocess.PIPE, text=True)
    if done.returncode != 0:
        is_skipped = os.environ.get("CI") != "true" and re.search("are missing|as it was committed", done.stderr)
        (pytest.skip if is_skipped else pytest.fail)(done.stderr)
    return out


@pytest.fixture(scope="session")
def again(release_folder, tmp_path_factory):
    """The release of another clone in other surroundings: its folder, and what makes it."""
    folder = tmp_path_factory.mktemp("another place", numbered=False)
    return folder / "made", subprocess.Popen(dist(clone(folder / "again"), folder / "made"), env=os.environ | OTHER, umask=0o077)


@pytest.fixture(scope="session", autouse=True)
def all_at_once(request, again):
    """What takes minutes begins before the first test that waits for it, and has ended after the last one."""
    processes = [again[1]]
    with contextlib.suppress(pytest.skip.Exception, pytest.fail.Exception):
        processes += [process for _, process in request.getfixturevalue("chroots").values()]
    yield
    for process in processes:
        process.wait()


@pytest.fixture(scope="session")
def unpacked(release_folder, tmp_path_factory):
    """The folder in which the archives are unpacked, at a path with a blank."""
    folder = tmp_path_factory.mktemp("where they are")
    for archive in release_folder.glob("*.tar.xz"):
        with tarfile.open(archive) as tar:
            tar.extractall(folder)
    return folder
