"""The packages for Go and Rust, built over the C library. Nothing is from the network or from a user's settings."""

import os
import re
import shutil
import subprocess
import sys

import pytest

from tests import TOP
from tests.needs import need

# A build and its tests may take minutes.
MINUTES = 900
GO = {"GOENV": "off", "GOFLAGS": "", "GOWORK": "off", "GOPROXY": "off", "GOTOOLCHAIN": "local", "CC": "cc", "CGO_ENABLED": "1"}


class Package:
    """A package's folder, and the environment of its commands."""

    def __init__(self, folder, environment):
        self.folder, self.environment = folder, os.environ | environment

    def run(self, line, **variables):
        """What a command prints; its output is that of the test if it fails."""
        how = {"stdout": subprocess.PIPE, "stderr": subprocess.STDOUT, "text": True, "timeout": MINUTES}
        done = subprocess.run(["bash", "-euc", line], cwd=self.folder, env=self.environment | variables, **how)
        assert done.returncode == 0, f"{line}\n{done.stdout}"
        return done.stdout


def found(prefix):
    return {"PKG_CONFIG_PATH": f"{prefix}/lib/pkgconfig", "LD_LIBRARY_PATH": f"{prefix}/lib"}


@pytest.fixture(scope="session")
def static(prefix, tmp_path_factory):
    """A copy of the prefix without the shared library."""
    own = tmp_path_factory.mktemp("static") / "prefix"
    shutil.copytree(prefix, own, symlinks=True)
    for path in own.glob("lib/libbpfcanon.so*"):
        path.unlink()
    config = own / "lib" / "pkgconfig" / "bpfcanon.pc"
    config.write_text(re.sub("^prefix=.*", f"prefix={own}", config.read_text()))
    return own


@pytest.fixture(scope="session")
def go(prefix, tmp_path_factory):
    need("go", "cc", "pkg-config")
    own = tmp_path_factory.mktemp("go")
    return Package(TOP / "bindings" / "go", GO | found(prefix) | {"GOCACHE": f"{own}/cache", "GOPATH": f"{own}/path"})


@pytest.fixture(scope="session")
def rust(prefix, tmp_path_factory):
    """A copy, as Cargo writes into the crate's folder. Debian's Cargo and rustc are the oldest that have to do."""
    need("cargo", "rustc", "cc", "pkg-config")
    own = tmp_path_factory.mktemp("rust")
    shutil.copytree(TOP / "bindings" / "rust", own / "bindings" / "rust", ignore=shutil.ignore_patterns("target"))
    (own / "testdata").symlink_to(TOP / "testdata")
    settings = {"CARGO_HOME": f"{own}/cargo", "CARGO_TARGET_DIR": f"{own}/target", "CARGO_NET_OFFLINE": "true"}
    settings |= {"PATH": f"/usr/bin:{os.environ['PATH']}", "RUSTFLAGS": "", "RUSTDOCFLAGS": ""}
    return Package(own / "bindings" / "rust", settings | found(prefix))


@pytest.fixture(scope="session")
def python(prefix):
    return Package(TOP / "bindings" / "python", {"BPFCANON_LIBRARY": f"{prefix}/lib/libbpfcanon.so.0", "PYTHON": sys.executable})
