"""What a test needs: tools, and what was built. Without them it is skipped; with CI=true that fails if they could be there."""

import functools
import os
import pathlib
import shutil
import subprocess

import pytest

from tests import TOP

# What Debian's packages install that isn't a command.
MODULES, GOCODE, CRATES = "/usr/lib/python3/dist-packages", "/usr/share/gocode", "/usr/share/cargo/registry"
FILES = {
    "python3-yaml": f"{MODULES}/yaml",
    "elftools": f"{MODULES}/elftools",
    "hypothesis": f"{MODULES}/hypothesis",
    "distributed": f"{MODULES}/distributed",
    "ensurepip": "/usr/lib/python3.*/ensurepip",
    "setuptools": f"{MODULES}/setuptools",
    "wheel": f"{MODULES}/wheel",
    "python3-build": f"{MODULES}/build",
    "libc-arm64": "/usr/aarch64-linux-gnu/include/stdlib.h",
    "libbpf": "/usr/include/bpf/btf.h",
    "libcrypto": "/usr/include/openssl/evp.h",
    "github.com/cilium/ebpf": f"{GOCODE}/src/github.com/cilium/ebpf",
    "librust-object-dev": f"{CRATES}/object-*",
    "librust-ring-dev": f"{CRATES}/ring-*",
}


@functools.lru_cache(maxsize=None)
def packages():
    """The package of each tool."""
    rows = [line.split() for line in (TOP / "tests" / "packages.txt").read_text().splitlines() if not line.startswith("#")]
    return {tool: package for package, tools, *_ in rows for tool in tools.split(",")}


@functools.lru_cache(maxsize=None)
def is_offered(tool):
    if tool not in packages():
        return False
    said = subprocess.run(["apt-cache", "policy", packages()[tool]], stdout=subprocess.PIPE, text=True).stdout
    return "Candidate: " in said and "Candidate: (none)" not in said


# What isn't in a package: the kit's command, and our own.
OWN = {"rt", "bpfcanon-review"}


def is_there(tool, path):
    if tool not in packages() and tool not in OWN and not tool.startswith("/"):
        pytest.fail(f"tests/packages.txt has no package of {tool}", pytrace=False)
    file = FILES.get(tool)
    return bool(list(pathlib.Path("/").glob(file[1:]))) if file else bool(shutil.which(tool, path=path))


def need(*tools, path=None):
    """Skips the test that calls this unless these tools are there; under CI it fails if apt has one of them."""
    missing = [tool for tool in tools if not is_there(tool, path)]
    if missing:
        offered = [tool for tool in missing if os.environ.get("CI") == "true" and is_offered(tool)]
        reason = f"no {', no '.join(missing)}" + (f", though apt has {', '.join(offered)}" if offered else "")
        pytest.fail(reason) if offered else pytest.skip(reason, allow_module_level=True)


def built(path, target):
    """A path on the command line. What isn't built is skipped, and fails under CI."""
    if not path.exists():
        (pytest.fail if os.environ.get("CI") == "true" else pytest.skip)(f"there is no {path}: make {target}")
    return path.resolve()
