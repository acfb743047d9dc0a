"""What a reader has who follows a page: commands on the path, and settings. Nothing is from the network or from a user's own settings."""

import os
import pathlib
import sys

from tests import TOP
from tests.needs import CRATES, GOCODE

CARGO = f'[net]\noffline = true\n[source.crates-io]\nreplace-with = "debian"\n[source.debian]\ndirectory = "{CRATES}"\n'


def write(path, text, mode=0o644):
    path.parent.mkdir(parents=True, exist_ok=True)
    path.write_text(text)
    path.chmod(mode)


def settings(home, programs, prefix=None):
    """Puts commands into a folder, by their names, and what the settings name. Returns the environment; it has the C library if that is built."""
    links = {"go/src/bpfcanon": TOP / "bindings" / "go"} | {f"bin/{name}": program for name, program in programs.items()}
    for path, target in links.items():
        (home / path).parent.mkdir(parents=True, exist_ok=True)
        (home / path).symlink_to(target)
    write(home / "gitconfig", "[user]\nname = reader\nemail = reader@example.org\n")
    write(home / "cargo" / "config.toml", CARGO)
    own = {"PATH": f"{home}/bin:{os.environ['PATH']}", "HOME": str(home), "PYTHONDONTWRITEBYTECODE": "1"}
    own |= {"GIT_CONFIG_GLOBAL": f"{home}/gitconfig", "TEST_TMPDIR": f"{home}/bazel"}
    own |= {"CARGO_HOME": f"{home}/cargo", "RUSTUP_HOME": os.environ.get("RUSTUP_HOME", f"{pathlib.Path.home()}/.rustup"), "RUSTFLAGS": ""}
    own |= {"GO111MODULE": "off", "GOENV": "off", "GOFLAGS": "", "CGO_ENABLED": "1", "GOPATH": f"{home}/go:{GOCODE}", "GOCACHE": f"{home}/go-cache"}
    if prefix and prefix.exists():
        own |= {"PKG_CONFIG_PATH": f"{prefix}/lib/pkgconfig", "LD_LIBRARY_PATH": f"{prefix}/lib"}
        own |= {"BPFCANON_LIBRARY": f"{prefix}/lib/libbpfcanon.so.0", "PYTHONPATH": f"{TOP}/bindings/python"}
        words = " ".join([*(f"{it}='{own[it]}'" for it in ("BPFCANON_LIBRARY", "PYTHONPATH")), sys.executable, "-B -m bpfcanon.review"])
        write(home / "bin" / "bpfcanon-review", f'#!/bin/sh\nexec env {words} "$@"\n', 0o755)
    return os.environ | own
