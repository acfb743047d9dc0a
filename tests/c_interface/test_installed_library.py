"""Compares the installed C library with the header, the version script and the documents, and builds programs over it by pkg-config."""

import os
import re
import shutil
import subprocess

import pytest

from tests import TOP
from tests.command import SECONDS

CAPI = TOP / "capi"
HEADER = (CAPI / "bpfcanon.h").read_text()
# The calls with the version that added each. A program asks the loader for the pairs of the version that it was linked with, so a line of a
# version that was released never changes, and none is removed.
SYMBOLS = TOP / "debian" / "libbpfcanon0.symbols"
VERSION = re.search(r'^#define BPFCANON_VERSION "(.*)"$', HEADER, re.MULTILINE)[1]
MAJOR = VERSION.partition(".")[0]
STANDARDS = {"c": ["c89", "c99", "c11", "c17", "gnu17"], "c++": ["c++98", "c++11", "c++14", "c++17", "c++20"]}
NODE, LISTED = re.match(r"BPFCANON_[0-9.]+", (CAPI / "exports.map").read_text())[0], []
LISTED += sorted(re.findall(r"^\t\t(bpfcanon_\w+);$", (CAPI / "exports.map").read_text(), re.MULTILINE))


def ran(words, **variables):
    how = {"stdout": subprocess.PIPE, "stderr": subprocess.PIPE, "text": True, "timeout": SECONDS}
    return subprocess.run(words, env=os.environ | {name: str(value) for name, value in variables.items()}, **how)


def printed(words, **variables):
    """The lines that a command prints; none if it fails."""
    done = ran(words, **variables)
    return done.stdout.splitlines() if done.returncode == 0 else []


def declared():
    """The calls that the header declares, without its macros and inline functions."""
    text = re.sub(r"^#define (?:.*\\\n)*.*$", "", re.sub(r"/\*.*?\*/", "", HEADER, flags=re.DOTALL), flags=re.MULTILINE)
    inline = re.findall(r"^BPFCANON_INLINE \w+ (bpfcanon_\w+)\(", text, re.MULTILINE)
    return sorted(set(re.findall(r"\b(bpfcanon_\w+)\(", text)) - set(inline))


@pytest.fixture
def shared(prefix):
    return prefix / "lib" / f"libbpfcanon.so.{VERSION}"


@pytest.fixture
def static(prefix):
    return prefix / "lib" / "libbpfcanon.a"


def test_files(prefix):
    """Each file with its mode, and the links, and no other files of the library."""
    wanted = {
        "include/bpfcanon.h": 0o644,
        "lib/libbpfcanon.a": 0o644,
        f"lib/libbpfcanon.so.{VERSION}": 0o755,
        "lib/pkgconfig/bpfcanon.pc": 0o644,
    }
    links = {f"lib/libbpfcanon.so.{MAJOR}": f"libbpfcanon.so.{VERSION}", "lib/libbpfcanon.so": f"libbpfcanon.so.{MAJOR}"}
    paths = {str(path.relative_to(prefix)): path for part in ("include", "lib") for path in (prefix / part).rglob("*") if not path.is_dir()}
    assert {name: path.stat().st_mode & 0o777 for name, path in paths.items() if not path.is_symlink()} == wanted
    assert {name: os.readlink(path) for name, path in paths.items() if path.is_symlink()} == links
    assert (prefix / "include/bpfcanon.h").read_bytes() == (CAPI / "bpfcanon.h").read_bytes()
    assert (prefix / "share/man/man3/bpfcanon.3").read_bytes() == subprocess.check_output([TOP / "tools" / "to_manual"])


def test_exports(shared):
    """The header, the version script, the list that is kept and the shared library have the same calls, and no other symbol is exported."""
    assert LISTED == declared()
    rows = [line.split()[1:] for line in printed(["nm", "-D", "--defined-only", "--with-symbol-versions", shared])]
    assert sorted(rows) == sorted([["A", NODE], *(["T", f"{name}@@{NODE}"] for name in LISTED)])
    kept = re.findall(r"^ (bpfcanon_\w+)@(\S+) ", SYMBOLS.read_text(), re.MULTILINE)
    assert [f"{name}@@{version}" for name, version in kept] == sorted(row[1] for row in rows if row[0] == "T")


def test_static(static):
    """Its global symbols are the calls. processor.c writes its refusal and ends the process; no call does."""
    rows = [line.split()[1:] for line in printed(["nm", "-g", "--defined-only", static]) if len(line.split()) == 3]
    assert sorted(rows) == [["T", name] for name in LISTED]
    needed = {line.split()[1] for line in printed(["nm", "-u", static]) if len(line.split()) == 2}
    assert needed <= {"malloc", "realloc", "free", "memcpy", "memmove", "memset", "memcmp", "write", "_exit"}


def test_dynamic(shared):
    dynamic = "\n".join(printed(["readelf", "-dW", shared]))
    assert re.findall(r"\(SONAME\).*\[(.*)\]", dynamic) == [f"libbpfcanon.so.{MAJOR}"]
    assert "TEXTREL" not in dynamic
    assert re.search(r"\(FLAGS\).*BIND_NOW", dynamic) and "GNU_RELRO" in "\n".join(printed(["readelf", "-lW", shared]))


@pytest.mark.parametrize("language, standard", [(language, it) for language, standards in STANDARDS.items() for it in standards])
@pytest.mark.parametrize("compiler", ["gcc", "clang"])
def test_header(compiler, language, standard):
    """The header by itself, in each standard."""
    if not shutil.which(compiler):
        pytest.skip(f"there is no {compiler}")
    flags = ["-Wall", "-Wextra", "-pedantic", "-Werror", "-fsyntax-only", f"-std={standard}", "-x", language]
    done = ran([compiler, *flags, CAPI / "bpfcanon.h"])
    assert (done.returncode, done.stderr) == (0, "")


PROGRAM = """#include <bpfcanon.h>
#include <stdio.h>
int main(void)
{
	puts(bpfcanon_version());
	return (int)bpfcanon_insn_show(BPFCANON_ORDER_LITTLE, NULL, 0, NULL, 0).status;
}
"""


@pytest.mark.needs("pkg-config", "cc")
@pytest.mark.parametrize("language, how", [("c", ""), ("c", "--static"), ("c++", "")])
@pytest.mark.parametrize("place", ["plain", "two words"])
def test_program(prefix, tmp_path, language, how, place):
    """A program that is built with the flags of pkg-config, over the shared library and over the static one, in a path with a blank too."""
    own = tmp_path / place
    shutil.copytree(prefix, own, symlinks=True)
    config = own / "lib" / "pkgconfig" / "bpfcanon.pc"
    config.write_text(re.sub("^prefix=.*", lambda _: "prefix=" + str(own).replace(" ", "\\ "), config.read_text()))
    (tmp_path / "program.c").write_text(PROGRAM)
    link = "-Wl,-Bstatic $flags -Wl,-Bdynamic" if how else "$flags"
    line = f'flags=$(pkg-config {how} --cflags --libs bpfcanon) && eval "cc -x {language} program.c -x none {link} -o program"'
    done = subprocess.run(
        ["sh", "-euc", line], cwd=tmp_path, env=os.environ | {"PKG_CONFIG_PATH": str(own / "lib" / "pkgconfig")}, check=False
    )
    assert done.returncode == 0
    assert printed([tmp_path / "program"], LD_LIBRARY_PATH="" if how else own / "lib") == [VERSION]
    assert len([it for it in printed(["readelf", "-dW", tmp_path / "program"]) if "libbpfcanon" in it]) == (0 if how else 1)
    assert printed(["pkg-config", "--modversion", "bpfcanon"], PKG_CONFIG_PATH=own / "lib" / "pkgconfig") == [VERSION]
