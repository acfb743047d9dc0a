"""Compares what the files of a release contain with lists that were written by hand: names, modes, links, owners, the licence, metadata."""

import io
import re
import tarfile
import zipfile

import pytest

from tests import TOP
from tests.released.use import output

# Where each file is installed, below the prefix, and the file of this tree that it is a copy of.
DOCS = "share/doc/bpfcanon"
COPIED = ["docs/canon.py", "README.md", "CHANGELOG.md", "SECURITY.md", "testdata/count.c", "testdata/flow_table.c", "testdata/packet_filter.c"]
COPIED += [f"docs/{page}.md" for page in ("API", "COMPARED", "FAULTS", "FORMATS", "GUIDE", "NAMES", "OBJECTS", "SCOPE")]
FILES = [f"{DOCS}/{it}" for it in (*COPIED, "LICENSE", "PROVED.txt", "THIRD-PARTY")]
FILES += ["include/bpfcanon.h", "lib/libbpfcanon.a", "lib/pkgconfig/bpfcanon.pc", "share/man/man3/bpfcanon.3", "README"]
for command in "bpfcanon", "bpfcanon-object":
    FILES += [f"share/man/man1/{command}.1", f"share/bash-completion/completions/{command}", f"share/zsh/site-functions/_{command}"]
# What can be run.
PROGRAMS = ["bin/bpfcanon", "bin/bpfcanon-object", "install.sh"]
TOP_LINKS = ["CHANGELOG.md", "LICENSE", "PROVED.txt", "SECURITY.md", "THIRD-PARTY"]
# The crates of the kit whose code can be in the commands or in the library: those that crates.txt names, and strsim, which clap uses.
CRATES = ["arrayvec", "bumpalo", "byteorder", "clap", "hex", "indexmap", "itoa", "memchr", "sha2", "simdutf8", "strsim", "thiserror"]
# The processors that the packages of Debian's ports are for.
PORTS = {"amd64": "x86_64", "arm64": "aarch64"}
# What each package depends on, besides the versions of the C library, which dpkg-shlibdeps finds.
DEPENDS = {
    "bpfcanon": "",
    "libbpfcanon0": "libc6",
    "libbpfcanon-dev": "libbpfcanon0 (= VERSION-1)",
    "python3-bpfcanon": "libbpfcanon0 (>= 0.1), python3:any (>= 3.9~)",
}
LICENSE = (TOP / "LICENSE" if (TOP / "LICENSE").exists() else TOP / "packaging" / "NO-LICENSE").read_text()


@pytest.fixture(scope="module")
def version(release_folder):
    return re.match(r"bpfcanon (.*)\n", (release_folder / "README").read_text())[1]


class Archive:
    """An archive without its folder: the modes of files and the targets of links. All is root's, folders can be read, and it has the licence."""

    def __init__(self, path, place="LICENSE"):
        base = path.name.removesuffix(".tar.xz").removesuffix(".crate")
        with tarfile.open(path) as tar:
            members = {it.name.removeprefix(base).lstrip("/"): it for it in tar.getmembers()}
            self.files = {name: tar.extractfile(it).read() for name, it in members.items() if it.isreg()}
        self.modes = {name: it.linkname or it.mode for name, it in members.items() if not (it.isdir() and it.mode == 0o755)}
        assert {(it.uid, it.gid, it.uname, it.gname) for it in members.values()} <= {(0, 0, "", "")}
        assert self.files[place].decode() == LICENSE


@pytest.mark.parametrize("machine", PORTS.values())
def test_processor(release_folder, version, machine):
    """The archive for a processor: what is installed, with the list of it, and copies of the tree."""
    archive = Archive(release_folder / f"bpfcanon-{version}-{machine}-linux.tar.xz", f"{DOCS}/LICENSE")
    shared, soname = f"libbpfcanon.so.{version}", f"libbpfcanon.so.{version.split('.')[0]}"
    links = {f"lib/{soname}": shared, "lib/libbpfcanon.so": soname} | {it: f"{DOCS}/{it}" for it in TOP_LINKS}
    assert archive.modes == dict.fromkeys(FILES, 0o644) | dict.fromkeys([*PROGRAMS, f"lib/{shared}"], 0o755) | links
    assert [it for it in COPIED if archive.files[f"{DOCS}/{it}"] != (TOP / it).read_bytes()] == []
    assert not any(b"@" in archive.files[it].replace(b'"$@"', b"") for it in ("README", "install.sh"))
    assert sorted({*re.findall(r"^== (\w+) ", archive.files[f"{DOCS}/THIRD-PARTY"].decode(), re.MULTILINE)}) == CRATES


def test_sources(release_folder, version):
    """The files that git knows, with their modes, and what is built."""
    archive = Archive(release_folder / f"bpfcanon-source-{version}.tar.xz")
    listed = [line.split("\t") for line in output("git", "-C", TOP, "ls-files", "-s").decode().splitlines()]
    modes = {name: int(row.split()[0][3:], 8) for row, name in listed}
    built = [*(f"crates/bpfcanon_c/out/libbpfcanon_c{it}.a" for it in ("", ".aarch64")), "LICENSE", "THIRD-PARTY", "PROVED.txt"]
    assert archive.modes == modes | dict.fromkeys(built, 0o644)
    assert [it for it in modes if it != "LICENSE" and archive.files[it] != (TOP / it).read_bytes()] == []


@pytest.mark.parametrize("name", ["bpfcanon-go-{}.tar.xz", "bpfcanon-vectors-{}.tar.xz", "bpfcanon-{}.crate"])
def test_others(release_folder, version, name):
    """The archives of the Go module and the vectors, and the crate: no file is executable, and the page names no other tree."""
    archive = Archive(release_folder / name.format(version))
    assert {*archive.modes.values()} == {0o644}
    page = archive.files["README.md"].decode()
    assert "](../" not in page and "@" not in page.replace("bpfcanon@v", "")
    if "-vectors-" in name:
        right = {str(it.relative_to(TOP / "testdata")): it.read_bytes() for it in TOP.glob("testdata/**/*") if it.is_file()}
        assert archive.files == right | {it: archive.files[it] for it in ("LICENSE", "README.md")}
        named = {it.partition("/")[0].partition(".")[0] for it in right} - {"README", "count", "pass"}
        assert page.startswith("# Test vectors") and [it for it in named if it not in page] == []


@pytest.mark.parametrize("machine", PORTS.values())
def test_wheels(release_folder, version, machine):
    """The files that pip reads, the library of the archive, and the modes with which it installs."""
    (path,) = release_folder.glob(f"*{machine}.whl")
    info, archive = f"bpfcanon-{version}.dist-info", Archive(release_folder / f"bpfcanon-{version}-{machine}-linux.tar.xz", f"{DOCS}/LICENSE")
    with zipfile.ZipFile(path) as wheel:
        head = wheel.read(f"{info}/METADATA").decode().partition("\n\n")[0].splitlines()
        assert {f"Version: {version}", "Requires-Python: >=3.9", "License-File: LICENSE"} <= {*head}
        assert wheel.read(f"{info}/LICENSE").decode() == LICENSE
        assert wheel.read("bpfcanon/libbpfcanon.so.0") == archive.files[f"lib/libbpfcanon.so.{version}"]
        modes = {it.filename: it.external_attr >> 16 for it in wheel.infolist() if not it.filename.endswith("/RECORD")}
        assert {name: oct(it) for name, it in modes.items() if it != (0o100755 if ".so." in name else 0o100644)} == {}


@pytest.mark.parametrize("port", PORTS)
@pytest.mark.parametrize("package", DEPENDS)
def test_debs(release_folder, version, package, port):
    """What a package depends on, its modes, its licence, and the programs, which are those of the archive."""
    (path,) = release_folder.glob(f"{package}_*_{'all' if package.startswith('python') else port}.deb")
    found = re.sub(r"(libc6) \(>= [\d.]+\)", r"\1", output("dpkg-deb", "-f", path, "Depends").decode().strip())
    assert found == DEPENDS[package].replace("VERSION", version)
    with tarfile.open(fileobj=io.BytesIO(output("dpkg-deb", "--fsys-tarfile", path))) as tar:
        members = {it.name.removeprefix("./"): it for it in tar.getmembers() if it.isreg()}
        files = {name: tar.extractfile(it).read() for name, it in members.items()}
    programs = {it for it in files if it.startswith("usr/bin/")}
    assert {name: oct(it.mode) for name, it in members.items() if it.mode != (0o755 if name in programs else 0o644)} == {}
    lines = files[f"usr/share/doc/{package}/copyright"].decode().partition("License: bpfcanon\n")[2].splitlines()
    assert "".join("\n" if line == " ." else f"{line[1:]}\n" for line in lines) == LICENSE
    if package == "bpfcanon":
        archive = Archive(release_folder / f"bpfcanon-{version}-{PORTS[port]}-linux.tar.xz", f"{DOCS}/LICENSE")
        assert {f"usr/{it}": archive.files[it] for it in PROGRAMS[:2]} == {it: files[it] for it in programs}


def test_folder(release_folder):
    """README describes each file and no other."""
    assert (release_folder / "LICENSE").read_text() == LICENSE
    page = (release_folder / "README").read_text()
    parts = re.findall(r"^(\S+\.(?:xz|deb|whl|crate))\n", page, re.MULTILINE)
    right = sorted(it.name for it in release_folder.iterdir() if it.name not in ("LICENSE", "PROVED.txt", "README", "SHA256SUMS"))
    assert sorted(path.name for part in parts for path in release_folder.glob(part)) == right
    assert all(any(release_folder.glob(part)) for part in parts) and "@" not in page
