"""The archives and packages of a release, each by the tools of its own language or system."""

from __future__ import annotations

import os
import pathlib
import shutil
import sys

from tree import CROSS_FILE, VERSION, epoch, page, run

# The files of the command bpfcanon-review.
REVIEW = ["man/bpfcanon-review.1", "completions/bash/bpfcanon-review", "completions/zsh/_bpfcanon-review"]

# The first glibc for 64-bit ARM, whose symbols are the only ones that the library needs.
GLIBC_FOR_ARM = "2.17"


def pack(folder: pathlib.Path, out: pathlib.Path) -> None:
    """Packs a folder into OUT/FOLDER.tar.xz, whose bytes depend only on names, contents and modes."""
    same = ["--sort=name", f"--mtime=@{epoch()}", "--owner=0", "--group=0", "--numeric-owner", "--format=ustar"]
    target = out / f"{folder.name}.tar.xz"
    run("tar", "--create", *same, "--use-compress-program=xz -9e -T1", f"--file={target}", f"--directory={folder.parent}", folder.name)


def make_wheel(processor: str, folder: pathlib.Path, source: pathlib.Path, documents: dict[str, str], out: pathlib.Path) -> None:
    """The Python package with the shared library of a folder. manylinux2014, which is glibc 2.17, is a name that old versions of pip know."""
    package = shutil.copytree(source / "bindings" / "python", folder.with_name(f"wheel-{processor}"))
    (package / "share").mkdir()
    for name in REVIEW:
        shutil.copy(source / name, package / "share")
    for name in documents:
        shutil.copy(source / name, package)
    (package / "README.md").write_text(page(package / "README.md"))
    soname = f"libbpfcanon.so.{VERSION.partition('.')[0]}"
    shutil.copy(folder / "lib" / soname, package / "bpfcanon" / soname)
    tag = f"-C--build-option=--plat-name=manylinux2014_{processor}"
    run(sys.executable, "-m", "build", "--no-isolation", "--wheel", tag, "--outdir", out, package, SOURCE_DATE_EPOCH=epoch())


def make_crate(source: pathlib.Path, work: pathlib.Path, out: pathlib.Path) -> None:
    """The Rust crate. Cargo gives all its files a fixed time."""
    shutil.copy(source / "LICENSE", source / "bindings" / "rust")
    own = {"CARGO_TARGET_DIR": str(work / "target"), "CARGO_HOME": str(work / "cargo"), "CARGO_NET_OFFLINE": "true"}
    run("cargo", "package", "--no-verify", "--allow-dirty", "--quiet", cwd=source / "bindings" / "rust", **own)
    shutil.copy(work / "target" / "package" / f"bpfcanon-{VERSION}.crate", out)


def fill_in_licence(source: pathlib.Path) -> None:
    """debian/copyright, which has packaging/NO-LICENSE, gets the licence."""
    copyright = source / "debian" / "copyright"
    licence = "".join(f" {line or '.'}\n" for line in (source / "LICENSE").read_text().splitlines())
    copyright.write_text("".join([*copyright.read_text().partition("License: bpfcanon\n")[:2], licence]))


def make_debs(source: pathlib.Path, out: pathlib.Path) -> None:
    """The Debian packages of the sources and the programs: all for amd64, and those with code for arm64 too."""
    fill_in_licence(source)
    # pybuild takes the first Python of the path, which has to be Debian's.
    own = {"SOURCE_DATE_EPOCH": epoch(), "DEB_BUILD_OPTIONS": "nocheck noautodbgsym", "PATH": "/usr/sbin:/usr/bin:/sbin:/bin"}
    run("dpkg-buildpackage", "-b", "-us", "-uc", "-d", cwd=source, **own)
    # By Debian's cross compiler the library would depend on the version of glibc that it was built with.
    libraries = "".join(f"{it} libc6 (>= {GLIBC_FOR_ARM})\n" for it in ("libc 6", "ld-linux-aarch64 1"))
    (source / "debian" / "shlibs.local").write_text(libraries)
    run("dpkg-buildpackage", "-B", "-aarm64", "-us", "-uc", "-d", cwd=source, DH_MESON_CROSS_FILE=str(CROSS_FILE), **own)
    for deb in source.parent.glob("*.deb"):
        shutil.copy(deb, out)
        os.chmod(out / deb.name, 0o644)
