"""The folders of a release, one for each of its archives."""

from __future__ import annotations

import pathlib
import re
import shutil
from typing import NamedTuple

from tree import ARCHIVES, CROSS_FILE, PROGRAMS, TOP, VERSION, Refused, page, run

# The flags of the C part; the proved objects are as Rattle's compiler made them.
CFLAGS = "-O2 -g0 -fstack-protector-strong -D_FORTIFY_SOURCE=2"
LDFLAGS = "-Wl,-z,relro,-z,now,-z,noexecstack -Wl,--build-id=sha1 -s"
# The documents that are at the top of an archive as links.
AT_TOP = ["CHANGELOG.md", "LICENSE", "PROVED.txt", "SECURITY.md", "THIRD-PARTY"]
# The parts of testdata/README.md on the vectors.
VECTOR_PARTS = ("## Vectors\n", "## Compiled programs\n", "## Object files\n")
# The files of testdata/ that the examples of the Go module and its README read.
GO_EXAMPLES = ["flow_table.c", "flow_table.big.btf", "flow_table.little.btf", "pass.c", "objects/pass.little.debug.o"]


class Processor(NamedTuple):
    """What is built for a processor: its name, that in Go and Debian, what README says, the compiler, its flags, and the options of meson."""

    name: str
    port: str
    said: dict[str, str]
    compiler: str
    flags: str
    options: list[str]


NEEDS = """\
The commands and the library need an x86-64-v2 processor (SSE4.2 and POPCNT: Intel since 2008, AMD
since 2011), and refuse any other with a sentence.

"""
X86 = {"@PROCESSOR@": "x86-64", "@GLIBC@": "2.14", "@NEEDS@": NEEDS}
ARM = {"@PROCESSOR@": "64-bit ARM (aarch64)", "@GLIBC@": "2.17", "@NEEDS@": ""}
PROCESSORS = [
    Processor("x86_64", "amd64", X86, "cc", f"{CFLAGS} -fcf-protection", []),
    Processor("aarch64", "arm64", ARM, "aarch64-linux-gnu-gcc", f"{CFLAGS} -mbranch-protection=standard", [f"--cross-file={CROSS_FILE}"]),
]


def stage_source(documents: dict[str, str], work: pathlib.Path) -> pathlib.Path:
    """The sources with the proved archives, from which meson builds the C library without Rattle."""
    root = work / f"bpfcanon-source-{VERSION}"
    run("git", "-C", TOP, "checkout-index", "--all", f"--prefix={root}/")
    for archive in ARCHIVES:
        (root / archive.relative_to(TOP)).parent.mkdir(exist_ok=True)
        shutil.copyfile(archive, root / archive.relative_to(TOP))
    for name, text in documents.items():
        (root / name).write_text(text)
    return root


def link_programs(it: Processor, source: pathlib.Path) -> None:
    """Links the programs, which need no C library, where meson.build looks for them."""
    parts = [source / "capi" / f"{name}.c" for name in ("processor", "heap", "system")]
    for program in PROGRAMS:
        target = source / program.linked(it.name).relative_to(TOP)
        target.parent.mkdir(exist_ok=True)
        options = [*it.flags.split(), "-static-pie", *LDFLAGS.split(), "-Wl,--gc-sections"]
        run(it.compiler, *options, "-o", target, *parts, program.object(it.name))


def stage_processor(it: Processor, source: pathlib.Path, work: pathlib.Path) -> pathlib.Path:
    """The folder of the programs and the C library for a processor, which needs no installation."""
    root, build = work / f"bpfcanon-{VERSION}-{it.name}-linux", work / f"build-{it.name}"
    flags = [f"-Dc_args={it.flags}", f"-Dc_link_args={LDFLAGS}", f"--prefix={root}", "-Dpkgconfig.relocatable=true"]
    run("meson", "setup", "-Dcommand=true", *it.options, *flags, build, source)
    run("meson", "install", "-C", build)
    (root / "install.sh").write_text((TOP / "packaging" / "install.sh").read_text().replace("@MACHINE@", it.name))
    (root / "install.sh").chmod(0o755)
    text = page(TOP / "packaging" / "README.binary")
    for mark, words in it.said.items():
        text = text.replace(mark, words)
    (root / "README").write_text(text)
    for name in AT_TOP:
        (root / name).symlink_to(f"share/doc/bpfcanon/{name}")
    return root


def stage_vectors(source: pathlib.Path, work: pathlib.Path) -> pathlib.Path:
    """The test vectors, with the parts of testdata/README.md that aren't about the other files of this tree."""
    root = work / f"bpfcanon-vectors-{VERSION}"
    shutil.copytree(source / "testdata", root)
    parts = [it for it in re.split("^(?=## )", (root / "README.md").read_text(), flags=re.MULTILINE) if it.startswith(VECTOR_PARTS)]
    if len(parts) != len(VECTOR_PARTS):
        raise Refused(f"testdata/README.md doesn't have these parts: {VECTOR_PARTS}")
    (root / "README.md").write_text(page(TOP / "packaging" / "README.vectors") + "\n" + "".join(parts))
    shutil.copy(source / "LICENSE", root)
    return root


def add_go_examples(root: pathlib.Path, source: pathlib.Path) -> None:
    """The examples run in the module. The other tests at its top read many files of the tree."""
    for name in GO_EXAMPLES:
        (root / "testdata" / name).parent.mkdir(parents=True, exist_ok=True)
        shutil.copy(source / "testdata" / name, root / "testdata" / name)
    for test in root.rglob("*_test.go"):
        if test.parent == root and not test.name.endswith("example_test.go"):
            test.unlink()
        else:
            test.write_text(test.read_text().replace("../../testdata/", "testdata/"))


def stage_go(folders: dict[str, pathlib.Path], source: pathlib.Path, documents: dict[str, str], work: pathlib.Path) -> pathlib.Path:
    """The Go module with the static libraries of some folders. For other systems, and with the tag bpfcanon_system, it asks pkg-config."""
    root = work / f"bpfcanon-go-{VERSION}"
    shutil.copytree(source / "bindings" / "go", root)
    (root / "README.md").write_text(page(root / "README.md"))
    for name in documents:
        shutil.copy(source / name, root)
    add_go_examples(root, source)
    calls = root / "internal" / "capi"
    shutil.copy(source / "capi" / "bpfcanon.h", calls)
    header, libraries = [], []
    for name, folder in folders.items():
        header.append(f"// #cgo linux,{name},!bpfcanon_system CFLAGS: -I${{SRCDIR}}\n")
        libraries.append(f"// #cgo linux,{name},!bpfcanon_system LDFLAGS: ${{SRCDIR}}/libbpfcanon_linux_{name}.a\n")
        shutil.copy(folder / "lib" / "libbpfcanon.a", calls / f"libbpfcanon_linux_{name}.a")
    system = f"// #cgo bpfcanon_system !linux {','.join(f'!{name}' for name in folders)} pkg-config: bpfcanon\n"
    replace_pkg_config(calls / "capi.go", "".join([*header, *libraries, system]))
    replace_pkg_config(root / "doc.go", "".join([*header, system]).replace("${SRCDIR}", "${SRCDIR}/internal/capi"))
    return root


def replace_pkg_config(file: pathlib.Path, lines: str) -> None:
    """Put lines for cgo in place of the one that names pkg-config."""
    head, named, rest = file.read_text().partition("// #cgo pkg-config: bpfcanon\n")
    if not named:
        raise Refused(f"{file.name} of the Go package doesn't name pkg-config")
    file.write_text(head + lines + rest)
