"""What bpfcanon-review shows of object files: a canonical file has one text, and each other one another."""

from __future__ import annotations

import argparse
import hashlib
import importlib
import os
import re
import resource
import shutil
import subprocess
import time
from pathlib import Path
from typing import Any, Callable, Iterator

import pytest

from docs import canon
from tests import TOP, object_vectors
from tests.objects.btf_file import types_of
from tests.objects.conftest import Review, Run
from tests.objects.elf_file import ElfFile
from tests.objects.files import compile_source
from tests.objects.known import DIFFERENCES, PAIRS, Known, added, as_it_is, edit, edited, exchanged, section, section_named, symbol

COMPILED = TOP / "bindings" / "python" / "tests" / "compiled"
ORDERS = ("little", "big")
pytestmark = pytest.mark.needs("elftools")


def compiled(name: str, order: str) -> bytes:
    return (COMPILED / f"{name}.{order}.elf").read_bytes()


@pytest.mark.parametrize("known", DIFFERENCES, ids=[it.name for it in DIFFERENCES])
def test_known_difference(known: Known, review: Review, folder: Path) -> None:
    """What libbpf tells from its base is refused, or differs in more than the key."""
    base, other = (review.accepted(edited(known.base, it, folder)) for it in (as_it_is, known.change))
    assert base
    assert other is None or review.text(base) != review.text(other) and review.changes(base, other)


@pytest.mark.parametrize("pair", PAIRS)
def test_pair(pair: str, review: Review, folder: Path) -> None:
    """What some loader tells apart is shown otherwise."""
    source, *edits = PAIRS[pair]
    one, other = (review.accepted(edited(source, it, folder)) for it in edits)
    assert one and other and review.text(one) != review.text(other)


@pytest.fixture(params=ORDERS)
def order(request: pytest.FixtureRequest) -> str:
    return str(request.param)


@pytest.fixture
def flows(order: str, review: Review) -> Any:
    return review.accepted(compiled("flows", order))


def test_function(flows: Any, review: Review) -> None:
    """As llvm-objdump -dr and readelf show it: relocations, targets of jumps, calls and CO-RE relocations."""
    assert review.lines(flows, "function xdp count_flows")[:12] == [
        "ldxw r2, [r1+0]  ; type func count_flows  ; core byte_off struct host 0:0",
        "stxw [r10-8], r2",
        "ldxw r1, [r1+12]  ; core byte_off struct host 0:1:2",
        "stxw [r10-4], r1",
        "mov r2, r10",
        "add r2, -8",
        "lddw r1, 0  ; R_BPF_64_64 flows",
        "call 1",
        "jeq r0, 0, L2",
        "mov r1, 1",
        "atomic_add [r0+0], r1",
        "L1:",
    ]
    assert "call_local -1  ; R_BPF_64_32 <.text> over" in review.lines(flows, "function xdp count_flows")


def test_data(flows: Any, review: Review) -> None:
    assert review.lines(flows, "data .data label") == ["66 6c 6f 77 73 00 00 00  |flows...|"]
    assert review.lines(flows, "data .data known")[0] == "16 bytes of zeros"


def test_types(flows: Any, review: Review) -> None:
    """Types refer to others by what these are called."""
    lines = review.lines(flows, "type struct host")
    assert lines == [
        "struct name=host size=20",
        "member name=id target=u32 bit_offset=0 width=0",
        "member name=counts target=u32[4] bit_offset=32 width=0",
    ]


def test_one_type_more(review: Review) -> None:
    """It changes the text of no other type, although it changes their IDs."""
    btf, encode = importlib.import_module("bpfcanon.types"), review.package.btf_encode
    number = btf.Int("int", 4, btf.Encoding.SIGNED, 0, 32)
    texts = []
    for first in 0, 1:
        types = [btf.Float("double", 8)] * first + [number, btf.Ptr(first + 3), btf.Struct("s", 8, [btf.Member("m", first + 2, 0, 0)])]
        notation = review.module("notation").Notation(review.package.Btf(encode(types)))
        texts.append([(notation.label(id), *notation.lines(id)) for id in range(first + 1, first + 4)])
    assert texts[0] == texts[1]


def test_types_round_a_circle(review: Review) -> None:
    btf = importlib.import_module("bpfcanon.types")
    notation = review.module("notation").Notation(review.package.Btf(review.package.btf_encode([btf.Const(1), btf.Const(1)])))
    assert notation.label(1) != notation.label(2)


def test_source_lines(order: str, flows: Any, review: Review) -> None:
    """A changed constant of the program has its source line, on both sides."""
    found = review.changes(flows, review.accepted(compiled("changed", order)))
    lines = [it for it in found["changed function xdp count_flows"] if it[0] in "-+" and "digest=" not in it]
    assert [re.sub(r"\s+", " ", it) for it in lines] == ["- mov32 r0, 2 # not signed: ./flows.c:48: total++;", "+ mov32 r0, 1 # not signed: ./flows.c:48: total++;"]
    assert "changed data .rodata limit" in found
    assert review.changes(flows, flows) == {}


FLOWS, CHANGED = (COMPILED / f"{name}.little.elf" for name in ("flows", "changed"))


def test_section_more(order: str, flows: Any, review: Review) -> None:
    other = review.accepted(edit(compiled("flows", order), added(b".data.more", b"more")))
    for objects, word, sign in ((flows, other), "added", "+"), ((other, flows), "removed", "-"):
        found = review.changes(*objects)
        assert found[f"{word} data .data.more <unnamed>"] == ["@@ -1 +1 @@", f"{sign}\t6d 6f 72 65  |more|"]


def test_other_sequence(order: str, flows: Any, review: Review) -> None:
    """The key differs too, which doesn't say why."""
    found = review.changes(flows, review.accepted(edit(compiled("flows", order), exchanged(b".data", b"license"))))
    assert [*found] == ["changed file header", "changed sequence"]
    assert "-section license" in found["changed sequence"] and "+section license" in found["changed sequence"]


PASS = (object_vectors.FOLDER / "pass.little.plain.o").read_bytes()


def test_instructions_before_the_first_function(review: Review) -> None:
    object = review.accepted(edit(PASS, symbol(b"pass", value=8, size=8)))
    assert review.lines(object, "function xdp <unnamed>") == ["mov32 r0, 2"]
    assert review.lines(object, "function xdp pass") == ["exit"]


def test_labels_past_nine(review: Review) -> None:
    """Each jump goes to the instruction after it."""
    code = bytes.fromhex("15 00 00 00 00 00 00 00") * 12 + bytes.fromhex("95 00 00 00 00 00 00 00")
    lines = review.lines(review.accepted(edit(PASS, section(b"xdp", content=bytearray(code)))), "function xdp pass")
    assert lines == [*(line for it in range(1, 13) for line in (f"jeq r0, 0, L{it}", f"L{it}:")), "exit"]
    names = review.module("labels").Labels()
    assert [names.next("it") for _ in range(11)] == ["it", *(f"it#{number}" for number in range(2, 12))]


def test_digests(run: Run) -> None:
    """The digests of a changed function are those that `list` has of it in both files."""
    listed = [it.partition(b" ")[0] for it in run("list", FLOWS, CHANGED).stdout.splitlines() if it.endswith(b": xdp count_flows")]
    assert len(set(listed)) == 2
    assert re.findall(rb"^  [-+]\tdigest=(.*)$", run("diff", FLOWS, CHANGED).stdout, re.MULTILINE) == listed


def test_statuses(run: Run, tmp_path: Path) -> None:
    """0 for done and for the same, 1 for different, 2 for no answer, which doesn't end the work on other files."""
    (tmp_path / "cut").write_bytes(FLOWS.read_bytes()[:100])
    rows = [("diff", FLOWS, FLOWS), ("diff", FLOWS, CHANGED), ("diff", FLOWS, "none"), ("show", FLOWS), ("list", "cut", FLOWS), ("list",)]
    done = [run(*words, cwd=tmp_path) for words in rows]
    assert [it.returncode for it in done] == [0, 1, 2, 0, 2, 2]
    assert [bool(it.stderr) for it in done] == [False, False, True, False, True, True]
    assert done[0].stdout == b"" and done[4].stdout.count(b"flows.little.elf") == 3
    assert done[2].stderr == b"bpfcanon-review: none: No such file or directory\n"
    assert done[4].stderr == b"cut: byte 40: SectionTable: the section header table isn't inside the file\n"


# What a function returns in each of two files, and the name of that in each section.
RETURNED, FUNCTIONS = {"old": 1, "new": 2}, {"one": "first", "two": "second"}


@pytest.mark.needs("clang")
@pytest.mark.parametrize("name, title", [(b"two", "two second"), (b"one", "one#2 second")])
def test_source_lines_of_each_section(name: bytes, title: str, review: Review, tmp_path: Path) -> None:
    """Each file and section has its own lines, which no text in them ends. Of two sections with one name, .BTF.ext is about the first."""
    objects, lines = [], []
    for side, value in RETURNED.items():
        path, out = tmp_path / f"{side}.c", tmp_path / f"{side}.o"
        attribute = '__attribute__((section("{}")))'.format
        texts = [f"{attribute(place)} int {it}(void *context) {{ return {value}; }} //  ; {side}" for place, it in FUNCTIONS.items()]
        path.write_text("\n".join(texts))
        objects.append(review.accepted(edit(compile_source(path, "bpfel", ("-g",), out), section_named(b"two", name))))
        lines.append([f"{path}:{number}: {it}" for number, it in enumerate(texts, 1)])
    found = review.changes(*objects)
    first, second = zip(*lines)
    assert sources(found["changed function one first"]) == [*first]
    assert sources(found[f"changed function {title}"]) == ([*second] if name == b"two" else ["", ""])


def sources(lines: list[str]) -> list[str]:
    """The source lines of what was removed and added, which follow all that is signed; "" for none."""
    return [it.partition("  # not signed: ")[2] for it in lines if it[0] in "-+" and "digest=" not in it]


@pytest.mark.needs("clang")
def test_moved_function(review: Review, tmp_path: Path) -> None:
    """Only the function before it is another one."""
    source, objects = '__attribute__((section("xdp"))) int %s(void *context) { return %s; }\n', []
    for value in "2", "(long)context":
        (tmp_path / "moved.c").write_text(source % ("first", value) + source % ("second", 1))
        objects.append(review.accepted(compile_source(tmp_path / "moved.c", "bpfel", ("-g",), tmp_path / "moved.o")))
    titles = [it.partition(" ")[2] for it in review.changes(*objects)]
    assert "function xdp first" in titles and "function xdp second" not in titles


def test_list(run: Run) -> None:
    """The key is the SHA-256 of the canonical file."""
    done = run("list", "-", input=FLOWS.read_bytes())
    key = hashlib.sha256(canon.canonical(FLOWS.read_bytes())).hexdigest()
    first, *functions = done.stdout.decode().splitlines()
    assert first == f"{key}  -"
    assert [it.partition("  ")[2] for it in functions] == ["-: .text over", "-: xdp count_flows"]


def test_textconv(run: Run, tmp_path: Path) -> None:
    """A file that is refused has a text, which depends on its bytes."""
    (tmp_path / "picture").write_bytes(b"a picture")
    done = run("show", "--textconv", "picture", cwd=tmp_path)
    digest = hashlib.sha256(b"a picture").hexdigest()
    assert done.returncode == 0 and done.stdout.decode().splitlines()[1:] == [f"9 bytes, SHA-256 {digest}"]
    assert run("show", "picture", cwd=tmp_path).returncode == 2


def test_output_is_printable(run: Run) -> None:
    """No name of a file is acted on by a terminal."""
    file = ElfFile.read(FLOWS.read_bytes())
    name = file.add_string(file.symbol_names, b"\x1b[31m\nred\xff")
    symbols = file.symbols()
    symbols[-1].name = name
    file.set_symbols(symbols)
    done = run("show", "-", input=bytes(file.write()))
    assert done.returncode == 0 and b'"\\u001b[31m\\nred\\udcff"' in done.stdout and b"\x1b" not in done.stdout


MARK = "\x1b\n\u202e"  # begins a line, and turns the text that follows round
ESCAPED = MARK.encode("unicode_escape").decode()


def marked(data: bytes, text: str = MARK) -> bytes:
    """An object file in which source lines, and names of symbols, of types and of a section begin with the mark."""
    file, mark = ElfFile.read(data), text.encode()
    symbols, kept = file.symbols(), {file.name(it) for it in range(len(file.sections))}
    for it in symbols:
        it.name = file.add_string(file.symbol_names, mark + file.string(file.symbol_names, it.name)) if it.name else 0
    file.set_symbols(symbols)
    with types_of(file) as btf:
        strings = bytes(btf.strings).split(b"\0")
        btf.strings = bytearray(b"\0".join(it if it in kept or len(it) < len(mark) else mark + it[len(mark) :] for it in strings))
    section_named(b"license", mark + b"license")(file)
    return bytes(file.write())


OLD, NEW, REFUSED, LOG = f"{MARK}old", f"{MARK}new", f"refused{MARK}", f"log{MARK}"
# What is printed of these names, among other lines.
PRINTED = {
    "show": (("show", OLD, NEW), f"==> {ESCAPED}old <=="),
    "list": (("list", OLD), f"  {ESCAPED}old"),
    "a log": (("log", OLD, LOG), f"\n; {ESCAPED}ct flow flow = {{host->id, host->counts[2]}}; @ {ESCAPED}ws.c:41\n0: (61) \\x1b"),
    "source lines": (("diff", OLD, NEW), f"  # not signed: {ESCAPED}ws.c:48: {ESCAPED}l++;"),
    "a refused file": (("list", REFUSED), f"refused{ESCAPED}: byte 0: Magic: "),
    "an argument": (("list", REFUSED, f"--{MARK}"), f"--{ESCAPED}"),
}


@pytest.mark.parametrize("case", PRINTED)
def test_everything_is_escaped(case: str, run: Run, tmp_path: Path) -> None:
    words, text = PRINTED[case]
    for name, content in (OLD, marked(FLOWS.read_bytes())), (NEW, marked(CHANGED.read_bytes())), (REFUSED, b"#" * 64), (LOG, b"\n0: (61) \x1b"):
        (tmp_path / name).write_bytes(content)
    done = run(*words, cwd=tmp_path)
    printed = (done.stdout + done.stderr).decode()
    assert text in printed
    assert [it for it in printed.split("\n") if not it.replace("\t", "").isprintable() or it.startswith("\\")] == []


def test_output_that_fails(run: Run) -> None:
    with open("/dev/full", "wb") as full:
        done = run("show", FLOWS, capture_output=False, stdout=full, stderr=subprocess.PIPE)
    assert (done.returncode, done.stderr) == (2, b"bpfcanon-review: standard output: No space left on device\n")


def test_no_library(run: Run) -> None:
    done = run("list", FLOWS, env=os.environ | {"BPFCANON_LIBRARY": "/none", "PYTHONPATH": f"{TOP}/bindings/python"})
    assert (done.returncode, done.stdout, done.stderr.count(b"\n")) == (2, b"", 1)
    assert done.stderr.startswith(b"bpfcanon-review: ") and b"BPFCANON_LIBRARY can name its file" in done.stderr


def test_longest_file(run: Run, tmp_path: Path) -> None:
    """One with a byte more is refused, although what precedes it is accepted, and so is one without end."""
    most = 64 << 20
    for name, size in ("longest", most), ("longer", most + 1):
        shutil.copy(FLOWS, tmp_path / name)
        os.truncate(tmp_path / name, size)
    done = run("list", "longest", "longer", "/dev/zero", cwd=tmp_path)
    assert done.returncode == 2 and done.stdout.count(b"longest") == 3
    assert [it.rpartition(b": ")[0] for it in done.stderr.splitlines()] == [
        b"%s: byte %d: FileTooLarge" % (name, most) for name in (b"longer", b"/dev/zero")
    ]


def endless(*_: object) -> Iterator[None]:
    """A comparison that ends only if it has no limit, after a while."""
    end = time.process_time() + 5
    while time.process_time() < end:
        pass
    yield from ()


def test_comparison_over_its_limit(review: Review, monkeypatch: pytest.MonkeyPatch, capsys: pytest.CaptureFixture[str]) -> None:
    commands = review.module("commands")
    monkeypatch.setattr(review.module("limits"), "SECONDS", 0.5)
    monkeypatch.setattr(commands, "compare", endless)
    assert commands.diff(argparse.Namespace(old=str(FLOWS), new=str(CHANGED))) == 2
    said = capsys.readouterr()
    assert said.out == "" and said.err.startswith(f"bpfcanon-review: {FLOWS}, {CHANGED}: it takes more than ")


OVER: dict[str, tuple[Callable[[Any], object], str]] = {
    "time": (lambda limits: [*endless()], "it takes more than "),
    "memory": (lambda limits: bytearray(limits.MEMORY), "out of memory"),
}


@pytest.mark.parametrize("case", OVER)
def test_file_over_its_limit(case: str, review: Review, monkeypatch: pytest.MonkeyPatch, capsys: pytest.CaptureFixture[str]) -> None:
    """It counts as one that can't be read, and the command goes on to the next."""
    commands, limits = review.module("commands"), review.module("limits")
    takes, message = OVER[case]
    read = commands.read
    monkeypatch.setattr(limits, "SECONDS", 0.5)
    monkeypatch.setattr(commands, "read", lambda path: takes(limits) if path == "hard" else read(path))
    assert commands.list_keys(argparse.Namespace(files=["hard", str(FLOWS)])) == 2
    said = capsys.readouterr()
    assert said.out.endswith(f"  {FLOWS}: xdp count_flows\n") and said.err.startswith(f"bpfcanon-review: hard: {message}")


def test_limits(review: Review, monkeypatch: pytest.MonkeyPatch) -> None:
    """An answer that takes too long, or too much memory, ends, and what follows has the memory that it had."""
    limits, before = review.module("limits"), resource.getrlimit(resource.RLIMIT_AS)
    stated = re.search(r"more than (\d+) seconds of processor time or (\d+) GiB", (TOP / "man" / "bpfcanon-review.1").read_text())
    assert stated and [limits.SECONDS, limits.MEMORY >> 30] == [int(it) for it in stated.groups()]
    monkeypatch.setattr(limits, "SECONDS", 0.05)
    with pytest.raises(TimeoutError), limits.limited():
        while True:
            pass
    with pytest.raises(MemoryError), limits.limited():
        bytearray(limits.MEMORY)
    assert resource.getrlimit(resource.RLIMIT_AS) == before
