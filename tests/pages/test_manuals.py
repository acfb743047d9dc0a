"""The manual pages and the completions have the commands, options, values and calls that the sources declare."""

import os
import re
import subprocess

import pytest

from tests import TOP
from tests.command import SECONDS
from tests.commands import OPTIONS
from tests.needs import need
from tests.pages.manuals import manual_pages
from tests.process.test_limits import BTF_LIMIT

HEADER = (TOP / "capi" / "bpfcanon.h").read_text()
OBJECT, REVIEW = (
    (TOP / path).read_text() for path in ("crates/bpfcanon_object/src/words.rt", "bindings/python/bpfcanon/review/cli.py")
)
FORMATS = re.search(r"pub const NAMES: .*? = \[(.*)\];", (TOP / "crates/bpfcanon_object/src/check.rt").read_text())[1]
GROUPS = re.findall(r'Group::\w+ => "(\w+)"', (TOP / "crates/bpf_insn/src/group.rt").read_text())
# The versions of LLVM's instruction set, and the releases of Linux from the first to the last of each series that the command knows.
NAMES = (TOP / "crates/bpfcanon_object/src/target_name.rt").read_text()
VERSIONS = re.findall(r'"(v\d)" => Some', NAMES)
SERIES = re.findall(r"^        (\d) => (?:(\d+) <= linux\.minor && )?linux\.minor <= (\d+),", NAMES, re.MULTILINE)
RELEASES = [f"linux-{major}.{minor}" for major, first, last in SERIES for minor in range(int(first or 0), int(last) + 1)]


def long_options(pattern, source):
    """The commands of a source, each with its long options."""
    return {name: [f"--{it}" for it in re.findall(r'(?:long\("|"--)(\w+)"', body)] for body, name in re.findall(pattern, source, re.DOTALL)}


# The commands of each program with their options, and the values of options.
COMMANDS = {
    "bpfcanon": OPTIONS,
    "bpfcanon-object": long_options(r'fn \w+_command(?=(.*?\n\}))(?=.*?Command::new\(alloc, "(\w+)")', OBJECT),
    "bpfcanon-review": long_options(r'made = add(?=(.*?)(?:made = |return ))\("(\w+)"', REVIEW),
}
VALUES = dict.fromkeys(("--order", "--to", "--other"), ["big", "little"]) | {"--format": re.findall(r"\w+", FORMATS), "--target": [*GROUPS, *VERSIONS, *RELEASES]}
PAGES = manual_pages()


def complete(name, *words):
    """What bash completes the last of some words to."""
    line = " ".join([name, *(it or "''" for it in words)])
    function = "_" + name.replace("-", "_")
    script = f'. "$0"; COMP_WORDS=({line}); COMP_CWORD={len(words)}; {function}; printf "%s\\n" "${{COMPREPLY[@]}}"; complete -p {name} >&2'
    done = subprocess.run(["bash", "-uc", script, TOP / "completions" / "bash" / name], capture_output=True, text=True, timeout=SECONDS)
    assert done.stderr.endswith(f"-F {function} {name}\n")
    return set(done.stdout.split())


@pytest.mark.parametrize("name", COMMANDS)
def test_bash(name):
    """--help and --version of bpfcanon are refused."""
    help = set() if name == "bpfcanon" else {"--help"}
    assert complete(name, "") == {*COMMANDS[name], *help} | ({"--version"} if help else set())
    for command, options in COMMANDS[name].items():
        assert complete(name, command, "--" if options or help else "") == {*options} | help
        for option in options:
            assert option not in VALUES or complete(name, command, option, "") == {*VALUES[option]}


@pytest.mark.parametrize("name", COMMANDS)
def test_zsh(name):
    """The commands with their descriptions, the arguments of each, and the values of options."""
    text = (TOP / "completions" / "zsh" / f"_{name}").read_text()
    arms = re.findall(r"^    (\w[\w|-]*)\) _arguments (.*) ;;$", text, re.MULTILINE)
    words = {command: re.findall(r'"\$(\w+)"', arguments) for commands, arguments in arms for command in commands.split("|")}
    found = {command: {f"--{it}" for it in names} - {"--help", "--files"} for command, names in words.items()}
    assert {command: {*options} for command, options in COMMANDS[name].items() if options or command in found} == found
    assert set(re.findall(r"^    '([\w-]+):", text, re.MULTILINE)) == {*COMMANDS[name]}
    for option in {it for options in COMMANDS[name].values() for it in options}:
        assert f"local {option[2:]}='{option}[" in text and all(re.search(rf"\b{value}\b", text) for value in VALUES.get(option, ()) if value not in VERSIONS + RELEASES)


def shown(page):
    """What man prints of a page, in which lines are long. It has no warning."""
    need("man")
    how = {"env": os.environ | {"MANWIDTH": "500", "LC_ALL": "C"}, "capture_output": True, "text": True, "timeout": SECONDS}
    done = subprocess.run(["man", "--warnings", "-l", "-"], input=page, **how)
    assert (done.returncode, done.stderr) == (0, "")
    return done.stdout


@pytest.mark.parametrize("name", COMMANDS)
def test_options(name):
    """A page names the commands, their options and the values of these, and no other option."""
    page = re.sub(r"\b(?:clang|git|llvm-obj\w+|sha256sum) .*", "", shown(PAGES[f"{name}.1"]))
    options = {it for options in COMMANDS[name].values() for it in options}
    assert set(re.findall(r"(?<![\w-])--\w+", page)) - {"--help", "--version"} == options
    words = [*COMMANDS[name], *(value for it in options for value in VALUES.get(it, ()) if value not in RELEASES[1:-1])]
    assert [it for it in words if not re.search(rf"(?<!\w){it}\b", page)] == []


def test_messages():
    """The page of bpfcanon names each of its messages."""
    sources = [(TOP / "crates" / "bpfcanon" / "src" / it).read_text() for it in ("outcome.rt", "main.rt")]
    messages = re.findall(r'report_line\(faults, b"([a-z ]+)\\n"', "\n".join(sources))
    page = shown(PAGES["bpfcanon.1"])
    assert len(messages) > 5 and [it for it in messages if it not in page] == []


@pytest.mark.parametrize("name", PAGES)
def test_page(name):
    """A page has the version, and names the others."""
    page = shown(PAGES[name])
    assert f'"bpfcanon {re.search("BPFCANON_VERSION .(.*).$", HEADER, re.MULTILINE)[1]}"' in PAGES[name]
    last = page.partition("SEE ALSO")[2]
    assert [it for it in PAGES if it != name and not re.search(rf"(?<![\w-]){it[:-2]}\({it[-1]}\)", last)] == []


def calls_of(text):
    """The calls that a header or a page declares, with single blanks."""
    calls = re.findall(r"^ *((?:bpfcanon_\w+|void|const char) \*?bpfcanon_\w+\([^;]*;)", text, re.MULTILINE)
    return sorted(" ".join(call.split()) for call in calls)


def test_library():
    """The page that is made of the header declares its calls and names each of them with its description."""
    calls = calls_of(HEADER)
    assert len(calls) > 20 and calls == calls_of(PAGES["bpfcanon.3"].partition("DESCRIPTION")[0])
    described = " ".join(re.findall(r"^\.TP\n\.BR (.*)$", PAGES["bpfcanon.3"], re.MULTILINE))
    assert all(re.search(rf"\b{name}\b", described) for name in re.findall(r"bpfcanon_\w+(?=\()", " ".join(calls)))
    assert f"\n#define BPFCANON_BTF_MAX {BTF_LIMIT}\n" in HEADER
