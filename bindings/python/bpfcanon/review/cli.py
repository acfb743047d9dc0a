"""The command bpfcanon-review: its command line, and how it ends. The commands are in the module commands, which needs pyelftools."""

from __future__ import annotations

import argparse
import importlib
import io
import os
import re
import signal
import sys
from typing import Any, NoReturn

import bpfcanon

from .labels import printable

NAME = "bpfcanon-review"
NOTE = """\
exit status:
  0  yes: done, the same
  1  no: different
  2  no answer: the arguments, or a file that can't be read or is refused

What is proved: which files are accepted, and that two hold the same exactly if their canonical
files are equal, of which the keys are the SHA-256. What is printed of them is tested."""
FILE = "an object file, or - for standard input"


class Version(argparse.Action):
    """Prints the versions. The library is loaded only for this."""

    def __call__(self, parser: argparse.ArgumentParser, *_: Any) -> None:
        print(f"{NAME} {bpfcanon.__version__}, library {bpfcanon.library_version()}")
        parser.exit()


class Parser(argparse.ArgumentParser):
    """Refuses arguments, among which may be names of files."""

    def error(self, message: str) -> NoReturn:
        """Write the usage and what is wrong, and end the process."""
        super().error(printable(message))


def parser() -> argparse.ArgumentParser:
    """Return the parser of command lines."""
    how: dict[str, Any] = {"epilog": NOTE, "formatter_class": argparse.RawDescriptionHelpFormatter, "allow_abbrev": False}
    top = Parser(NAME, description="Listings and comparisons of BPF object files.", **how)
    top.add_argument("--version", action=Version, nargs=0, help="show the versions and exit")
    commands = top.add_subparsers(dest="command", required=True, metavar="COMMAND")

    def add(name: str, text: str) -> Any:
        return commands.add_parser(name, help=text, description=f"{text[0].upper()}{text[1:]}.", **how)

    made = add("show", "all that is in object files, as text")
    made.add_argument("--textconv", action="store_true", help="for git: a file that is refused is shown by its fault and SHA-256")
    made.add_argument("files", nargs="+", metavar="FILE", help=FILE)
    made = add("diff", "what differs between two object files, with the source lines of instructions, which no key covers")
    made.add_argument("--html", action="store_true", help="write an HTML page that shows both files side by side, and loads nothing")
    made.add_argument("old", metavar="OLD", help=FILE)
    made.add_argument("new", metavar="NEW", help="what it is compared with")
    made = add("list", "the key of each object file, and a digest of each function")
    made.add_argument("files", nargs="+", metavar="FILE", help=FILE)
    made = add("log", "the verifier's log of a canonical file, with the source lines of its original, which no key covers")
    made.add_argument("--program", default="", metavar="NAME", help="the program of the log")
    made.add_argument("--key", type=key, metavar="KEY", help="the key of the canonical file: one of another key is refused")
    made.add_argument("--store", metavar="FOLDER", help="where the file named KEY is the original")
    made.add_argument("files", nargs="*", metavar="FILE", help="the original, unless it is stored, and the log, or standard input")
    made = add("store", "copies of object files, each named by its key")
    made.add_argument("folder", metavar="FOLDER", help="where the copies are")
    made.add_argument("files", nargs="+", metavar="FILE", help=FILE)
    return top


def key(text: str) -> str:
    """Return the key that an argument is."""
    if not re.fullmatch("[0-9a-f]{64}", text):
        raise argparse.ArgumentTypeError("a key has 64 digits, 0 to 9 and a to f")
    return text


def complain(error: BaseException, name: str = "standard output") -> None:
    """Write on standard error the fault of a file, in the form that bpfcanon-object has, or what else went wrong with it."""
    text = "out of memory" if isinstance(error, MemoryError) else getattr(error, "strerror", None) or str(error)
    start = "" if isinstance(error, bpfcanon.FaultError) else f"{NAME}: "
    say(f"{start}{printable(name)}: {printable(text)}")


def say(line: str) -> None:
    """Write a line on standard error, unless that is closed."""
    if sys.stderr is not None:
        print(line, file=sys.stderr)


def main() -> int:
    """Run the command line of this process and return its exit status. Signals end it as they end other programs."""
    for it in signal.SIGPIPE, signal.SIGINT:
        signal.signal(it, signal.SIG_DFL)
    if not isinstance(sys.stdout, io.TextIOWrapper):
        complain(OSError("it is closed"))
        return 2
    sys.stdout.reconfigure(encoding="utf-8", errors="backslashreplace")
    try:
        status = run()
        sys.stdout.flush()
        return status
    except OSError as error:
        complain(error)
        # The interpreter would try again to write what is left.
        os.dup2(os.open(os.devnull, os.O_WRONLY), sys.stdout.fileno())
        return 2


def run() -> int:
    """Run the command line of this process, and return the status before its output is flushed."""
    try:
        options = parser().parse_args()
    except SystemExit as ended:
        return int(ended.code or 0)
    try:
        commands = importlib.import_module(".commands", __package__)
    except ImportError as error:
        complain(error, "pyelftools")
        return 2
    return int(commands.COMMANDS[options.command](options))
