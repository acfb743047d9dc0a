"""The commands of bpfcanon-review. Each returns its status: 0, 1 for files that differ, or 2 if a file has no answer."""

from __future__ import annotations

import argparse
import functools
import hashlib
import sys
from typing import Callable, Iterable, Iterator, Optional, TypeVar

import bpfcanon

from ..objects import MAX_SIZE
from .accepted import Accepted
from .cli import complain, say
from .compare import compare
from .html_page import page
from .labels import printable
from .limits import limited
from .log import UNSIGNED, Annotator, LogError
from .parts import parts
from .store import path_of, store

STANDARD_INPUT = "-"
T = TypeVar("T")


def show(options: argparse.Namespace) -> int:
    """Write all that is in each file."""
    return for_each(options.files, lambda path: shown(path, options))


def shown(path: str, options: argparse.Namespace) -> Iterator[str]:
    """Yield the parts of a file with an empty line after each, or for git why there are none: `git diff` ends at a command that fails."""
    data = read(path)
    if len(options.files) > 1:
        yield f"==> {printable(path)} <=="
    try:
        found = Accepted(data)
    except bpfcanon.FaultError as fault:
        if not options.textconv:
            raise
        yield from (f"refused: {fault}", f"{len(data)} bytes, SHA-256 {hashlib.sha256(data).hexdigest()}")
        return
    for part in parts(found):
        yield from (part.title, *(it.text for it in part.lines), "")


def list_keys(options: argparse.Namespace) -> int:
    """Write the key of each file and a digest of each function, in lines as those of sha256sum."""
    return for_each(options.files, listed)


def listed(path: str) -> Iterator[str]:
    """Yield the lines of a file."""
    found = Accepted(read(path))
    yield f"{found.key}  {printable(path)}"
    yield from (f"{it.digest}  {printable(path)}: {it.name}" for it in parts(found) if it.kind == "function")


def for_each(paths: list[str], lines: Callable[[str], Iterator[str]]) -> int:
    """Write the lines of each file. One that has no answer doesn't end the work on others."""
    status = 0
    for path in paths:
        found = attempt(path, lambda: "".join(f"{it}\n" for it in lines(path)))
        status = 2 if found is None else status
        sys.stdout.write(found or "")
    return status


def diff(options: argparse.Namespace) -> int:
    """Write what differs between two files."""
    old, new = (attempt(path, lambda: Accepted(read(path))) for path in (options.old, options.new))
    if old is None or new is None:
        return 2
    found = attempt(f"{options.old}, {options.new}", functools.partial(compared, old, new, options))
    status, texts = found or (2, ())
    sys.stdout.writelines(texts)
    return status


def compared(old: Accepted, new: Accepted, options: argparse.Namespace) -> tuple[int, Iterable[str]]:
    """Return the status of a comparison, and its lines or its page."""
    changes = [*compare(old, new)]
    if options.html:
        return int(bool(changes)), [page((options.old, options.new), old, new, changes)]
    return int(bool(changes)), (f"{line}\n" for it in changes for line in (it.text, *(f"  {one}" for one in it.lines)))


def log(options: argparse.Namespace) -> int:
    """Write a verifier's log of a canonical file with the source lines of its original."""
    stored = [path_of(options.store, options.key)] if options.store and options.key else []
    names = [*stored, *options.files, STANDARD_INPUT]
    if not 2 <= len(names) <= 3 or len(stored) != bool(options.store):
        complain(ValueError("the files are ORIGINAL and LOG, or LOG and the options --store and --key"), "log")
        return 2
    found = attempt(names[0], lambda: Accepted(read(names[0])))
    if found and options.key not in (None, found.key):
        complain(ValueError(f"its key is {found.key}"), names[0])
        return 1
    return logged(found, names, options) if found else 2


def logged(original: Accepted, names: list[str], options: argparse.Namespace) -> int:
    """Write a log; its original and it have the first two names."""
    if not options.key:
        say(f"{original.key}  {printable(names[0])}")
    lines = attempt(names[1], lambda: [*Annotator(original, options.program).lines(read_log(names[1]))])
    if lines is not None:
        sys.stdout.writelines(f"{it}\n" for it in (f"{UNSIGNED}{printable(names[0])}", *lines))
    return 2 if lines is None else 0


def read_log(path: str) -> bytes:
    """Return the contents of a log. Raises OSError, LogError."""
    text = read(path)
    if len(text) > MAX_SIZE:
        raise LogError(f"it is longer than {MAX_SIZE} bytes")
    return text


def store_files(options: argparse.Namespace) -> int:
    """Copy each file into the folder, and write its key, in lines as those of sha256sum."""
    return for_each(options.files, lambda path: stored_file(options.folder, path))


def stored_file(folder: str, path: str) -> Iterator[str]:
    """Copy a file, and yield its line."""
    found = Accepted(read(path))
    store(folder, found)
    yield f"{found.key}  {printable(path)}"


def attempt(name: str, call: Callable[[], T]) -> Optional[T]:
    """Return what a call returns within the limits, or None after a message."""
    try:
        with limited():
            return call()
    except (bpfcanon.BpfcanonError, OSError, MemoryError) as error:
        complain(error, name)
        return None


def read(path: str) -> bytes:
    """Return the contents of a file or of standard input, at most a byte more than an accepted file has. Raises OSError."""
    with open(path if path != STANDARD_INPUT else 0, "rb") as file:
        return file.read(MAX_SIZE + 1)


COMMANDS = {"show": show, "diff": diff, "list": list_keys, "log": log, "store": store_files}
