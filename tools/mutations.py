#!/usr/bin/env python3
"""Tries the mutations of crates: many in one check, each of which the prover has to reject at goals of its own.

usage: tools/mutations.py [--each | --write] [--beside] [--jobs N] [CRATE..]

A mutation is a file crates/CRATE/mutations/NAME.edit: a file of src/, pairs of an old and a new line, and lines 'refused:' with a function
and the goals of its contract that the mutation leaves open. It passes only if all of these are open. Mutations of different functions are
applied to one copy of the crate. A goal rests on the body of its function and on the contracts of what that calls, and no mutation
changes a contract, so what one opens doesn't depend on the others. Two that name one function are never in one copy, and one that changes
anything but the bodies of the functions that it names, such as a constant, is tried alone. What isn't refused in a copy, as the goals of a
function whose callee isn't proved, of which the prover tries some only, is tried again with fewer others, and last alone.

--each tries each alone by rt must-fail, which takes hours. --write tries each that has no lines 'refused:' alone, and writes them. With
--beside, rt ci runs at the same time, and each crate waits for its libraries. What passed is kept in the user's cache folder, by a hash of
all that it rests on.
"""

from __future__ import annotations

import argparse
import concurrent.futures
import hashlib
import os
import pathlib
import re
import shutil
import subprocess
import sys
import tempfile
import time
from typing import NamedTuple

TOP = pathlib.Path(__file__).resolve().parent.parent
sys.dont_write_bytecode = True
sys.path.insert(0, str(TOP / "capi"))
from rattle import Failed, below, bring_libraries, find_kit, is_static, library, read_crates, words_for  # noqa: E402

PARTS = ("src", "specs", "proofs")
STORE = pathlib.Path(os.environ.get("XDG_CACHE_HOME") or pathlib.Path.home() / ".cache") / "bpfcanon" / "mutations"
HEADER = re.compile(r"(?:pub(?:\(\w+\))? )?(?:const )?(?:unsafe )?(?:extern \"C\" )?fn (\w+)")
# A goal whose answer is wrong, and those that the search doesn't prove.
ANSWERED = re.compile(r"^\./proofs/(.+)/(?:Answers|Invariants|Proof)\.antt:\d+:\d+: error: `([^`]+)`", re.M)
SEARCHED = re.compile(r"^fn \S+: [^\n]*?expected answers in \./proofs/(.+?)/Answers\.antt; `search` did not prove ([^;\n]*)", re.M)
# A text that can't be read, after which nothing is said of a contract.
UNREAD = re.compile(r"^(?:\./)?(?:src|specs)/\S+:\d+:\d+: error.*", re.M)


class Goal(NamedTuple):
    """A goal of a function, as the files of its proof name both."""

    function: str
    name: str


class Change(NamedTuple):
    path: str
    old: str
    new: str


def open_goals(said: str) -> set[Goal]:
    searched = {Goal(function, it) for function, goals in SEARCHED.findall(said) for it in re.findall("`([^`]+)`", goals)}
    return searched | {Goal(*it) for it in ANSWERED.findall(said)}


def function_around(text: str, at: int) -> str | None:
    """The function in whose body a place of a formatted source is."""
    above = text[: text.index("\n", at)].split("\n")
    least = len(above[-1]) - len(above[-1].lstrip()) + 1
    for line in reversed(above):
        indent, header = len(line) - len(line.lstrip()), HEADER.match(line.lstrip())
        if not line.strip() or indent >= least or line.lstrip().startswith(("{", ")")) or line is above[-1] and not header:
            continue
        if header:
            return header[1]
        least = indent
    return None


def output(words: list[str | pathlib.Path], folder: pathlib.Path) -> tuple[int, str]:
    """The status of a command, and all that it says."""
    done = subprocess.run(words, cwd=folder, stdin=subprocess.DEVNULL, stdout=subprocess.PIPE, stderr=subprocess.STDOUT)
    return done.returncode, done.stdout.decode(errors="replace")


class Mutation:
    def __init__(self, file: pathlib.Path) -> None:
        self.file, self.name = file, file.stem
        self.goals, self.changes = set[Goal](), list[Change]()
        path = old = ""
        for line in file.read_text().splitlines():
            word, _, rest = line.partition(" ")
            if word == "file:":
                path = rest
            elif word == "old:":
                old = rest
            elif word == "new:" and path and old:
                self.changes.append(Change(path, old, rest))
                old = ""
            elif word == "refused:":
                function, *goals = rest.split()
                self.goals |= {Goal(function, it) for it in goals}
            else:
                raise Failed(f"{file.relative_to(TOP)}: this line isn't read: {line}")

    def functions(self) -> set[str]:
        return {it.function for it in self.goals}

    def changed_files(self, folder: pathlib.Path) -> dict[str, str]:
        """The texts that it makes of the files of a crate, or none where an old line isn't there exactly once."""
        texts = dict[str, str]()
        for it in self.changes:
            text = texts.get(it.path) or (folder / it.path).read_text()
            if not it.path.startswith("src/") or text.count(it.old) != 1:
                return {}
            texts[it.path] = text.replace(it.old, it.new)
        return texts

    def stays_in_bodies(self, folder: pathlib.Path) -> bool:
        """Whether it changes only bodies of the functions that it names."""
        text, changed = {it.path: (folder / it.path).read_text() for it in self.changes}, set[str | None]()
        for it in self.changes:
            changed.add(function_around(text[it.path] + "\n", text[it.path].index(it.old)))
            text[it.path] = text[it.path].replace(it.old, it.new)
        return changed == {it.rpartition("/")[2] for it in self.functions()}

    def write(self, found: set[Goal]) -> None:
        with self.file.open("a") as file:
            for function in sorted({it.function for it in found}):
                print("refused:", function, *sorted(it.name for it in found if it.function == function), file=file)
        self.goals = found


def hash_of_base(crate: str, uses: dict[str, list[str]]) -> str:
    """A hash of what a check of a crate reads: this tool, the kit, the libraries as they were built, and the crate."""
    kit, folder = find_kit(), TOP / "crates" / crate
    tool = (kit / "bin" / "rattle").stat()
    files = [pathlib.Path(__file__), TOP / "capi" / "rattle.py", kit / "KIT-ID"]
    files += [(library(it) if it in uses else kit / "rlibs" / f"{it}.rlib") / "format" for it in ["std", *uses[crate], *below(crate, uses)]]
    files += sorted(it for part in PARTS for it in (folder / part).rglob("*") if it.is_file())
    digest = hashlib.sha256(repr((crate, uses[crate], is_static(crate), tool.st_size, tool.st_mtime_ns)).encode())
    for it in files:
        name = it.relative_to(TOP) if it.is_relative_to(TOP) else it.relative_to(kit)
        digest.update(f"{name} {hashlib.sha256(it.read_bytes()).hexdigest()}\n".encode())
    return digest.hexdigest()


class Crate:
    def __init__(self, name: str) -> None:
        self.name, self.folder = name, TOP / "crates" / name
        self.mutations = [Mutation(it) for it in sorted((self.folder / "mutations").glob("*.edit"))]
        self.base = ""

    def stop_on_bad(self, has_goals: bool) -> None:
        for it in self.mutations:
            texts = it.changed_files(self.folder)
            if not texts or all(text == (self.folder / path).read_text() for path, text in texts.items()):
                raise Failed(f"BAD MUTATION: {self.name}/{it.name}: an old line isn't in its file once, or nothing is changed")
            if has_goals and not it.goals:
                raise Failed(f"BAD MUTATION: {self.name}/{it.name}: it names no goal")

    def mark(self, mutation: Mutation) -> pathlib.Path:
        """The file that says that a mutation was refused."""
        return STORE / hashlib.sha256(f"{self.base} {mutation.name} {mutation.file.read_text()}".encode()).hexdigest()

    def check(self, group: list[Mutation]) -> set[Goal]:
        """The goals that are open in a copy with these mutations."""
        with tempfile.TemporaryDirectory(prefix="mutations-") as room:
            copy = pathlib.Path(room)
            for part in PARTS:
                if (self.folder / part).is_dir():
                    shutil.copytree(self.folder / part, copy / part)
            for it in group:
                for path, text in it.changed_files(copy).items():
                    (copy / path).write_text(text)
            # Of the other functions only those that these call.
            only = [word for it in group for function in sorted(it.functions()) for word in ("--only", function.replace("/", "::"))]
            status, said = output([find_kit() / "bin" / "rattle", "check", *words_for(self.name), *only], copy)
        unread, last = UNREAD.search(said), said.rstrip().rpartition("\n")[2]
        if unread or not last.startswith("only=" if only else "logic=") or status not in (0, 1, 3):
            reason = unread[0] if unread else f"the check ended with status {status}: {last}"
            raise Failed(f"BAD MUTATION: {self.name}: no verdict with {' '.join(it.name for it in group)}: {reason}")
        return open_goals(said)

    def groups(self, mutations: list[Mutation]) -> list[list[Mutation]]:
        """Those that are tried in one copy each: none names a function or changes a line of another."""
        groups, alone = list[list[Mutation]](), [it for it in mutations if not it.stays_in_bodies(self.folder)]
        left = [it for it in mutations if it not in alone]
        while left:
            group, lines = list[Mutation](), set[tuple[str, str]]()
            for it in left:
                own = {(change.path, change.old) for change in it.changes}
                if not lines & own and not any(it.functions() & other.functions() for other in group):
                    group.append(it)
                    lines |= own
            groups.append(group)
            left = [it for it in left if it not in group]
        return [*groups, *([it] for it in alone)]

    def refused(self) -> tuple[list[Mutation], int]:
        """Those that are refused, and how many were tried in this run."""
        passed = [it for it in self.mutations if self.mark(it).exists()]
        new = [it for it in self.mutations if it not in passed]
        groups = self.groups(new)
        while groups:
            group, began = groups.pop(0), time.monotonic()
            found = self.check(group)
            seen = [it for it in group if it.goals <= found]
            rest = [it for it in group if it not in seen]
            print(f"{self.name}: {len(seen)} of {len(group)} refused, {time.monotonic() - began:.0f} s", *(it.name for it in rest), flush=True)
            for it in seen:
                self.mark(it).touch()
            passed += seen
            if len(group) > 1:
                groups += [rest] if seen and rest else [[it] for it in rest]
        return passed, len(new)

    def write_goals(self) -> tuple[list[Mutation], int]:
        """Tries each that names no goal, and writes the goals that it opens."""
        new = [it for it in self.mutations if not it.goals]
        for it in new:
            it.write(self.check([it]))
        return [it for it in self.mutations if it.goals], len(new)


def try_each(names: list[str]) -> tuple[int, int]:
    """Tries each alone, by the kit's own command on a copy of the crates, and returns how many there are and how many were refused."""
    with tempfile.TemporaryDirectory(prefix="mutations-") as room:
        copy = pathlib.Path(room)
        for it in ("crates.txt", "HANDLES"):
            shutil.copy(TOP / it, copy)
        for crate in read_crates():
            for part in (*PARTS, *(["mutations"] if crate in names else [])):
                if (TOP / "crates" / crate / part).is_dir():
                    shutil.copytree(TOP / "crates" / crate / part, copy / "crates" / crate / {"mutations": "must-fail"}.get(part, part))
        edits = len(list(copy.glob("crates/*/must-fail/*.edit")))
        status, said = output(["rt", "must-fail", *names], copy)
    print(said)
    refused = len(re.findall("refused, as it must be(?! [(]only)", said))
    if status != 0 and refused == edits:
        raise Failed(f"rt must-fail ended with status {status}")
    return edits, refused


def try_crate(name: str, given: argparse.Namespace) -> tuple[list[str], int, int]:
    """Those of a crate that aren't refused, how many there are, and how many were tried."""
    crate, uses = Crate(name), read_crates()
    crate.stop_on_bad(has_goals=not given.write)
    bring_libraries(name, uses, is_beside=given.beside)
    crate.base = hash_of_base(name, uses)
    passed, tried = crate.write_goals() if given.write else crate.refused()
    return [f"{name}/{it.name}" for it in crate.mutations if it not in passed], len(crate.mutations), tried


def run(given: argparse.Namespace) -> int:
    uses = read_crates()
    names = given.crates or sorted((it.parent.name for it in TOP.glob("crates/*/mutations")), key=lambda it: len(below(it, uses)))
    STORE.mkdir(parents=True, exist_ok=True)
    if given.each:
        count, refused = try_each(names)
        failed, tried = ["see above"] * (count - refused), count
    else:
        with concurrent.futures.ThreadPoolExecutor(given.jobs) as pool:
            results = list(pool.map(lambda it: try_crate(it, given), names))
        failed, count, tried = [it for names, _, _ in results for it in names], sum(it for _, it, _ in results), sum(it for _, _, it in results)
    for it in failed:
        print(f"NOT REFUSED: {it}: one of the goals that it names isn't open")
    if not count:
        raise Failed("there is no mutation")
    print(f"mutations: {tried} of {count} tried in this run, the others are kept")
    print(f"{count - len(failed)} passed, {len(failed)} failed")
    return 1 if failed else 0


def main() -> int:
    parser = argparse.ArgumentParser(description=(__doc__ or "").splitlines()[0])
    parser.add_argument("--each", action="store_true", help="try each alone, by rt must-fail")
    parser.add_argument("--write", action="store_true", help="try each that names no goal alone, and write the goals that it opens")
    parser.add_argument("--beside", action="store_true", help="wait for the libraries of rt ci, which runs at the same time")
    parser.add_argument("--jobs", type=int, default=1, help="how many crates are checked side by side")
    parser.add_argument("crates", nargs="*")
    try:
        return run(parser.parse_args())
    except Failed as reason:
        print(f"tools/mutations.py: {reason}", file=sys.stderr)
        return 1


if __name__ == "__main__":
    sys.exit(main())
