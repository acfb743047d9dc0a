"""What make check recorded of the programs and the archives that it passed: out/PROVED.txt.

usage: packaging/proved.py LOG..

Prints the record: the hashes of the sources of the programs and the archives, and those of the files that were built from them, the kit,
and the verdicts, which are in the files LOG. make record calls it once all parts have passed.
"""

from __future__ import annotations

import pathlib
import re
import sys

from tree import ARCHIVES, MACHINES, PROGRAMS, RECORD, TOP, Refused, run

BUILT = [*(file for it in PROGRAMS for file in (it.built, *map(it.object, MACHINES))), *ARCHIVES]
UNVERIFIED = "Not verified: these files were made from a tree that make check has not passed.\n"
MEANING = """\
Passed by make check. A line with logic=proved is a verdict of the prover: each function of the crate
meets its contract. The lines above it that end in "reached" name the functions of C whose contracts
it assumes (docs/TRUST.md of the sources). Each verdict stands below the log that it is from. Those of
rt_ci.log were proved from nothing, in this run or, of a crate that "is kept", in an earlier one on
the same machine and of the same files. The others are of what a release has: the programs and the
archive for x86-64 (target=x86_64-unknown-linux-gnu) and for 64-bit ARM
(target=aarch64-unknown-linux-gnu). They are compiled from the same sources, over what a check of the
same run kept (incremental=trusted). The compiler, LLVM, isn't proved, for either processor, and
neither is the C around the calls of the library and below the programs. All tests run on x86-64. For
64-bit ARM some of them run under an emulator (tests/released, with qemu).
"""


def sums(built: list[pathlib.Path]) -> list[str]:
    """A line for each file that was built."""
    return run("sha256sum", *(str(it.relative_to(TOP)) for it in built), cwd=TOP).splitlines()


def sources() -> list[str]:
    """A line for what each program and the archives are made from."""
    crates = [*(it.crate for it in PROGRAMS), "bpfcanon_c"]
    return [f"{run(TOP / 'capi' / 'sources', crate).strip()}  sources of {crate}" for crate in crates]


def verdicts(log: pathlib.Path) -> list[str]:
    """What a log says of each crate, below the name of the log. Of a log that was cut, or has a mutation that wasn't refused, there is none."""
    lines = log.read_text(errors="replace").splitlines()
    crate = re.fullmatch(r"mutations\.(\w+)\.log", log.name)
    if crate:
        count = len(list((TOP / "crates" / crate[1] / "mutations").glob("*.edit")))
        if not count or not lines or lines[-1] != f"{count} passed, 0 failed":
            raise Refused(f"{log.name} doesn't say that all {count} mutations of {crate[1]} are refused")
    found = [line for line in lines if re.search(r"^== |logic=proved|\sreached$|^rt: \w+ is kept:|tried in this run|\d+ passed, \d+ failed", line)]
    return [f"\n{log.name}:", *found] if found else []


def record(logs: list[pathlib.Path]) -> str:
    return "\n".join([MEANING, *sources(), *sums(BUILT), f"kit {run('rt', 'version').strip()}", *(line for log in logs for line in verdicts(log)), ""])


def check() -> str:
    """Raises if what is built isn't what make check passed. Returns the record."""
    text = RECORD.read_text()
    lines = text.splitlines()
    if not set(sources()) <= set(lines):
        raise Refused("the sources are not those that make check passed; run it again")
    for line in sums([it for it in BUILT if it.is_file()]):
        if line not in lines:
            raise Refused(f"{line.split()[1]} is not the one that make check passed; run it again")
    return text


if __name__ == "__main__":
    if len(sys.argv) < 2:
        sys.exit(__doc__)
    try:
        print(record(list(map(pathlib.Path, sys.argv[1:]))), end="")
    except Refused as reason:
        sys.exit(f"packaging/proved.py: {reason}")
