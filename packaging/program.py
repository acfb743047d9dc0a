#!/usr/bin/env python3
"""Proves a program and compiles it to an object, which packaging/dist.py links.

usage: packaging/program.py [--beside] NAME [PROCESSOR]

The object is out/NAME.o for x86_64, which is the default, and out/NAME.aarch64.o for aarch64. rt ci makes that for x86_64 too, but it doesn't
print all functions of C on whose contracts the verdict rests, which a release has to name (packaging/proved.py).
"""

from __future__ import annotations

import argparse
import pathlib
import sys

sys.dont_write_bytecode = True
sys.path.insert(0, str(pathlib.Path(__file__).resolve().parent.parent / "capi"))
from rattle import Failed, compile_crate  # noqa: E402
from tree import MACHINES, PROGRAMS  # noqa: E402


def main() -> int:
    programs = {it.crate: it for it in PROGRAMS}
    parser = argparse.ArgumentParser(description=(__doc__ or "").splitlines()[0])
    parser.add_argument("--beside", action="store_true", help="wait for the libraries of rt ci, which runs at the same time")
    parser.add_argument("name", choices=programs)
    parser.add_argument("processor", nargs="?", choices=MACHINES, default=MACHINES[0])
    given = parser.parse_args()
    program = programs[given.name]
    try:
        compile_crate(program.crate, given.processor, program.object(given.processor), given.beside)
    except (Failed, OSError) as reason:
        print(f"packaging/program.py: {reason}", file=sys.stderr)
        return 1
    return 0


if __name__ == "__main__":
    sys.exit(main())
