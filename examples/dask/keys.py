"""Counts how many object files below a folder have the same key, on the workers of a Dask cluster.

usage: keys.py FOLDER [SCHEDULER]

The exit status is 0 if each file has a key, else 1.
"""

from __future__ import annotations

import sys
from pathlib import Path

import dask.bag
from bpfcanon import BpfcanonError, objects
from distributed import Client

LOCAL = {"n_workers": 2, "threads_per_worker": 1, "processes": False, "dashboard_address": None}


def key(path: str) -> tuple[bool, str]:
    """Whether a file that the worker reads has a key, and the key or why it has none."""
    try:
        data = Path(path).read_bytes()
    except OSError as error:
        return False, f"not read: {error.strerror}"
    try:
        return True, objects.key(data).hex()
    except BpfcanonError as error:
        return False, f"refused: {error}"


def main() -> int:
    folder, *scheduler = sys.argv[1:]
    with Client(*scheduler) if scheduler else Client(**LOCAL):
        paths = dask.bag.from_sequence(sorted(map(str, Path(folder).rglob("*.o"))))
        counted = sorted(paths.map(key).frequencies().compute())
    for (_, text), count in counted:
        print(count, text)
    return int(not all(has_key for (has_key, _), _ in counted))


if __name__ == "__main__":
    sys.exit(main())
