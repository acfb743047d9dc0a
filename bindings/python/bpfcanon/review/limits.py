"""How much the answer for one file, or for two that are compared, may take: a short file can be made that would take hours."""

from __future__ import annotations

import contextlib
import resource
import signal
from typing import Iterator

SECONDS = 10  # of processor time
MEMORY = 1 << 30  # bytes of the address space of the process


def end(*_: object) -> None:
    """Handle the signal of the timer."""
    raise TimeoutError(f"it takes more than {SECONDS} seconds of processor time")


@contextlib.contextmanager
def limited() -> Iterator[None]:
    """Raise TimeoutError, which is an OSError, in a block that takes too long, and MemoryError in one that needs too much memory."""
    soft, hard = resource.getrlimit(resource.RLIMIT_AS)
    signal.signal(signal.SIGPROF, end)
    signal.setitimer(signal.ITIMER_PROF, SECONDS)
    resource.setrlimit(resource.RLIMIT_AS, (MEMORY if soft == resource.RLIM_INFINITY else min(soft, MEMORY), hard))
    try:
        yield
    finally:
        signal.setitimer(signal.ITIMER_PROF, 0)
        resource.setrlimit(resource.RLIMIT_AS, (soft, hard))
