"""Loaders read the canonical file like the original, and a canonical file is accepted and canonical."""

from __future__ import annotations

import pytest

from tests import object_vectors
from tests.objects.conftest import Canon, Tally, each
from tests.objects.files import WITHOUT_RECORDS, all_made
from tests.objects.loaders import Loader, is_accepted


@pytest.mark.slow
def test_loader_loads(loader: Loader) -> None:
    """A loader that refuses all objects, because the stand-in for bpf(2) lacks a call of it, would tell no two apart."""
    view = loader.view((object_vectors.FOLDER / "packet_filter.little.typed.o").read_bytes())
    assert is_accepted(view) and (loader.name == "cilium" or b"\nload 0\n" in view)


@each(all_made())
def test_loader_reads_the_same(loader: Loader, made: bytes, canon: Canon, tally: Tally) -> None:
    one, other = loader.view(made), loader.view(canon(made))
    word = "accepted" if is_accepted(one) else "refused"
    tally[loader.name].update([f"the same, {word}" if one == other else "other"])
    assert one.decode() == other.decode()


@each(WITHOUT_RECORDS)
def test_part_without_records(loader: Loader, made: bytes, canon: Canon) -> None:
    """libbpf reads the same, and cilium/ebpf reads the canonical file alone."""
    one, other = loader.view(made), loader.view(canon(made))
    assert is_accepted(other) and (one == other or loader.name == "cilium" and not is_accepted(one))


@each([*all_made(), *WITHOUT_RECORDS])
def test_canonical_file_is_canonical(made: bytes, canon: Canon) -> None:
    canonical = canon(made)
    assert canon(canonical) == canonical
    assert canonical[:8] == b"\x7fELF\x02" + made[5:7] + b"\0"
