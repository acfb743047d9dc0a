"""Tests the calls on object files against each row of testdata/objects/objects.tsv. testdata/README.md describes the columns."""

import hashlib
import unittest
from typing import Callable

from bpfcanon import BtfCause, Cause, FaultError, ObjectCause, objects

from .samples import TESTDATA

FOLDER = TESTDATA / "objects"


def rows(kind: str) -> list[tuple[str, bytes, list[str]]]:
    """The files of a kind, with their bytes and the other fields."""
    lines = [line.split("\t") for line in (FOLDER / "objects.tsv").read_text().splitlines()]
    found = [(file, (FOLDER / file).read_bytes(), fields) for of, file, *fields in (it for it in lines if it[0] == kind)]
    assert found, f"no row of {kind}"
    return found


def cause_of(name: str) -> Cause:
    """The cause of a name: that in brackets is one of BTF."""
    named: dict[str, Cause] = {it.label: it for it in ObjectCause}
    named.update((f"Types({it.label})", it) for it in BtfCause)
    return named[name]


class ObjectVectors(unittest.TestCase):
    def test_objects(self) -> None:
        before = rows("object")[-1]
        for row in rows("object"):
            file, data, (key,) = row
            with self.subTest(file=file):
                canonical = objects.canon(data)
                self.assertEqual(hashlib.sha256(canonical).hexdigest(), key)
                self.assertEqual(objects.key(data).hex(), key)
                self.assertEqual(objects.canon(canonical), canonical)
                objects.check(data)
                self.assertTrue(objects.same(data, canonical))
                self.assertEqual(objects.same(before[1], bytearray(data)), before[2] == [key])
            before = row

    def test_faulty_objects(self) -> None:
        good = rows("object")[0][1]
        for file, content, (length, pos, cause) in rows("object-fault"):
            data = content.ljust(int(length.replace("-", "0")), b"\0")
            with self.subTest(file=file):
                calls: list[Callable[[bytes], object]] = [objects.canon, objects.key, objects.check, lambda it: objects.same(it, good)]
                for call in calls:
                    self.fault(call, data, cause_of(cause), int(pos), 0, False)
                self.fault(lambda it: objects.same(good, it), data, cause_of(cause), int(pos), 0, True)

    def fault(self, call: Callable[[bytes], object], data: bytes, *args: object) -> None:
        with self.assertRaises(FaultError) as raised:
            call(data)
        self.assertEqual(raised.exception.args, args)


if __name__ == "__main__":
    unittest.main()
