"""Inputs of each kind, exceptions, names of causes and the library that is loaded."""

import array
import ctypes
import doctest
import importlib.util
import mmap
import os
import pathlib
import pickle
import re
import subprocess
import sys
import tempfile
import unittest
from typing import Any, Callable, Optional
from unittest import mock

import bpfcanon
from bpfcanon import BtfCause, FaultError, InsnCause, LineCause, ObjectCause, OrderError, OutOfMemoryError, _library
from bpfcanon.errors import error_of
from bpfcanon.header import Answer, Status

from .samples import INSNS, TESTDATA, TOP, load, unhex

PACKAGE = pathlib.Path(bpfcanon.__file__).resolve().parent.parent


class Inputs(unittest.TestCase):
    def test_each_kind_of_buffer_is_taken(self) -> None:
        program = unhex(INSNS[1][1])
        spread = bytes(byte for value in program for byte in (value, 0xEE))
        buffers: list[Any] = [program, bytearray(program), memoryview(program), memoryview(bytearray(program))]
        buffers += [memoryview(spread)[::2], memoryview(bytearray(spread))[::2]]
        buffers += [memoryview(b"....." + program)[5:], array.array("I", program), memoryview(array.array("I", program))]
        for buffer in buffers:
            self.assertEqual(bpfcanon.insn_canon(buffer), program)
        for empty in b"", bytearray(), memoryview(b""), memoryview(bytearray()):
            self.assertEqual(bpfcanon.insn_canon(empty), b"")

    def test_files_may_be_mapped(self) -> None:
        want = bpfcanon.btf_canon(load("flow_table.big.btf"))
        for access in mmap.ACCESS_READ, mmap.ACCESS_COPY:
            with open(TESTDATA / "flow_table.little.btf", "rb") as file, mmap.mmap(file.fileno(), 0, access=access) as mapped:
                self.assertEqual(bpfcanon.btf_canon(mapped), want)

    def test_an_input_can_be_changed_after_a_fault(self) -> None:
        program = bytearray(unhex("ff 00 0000 00000000"))
        try:
            bpfcanon.insn_canon(program)
        except FaultError as fault:
            program += b"more"
            self.assertEqual(fault.cause, InsnCause.OPCODE)
        self.assertEqual(len(program), 12)

    def test_what_is_no_buffer_is_refused(self) -> None:
        for value in "exit", None, 8, [1, 2]:
            for call in bpfcanon.insn_canon, bpfcanon.insn_groups, bpfcanon.btf_check, bpfcanon.Program, bpfcanon.Btf, bpfcanon.insns:
                with self.assertRaises(TypeError):
                    call(value)  # type: ignore[operator]
        # The pieces of a single buffer are numbers.
        for pieces in [["exit"], [None], [8], b"\x95", bytearray(8)]:
            with self.assertRaises(TypeError):
                list(bpfcanon.insn_stream(pieces))  # type: ignore[arg-type]

    def test_a_number_that_is_no_order_is_refused(self) -> None:
        types, streams = load("flow_table.big.btf"), [[], [bytes(3)], [bytes(8)]]
        orders: list[Any] = [2, -1, 1 << 31, (1 << 32) + 1, None, "big", b"\1", 1.5]
        for order in orders:
            calls: list[Callable[[], object]] = [
                lambda: bpfcanon.insn_canon(b"", order=order),
                lambda: bpfcanon.insn_encode([], to=order),
                lambda: bpfcanon.Program(b"", order=order),
                lambda: bpfcanon.insns(b"", order=order),
                lambda: bpfcanon.btf_canon(types, to=order),
                lambda: bpfcanon.btf_encode([], to=order),
                *(lambda pieces=it: next(bpfcanon.insn_stream(pieces, order=order)) for it in streams),
                *(lambda pieces=it: next(bpfcanon.insn_stream(pieces, to=order)) for it in streams),
            ]
            for call in calls:
                with self.assertRaises(OrderError):
                    call()


class Faults(unittest.TestCase):
    def test_a_fault_is_a_sentence(self) -> None:
        for fault, text in [
            (FaultError(InsnCause.OPCODE, 9), "byte 9: Opcode: no instruction has this opcode"),
            (FaultError(LineCause.WORD, line=2), "line 2: Word: no instruction has this mnemonic"),
            (FaultError(BtfCause.VERSION, 2, second=True), "second input: byte 2: Version: the version is not 1"),
        ]:
            self.assertEqual(str(fault), text)

    def test_a_fault_can_be_pickled(self) -> None:
        fault = pickle.loads(pickle.dumps(FaultError(BtfCause.VLEN, 40, second=True)))
        self.assertEqual((fault.cause, fault.offset, fault.line, fault.second), (BtfCause.VLEN, 40, 0, True))

    def test_exceptions_have_the_built_in_bases(self) -> None:
        for error, base in [(FaultError, ValueError), (OrderError, ValueError), (OutOfMemoryError, MemoryError)]:
            self.assertTrue(issubclass(error, base) and issubclass(error, bpfcanon.BpfcanonError), error)

    def test_causes_of_different_inputs_are_different(self) -> None:
        causes: list[object] = [InsnCause(2), LineCause(2), BtfCause(2), 2]
        self.assertEqual(len(set(causes)), 4)
        self.assertNotEqual(FaultError(InsnCause.OPCODE).cause, BtfCause.MAGIC)

    def test_a_number_that_is_no_cause_has_no_name(self) -> None:
        self.assertEqual([_library.string("line_cause_name", number) for number in (0, 5)], ["", ""])

    def test_statuses_become_exceptions(self) -> None:
        for status, error in [(Status.DONE, None), (Status.DIFFERENT, None), (Status.OUT_OF_MEMORY, OutOfMemoryError)]:
            raised = error_of(Answer(status), InsnCause)
            self.assertEqual(type(raised), error or type(None))
        self.assertIsNotNone(error_of(Answer(99), InsnCause))

    def test_a_cause_of_a_newer_library_is_a_fault(self) -> None:
        error = error_of(Answer(Status.FAULT, cause=99, offset=8), InsnCause)
        text = "byte 8: InsnCause(99): a cause that this version of the package doesn't know"
        self.assertEqual((isinstance(error, FaultError), str(error)), (True, text))
        with mock.patch.object(_library, "string", side_effect=lambda *words: f"{words} of the library"):
            error = error_of(Answer(Status.FAULT_SECOND, cause=99), BtfCause)
        assert isinstance(error, bpfcanon.UnknownCauseError)
        label, text = (f"('btf_cause_{it}', 99) of the library" for it in ("name", "text"))
        self.assertEqual((error.number, error.second, str(error)), (99, True, f"second input: byte 0: {label}: {text}"))

    def test_a_stream_counts_the_offset_of_an_unknown_cause_from_its_start(self) -> None:
        program = unhex(INSNS[1][1])
        answers = [
            (Answer(Status.DONE, read=8), bytearray(program[:8])),
            (Answer(Status.FAULT, cause=99, offset=1), bytearray()),
        ]
        with mock.patch.object(_library, "write", side_effect=answers):
            stream = bpfcanon.insn_stream([program[:8], program[:8]])
            self.assertEqual(next(stream), program[:8])
            with self.assertRaises(bpfcanon.UnknownCauseError) as raised:
                next(stream)
        self.assertEqual((raised.exception.number, raised.exception.offset), (99, 9))

    def test_causes_have_names_and_sentences(self) -> None:
        for kind in InsnCause, LineCause, BtfCause, ObjectCause:
            self.assertEqual([member.label.lower() for member in kind], [member.name.replace("_", "").lower() for member in kind])
            self.assertGreater(min(len(member.text) for member in kind), 10)


class Calls:
    """What ctypes makes of a library of some version: calls by their names."""

    def __init__(self, version: str) -> None:
        self.version = version

    def __getitem__(self, name: str) -> mock.Mock:
        return mock.Mock(return_value=self.version.encode())


class Library(unittest.TestCase):
    def load_with(self, path: str) -> "subprocess.CompletedProcess[str]":
        environment = {**os.environ, "BPFCANON_LIBRARY": path, "PYTHONPATH": str(PACKAGE)}
        words = [sys.executable, "-c", "import bpfcanon; print(bpfcanon.library_version())"]
        return subprocess.run(words, env=environment, capture_output=True, text=True, check=False)

    def test_the_library_has_the_version_of_the_package(self) -> None:
        self.assertEqual(bpfcanon.library_version(), bpfcanon.__version__)
        project = re.findall(r'^version = "(.*)"$', (PACKAGE / "pyproject.toml").read_text(), re.MULTILINE)
        header = re.findall(r'^#define BPFCANON_VERSION "(.*)"$', (TOP / "capi" / "bpfcanon.h").read_text(), re.MULTILINE)
        self.assertEqual(project + header, 2 * [bpfcanon.__version__])

    def test_a_library_that_is_missing_is_named(self) -> None:
        with tempfile.TemporaryDirectory() as folder:
            done = self.load_with(f"{folder}/none.so")
        self.assertNotEqual(done.returncode, 0)
        self.assertIn("none.so", done.stderr)
        self.assertIn("BPFCANON_LIBRARY", done.stderr)

    def test_another_library_is_refused(self) -> None:
        self.addCleanup(_library.library.cache_clear)
        _library.library.cache_clear()
        program = ctypes.CDLL(None)  # this interpreter, which has none of the calls
        with mock.patch("ctypes.CDLL", return_value=program), self.assertRaisesRegex(OSError, "can't be loaded .*bpfcanon_version"):
            bpfcanon.library_version()

    def test_a_library_of_another_version_is_refused(self) -> None:
        self.addCleanup(_library.library.cache_clear)
        taken = [("0.0.9", False), ("0.1.0", True), ("0.1.12", True), ("0.2.0", True), ("0.10.0", True), ("1.0.0", False), ("1.1.0", False)]
        for version, is_taken in taken:
            _library.library.cache_clear()
            with mock.patch("ctypes.CDLL", return_value=Calls(version)):
                if is_taken:
                    self.assertEqual(bpfcanon.library_version(), version)
                else:
                    with self.assertRaisesRegex(OSError, f"version {version}, .* needs 0.1 or a later 0.x"):
                        bpfcanon.library_version()

    def test_the_library_that_is_loaded(self) -> None:
        """The one that BPFCANON_LIBRARY names, or else the one beside the package, or else the one that the loader finds."""
        self.addCleanup(_library.library.cache_clear)
        with tempfile.TemporaryDirectory() as name:
            folder = pathlib.Path(name)
            (folder / "wheel").mkdir()
            (folder / "tree").mkdir()
            beside = folder / "wheel" / _library.NAME
            beside.touch()
            rows: list[tuple[str, Optional[str], str]] = [("wheel", "/own.so", "/own.so"), ("tree", "/own.so", "/own.so")]
            rows += [("wheel", "", str(beside)), ("wheel", None, str(beside)), ("tree", "", _library.NAME), ("tree", None, _library.NAME)]
            for place, named, path in rows:
                _library.library.cache_clear()
                package = mock.patch.object(_library, "__file__", str(folder / place / "_library.py"))
                with package, mock.patch.dict(os.environ), mock.patch("ctypes.CDLL", return_value=Calls("0.1.0")) as loaded:
                    os.environ.pop("BPFCANON_LIBRARY", None)
                    os.environ.update({} if named is None else {"BPFCANON_LIBRARY": named})
                    _library.library()
                self.assertEqual(loaded.call_args.args, (path,), (place, named))

    def test_each_exported_name_is_there(self) -> None:
        for name in bpfcanon.__all__:
            self.assertTrue(hasattr(bpfcanon, name) and name in dir(bpfcanon), name)


@unittest.skipUnless(importlib.util.find_spec("elftools"), "pyelftools")
class Readme(unittest.TestCase):
    def test_the_examples_print_what_the_readme_shows(self) -> None:
        ran = doctest.testfile(str(PACKAGE / "README.md"), module_relative=False)
        self.assertGreater(ran.attempted, 5)
        self.assertEqual(ran.failed, 0)


if __name__ == "__main__":
    unittest.main()
