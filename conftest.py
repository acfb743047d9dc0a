"""The built command and the C library as fixtures, tools that a test needs, and the marks by which tests are chosen."""

import importlib
import os
import pathlib
import subprocess
import sys

import pytest

from tests import TOP
from tests.command import Program
from tests.needs import built, need

pytest_plugins = ["tests.pages.plugin"]
BUILT = TOP / "crates" / "bpfcanon" / "out" / "bpfcanon"
OBJECTS_BUILT = TOP / "crates" / "bpfcanon_object" / "out" / "bpfcanon_object"


def pytest_addoption(parser):
    parser.addoption("--program", type=pathlib.Path, default=BUILT, help="the built command")
    parser.addoption("--object-program", type=pathlib.Path, default=OBJECTS_BUILT, help="the built command on object files")
    parser.addoption("--prefix", type=pathlib.Path, default=TOP / "out" / "prefix", help="where the C library is installed")


def pytest_collection_modifyitems(items):
    for item in items:
        used = {"program", "object_program", "prefix", "release_folder"} & set(getattr(item, "fixturenames", ["program"]))
        for fixture, mark in ("program", "command"), ("object_program", "command"), ("prefix", "library"), ("release_folder", "release"):
            if fixture in used:
                item.add_marker(mark)
        if not used and not any(item.iter_markers("slow")):
            item.add_marker("quick")


def pytest_runtest_setup(item):
    need(*(tool for mark in item.iter_markers("needs") for tool in mark.args))


@pytest.fixture(scope="session")
def program(request):
    """The built command."""
    return Program(built(request.config.getoption("program"), "all"))


@pytest.fixture(scope="session")
def object_program(request):
    """Where the built command on object files is."""
    return built(request.config.getoption("object_program"), "all")


@pytest.fixture
def run(program):
    """Runs the command: a line of arguments, and its input."""
    return program.run


def preloaded(name, folder):
    """A shared object of tests/process, which is loaded before the C library."""
    need("cc")
    made = folder / f"{name}.so"
    subprocess.run(
        ["cc", "-O1", "-Wall", "-Wextra", "-shared", "-fPIC", "-o", made, TOP / "tests" / "process" / f"{name}.c", "-ldl"], check=True
    )
    return made


@pytest.fixture(scope="session")
def refusing(tmp_path_factory):
    """Refuses allocations of the process that it is loaded into."""
    return preloaded("refuse_allocation", tmp_path_factory.mktemp("refusing"))


@pytest.fixture(scope="session")
def failing(tmp_path_factory):
    """Has the calls of the process that it is loaded into move few bytes, or fail."""
    return preloaded("fail_calls", tmp_path_factory.mktemp("failing"))


@pytest.fixture(scope="session")
def prefix(request):
    """Where the C library is installed."""
    return built(request.config.getoption("prefix"), "all")


@pytest.fixture(scope="session")
def bpfcanon(prefix):
    """The package for Python, over the C library."""
    os.environ["BPFCANON_LIBRARY"] = f"{prefix}/lib/libbpfcanon.so.0"
    sys.path.insert(0, str(TOP / "bindings" / "python"))
    return importlib.import_module("bpfcanon")
