"""The tests of the packages for Go, Rust and Python, over the shared C library and over the static one."""

import pytest

from tests import TOP

IN_GO, IN_RUST = pytest.mark.xdist_group("go"), pytest.mark.xdist_group("rust")


@IN_GO
def test_go(go):
    assert "FAIL" not in go.run("go vet ./... && go test -count=1 ./...")


@IN_GO
def test_go_static(go, static):
    """With the pointers checked that are passed to C."""
    settings = "if GOEXPERIMENT=cgocheck2 go version; then export GOEXPERIMENT=cgocheck2; else export GODEBUG=cgocheck=2; fi"
    path = {"PKG_CONFIG_PATH": f"{static}/lib/pkgconfig", "LD_LIBRARY_PATH": ""}
    assert "FAIL" not in go.run(f"{settings}; go test -count=1 -gcflags=-d=checkptr ./...", **path)


@IN_GO
def test_go_races(go):
    """Goroutines that share decoded values and inputs."""
    assert "FAIL" not in go.run("go test -race -count=1 -run Goroutines .")


@IN_RUST
def test_rust(rust):
    assert "test result: ok" in rust.run("cargo test")


@IN_RUST
def test_rust_static(rust, static):
    own = {"BPFCANON_LIB_DIR": f"{static}/lib", "PKG_CONFIG_PATH": "", "LD_LIBRARY_PATH": ""}
    assert "test result: ok" in rust.run("cargo test", **own)


@IN_RUST
def test_rust_docs(rust):
    assert "error" not in rust.run("cargo doc --quiet --no-deps", RUSTDOCFLAGS="-D warnings")


@IN_RUST
@pytest.mark.needs("cargo-clippy")
def test_rust_lints(rust):
    assert "error" not in rust.run("cargo clippy --quiet --all-targets -- -D warnings")


def test_python(python):
    """With Debian's Python, which has pyelftools, some tests compare with that."""
    assert "\nOK" in python.run('"$PYTHON" -B -m unittest')


def test_python_soname(python, prefix):
    """Without BPFCANON_LIBRARY, the loader finds the library by its soname."""
    line = 'unset BPFCANON_LIBRARY; "$PYTHON" -B -c "import bpfcanon; assert bpfcanon.library_version() == bpfcanon.__version__"'
    assert python.run(line, LD_LIBRARY_PATH=f"{prefix}/lib") == ""


@pytest.mark.needs("elftools", "pip", "setuptools", "wheel")
def test_python_install(python, tmp_path):
    """The package as pip installs it has its type hints and its command."""
    options = "--quiet --disable-pip-version-check --no-index --no-deps --no-build-isolation"
    line = f"cp -R . {tmp_path}/own && cd {tmp_path} && /usr/bin/python3 -m pip install {options} --target site ./own && test -f site/bpfcanon/py.typed"
    python.run(line, PIP_ROOT_USER_ACTION="ignore")
    line = f'cd {tmp_path} && /usr/bin/python3 -c "import bpfcanon; bpfcanon.insn_canon(bytes())" && /usr/bin/python3 site/bin/bpfcanon-review list {TOP}/bindings/python/tests/compiled/flows.big.elf'
    assert python.run(line, PYTHONPATH=f"{tmp_path}/site").endswith("flows.big.elf: xdp count_flows\n")
