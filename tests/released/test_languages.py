"""The Rust crate, the Go module and the wheel, each by the lines of a README, in a folder whose path has a blank."""

import shutil

import pytest

from tests import TOP
from tests.needs import need
from tests.released.use import CANONICAL, COMMANDS, OBJECT, PYTHON, TYPES, block_of, lines_of, output

PACKAGE = '[package]\nname = "canon"\nversion = "0.1.0"\nedition = "2021"\n'
RUST = """use std::io::{stdin, stdout, Read, Write};
fn main() -> Result<(), Box<dyn std::error::Error>> {
    let mut types = vec![];
    stdin().read_to_end(&mut types)?;
    Ok(stdout().write_all(&bpfcanon::btf::canon(bpfcanon::Order::Little, &types)?)?)
}
"""
GO = """package main
import ("bpfcanon"; "io"; "os")
func main() {
	types, _ := io.ReadAll(os.Stdin)
	canonical, _ := bpfcanon.CanonBTF(bpfcanon.Little, types)
	os.Stdout.Write(canonical)
}
"""
OFF = {"GOENV": "off", "GOFLAGS": "", "GOWORK": "off", "GOPROXY": "off", "GOTOOLCHAIN": "local", "CGO_ENABLED": "1", "PKG_CONFIG": "false"}
OFF |= {"CARGO_NET_OFFLINE": "true", "LD_LIBRARY_PATH": "", "RUSTFLAGS": "", "PKG_CONFIG_PATH": ""}


@pytest.fixture
def project(release_folder, tmp_path):
    """A folder with the files of the release."""
    return shutil.copytree(release_folder, tmp_path / "two words")


def page(language):
    return TOP / "bindings" / language / "README.md"


def test_crate(project):
    """With the static library, as the page says, and with the shared one."""
    need("cargo")
    (project / "Cargo.toml").write_text(PACKAGE + block_of(page("rust"), "toml"))
    (project / "src").mkdir()
    (project / "src" / "main.rs").write_text(RUST)
    build = "cargo build --quiet; LD_LIBRARY_PATH=$BPFCANON_LIB_DIR target/debug/canon <$FILE"
    script = f'{block_of(page("rust"), "sh")}{build}; ! readelf -d target/debug/canon | grep libbpfcanon; unset BPFCANON_STATIC; {build}'
    own = OFF | {"CARGO_HOME": f"{project}/cargo", "FILE": str(TYPES)}
    assert output("bash", "-euc", script, cwd=project, env=own) == 2 * CANONICAL


def test_go_module(project):
    """A program runs, also for ARM; the examples of the module run, and the tag leads to pkg-config."""
    need("go")
    (project / "main.go").write_text(GO)
    own = OFF | {"GOCACHE": f"{project}/cache", "GOPATH": f"{project}/path"}
    output("sh", "-euc", f"{block_of(page('go'), 'sh')} go vet bpfcanon/...; go build -o canon .", cwd=project, env=own)
    assert output(project / "canon", given=TYPES) == CANONICAL
    script = "cd bpfcanon-go-*/; go test -count=1 . >&2; for tag in none bpfcanon_system"
    asked = output("sh", "-euc", f"{script}; do go list -tags $tag -f '{{{{.CgoPkgConfig}}}}' ./internal/capi; done", cwd=project, env=own)
    assert asked == b"[]\n[bpfcanon]\n"
    need("qemu-aarch64")
    output("go", "build", "-o", "arm64", ".", cwd=project, env=own | {"CC": "aarch64-linux-gnu-gcc", "GOARCH": "arm64"})
    assert output("qemu-aarch64", "-L", "/usr/aarch64-linux-gnu", project / "arm64", given=TYPES) == CANONICAL


def test_wheel(project):
    """In a venv, without any other package: test_debian.py has it only where chroots can be made."""
    need("ensurepip")
    own = {"PIP_NO_INDEX": "1", "BPFCANON_LIBRARY": "", "PYTHONPATH": ""}
    output("sh", "-euc", "".join(lines_of(project / "README", "*.whl")), cwd=project, env=own)
    folder = project / "bpfcanon-venv" / "bin"
    assert output(folder / "python", "-c", PYTHON, given=OBJECT, env=own) == COMMANDS["bpfcanon-object"][2]
    assert b", library " in output(folder / "bpfcanon-review", "--version", env=own)
