"""The scripts of examples/signing write the canonical file that was signed with the right key, or nothing."""

from __future__ import annotations

from pathlib import Path

import pytest

from tests import TOP
from tests.examples.conftest import Page, Place
from tests.needs import need

# Each script with what precedes the object on its command line.
SCRIPTS = {
    "ssh": "examples/signing/verify_ssh signers release@example.org signed.o.sig",
    "openssl": "examples/signing/verify_openssl public.pem signed.signature",
}
SSH_SIGN, OPENSSL_SIGN = "ssh-keygen -q -Y sign", "openssl pkeyutl -sign -rawin -in signed.o"
# By a script: what makes a wrong signature or key, and which words of the command line it stands for.
WRONG = {
    "ssh, another key": (
        f"ssh-keygen -q -t ed25519 -N '' -f other && {SSH_SIGN} -f other -n bpfcanon < signed.o > wrong",
        "signed.o.sig",
        "wrong",
    ),
    "ssh, a key of ECDSA": (f"ssh-keygen -q -t ecdsa -N '' -f ec && {SSH_SIGN} -f ec -n bpfcanon < signed.o > wrong", "signed.o.sig", "wrong"),
    "ssh, for another use": (f"{SSH_SIGN} -f release -n file < signed.o > wrong", "signed.o.sig", "wrong"),
    "ssh, another signer": ("true", "release@example.org", "other@example.org"),
    "openssl, another key": (
        f"openssl genpkey -algorithm ed25519 -out other.pem && {OPENSSL_SIGN} -inkey other.pem -out wrong",
        "signed.signature",
        "wrong",
    ),
    "openssl, a key of ECDSA": (
        "openssl genpkey -algorithm EC -pkeyopt ec_paramgen_curve:P-256 -out ec.pem && openssl pkey -in ec.pem -pubout -out wrong.pem && "
        f"{OPENSSL_SIGN} -inkey ec.pem -out wrong.signature",
        "public.pem signed.signature",
        "wrong.pem wrong.signature",
    ),
}


@pytest.fixture(scope="module")
def place(object_program: Path, tmp_path_factory: pytest.TempPathFactory) -> Place:
    """The folder after the commands of the page."""
    need("bash", "clang", "ssh-keygen", "openssl")
    made = Place(tmp_path_factory.mktemp("signing"), object_program)
    done = made.follow(Page.read(TOP / "examples" / "signing" / "README.md").commands)
    assert done.returncode == 0, done.stderr
    return made


@pytest.mark.parametrize("wrong", WRONG)
def test_wrong_signature(wrong: str, place: Place) -> None:
    commands, right, other = WRONG[wrong]
    line = SCRIPTS[wrong.partition(",")[0]]
    assert place.follow(f"{line} packets.o out.o && cmp out.o signed.o && rm out.o && {commands}").returncode == 0
    assert right in line
    assert place.run(*line.replace(right, other).split(), "packets.o", "out.o").returncode != 0
    assert list(place.folder.glob("out.o*")) == []


@pytest.mark.parametrize("script", SCRIPTS)
def test_object_that_changes(script: str, place: Place) -> None:
    """It is another one as soon as it was read."""
    (place.folder / "changing").mkdir(exist_ok=True)
    program = place.folder / "changing" / "bpfcanon-object"
    program.write_text('#!/bin/sh -e\nbin/bpfcanon-object "$@"\ncp errors.o changing.o\n')
    program.chmod(0o755)
    done = place.follow(f"cp packets.o changing.o && PATH=changing:$PATH {SCRIPTS[script]} changing.o out.o && cmp out.o signed.o && rm out.o")
    assert done.returncode == 0, done.stderr
