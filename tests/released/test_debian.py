"""The archive for x86-64, the sources, the packages and the wheel on an older and the present Debian, by the lines of the README.

A user with a strict umask, in a folder whose path has a blank, becomes root for the lines with sudo.
"""

import re
import shlex
import shutil
import subprocess

import pytest

from tests import TOP
from tests.needs import need
from tests.released.conftest import SUITES
from tests.released.use import CANON_C, CANONICAL_OBJECT, COMMANDS, OBJECT, PYTHON, block_of, lines_of

HOME = "home/some user"
ENVIRONMENT = {"PATH": "/usr/local/sbin:/usr/local/bin:/usr/sbin:/usr/bin:/sbin:/bin", "LC_ALL": "C.UTF-8", "HOME": f"/{HOME}", "PIP_NO_INDEX": "1"}
ROOT, USER, ANYBODY = 0, 1000, 65534
PACKAGES = "bpfcanon libbpfcanon0 libbpfcanon-dev python3-bpfcanon"
LINK = "flags=$(pkg-config --cflags --libs bpfcanon); eval cc canon.c $flags -o shared; eval cc -static canon.c $flags -o static"


class Chroot:
    def __init__(self, root, release):
        self.root, self.page = root, release / "README"
        self.version = re.match(r"bpfcanon (.*)\n", self.page.read_text())[1]
        shutil.copytree(release, root / HOME / "release")
        (root / HOME / "release" / "canon.c").write_text(CANON_C)
        subprocess.run(["chown", "-R", f"{USER}:{USER}", root / HOME], check=True)

    def run(self, script, user=USER, given=None):
        """What a shell prints, whose lines all succeed."""
        words = ["chroot", f"--userspec={user}:{user}", "--groups=", self.root, "sh", "-euc", f"umask 077; cd '/{HOME}/release'; {script}"]
        done = subprocess.run(words, input=given.read_bytes() if given else b"", env=ENVIRONMENT, capture_output=True)
        assert done.returncode == 0, f"{script}\n{done.stdout.decode()}{done.stderr.decode()}"
        return done.stdout

    def follow(self, part):
        """Runs the lines of a part of the page."""
        for line in lines_of(self.page, part):
            self.run(line.removeprefix("sudo "), ROOT if line.startswith("sudo ") else USER)

    def is_installed(self):
        """Anybody gets the right answers of the commands, and the user those of programs over the library, shared and static."""
        self.run(LINK)
        answers = [self.run(shlex.join([name, *words]), ANYBODY, given) == right for name, (words, given, right) in COMMANDS.items()]
        return all(answers) and self.run("./shared", given=OBJECT) == self.run("./static", given=OBJECT) == CANONICAL_OBJECT

    def is_usable(self, python, folder=""):
        """The package gives the right key, and its command has the version of the package and that of the library."""
        said = self.run(f"{folder}bpfcanon-review --version").decode()
        right = COMMANDS["bpfcanon-object"][2]
        return self.run(f"{folder}{python} -c {shlex.quote(PYTHON)}", given=OBJECT) == right and said == f"bpfcanon-review {self.version}, library {self.version}\n"

    def files(self):
        """What is there, with modes, owners and targets, but what Python has compiled."""
        found = "find /etc /opt /usr /var/lib/dpkg/info -not -path '*__pycache__*' -not -name ld.so.cache -printf '%M %u %g %p %l\\n'"
        return sorted(self.run(found, ROOT).splitlines())


@pytest.fixture(scope="module", params=SUITES)
def chroot(request, chroots, release_folder):
    root, making = chroots[request.param]
    if making.wait() != 0:
        pytest.skip(f"the mirror has no {request.param}")
    yield Chroot(root, release_folder)
    shutil.rmtree(root)


def test_packages(chroot):
    before = chroot.files()
    chroot.follow("*.deb")
    assert chroot.is_installed() and chroot.is_usable("python3")
    assert chroot.run("find /usr/share/doc/*bpfcanon* ! -readable") == chroot.run(f"dpkg -V {PACKAGES}", ROOT) == b""
    chroot.run(f"dpkg --purge {PACKAGES}", ROOT)
    assert chroot.files() == before


def test_sources(chroot):
    """The library in the user's own folder, without Rattle."""
    chroot.follow(f"bpfcanon-source-{chroot.version}.tar.xz")
    chroot.run(f'export PKG_CONFIG_PATH="$HOME/.local/lib/pkgconfig"; {LINK}')
    assert chroot.run('LD_LIBRARY_PATH="$HOME/.local/lib" ./shared', given=OBJECT) == chroot.run("./static", given=OBJECT) == CANONICAL_OBJECT


def test_wheel(chroot):
    """By the lines of the page, and that of the README of the package."""
    chroot.follow("*.whl")
    chroot.run(f". bpfcanon-venv/bin/activate; {block_of(TOP / 'bindings' / 'python' / 'README.md', 'sh')}")
    assert chroot.is_usable("python", "bpfcanon-venv/bin/") and chroot.run("ls bpfcanon-venv/share/man/man1") == b"bpfcanon-review.1\n"


def test_archive(chroot):
    chroot.follow(f"bpfcanon-{chroot.version}-x86_64-linux.tar.xz")
    assert chroot.is_installed() and chroot.run("pkg-config --modversion bpfcanon").decode() == f"{chroot.version}\n"
    assert chroot.run("find /usr/local ! -readable") == b""


def test_lintian(release_folder):
    need("lintian")
    how = ["lintian", "--tag-display-limit", "0", "--suppress-tags", "initial-upload-closes-no-bugs"]
    said = subprocess.run([*how, *release_folder.glob("*.deb")], stdout=subprocess.PIPE, stderr=subprocess.STDOUT, text=True).stdout
    assert re.findall("^[EW]:.*", said, re.MULTILINE) == []
