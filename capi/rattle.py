"""How the crates are compiled for a release, for each processor: over the libraries that rt has proved and built.

rt ci builds no static library, and links a program with the C library of this machine. Here the compiler is called with the options that
rt would pass, and those of a processor. It proves the crate itself over what an earlier check of this checkout kept, and prints its verdict.
"""

from __future__ import annotations

import pathlib
import re
import shutil
import subprocess
import time

TOP = pathlib.Path(__file__).resolve().parent.parent
# The options of rattle for a processor. x86-64-v2, for which rt compiles too, has POPCNT and PSHUFB, without which canonical BTF takes 5 %
# more time and a change of byte order 29 %; capi/processor.c refuses older ones. For ARM it is the first model.
PROCESSORS = {
    "x86_64": ["--target", "x86_64-unknown-linux-gnu", "--cpu", "x86-64-v2"],
    "aarch64": ["--target", "aarch64-unknown-linux-gnu", "--cpu", "generic"],
}


class Failed(Exception):
    """Why nothing is built: one sentence."""


def read_crates() -> dict[str, list[str]]:
    """The libraries that each crate uses, by crates.txt. Libraries that it doesn't list are the kit's."""
    rows = (line.partition("#")[0].partition(":") for line in (TOP / "crates.txt").read_text().splitlines())
    return {head.split()[0]: uses.replace(",", " ").split() for head, _, uses in rows if head.strip()}


def below(name: str, uses: dict[str, list[str]]) -> list[str]:
    """The repository's libraries that a crate uses, directly or not, each after those that it uses itself."""
    own = [it for it in uses[name] if it in uses]
    return list(dict.fromkeys(lower for it in own for lower in [*below(it, uses), it]))


def library(name: str) -> pathlib.Path:
    return TOP / "crates" / name / "out" / "rlib" / f"{name}.rlib"


def is_static(name: str) -> bool:
    return bool(re.search(f"^{name} staticlib", (TOP / "crates.txt").read_text(), re.MULTILINE))


def kept_work(name: str) -> pathlib.Path:
    """The folder of what checks of a crate have proved, over which the next one begins."""
    return TOP / "out" / "kept" / name


def is_left_by_ci(name: str, uses: dict[str, list[str]]) -> bool:
    """Whether rt ci has proved a library since make prove wrote out/sources, and no source has changed since."""
    began, log = TOP / "out" / "sources", TOP / "out" / "rt_ci.log"
    if not began.is_file() or not log.is_file() or (library(name).parent / "stamp").exists():
        return False
    folders = [TOP / "crates" / crate / part for crate in [name, *below(name, uses)] for part in ("src", "specs", "proofs")]
    sources = [TOP / "crates.txt", *(it for folder in folders for it in folder.rglob("*") if it.is_file())]
    is_newer = began.stat().st_mtime > max(it.stat().st_mtime for it in sources)
    return is_newer and bool(re.search(rf"^rt: {name} (proved$|is kept:)", log.read_text(errors="replace"), re.MULTILINE))


def find_kit() -> pathlib.Path:
    if not shutil.which("rt"):
        raise Failed("there is no rt, which proves and compiles the crates")
    done = subprocess.run(["rt", "doc"], stdout=subprocess.PIPE, text=True)
    if done.returncode != 0 or not done.stdout.strip():
        raise Failed("rt doc failed, which prints where Rattle's kit is")
    return pathlib.Path(done.stdout.strip()).parent


def bring_libraries(crate: str, uses: dict[str, list[str]], is_beside: bool = False) -> None:
    """Proves and builds the libraries below a crate, unless rt ci has just left them; is_beside: waits for those of rt ci, which still runs.

    rt accepts a library only with a stamp, which says what sources it was built from, and rt ci writes none. A library without a
    stamp is therefore accepted here if rt ci has said since it began that it is proved. If one isn't, rt decides: it knows
    which stamps are right, and proves what isn't. This needs up to 25 minutes.
    """
    while others := [it for it in below(crate, uses) if not is_left_by_ci(it, uses)]:
        if not is_beside:
            break
        if (TOP / "out" / "proved").exists():
            raise Failed(f"rt ci ended without {', '.join(others)}")
        time.sleep(1)
    if not others:
        return
    print(f"rt builds the libraries below {crate}, as rt ci hasn't just left {', '.join(others)}", flush=True)
    if subprocess.run(["rt", "check", "--only", ""], cwd=TOP / "crates" / crate).returncode != 0:
        raise Failed(f"the libraries below {crate} aren't built")


def words_for(crate: str) -> list[str | pathlib.Path]:
    """The words with which rt has the prover read a crate, over the libraries that are built."""
    kit, uses = find_kit(), read_crates()
    root = next(it for it in ("src/main.rt", "src/lib.rt") if (TOP / "crates" / crate / it).is_file())
    words: list[str | pathlib.Path] = ["--crate-name", crate, root]
    for name in ["std", *uses[crate]]:
        words += ["--extern", f"{name}={library(name) if name in uses else kit / 'rlibs' / f'{name}.rlib'}"]
    for folder in [kit / "rlibs", *(library(it).parent for it in below(crate, uses))]:
        words += ["-L", f"dependency={folder}"]
    words += ["--antt-project", kit / "rattle" / "logic" / "antt-project.json", "--logic-built", kit / "logic_built", "--links", f"{crate}="]
    kept_work(crate).mkdir(parents=True, exist_ok=True)
    words += ["--incremental", kept_work(crate)]
    return [*words, *(["--crate-type", "staticlib"] if is_static(crate) else [])]


def compile_crate(crate: str, processor: str, target: pathlib.Path, is_beside: bool = False) -> None:
    """Proves a crate, over what earlier checks kept of it, and compiles it to a static library, or to the object of a program."""
    kit = find_kit()
    bring_libraries(crate, read_crates(), is_beside)
    words: list[str | pathlib.Path] = [kit / "bin" / "rattle", "build", *words_for(crate), "--list-axioms"]
    # A second job shortens the longest way of the gate after a change of a program, and costs little where others run beside.
    words += ["--jobs", "2", "--toolchain", kit / "toolchain", "--backend", "llvm", *PROCESSORS[processor]]
    if subprocess.run([*words, "-o", target], cwd=TOP / "crates" / crate).returncode != 0:
        raise Failed(f"{crate} isn't built for {processor}")


def hash_of_sources(crate: str) -> str:
    if not shutil.which("sha256sum"):
        raise Failed("there is no sha256sum")
    done = subprocess.run([TOP / "capi" / "sources", crate], stdout=subprocess.PIPE, text=True)
    if done.returncode != 0:
        raise Failed("the sources can't be read")
    return done.stdout
