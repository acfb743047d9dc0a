"""docs/linux.tsv, and the command that has it, against clang: what each version of -mcpu writes."""

import subprocess

import pytest

from tests.command import SECONDS
from tests.needs import need
from tests.reference import linux_rows

# What each version of -mcpu is first to write: a comparison with less than, of 32 bits, an atomic operation whose former value is used, and
# sign extension, division, and swap of bytes.
SOURCE = """
typedef unsigned long long u64;
__attribute__((noinline)) u64 less(u64 a, u64 b) { return a < b ? a : 7; }
__attribute__((noinline)) long extend(signed char *a) { return *a; }
__attribute__((noinline)) u64 swap(u64 a) { return __builtin_bswap64(a); }
#if VERSION >= 3
__attribute__((noinline)) u64 fetch(u64 *a, u64 b) { return __sync_fetch_and_add(a, b); }
__attribute__((noinline)) int word(int a, int b) { return (a >> 3) > b ? b : 9; }
#endif
#if VERSION >= 4
__attribute__((noinline)) long divide(long a, long b) { return a / b; }
#endif
#if NEWER
static inline void loop(void) { asm volatile("may_goto +0"); }
int cast(int __attribute__((address_space(1))) *a) { loop(); return *(int *)a; }
#endif
"""
# The compilers, and the versions that they have.
COMPILERS = {"clang": (1, 2, 3), "clang-19": (1, 2, 3, 4)}
VERSIONS = [(compiler, version) for compiler, versions in COMPILERS.items() for version in versions]


def compiled(compiler, version, *flags):
    """The object file of the source."""
    need(compiler)
    line = [compiler, "-target", "bpf", f"-mcpu=v{version}", "-O2", f"-DVERSION={version}", f"-DNEWER={int(compiler != 'clang')}", *flags]
    return subprocess.run([*line, "-x", "c", "-c", "-", "-o", "-"], input=SOURCE.encode(), check=True, stdout=subprocess.PIPE).stdout


def code_of(made, tmp_path):
    need("llvm-objcopy")
    (tmp_path / "made.o").write_bytes(made)
    subprocess.run(["llvm-objcopy", "--dump-section", ".text=code", "made.o", "/dev/null"], cwd=tmp_path, check=True)
    return (tmp_path / "code").read_bytes()


@pytest.mark.parametrize("compiler, version", VERSIONS)
def test_clang(compiler, version, tmp_path):
    """clang writes what the rows of its version have, and what it is first to write is in the code."""
    found = {it.mcpu for it in linux_rows.rows_of(code_of(compiled(compiler, version), tmp_path))}
    assert max(found) == version


@pytest.mark.parametrize("compiler, version", VERSIONS)
def test_check(compiler, version, tmp_path, object_program):
    """The command accepts what clang writes for a version, and for an earlier one reports what the version is first to have."""
    (tmp_path / "made.o").write_bytes(compiled(compiler, version, "-g"))
    for target in range(1, 5):
        line = [object_program, "check", "--target", f"v{target}", "made.o"]
        ran = subprocess.run(line, cwd=tmp_path, capture_output=True, text=True, timeout=SECONDS)
        assert ran.returncode == int(target < version), ran.stderr
        assert ("needs -mcpu=v" in ran.stderr) == (target < version)
