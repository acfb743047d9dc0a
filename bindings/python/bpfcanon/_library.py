"""The calls of bpfcanon.h through ctypes: the library, pointers to inputs, output buffers."""

import ctypes
import functools
import mmap
import os
import pathlib
from typing import Any, Callable, Union

from .header import Answer, Order, Status

# What calls accept as bytes: see pointer_to.
Buffer = Union[bytes, bytearray, memoryview, mmap.mmap]

NAME = "libbpfcanon.so.0"
# The oldest version of the library with the calls below. Later versions with the same major number, which is also in NAME, have
# them too.
OLDEST = (0, 1)

# A number that is no byte order, for which a call returns Status.ORDER.
NO_ORDER = 2

# The arguments of each call, and what C takes for each of them.
_ORDER = [ctypes.c_uint32]
_BYTES = [ctypes.c_void_p, ctypes.c_size_t]
_BLOCK: list[Any] = [ctypes.POINTER(ctypes.c_void_p)]
_RECORDS, _COUNT = [ctypes.c_void_p], [ctypes.c_size_t]
_CALLS: dict[str, list[list[Any]]] = {
    "btf_canon": [_ORDER, _BYTES, _BYTES],
    "btf_check": [_BYTES],
    "btf_decode_new": [_BYTES, _BLOCK, _BLOCK],
    "btf_encode": [_ORDER, _RECORDS, _COUNT, _RECORDS, _COUNT, _BYTES, _BYTES],
    "btf_same": [_BYTES, _BYTES],
    "btf_show": [_BYTES, _BYTES],
    "insn_canon": [_ORDER, _ORDER, _BYTES, _BYTES],
    "insn_decode_new": [_ORDER, _BYTES, _BLOCK],
    "insn_encode": [_ORDER, _RECORDS, _COUNT, _BYTES],
    "insn_front": [_ORDER, _ORDER, _BYTES, _BYTES],
    "insn_groups": [_ORDER, _BYTES],
    "insn_read": [_ORDER, _BYTES, _BYTES],
    "insn_same": [_ORDER, _BYTES, _ORDER, _BYTES],
    "insn_show": [_ORDER, _BYTES, _BYTES],
    "object_canon": [_BYTES, _BYTES],
    "object_check": [_BYTES],
    "object_key": [_BYTES, _BYTES],
    "object_same": [_BYTES, _BYTES],
}
_NAMES = [f"{kind}_cause_{what}" for kind in ("insn", "line", "btf", "object") for what in ("name", "text")]


@functools.lru_cache(maxsize=None)
def library() -> ctypes.CDLL:
    """Return the library, which is loaded at the first call.

    It is the file that BPFCANON_LIBRARY names, otherwise libbpfcanon.so.0 in the folder of the
    package (where a wheel puts it), otherwise the one that the system's loader finds.
    """
    beside = pathlib.Path(__file__).with_name(NAME)
    path = os.environ.get("BPFCANON_LIBRARY") or (str(beside) if beside.is_file() else NAME)
    try:
        loaded = ctypes.CDLL(path)
        _declare(loaded, "version", [], ctypes.c_char_p)
    except (OSError, AttributeError) as error:  # AttributeError: it is another library
        raise OSError(f"bpfcanon's C library can't be loaded ({error}); BPFCANON_LIBRARY can name its file") from error
    version: bytes = loaded.bpfcanon_version()
    if not has_all_calls(version.decode()):
        raise OSError(f"{path} has version {version.decode()}, and this package needs {OLDEST[0]}.{OLDEST[1]} or a later {OLDEST[0]}.x")
    for name, arguments in _CALLS.items():
        _declare(loaded, name, [it for argument in arguments for it in argument], Answer)
    for name in _NAMES:
        _declare(loaded, name, _ORDER, ctypes.c_char_p)
    _declare(loaded, "free", [ctypes.c_void_p], None)
    return loaded


def has_all_calls(version: str) -> bool:
    """Return whether a library of a version, for example "0.1.0", has all calls of this package."""
    major, minor = (int(number) for number in version.split(".")[:2])
    return major == OLDEST[0] and minor >= OLDEST[1]


def _declare(loaded: ctypes.CDLL, name: str, arguments: list[Any], result: Any) -> None:
    call = loaded[f"bpfcanon_{name}"]
    setattr(loaded, f"bpfcanon_{name}", call)
    call.argtypes, call.restype = arguments, result


def function(name: str) -> Callable[..., Any]:
    """Return the call of the library whose name is `bpfcanon_` and this name."""
    found: Callable[..., Any] = getattr(library(), f"bpfcanon_{name}")
    return found


def string(name: str, *number: int) -> str:
    """Return the string that a call returns, or "" for NULL."""
    found: Union[bytes, None] = function(name)(*number)
    return (found or b"").decode()


def pointer_to(data: Buffer) -> Any:
    """Return what ctypes accepts as a pointer to the bytes.

    `bytes` and writable buffers are passed without a copy. ctypes can't get the address of other
    read-only buffers (a memoryview of bytes, a mapping with ACCESS_READ), so they are copied, and
    so are buffers that aren't contiguous.
    """
    if isinstance(data, bytes):
        return data
    view = memoryview(data)
    if view.readonly or not view.c_contiguous:
        return view.tobytes()
    return (ctypes.c_char * view.nbytes).from_buffer(view)


def size_of(data: Buffer) -> int:
    return len(data) if isinstance(data, bytes) else memoryview(data).nbytes


def number_of(order: object) -> int:
    """Return the number of a byte order as C reads it: ctypes takes a number modulo 2^32, and nothing but numbers."""
    return order if isinstance(order, int) and order in tuple(Order) else NO_ORDER


def ask(name: str, *arguments: Any) -> Any:
    """Make a call, passing each buffer as a pointer and a length, and a c_void_p as the place of a pointer that the call sets.

    The pointers live only in this frame. One that an exception kept alive would lock its bytearray
    or mapping.
    """
    passed: list[Any] = []
    for argument, kind in zip(arguments, _CALLS[name]):
        if kind is _BYTES:
            passed += [pointer_to(argument), size_of(argument)]
        else:
            passed.append(number_of(argument) if kind is _ORDER else argument)
    return function(name)(*passed)


def write(name: str, capacity: int, *arguments: Any) -> tuple[Any, memoryview]:
    """Make a call that writes into a buffer of `capacity` bytes.

    If the output is longer, the call is made again with a larger buffer. Returns the answer and the
    output. The buffer isn't cut to its length: it can't be while a profiler in another thread keeps
    the frame of `ask`, and with it the pointer.
    """
    out = bytearray(capacity)
    answer = ask(name, *arguments, out)
    if answer.status == Status.ROOM:
        out = bytearray(answer.needed)
        answer = ask(name, *arguments, out)
    return answer, memoryview(out)[: answer.written]
