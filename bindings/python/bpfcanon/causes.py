"""The causes of faults. Those of the header are in bpfcanon.header: plain enums, so that causes of different inputs are never equal."""

import enum
from typing import NamedTuple, Union


class KnownCause(enum.Enum):
    """A cause that the header of this package has: an InsnCause, LineCause, BtfCause or ObjectCause."""

    @property
    def label(self) -> str:
        """The name in docs/FAULTS.md, for example "NextImm"."""
        return string_of(type(self), "name", self.value)

    @property
    def text(self) -> str:
        """A sentence that explains the cause, for example "no instruction has this opcode"."""
        return string_of(type(self), "text", self.value)


class OtherCause(NamedTuple):
    """A cause that only a newer library has: its number, and the name and the sentence that the library gives it."""

    value: int
    label: str
    text: str


Cause = Union[KnownCause, OtherCause]


def string_of(kind: type[KnownCause], what: str, number: int) -> str:
    """Return the name or the text that the library has for a cause of a kind; "" if it has none."""
    from . import _library  # which needs the causes of the header first

    return _library.string(f"{kind.__name__.replace('Cause', '_cause').lower()}_{what}", number)


def cause_of(kind: type[KnownCause], number: int) -> Cause:
    """Return the cause of a kind with a number."""
    try:
        return kind(number)
    except ValueError:
        label, text = (string_of(kind, what, number) for what in ("name", "text"))
        return OtherCause(number, label or f"{kind.__name__}({number})", text or "a cause that this version of the package doesn't know")
