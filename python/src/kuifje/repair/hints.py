"""Hints at lines of compiled code: what kind of repair would apply. Nothing is changed here, and nothing judged: measure the changed code again."""

from __future__ import annotations

from dataclasses import dataclass

from ..measured.lines import Lines
from ..measured.models import DIVISION, KINDS, LOAD, OPERAND, STORE, TRANSFER
from ..measured.places import Place

__all__ = ["CodeHint", "code_hints"]

TIME = "how long a division takes depends on its operands: multiply and shift in its place, or divide by what is public alone"
PATTERNS = {
    KINDS[TRANSFER]: "where it goes depends on the secret: do both sides each time and select by a mask; give a loop the turns that it takes at most",
    KINDS[LOAD]: "which address it reads depends on the secret: read all entries and select by a mask, or compute the value without a table",
    KINDS[STORE]: "which address it writes depends on the secret: write all entries, each its old value or the new one, selected by a mask",
    KINDS[DIVISION]: TIME,
    KINDS[OPERAND]: TIME,
}
SENT = "what it gives out depends on the secret: another form of the code doesn't change that, only another answer does"


@dataclass(frozen=True)
class CodeHint:
    """A line of the source at which something is first told, the kinds of what is seen there, and what kind of repair would apply.

    ``left`` is how many classes are told apart where this line and what it controls show nothing.
    """

    place: Place
    kinds: tuple[str, ...]
    patterns: tuple[str, ...]
    left: int

    def __str__(self) -> str:
        return "".join(f"{self.place}: {pattern}\n" for pattern in self.patterns)


def code_hints(found: Lines) -> tuple[CodeHint, ...]:
    """What kind of repair would apply at each line that leaks, of ``Measurement.lines``; the line that tells most comes first."""
    return tuple(CodeHint(one.place, one.kinds, tuple(dict.fromkeys(PATTERNS.get(kind, SENT) for kind in one.kinds)), one.left) for one in found.told)
