"""Places in Python sources, and what is refused at them."""

from __future__ import annotations

import linecache
import sys
from dataclasses import dataclass, replace
from types import FrameType

from ..errors import KuifjeError

__all__ = ["BadModel", "Place", "calling"]


@dataclass(frozen=True, order=True)
class Place:
    """A place in a Python source: the file, the line and the column, both from 1, the column in bytes; ``source`` is that line's text.

    ``function`` is the function that the line stands in, and ``caller`` the place that calls it, where it was inlined.
    """

    file: str
    line: int
    column: int
    source: str = ""
    function: str = ""
    caller: Place | None = None

    @property
    def caret(self) -> str:
        """The line, and below it a caret at the column; tabs stay tabs."""
        before = self.source.encode()[: self.column - 1].decode(errors="replace")
        return f"{self.source}\n{''.join(c if c == chr(9) else ' ' for c in before)}^"

    def called_from(self, caller: Place | None) -> Place:
        """The same place, in a function that is called from there."""
        return replace(self, caller=caller)

    def __str__(self) -> str:
        return f"{self.file}:{self.line}:{self.column}"


def calling() -> Place:
    """The place of the call, outside of this package, that is being made."""
    frame: FrameType | None = sys._getframe(1)
    while frame is not None and frame.f_back is not None and frame.f_globals.get("__name__", "").startswith("kuifje."):
        frame = frame.f_back
    assert frame is not None
    code, line = frame.f_code, frame.f_lineno
    _, _, column, _ = list(code.co_positions())[frame.f_lasti // 2]
    return Place(code.co_filename, line, (column or 0) + 1, linecache.getline(code.co_filename, line).rstrip("\r\n"), code.co_name)


class BadModel(KuifjeError):
    """A model that can't be written in the language, or passes a limit of it.

    ``reason`` says what is wrong at ``place``, and ``form`` what may stand there.
    """

    def __init__(self, reason: str, form: str, place: Place) -> None:
        super().__init__(reason, form, place)
        self.reason, self.form, self.place = reason, form, place

    def __str__(self) -> str:
        lines, caller = [f"{self.place}: {self.reason}", self.place.caret], self.place.caller
        while caller is not None:
            lines.append(f"called at {caller}")
            caller = caller.caller
        return "\n".join([*lines, self.form])
