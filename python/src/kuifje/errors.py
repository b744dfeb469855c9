"""What goes wrong: a refusal of the program, a question that is too large or takes too long, and a bound that nothing keeps."""

from __future__ import annotations

import json
import re
from collections.abc import Mapping
from dataclasses import astuple, dataclass
from fractions import Fraction
from functools import cache
from importlib.resources import files as resources
from typing import Protocol, TypedDict

__all__ = ["Infeasible", "KuifjeError", "Origin", "OutOfTime", "Refusal", "TooLarge", "refusal_of"]

_PLACED = re.compile(r"(?P<file>.*):(?P<line>[0-9]+):(?P<column>[0-9]+): (?P<kind>\w+)", re.DOTALL)
_OF_FILE = re.compile(
    r"(?P<file>.*): (?P<kind>scale passes 2\^127 - 1|longer than 1048576 bytes|read failed|[0-9]+ stores|[0-9]+ statements|Json|Form [1-7]|Wide|Empty"
    r"|Unknown|Twice)",
    re.DOTALL,
)


class _Explained(TypedDict):
    """What docs/REFUSALS.md says of a refusal, and the anchor of the section."""

    section: str
    text: str


@cache
def _explanations() -> dict[str, _Explained]:
    """The explanations, by status and kind; ``.ci/tables`` keeps the file equal to the page."""
    found: dict[str, _Explained] = json.loads(resources("kuifje").joinpath("refusals.json").read_text(encoding="utf-8"))
    return found


def _general(kind: str) -> str:
    """The kind as the page has it, with letters for the numbers that differ: ``C stores`` for ``5000 stores``."""
    if kind.startswith("usage: "):
        return "usage line"
    for number, letter in (
        (r"^[0-9]+(?= stores| statements)", "C"),
        (r"(?<= has )[0-9]+(?= cells)", "C"),
        (r"(?<=after )[0-9]+(?= pivots)", "P"),
        (r"(?<=Form )[1-7]$", "N"),
    ):
        kind = re.sub(number, letter, kind)
    return kind


class KuifjeError(Exception):
    """Any error of this package."""


class TooLarge(KuifjeError):
    """A question took more memory or more time than it may, and was ended. The next one starts afresh."""


class OutOfTime(TooLarge, TimeoutError):
    """A question, what is put together of several, or a search took more time than it may. It is a ``TimeoutError`` of Python, too."""


class Infeasible(KuifjeError, ValueError):
    """Nothing keeps a bound. ``least`` is the least number that can be kept, and ``proof`` shows that nothing keeps less.

    Where ``factor`` is given, both are meant of channels of at most this factor. The proof is a ``design.MostUseful``, which has the least, and which
    ``design.check_most_useful`` checks.
    """

    def __init__(self, bound: Fraction, least: Fraction, factor: Fraction | None = None, proof: object = None) -> None:
        of_factor = "" if factor is None else f" of a factor up to {factor}"
        super().__init__(f"no channel{of_factor} has a loss of at most {bound}: the least is {least}")
        self.bound, self.least, self.factor, self.proof = bound, least, factor, proof

    def __reduce__(self) -> tuple[type[Infeasible], tuple[object, ...]]:
        return Infeasible, (self.bound, self.least, self.factor, self.proof)


@dataclass
class Refusal(KuifjeError):
    """The program refused a question, and said why.

    ``status`` is its exit status (docs/COMMANDS.md), ``kind`` the word or the phrase with which its line ends, ``file`` the name of the file that
    it is about, if it is about one, and ``line`` and ``column`` a place in it, counted from 1, the column in bytes. ``source`` is that line's text.
    """

    status: int
    kind: str
    file: str | None = None
    line: int | None = None
    column: int | None = None
    source: str | None = None

    @property
    def explanation(self) -> str | None:
        """What usually causes such a refusal, and what to do about it, as docs/REFUSALS.md says it."""
        found = _explanations().get(f"{self.status} {_general(self.kind)}")
        return found and found["text"]

    @property
    def page(self) -> str | None:
        """Where docs/REFUSALS.md has more about it."""
        found = _explanations().get(f"{self.status} {_general(self.kind)}")
        return found and f"docs/REFUSALS.md#{found['section']}"

    @property
    def caret(self) -> str | None:
        """The line of the fault, and below it a caret at its place; tabs stay tabs."""
        if self.source is None or self.column is None:
            return None
        before = self.source.encode()[: self.column - 1].decode(errors="replace")
        return f"{self.source}\n{''.join(c if c == chr(9) else ' ' for c in before)}^"

    @property
    def text(self) -> str:
        """The place and the kind in one line."""
        place = f"{self.file or ''}:{self.line}:{self.column}: " if self.line is not None else f"{self.file}: " if self.file else ""
        return f"{place}{self.kind}"

    def __str__(self) -> str:
        return "\n".join(filter(None, (self.text, self.caret, self.explanation)))

    def __reduce__(self) -> tuple[type[Refusal], tuple[object, ...]]:
        return Refusal, astuple(self)


class Origin(Protocol):
    """What the text of a program was made of: it knows where each place of the text comes from."""

    def placed(self, refusal: Refusal) -> Refusal:
        """The same refusal, placed there."""


def refusal_of(status: int, line_of_error: str, files: Mapping[str, bytes]) -> Refusal:
    """The refusal that a line on standard error reports. ``files`` are the files of the question, by their names."""
    text = line_of_error.removesuffix("\n").removeprefix("kuifje: ")
    if (found := _PLACED.fullmatch(text)) and found["file"] in files:
        line = int(found["line"])
        lines = files[found["file"]].split(b"\n")
        source = lines[line - 1].decode(errors="replace") if line <= len(lines) else ""
        return Refusal(status, found["kind"], found["file"], line, int(found["column"]), source)
    if (found := _OF_FILE.fullmatch(text)) and found["file"] in files:
        return Refusal(status, found["kind"], found["file"])
    return Refusal(status, text)
