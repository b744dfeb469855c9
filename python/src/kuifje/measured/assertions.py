"""A number for tests: ``assert leaks(..) <= Fraction(1, 5)`` names the lines where it fails."""

from __future__ import annotations

import os
from collections.abc import Sequence
from fractions import Fraction
from typing import Any

from ..program import Gain
from .measurement import Measurement, measure
from .models import Model

__all__ = ["Leaks", "leaks"]


class Leaks(Fraction):
    """A posterior vulnerability, which shows where it comes from."""

    said: str

    def __new__(cls, value: Fraction, said: str) -> Leaks:
        """The number, with what is shown beside it."""
        found = super().__new__(cls, value)
        found.said = said
        return found

    def __repr__(self) -> str:
        return f"{Fraction(self)}, {self.said}"


def leaks(
    code: Measurement | str | os.PathLike[str] | Sequence[str | os.PathLike[str]],
    *,
    gain: Gain = "bayes",
    model: str | Model = "lines",
    **options: Any,
) -> Leaks:
    """The posterior vulnerability of measured code, or of a harness with its sources, which is measured with these options of ``measure``.

    Raises ``Unmeasured`` where there is no answer, so that a test never passes for want of one.
    """
    measured = code if isinstance(code, Measurement) else measure(code, **options)
    value = measured.leak(gain, model).posterior_vulnerability
    return Leaks(value, f"by {measured.build.name}, seen: {model}\n{measured.lines(model)}".rstrip())
