"""The declared inputs of a harness, and the numbers of their assignments: in mixed radix, the first entry of the first variable counts most."""

from __future__ import annotations

from collections.abc import Mapping, Sequence
from dataclasses import dataclass
from fractions import Fraction
from functools import cached_property
from math import prod

__all__ = ["Domain", "Variable"]

ROLES = ("secret", "public", "noise")


@dataclass(frozen=True)
class Variable:
    """An array of ``count`` entries, each from ``low`` to ``high``; ``weights`` are those of the values from the least on, none where all are one."""

    name: str
    count: int
    low: int
    high: int
    role: str = "secret"
    weights: tuple[int, ...] | None = None

    @property
    def radix(self) -> int:
        """How many values an entry has."""
        return self.high - self.low + 1

    @classmethod
    def of_report(cls, found: Mapping[str, object]) -> Variable:
        """The variable that a tracer has written down."""
        whole = {key: int(str(found[key])) for key in ("count", "low", "high", "role")}
        weights = found["weights"]
        kept = tuple(int(w) for w in weights) if isinstance(weights, list) else None
        return cls(str(found["name"]), whole["count"], whole["low"], whole["high"], ROLES[whole["role"]], kept)


@dataclass(frozen=True)
class Domain:
    """Variables of one role, and their assignments, numbered from 0."""

    variables: tuple[Variable, ...]

    @cached_property
    def size(self) -> int:
        """How many assignments there are."""
        return int(prod(v.radix**v.count for v in self.variables))

    @cached_property
    def cells(self) -> tuple[tuple[Variable, int], ...]:
        """Each entry of each variable, with its place in it."""
        return tuple((v, i) for v in self.variables for i in range(v.count))

    def values(self, number: int) -> tuple[int, ...]:
        """The values of all entries of an assignment."""
        found = []
        for v, _ in reversed(self.cells):
            number, rest = divmod(number, v.radix)
            found.append(v.low + rest)
        return tuple(reversed(found))

    def number(self, values: Sequence[int]) -> int:
        """The number of an assignment. Raises ``ValueError`` where it has other values than there may be."""
        number = 0
        for (v, _), value in zip(self.cells, values, strict=True):
            if not v.low <= value <= v.high:
                raise ValueError(f"{v.name} may be {v.low} to {v.high}, and not {value}")
            number = number * v.radix + value - v.low
        return number

    def text(self, number: int) -> str:
        """An assignment in words: ``pin = [3, 1, 4, 1]``."""
        values, at, words = self.values(number), 0, []
        for v in self.variables:
            part = list(values[at : at + v.count])
            at += v.count
            words.append(f"{v.name} = {part[0] if v.count == 1 else part}")
        return ", ".join(words)

    @property
    def is_weighted(self) -> bool:
        """Whether some values weigh more than others."""
        return any(v.weights is not None and len(set(v.weights)) > 1 for v in self.variables)

    @cached_property
    def weights(self) -> list[int]:
        """What each assignment weighs: the product of its entries' weights."""
        found = [1]
        for v, _ in self.cells:
            own = v.weights or (1,) * v.radix
            found = [w * more for w in found for more in own]
        return found

    def prior(self, number: int) -> Fraction:
        """The probability of an assignment."""
        return Fraction(self.weights[number], self.total)

    @cached_property
    def total(self) -> int:
        """What all assignments weigh."""
        return sum(self.weights)
