"""Two hypers as one problem: is there a matrix that carries the first to the second?

With J_A and J_B for the joint probabilities of values and inners, B refines A exactly where J_A R = J_B for a matrix R without entries below 0 whose
rows sum to 1 (the book, chapter 9). Where the weights of several values stand in one ratio, so do their equations, and one of these values is
**kept**: docs/FORMATS.md has them under "The equations of two hypers".
"""

from __future__ import annotations

from collections.abc import Iterable
from dataclasses import dataclass
from functools import cached_property
from math import gcd, lcm
from typing import TYPE_CHECKING, NamedTuple

from ..deadlines import NEVER, Deadline
from ..texts import Hyper
from ..values import Value

if TYPE_CHECKING:
    import numpy as np
    from numpy.typing import NDArray

    Floats = NDArray[np.float64]
    Mask = NDArray[np.bool_]

__all__ = ["NEVER", "Approximation", "Deadline", "Problem", "Undecided", "Weights", "in_time"]

Weights = dict[int, int]


class Undecided(Exception):
    """A way ended without a proof, for a reason that is worth saying."""


def in_time(deadline: Deadline, reason: str = "no time is left") -> None:
    """Raises ``Undecided`` for this reason once a deadline is passed."""
    if deadline.passed:
        raise Undecided(reason)


class Approximation(NamedTuple):
    """A problem in floats: of each kept value, which share of its probability lies with each inner, and its probability.

    ``a`` and ``b`` have a row for each kept value, which sums to 1, and a column for each inner. A gain for these shares is divided by ``prior`` to
    be one for the value itself.
    """

    a: Floats
    b: Floats
    prior: Floats


def _joint(hyper: Hyper, scale: int, deadline: Deadline) -> list[dict[Value, int]]:
    """For each inner the joint weights of its values, as whole numbers over a scale. Raises ``ValueError`` where they aren't whole."""
    found = []
    for inner in hyper.inners:
        in_time(deadline)
        outer, over = inner.outer.numerator * scale, inner.outer.denominator
        weights = {}
        for value, p in inner.distribution.items():
            weights[value], rest = divmod(outer * p.numerator, over * p.denominator)
            if rest:
                raise ValueError(f"a weight isn't whole over the scale of {hyper.scale}")
        found.append({value: weight for value, weight in weights.items() if weight})
    return found


def _turned(rows: Iterable[Weights], count: int) -> list[Weights]:
    """The columns of a sparse matrix whose rows these are."""
    found: list[Weights] = [{} for _ in range(count)]
    for number, row in enumerate(rows):
        for place, weight in row.items():
            found[place][number] = weight
    return found


@dataclass(frozen=True, eq=False)
class Problem:
    """Two hypers A and B in whole numbers, over a scale that both share.

    ``joint_a`` and ``joint_b`` have the joint weights of each inner, by value. ``values`` are the kept values; ``rows_a[c]`` and ``rows_b[c]`` have
    the weights of the c-th of them by inner, and ``a[i]`` and ``b[j]`` those of an inner by kept value: all of one kept value without their common
    factor, which is ``units[c]``. A gain for these is divided by that factor to be one for the value itself. ``scales`` are those of the two hypers.
    """

    scales: tuple[int, int]
    scale: int
    joint_a: list[dict[Value, int]]
    joint_b: list[dict[Value, int]]
    values: list[Value]
    units: list[int]
    rows_a: list[Weights]
    rows_b: list[Weights]

    @classmethod
    def of(cls, a: Hyper, b: Hyper, deadline: Deadline = NEVER) -> Problem:
        """The problem of two hypers about one target.

        Raises ``ValueError`` where a weight isn't whole over its hyper's scale, and ``Undecided`` where it isn't there in time.
        """
        scale = lcm(a.scale, b.scale)
        joint_a, joint_b = _joint(a, scale, deadline), _joint(b, scale, deadline)
        by_value: dict[Value, tuple[Weights, Weights]] = {}
        for side, inners in enumerate((joint_a, joint_b)):
            for number, inner in enumerate(inners):
                for value, weight in inner.items():
                    by_value.setdefault(value, ({}, {}))[side][number] = weight
        kept: dict[tuple[tuple[tuple[int, int], ...], ...], tuple[Value, int]] = {}
        for value, sides in by_value.items():
            in_time(deadline)
            unit = gcd(*sides[0].values(), *sides[1].values())
            key = tuple(tuple((i, weight // unit) for i, weight in side.items()) for side in sides)
            kept.setdefault(key, (value, unit))
        values, units = [value for value, _ in kept.values()], [unit for _, unit in kept.values()]
        rows_a, rows_b = [dict(key[0]) for key in kept], [dict(key[1]) for key in kept]
        return cls((a.scale, b.scale), scale, joint_a, joint_b, values, units, rows_a, rows_b)

    @property
    def m(self) -> int:
        """How many inners A has."""
        return len(self.joint_a)

    @property
    def n(self) -> int:
        """How many inners B has."""
        return len(self.joint_b)

    @property
    def k(self) -> int:
        """How many kept values there are."""
        return len(self.values)

    @cached_property
    def a(self) -> list[Weights]:
        """The weights of each inner of A, by kept value."""
        return _turned(self.rows_a, self.m)

    @cached_property
    def b(self) -> list[Weights]:
        """The weights of each inner of B, by kept value."""
        return _turned(self.rows_b, self.n)

    @cached_property
    def floats(self) -> Approximation:
        """The problem in floats. It wants ``numpy``, and values that are as likely in B as in A."""
        import numpy as np

        a, b, prior = np.zeros((self.k, self.m)), np.zeros((self.k, self.n)), np.zeros(self.k)
        for c, (row_a, row_b) in enumerate(zip(self.rows_a, self.rows_b)):
            whole = sum(row_a.values())
            prior[c] = whole * self.units[c] / self.scale
            for row, array in ((row_a, a), (row_b, b)):
                array[c, list(row)] = [weight / whole for weight in row.values()]
        return Approximation(a, b, prior)

    @cached_property
    def allowed(self) -> Mask:
        """Where the matrix may have an entry above 0: each value of the inner i of A (row) is one of the inner j of B (column)."""
        import numpy as np

        in_a, in_b = (np.asarray(side > 0, dtype=np.float32) for side in (self.floats.a, self.floats.b))
        return np.asarray(in_a.T @ (1 - in_b) == 0)
