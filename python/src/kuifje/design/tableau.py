"""The simplex algorithm in whole numbers: a least value of a linear program, and the prices that prove it, both exact.

A row is a dictionary from unknowns to whole numbers without a common factor, so that a number that is 0 takes no room. The program starts at a
corner that is given; which rows and unknowns there are is the business of those who make it.
"""

from __future__ import annotations

from collections.abc import Iterable, Mapping
from fractions import Fraction
from math import gcd, lcm
from time import monotonic

from ..errors import OutOfTime

__all__ = ["Tableau"]

Rational = Fraction | int
SIDE, AIM = -1, -2  # the right side of a row, and the value that is to be least
PATIENCE = 50  # pivots that leave the value as it is, before the first unknown that may enter is taken in place of the steepest


def _without_factor(row: dict[int, int]) -> dict[int, int]:
    common = gcd(*row.values())
    return row if common <= 1 else {j: q // common for j, q in row.items()}


def _whole(terms: Mapping[int, Rational]) -> dict[int, int]:
    """The row that is this one times a positive number, in whole numbers without a common factor."""
    numbers = {j: Fraction(q) for j, q in terms.items() if q}
    over = lcm(*(q.denominator for q in numbers.values())) if numbers else 1
    return _without_factor({j: int(q * over) for j, q in numbers.items()})


class Tableau:
    """Equations over unknowns that aren't below 0, and a value that is to be least.

    Each row has a basic unknown, which no other row has; at the corner that the tableau stands for all other unknowns are 0. ``value`` and
    ``reduced_cost`` are those of that corner.
    """

    def __init__(self, aim: Mapping[int, Rational]) -> None:
        self.costs = dict(aim)
        self.equations: list[tuple[dict[int, Rational], Rational]] = []  # as they were added
        self.rows: list[dict[int, int]] = []
        self.basic: list[int | None] = []
        self.uses: dict[int, set[int]] = {}
        self.aim = _whole({AIM: 1, **{j: -q for j, q in aim.items()}})

    def add(self, terms: Mapping[int, Rational], side: Rational, basic: int | None = None) -> int:
        """Adds an equation, with its basic unknown if it has one already, and gives its number."""
        self.equations.append((dict(terms), side))
        row = _whole({**terms, SIDE: side})
        for j in row:
            self.uses.setdefault(j, set()).add(len(self.rows))
        self.rows.append(row)
        self.basic.append(basic)
        return len(self.rows) - 1

    def enter(self, r: int, e: int) -> None:
        """Makes an unknown the basic one of a row: it leaves all other rows and the aim."""
        pivot = self.rows[r]
        if pivot[e] < 0:
            pivot = {j: -q for j, q in pivot.items()}
            self.rows[r] = pivot
        for i in self.uses[e] - {r}:
            self._replace(i, self._without(self.rows[i], pivot, e))
        if e in self.aim:
            self.aim = self._without(self.aim, pivot, e)
        self.basic[r] = e

    @staticmethod
    def _without(row: dict[int, int], pivot: dict[int, int], e: int) -> dict[int, int]:
        """The row, times a positive number, less so much of the pivot row that the unknown is gone."""
        common = gcd(pivot[e], row[e])
        keep, take = pivot[e] // common, row[e] // common
        found = {j: keep * q for j, q in row.items()} if keep != 1 else dict(row)
        for j, q in pivot.items():
            number = found.get(j, 0) - take * q
            if number:
                found[j] = number
            else:
                found.pop(j, None)
        return _without_factor(found)

    def _replace(self, i: int, row: dict[int, int]) -> None:
        before = self.rows[i]
        for j in before.keys() - row.keys():
            self.uses[j].discard(i)
        for j in row.keys() - before.keys():
            self.uses.setdefault(j, set()).add(i)
        self.rows[i] = row

    def _leaving(self, e: int) -> int | None:
        """The row that bounds an unknown most; of several the one whose basic unknown comes first. None where nothing bounds it."""
        best: tuple[int, int, int, int] | None = None
        for i in self.uses[e]:
            of, side, basic = self.rows[i][e], self.rows[i].get(SIDE, 0), self.basic[i]
            assert basic is not None
            if of > 0:
                order = 0 if best is None else side * best[1] - best[0] * of
                if best is None or order < 0 or (order == 0 and basic < best[2]):
                    best = (side, of, basic, i)
        return None if best is None else best[3]

    def run(self, until: float, among: Iterable[int] | None = None) -> None:
        """Goes from corner to corner till the value is the least, by unknowns among these alone where some are given.

        The value is bounded from below wherever this is called. Raises ``OutOfTime`` where the clock passes ``until``.
        """
        allowed = None if among is None else set(among)
        waiting = 0
        while True:
            if monotonic() > until:
                raise OutOfTime("the least value wasn't found in time")
            candidates = [j for j, q in self.aim.items() if j >= 0 and q > 0 and (allowed is None or j in allowed)]
            if not candidates:
                return
            entering = min(candidates) if waiting > PATIENCE else max(candidates, key=lambda j: (self.aim[j], -j))
            row = self._leaving(entering)
            assert row is not None, "the value has no bound"
            waiting = waiting + 1 if self.rows[row].get(SIDE, 0) == 0 else 0
            self.enter(row, entering)

    @property
    def value(self) -> Fraction:
        return Fraction(self.aim.get(SIDE, 0), self.aim[AIM])

    def reduced_cost(self, j: int) -> Fraction:
        """By how much the value grows with each unit of an unknown; of the slack of a row it is the row's price."""
        return Fraction(-self.aim.get(j, 0), self.aim[AIM])

    def solution(self) -> dict[int, Fraction]:
        """The unknowns that aren't 0."""
        return {j: Fraction(row[SIDE], row[j]) for row, j in zip(self.rows, self.basic) if j is not None and row.get(SIDE)}
