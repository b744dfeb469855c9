"""A matrix over one small denominator near to one of floats, from the middle of all matrices.

A corner of a large dense program has numbers of hundreds of bits, since its denominators are determinants. In the middle there is room for others:
each entry is rounded to a multiple of 1 / D. In each column some rows, its **menders**, take near multiples that make the column exact, by short
vectors of a lattice; what a row has then given too much or too little goes on to the next column, and at last to one column, the **sink**, which
takes what is left.
"""

from __future__ import annotations

from collections.abc import Sequence
from fractions import Fraction
from math import lcm
from typing import NamedTuple

import numpy as np

from .interior import Mask, Middle, middle_of
from .lattice import Lattice
from .linear import near_table
from .numeric import Floats, Place, allowed_places
from .problem import Deadline, Problem, Undecided, in_time
from .proofs import GREATEST, Proof, by_matrix

__all__ = ["mended_middle"]

MOST = 24  # kept values, beyond which lattices take too long
EXTRA = 6  # menders beyond one for each kept value
OVER = 1e-7  # what may be left over of each equation in the middle
GAP = 1e-9  # a table that separates by less is taken for one that doesn't
MANY, TOO_MANY = 25_000, 45_000  # entries: of more some are chosen, and still more have no place in a certificate
VERY_MANY = 100_000  # places of which some are chosen at first, since all would take long
CHOSEN = 38_000  # places that are chosen, about


class _Column(NamedTuple):
    """An inner of B: the rows of the matrix that have an entry there, those that mend it, and the combinations of these."""

    rows: Sequence[int]
    menders: Sequence[int]
    lattice: Lattice


def _sink(matrix: Floats) -> int:
    """The column whose entries are great in all rows."""
    return int(np.log(np.maximum(matrix, 1e-14)).sum(axis=0).argmax())


def _fewer(problem: Problem, matrix: Floats, above: Mask) -> Mask:
    """Fewer places: at random some of each row and of each column, those with great entries more likely; and all of the sink and of full rows."""
    full = 2 * problem.k + 8
    share = max(CHOSEN - full * problem.n, 0) // 2
    weights = np.log(np.maximum(matrix, 1e-300)) + np.random.default_rng(1).gumbel(size=matrix.shape)
    weights[~above] = -np.inf
    few = np.zeros_like(above)
    columns = np.argsort(-weights, axis=1)[:, : share // problem.m]
    rows = np.argsort(-(weights + np.log(problem.floats.a.sum(axis=0))[:, None]), axis=0)[: share // problem.n]
    few[np.arange(problem.m)[:, None], columns] = True
    few[rows, np.arange(problem.n)] = True
    few[:, _sink(matrix)] = True
    few[np.argsort(-above.sum(axis=1))[:full]] = True
    few &= above
    return few


def _middle_of_fewer(problem: Problem, matrix: Floats, above: Mask, deadline: Deadline) -> Middle | None:
    """The middle of the matrices with entries at fewer places, if there are any; that is quicker."""
    try:
        middle = middle_of(problem, _fewer(problem, matrix, above), deadline)
    except Undecided:
        return None
    return middle if middle.over <= OVER else None


def _middle(problem: Problem, deadline: Deadline) -> Middle:
    """The middle of all matrices, or of those with fewer entries where all are too many for a certificate.

    Where there are very many places, fewer are tried first, as if what B shows were independent of what A does.
    """
    allowed = allowed_places(problem, deadline)
    alike = allowed * problem.floats.b.sum(axis=0)
    if allowed.sum() > VERY_MANY and (middle := _middle_of_fewer(problem, alike, allowed, deadline.within(deadline.left / 2))):
        return middle
    middle = middle_of(problem, allowed, deadline)
    if middle.gap > GAP or not middle.over <= OVER or middle.above.sum() <= MANY:
        return middle
    if fewer := _middle_of_fewer(problem, middle.matrix, middle.above, deadline):
        return fewer
    if (count := int(middle.above.sum())) > TOO_MANY:
        raise Undecided(f"the middle of all matrices has {count:,} entries, too many for a certificate")
    return middle


class _Mending:
    """The mending of a matrix of floats: its columns with their lattices, and the vectors of A's and B's inners over the kept values."""

    def __init__(self, problem: Problem, matrix: Floats, deadline: Deadline) -> None:
        self.problem, self.matrix = problem, matrix
        self.of_a = [[inner.get(c, 0) for c in range(problem.k)] for inner in problem.a]
        self.of_b = [[inner.get(c, 0) for c in range(problem.k)] for inner in problem.b]
        self.sink, self.often = _sink(matrix), (matrix > 0).sum(axis=1)
        self.lattices: list[tuple[Sequence[int], Lattice, frozenset[int]]] = []
        self.columns = {j: self._column(j, deadline) for j in range(problem.n) if j != self.sink}
        self.over = lcm(*(column.lattice.denominator(self.of_b[j]) for j, column in self.columns.items()))

    def _column(self, j: int, deadline: Deadline) -> _Column:
        """A column with menders by whose whole combinations all its rows can be made: those of another column where they do, else new ones."""
        rows = [int(i) for i in self.matrix[:, j].nonzero()[0]]
        for menders, lattice, made in self.lattices:
            if set(menders) <= set(rows) <= made:
                return _Column(rows, menders, lattice)
        most = sorted(rows, key=lambda i: (-self.often[i], -self.matrix[i, j]))
        for size in (self.problem.k + EXTRA, 2 * (self.problem.k + EXTRA), len(rows)):
            if deadline.passed:
                raise Undecided(f"{len(self.lattices)} lattices in time")
            menders = most[:size]
            lattice = Lattice([self.of_a[i] for i in menders], deadline)
            made = frozenset(i for i, vector in enumerate(self.of_a) if lattice.denominator(vector) == 1)
            if made.issuperset(rows):
                self.lattices.append((menders, lattice, made))
                break
        if lattice.denominator(self.of_b[j]) == 0:
            raise Undecided(f"the inner {j} of B isn't a combination of the {len(rows)} inners that may give to it")
        return _Column(rows, menders, lattice)

    def over_denominator(self, over: int, deadline: Deadline) -> dict[Place, Fraction] | None:
        """The mended matrix over a denominator; none where a mender would have to give less than nothing, or more than it has.

        Raises ``Undecided`` where it isn't there in time.
        """
        left, owed = [over] * self.problem.m, [0] * self.problem.m
        parts: dict[Place, int] = {}
        for j, column in self.columns.items():
            in_time(deadline, "no denominator serves in time")
            given = self._given(j, column, over, left, owed)
            if given is None:
                return None
            for i, part in given.items():
                left[i] -= part
                parts[i, j] = part
        parts |= {(i, self.sink): part for i, part in enumerate(left)}
        return {place: Fraction(part, over) for place, part in parts.items() if part}

    def _given(self, j: int, column: _Column, over: int, left: Sequence[int], owed: list[int]) -> dict[int, int] | None:
        """How many parts each row gives to a column, so that it is exact; ``owed`` has what each should have given beyond that."""
        wanted = {i: owed[i] + round(float(self.matrix[i, j]) * over) for i in column.rows}
        given = {i: min(max(wanted[i], 0), left[i]) for i in column.rows if i not in column.menders}
        need = [over * weight for weight in self.of_b[j]]
        for i, part in given.items():
            if part:
                need = [x - part * y for x, y in zip(need, self.of_a[i])]
        for i, part in zip(column.menders, column.lattice.near(need, [wanted[i] for i in column.menders])):
            if not 0 <= part <= left[i]:
                return None
            given[i] = part
        for i in column.rows:
            owed[i] = wanted[i] - given[i]
        return given


def mended_middle(problem: Problem, deadline: Deadline) -> Proof | None:
    """The middle of all matrices, mended to one denominator; where there are none, a table that separates. Of up to 24 kept values."""
    if problem.k > MOST:
        raise Undecided(f"{problem.k} kept values, and a matrix is mended of up to {MOST}")
    middle = _middle(problem, deadline)
    if middle.gap > GAP:
        return near_table(problem, middle.table, deadline)
    if not middle.over <= OVER:  # it may be no number
        raise Undecided(f"the interior point method leaves {middle.over:.0e} over")
    mending = _Mending(problem, np.where(middle.above, middle.matrix, 0.0), deadline)
    over = mending.over
    while over * problem.scales[0] <= GREATEST and not deadline.passed:
        if entries := mending.over_denominator(over, deadline):
            return by_matrix(problem, entries, deadline)
        over <<= 4
    if deadline.passed:
        raise Undecided("no denominator serves in time")
    room = (GREATEST // problem.scales[0]).bit_length()
    raise Undecided(f"no denominator of up to {room} bits serves")
