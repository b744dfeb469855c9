"""Whole combinations of whole vectors: short ones that come to nothing, and those that come to a given vector and are near to given numbers."""

from __future__ import annotations

from collections.abc import Sequence
from fractions import Fraction
from math import gcd, lcm

import numpy as np
from numpy.typing import NDArray

from .problem import NEVER, Deadline, in_time

__all__ = ["Lattice", "reduced"]

Vector = list[int]
ROUNDS = 20  # of Babai's rounding, at most


def _dot(x: Sequence[int], y: Sequence[int]) -> int:
    return sum(p * q for p, q in zip(x, y))


class _Reduction:
    """The algorithm of Lenstra, Lenstra and Lovász (1982) over whole numbers (Cohen, A Course in Computational Algebraic Number Theory, 2.6.7).

    ``volumes[k]`` is the determinant of the Gram matrix of the first k rows, and ``shares[k][j]`` the coefficient of row k at row j in the process of
    Gram and Schmidt, times ``volumes[j + 1]``.
    """

    def __init__(self, rows: Sequence[Vector], deadline: Deadline) -> None:
        self.deadline = deadline
        self.rows = [list(row) for row in rows]
        self.volumes = [1] * (len(rows) + 1)
        self.shares = [[0] * len(rows) for _ in rows]
        self.known = -1

    def learn(self, k: int) -> None:
        """Works out the coefficients of a row, those of the rows before being known."""
        self.known = k
        for j in range(k + 1):
            share = _dot(self.rows[k], self.rows[j])
            for i in range(j):
                share = (self.volumes[i + 1] * share - self.shares[k][i] * self.shares[j][i]) // self.volumes[i]
            if j < k:
                self.shares[k][j] = share
            else:
                self.volumes[k + 1] = share

    def lessen(self, k: int, j: int) -> None:
        """Takes the row j off the row k as often as leaves its coefficient there at a half at most."""
        times = (2 * self.shares[k][j] + self.volumes[j + 1]) // (2 * self.volumes[j + 1])
        if times:
            self.rows[k] = [x - times * y for x, y in zip(self.rows[k], self.rows[j])]
            self.shares[k][j] -= times * self.volumes[j + 1]
            for i in range(j):
                self.shares[k][i] -= times * self.shares[j][i]

    def is_short(self, k: int) -> bool:
        """Whether a row is in order after the one before (Lovász' condition, with 3/4)."""
        d, share = self.volumes, self.shares[k][k - 1]
        return 4 * (d[k + 1] * d[k - 1] + share * share) >= 3 * d[k] * d[k]

    def swap(self, k: int) -> None:
        """Swaps a row with the one before."""
        d, shares = self.volumes, self.shares
        self.rows[k], self.rows[k - 1] = self.rows[k - 1], self.rows[k]
        shares[k][: k - 1], shares[k - 1][: k - 1] = shares[k - 1][: k - 1], shares[k][: k - 1]
        share = shares[k][k - 1]
        volume = (d[k - 1] * d[k + 1] + share * share) // d[k]
        for row in shares[k + 1 : self.known + 1]:
            before = row[k]
            row[k] = (d[k + 1] * row[k - 1] - share * before) // d[k]
            row[k - 1] = (volume * before + share * row[k]) // d[k + 1]
        d[k] = volume

    def run(self) -> None:
        """Reduces all rows."""
        k = 0
        while k < len(self.rows):
            in_time(self.deadline, "a lattice takes too long")
            if k > self.known:
                self.learn(k)
            if k > 0:
                self.lessen(k, k - 1)
            if k > 0 and not self.is_short(k):
                self.swap(k)
                k -= 1
                continue
            for j in range(k - 2, -1, -1):
                self.lessen(k, j)
            k += 1


def reduced(rows: Sequence[Vector], deadline: Deadline = NEVER) -> list[Vector]:
    """A basis of short vectors of the lattice that independent rows of whole numbers span. Raises ``Undecided`` where that takes too long."""
    reduction = _Reduction(rows, deadline)
    reduction.run()
    return reduction.rows


def _coordinates(basis: Sequence[Vector], length: int) -> tuple[int, list[Vector], list[Vector]]:
    """How the coordinates of a vector in a basis are worked out: products with these whole rows, over a number; with the last rows they come to 0."""
    rows = [[Fraction(row[c]) for row in basis] + [Fraction(int(c == d)) for d in range(length)] for c in range(length)]
    for t in range(len(basis)):
        pivot = next(c for c in range(t, length) if rows[c][t])
        rows[t], rows[pivot] = rows[pivot], rows[t]
        rows[t] = [x / rows[t][t] for x in rows[t]]
        for c in range(length):
            if c != t and (times := rows[c][t]):
                rows[c] = [x - times * y for x, y in zip(rows[c], rows[t])]
    inverse = [row[len(basis) :] for row in rows]
    over = lcm(*(x.denominator for row in inverse for x in row))
    whole = [[int(x * over) for x in row] for row in inverse]
    return over, whole[: len(basis)], whole[len(basis) :]


class Lattice:
    """The whole combinations of some whole vectors.

    ``kernel`` has short combinations that come to nothing, and ``basis`` combinations with what they come to, of which all others are made. Raises
    ``Undecided`` where that takes too long to find.
    """

    def __init__(self, vectors: Sequence[Vector], deadline: Deadline = NEVER) -> None:
        count, length = len(vectors), len(vectors[0])
        heavy = max(abs(x) for vector in vectors for x in vector) ** 2 * count * 2**count + 1
        rows = reduced([[int(i == j) for j in range(count)] + [heavy * x for x in vector] for i, vector in enumerate(vectors)], deadline)
        self.kernel = [row[:count] for row in rows if not any(row[count:])]
        self.basis = [(row[:count], [x // heavy for x in row[count:]]) for row in rows if any(row[count:])]
        self._over, self._times, self._zero = _coordinates([vector for _, vector in self.basis], length)
        floats = np.array(self.kernel, dtype=np.float64).reshape(len(self.kernel), count)
        self._orthogonal, self._triangle = np.linalg.qr(floats.T)

    def denominator(self, vector: Vector) -> int:
        """The least number that makes a vector a whole combination; 0 where no number does."""
        if any(_dot(row, vector) for row in self._zero):
            return 0
        return self._over // gcd(self._over, *(_dot(row, vector) for row in self._times))

    def near(self, vector: Vector, wanted: Sequence[float]) -> Vector:
        """A combination that comes to a vector, which is whole combinations of these, with numbers near to those that are wanted (Babai, 1986)."""
        numbers = [0] * len(wanted)
        for row, (combination, _) in zip(self._times, self.basis):
            times = _dot(row, vector) // self._over
            numbers = [x + times * y for x, y in zip(numbers, combination)]
        for _ in range(ROUNDS if self.kernel else 0):
            if not self._nearer(numbers, wanted):
                break
        return numbers

    def _nearer(self, numbers: Vector, wanted: Sequence[float]) -> bool:
        """Brings numbers nearer by the kernel's vectors, the last one first, and says whether any did."""
        away = np.array([float(x - wish) for x, wish in zip(numbers, wanted)])
        along: NDArray[np.float64] = self._orthogonal.T @ away
        moved = False
        for t in reversed(range(len(self.kernel))):
            if times := round(float(along[t] / self._triangle[t, t])):
                along -= float(times) * self._triangle[:, t]
                numbers[:] = [x - times * y for x, y in zip(numbers, self.kernel[t])]
                moved = True
        return moved
