"""An interior point method for the matrix: it comes to the middle of all matrices, or to a table that separates.

The program leaves as little over as can be. With shares X(j, i), and what is too little and too much, U(j, c) and V(j, c):

    least sum of U + V, times a cost for each j, where
        for each inner j of B and kept value c:   sum over i of P(c, i) X(j, i) + U(j, c) - V(j, c) = Q(c, j)
        for each inner i of A:                    sum over j of W(j, i) X(j, i) = 1

P and Q are the posteriors of A and of B, and W(j, i) X(j, i) is the entry of the matrix. The equations of one j hang together, and those of the i tie
them: so a step of Mehrotra's predictor and corrector (1992), with Gondzio's corrections (1996), is n small systems and one of m equations.
"""

from __future__ import annotations

from collections.abc import Iterable, Iterator
from typing import NamedTuple

import numpy as np
from numpy.typing import NDArray
from scipy.linalg import LinAlgError, cho_factor, cho_solve

from .numeric import SAMPLE, Floats, affords
from .problem import Deadline, Problem, Undecided

__all__ = ["Middle", "middle_of"]

STEPS = 60
NUMBERS = 40_000_000  # of an array, at most
START = 1e-4  # what all of U and V have at first beyond what is over where what B shows is independent of what A does
SEPARATES = 1e-7  # a table that separates by less doesn't end the search
ENOUGH = 0.2  # of what is left over; a table that separates by so much of it does
EXACT = 1e-11  # what may be left over for each equation at the end
BARRIER = 1e-13  # the mean product of a variable and its dual, at the end
BLOCK = 256  # rows of a product at once: half as long as all at once takes, where the library doesn't divide products itself
PART = 2_000_000  # numbers of a product of several matrices
SPARSE = 0.5  # a share of all places below which each column is taken by itself
NEGLIGIBLE = 1e-10  # of the normal equations' diagonal: what a place adds below that is left out
CORRECTIONS = 3  # of a step, at most
LONGER, WORTHWHILE = 0.3, 0.03  # how much longer a corrected step is aimed to be, and has to be
FAR = 10  # a product so many times above or below the aim is far from it
SHORTER = 0.95  # of the way to the boundary that a step goes
DAMPING = ((1e-13, 1e-13), (1e-10, 1e-9))  # what is added to diagonals, as shares of them: the lesser first

Mask = NDArray[np.bool_]
Three = tuple[Floats, Floats, Floats]


class Middle(NamedTuple):
    """Where the method ended: the matrix (a row for each inner of A), which of its entries stay well above 0, and how much is left over.

    ``table`` has for each kept value (row) and inner of B (column) a gain, and separates by ``gap``, if that is above 0, gains being within [-1, 1].
    """

    matrix: Floats
    above: Mask
    over: float
    table: Floats
    gap: float


class _Factors(NamedTuple):
    """The normal equations of a step: ``lower`` has the inverse of each j's Cholesky factor, ``ties`` what ties them, ``whole`` the rest's factor."""

    theta: Three
    lower: Floats
    ties: Floats
    whole: tuple[Floats, bool]


class _Move(NamedTuple):
    """A step of the variables, of the slacks, and of the dual's y and z."""

    primal: Three
    dual: Three
    y: Floats
    z: Floats


class _Method:
    """The variables X, U and V of the program (``primal``), the slacks of its dual (``dual``), and the dual's y and z."""

    def __init__(self, problem: Problem, allowed: Mask, deadline: Deadline) -> None:
        self.deadline, self.turn, self.over = deadline, 0, float("inf")
        self.a, self.b, _ = problem.floats
        self.k, self.m, self.n = problem.k, problem.m, problem.n
        self.beta = self.b.sum(axis=0)
        alpha = self.a.sum(axis=0)
        self.p, self.q = self.a / alpha, (self.b / self.beta).T
        self.w = self.beta[:, None] / alpha
        self.on = allowed.T
        self.cost = (np.maximum(self.beta, 1e-3 * self.beta.mean()) / self.beta.mean())[:, None] * np.ones((self.n, self.k))
        x = self.on / np.maximum((self.w * self.on).sum(axis=0), 1e-300)
        over = self.q - x @ self.p.T
        self.primal: Three = (x, START + np.maximum(over, 0), START + np.maximum(-over, 0))
        self.dual: Three = (np.where(self.on, START / np.where(self.on, x, 1), 1), self.cost, self.cost)
        self.y, self.z = np.zeros((self.n, self.k)), np.zeros(self.m)
        self.count = self.on.sum() + 2 * self.n * self.k
        self.best: tuple[float, Floats] = (-np.inf, np.zeros((self.k, self.n)))

    def in_time(self) -> None:
        """Raises ``Undecided`` once the deadline is passed: a step has parts that take long."""
        if self.deadline.passed:
            raise Undecided(f"{self.turn} steps of the interior point method leave {self.over:.0e} over")

    def parts(self) -> Iterator[slice]:
        """The inners of B in parts for which a product doesn't take long."""
        length = max(1, PART // (self.k * self.m))
        for start in range(0, self.n, length):
            self.in_time()
            yield slice(start, start + length)

    def residuals(self) -> None:
        """What is left of the equations of the program and of its dual, the mean product of both, and the table that y is."""
        (x, u, v), (s, su, sv) = self.primal, self.dual
        self.of_values = self.q - x @ self.p.T - u + v
        self.of_rows = 1 - (self.w * x).sum(axis=0)
        self.of_dual = (np.where(self.on, -(self.y @ self.p) - self.w * self.z - s, 0), self.cost - self.y - su, self.cost + self.y - sv)
        self.mean = sum(float((variable * slack).sum()) for variable, slack in zip(self.primal, self.dual)) / self.count
        self.over = float((u + v).mean())
        table = (self.y / self.beta[:, None]).T
        worths = np.where(self.on, table.T @ self.a, -np.inf)
        gap = float((table * self.b).sum() - worths.max(axis=0).sum())
        self.separates = gap > ENOUGH * ((u + v) * self.cost).sum()
        if (greatest := np.abs(table).max()) > 0 and gap / greatest > self.best[0]:
            self.best = gap / greatest, table

    @property
    def ended(self) -> bool:
        """Whether a table separates, or nothing is left over."""
        if self.best[0] > SEPARATES and self.separates:
            return True
        exact = self.over < EXACT and np.abs(self.of_rows).max() < 1e-10 and np.abs(self.of_values).max() < 1e-10
        return bool(exact or self.mean < BARRIER)

    def factors(self, damping: tuple[float, float]) -> _Factors:
        """The normal equations in factors, something being added to their diagonals. Raises ``LinAlgError`` where they have none."""
        of_x, of_u, of_v = theta = _three(variable / slack for variable, slack in zip(self.primal, self.dual))
        diagonal = np.arange(self.k)
        small = np.concatenate([np.matmul(self.p[None] * of_x[part, None, :], self.p.T) for part in self.parts()])
        small[:, diagonal, diagonal] += of_u + of_v
        small[:, diagonal, diagonal] += damping[0] * np.trace(small, axis1=1, axis2=2)[:, None] / self.k
        lower = np.linalg.inv(np.linalg.cholesky(small))
        self.in_time()
        weighted = of_x * self.w
        ties = np.concatenate([np.matmul(lower[part], self.p[None] * weighted[part, None, :]) for part in self.parts()])
        ties = ties.reshape(self.n * self.k, self.m)
        self.in_time()
        sizes = self.w * weighted
        whole = np.diag(sizes.sum(axis=0)) - self._squares(ties, sizes > NEGLIGIBLE * sizes.sum(axis=0))
        whole += damping[1] * np.abs(whole.diagonal()).max() * np.eye(self.m)
        self.in_time()
        return _Factors(theta, lower, ties, cho_factor(whole, check_finite=False))

    def _squares(self, ties: Floats, large: Mask) -> Floats:
        """The transpose of ``ties`` times it. Where few X(j, i) are large, each j is taken by itself, and what others add is left out."""
        found = np.zeros((self.m, self.m))
        if large.mean() > SPARSE:
            for start in range(0, len(ties), BLOCK):
                self.in_time()
                found += ties[start : start + BLOCK].T @ ties[start : start + BLOCK]
        else:
            for part, row in zip(ties.reshape(self.n, self.k, self.m), large):
                self.in_time()
                places = row.nonzero()[0]
                found[np.ix_(places, places)] += part[:, places].T @ part[:, places]
        return found

    def direction(self, factors: _Factors, products: Three) -> _Move:
        """The step after which each variable times its slack has come to these products, to first order."""
        self.in_time()
        theta = factors.theta
        x, u, v = (product / slack - t * rest for product, slack, t, rest in zip(products, self.dual, theta, self.of_dual))
        by_values = np.einsum("jab,jb->ja", factors.lower, self.of_values - x @ self.p.T - u + v)
        by_rows = self.of_rows - (self.w * x).sum(axis=0)
        z = cho_solve(factors.whole, by_rows - factors.ties.T @ by_values.ravel(), check_finite=False)
        by_values -= (factors.ties @ z).reshape(self.n, self.k)
        y = np.einsum("jba,jb->ja", factors.lower, by_values)
        primal = (x + theta[0] * (y @ self.p + self.w * z), u + theta[1] * y, v - theta[2] * y)
        positive = (np.where(self.on, self.primal[0], 1), *self.primal[1:])
        slacks = _three((product - slack * step) / by for product, slack, step, by in zip(products, self.dual, primal, positive))
        return _Move(primal, (np.where(self.on, slacks[0], 0), slacks[1], slacks[2]), y, z)

    def step(self, factors: _Factors) -> None:
        """Mehrotra's step: straight ahead, then with what is seen from there towards the middle; and corrections as long as these lengthen it."""
        straight = _three(-variable * slack for variable, slack in zip(self.primal, self.dual))
        move = self.direction(factors, straight)
        after = self._products_after(move, *_shares(self, move))
        aim = (sum(float(products.sum()) for products in after) / self.count / self.mean) ** 3 * self.mean
        products = self._placed(aim + product - dx * ds for product, dx, ds in zip(straight, move.primal, move.dual))
        move = self.direction(factors, products)
        shares = _shares(self, move)
        for _ in range(CORRECTIONS):
            products = self._corrected(products, aim, move, shares)
            other = self.direction(factors, products)
            longer = _shares(self, other)
            if sum(longer) < sum(shares) + WORTHWHILE:
                break
            move, shares = other, longer
        by_primal, by_dual = (SHORTER * share for share in shares)
        self.primal = _three(value + by_primal * change for value, change in zip(self.primal, move.primal))
        self.dual = _three(value + by_dual * change for value, change in zip(self.dual, move.dual))
        self.y, self.z = self.y + by_dual * move.y, self.z + by_dual * move.z

    def _products_after(self, move: _Move, by_primal: float, by_dual: float) -> Three:
        """What each variable times its slack comes to after so much of a step."""
        pairs = zip(self.primal, move.primal, self.dual, move.dual)
        return _three(np.multiply(x + by_primal * dx, s + by_dual * ds) for x, dx, s, ds in pairs)

    def _corrected(self, products: Three, aim: float, move: _Move, shares: tuple[float, float]) -> Three:
        """Products that bring those which a longer step leaves far from the aim nearer to it (Gondzio, 1996)."""
        longer = (min(1.0, share + LONGER) for share in shares)
        after = self._products_after(move, *longer)
        nearer = _three(np.clip(x, aim / FAR, aim * FAR) - x for x in after)
        return self._placed(product + np.maximum(change, -aim * FAR) for product, change in zip(products, nearer))

    def _placed(self, products: Iterable[Floats]) -> Three:
        """Products that are 0 where X has no place."""
        of_x, of_u, of_v = products
        return np.where(self.on, of_x, 0), of_u, of_v


def _shares(method: _Method, move: _Move) -> tuple[float, float]:
    """How much of a step can be taken, by the variables and by the slacks."""
    return _longest(method.primal, move.primal), _longest(method.dual, move.dual)


def _longest(values: Three, steps: Three) -> float:
    """How much of a step, at most all of it, leaves all values at 0 or above."""
    shares = [float((value[step < 0] / -step[step < 0]).min()) for value, step in zip(values, steps) if (step < 0).any()]
    return min([1.0, *shares])


def _three(arrays: Iterable[Floats]) -> Three:
    x, u, v = arrays
    return x, u, v


def middle_of(problem: Problem, allowed: Mask, deadline: Deadline) -> Middle:
    """The middle of all matrices with entries at these places (of an inner of A and one of B) alone, or a table that separates.

    Raises ``Undecided`` where there is neither in time.
    """
    k, m, n = problem.k, problem.m, problem.n
    if (numbers := max(n * k * m, m * m)) > NUMBERS:
        raise Undecided(f"the interior point method would take {numbers:,} numbers at once, and may take {NUMBERS:,}")
    affords(deadline, lambda: SAMPLE.T @ SAMPLE, n * k * m * (2 * k + m) + m**3 / 3, "a step of the interior point method")
    method = _Method(problem, allowed, deadline)
    for method.turn in range(STEPS):
        method.residuals()
        if method.ended:
            break
        method.in_time()
        if (factors := _damped(method)) is None:
            break
        method.step(factors)
    x, s = method.primal[0], method.dual[0]
    return Middle((x * method.w).T, (method.on & (x > s)).T, method.over, method.best[1], method.best[0])


def _damped(method: _Method) -> _Factors | None:
    """The normal equations in factors, with as little added as they need; none where that doesn't help."""
    for damping in DAMPING:
        try:
            return method.factors(damping)
        except LinAlgError:
            continue
    return None
