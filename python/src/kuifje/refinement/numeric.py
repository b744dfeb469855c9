"""Ways over floats whose result is rounded and then tried over whole numbers: independent inners, two values, one inner of A, one inner of B."""

from __future__ import annotations

from collections.abc import Callable, Mapping
from dataclasses import replace
from fractions import Fraction
from itertools import permutations
from math import gcd
from time import monotonic

import numpy as np
from numpy.typing import NDArray
from scipy.optimize import nnls

from .elimination import solution
from .exact import whole_gains
from .problem import Deadline, Problem, Undecided, in_time
from .proofs import Proof, by_matrix, by_table

__all__ = ["DIGITS", "affords", "allowed_places", "independent_inners", "made_exact", "one_inner_of_a", "one_inner_of_b", "two_actions", "two_values"]

DIGITS = (0, 1, 2, 3, 4, 6, 8, 10, 12, 15)  # how many places after the point gains are rounded to, the fewest first
DENOMINATORS = (16, 128, 1000, 10**4, 10**5, 10**6, 10**7)  # how large they may be where entries are rounded
CLOSE = 1e-6  # how near a rounded entry is to the float
NOTHING = 1e-9  # an entry below this is taken for 0
SOLVING = 4.0  # seconds that an exact solution may take
CELLS = 4_000_000  # of a matrix of values and inners, at most

SLOWER = 4  # times longer least squares take where values are alike than at random
SAMPLE = np.random.default_rng(1).random((96, 96))  # on which it is tried how long a step takes

Floats = NDArray[np.float64]
Place = tuple[int, int]


def affords(deadline: Deadline, sample: Callable[[], object], operations: float, what: str) -> None:
    """Raises ``Undecided`` where a step that nothing can end takes longer than is left, by what a small one takes on this machine now.

    ``sample`` does it with 96 rows and columns, and ``operations`` is in proportion to its time, 96^3 for the sample.
    """
    times = operations / len(SAMPLE) ** 3
    if times < 30:
        return
    seconds = []
    for _ in range(3):
        start = monotonic()
        sample()
        seconds.append(monotonic() - start)
    if (long := sorted(seconds)[1] * times) > deadline.left:
        raise Undecided(f"{what} would take about {long:.0f} seconds")


def _rounded(problem: Problem, entries: Mapping[Place, float], deadline: Deadline) -> Proof | None:
    """The matrix near to some floats whose entries have small denominators, the smallest that do."""
    for most in DENOMINATORS:
        near: dict[Place, Fraction] = {}
        for place, entry in entries.items():
            in_time(deadline)
            near[place] = Fraction(entry).limit_denominator(most)
            if abs(near[place] - entry) > CLOSE:
                break
        else:
            if proof := by_matrix(problem, near, deadline):
                return proof
    return None


def made_exact(problem: Problem, entries: Mapping[Place, float], deadline: Deadline) -> Proof | None:
    """The proof by a matrix that is near to floats: rounded, or with the same places, worked out over fractions. Raises ``Undecided``."""
    return _rounded(problem, entries, deadline) or by_matrix(problem, solution(problem, list(entries), deadline.within(SOLVING)), deadline)


def allowed_places(problem: Problem, deadline: Deadline) -> NDArray[np.bool_]:
    """The places that a matrix may have by its supports. Raises ``Undecided`` where these would take too long to find."""
    affords(deadline, lambda: SAMPLE.T @ SAMPLE, problem.k * problem.m * problem.n, "which places a matrix may have")
    return problem.allowed


def above_zero(matrix: Floats) -> dict[Place, float]:
    """The entries of a matrix that aren't taken for 0, by row and column."""
    return {(int(i), int(j)): float(matrix[i, j]) for i, j in zip(*(matrix > NOTHING).nonzero())}


def two_actions(problem: Problem, functional: Floats, deadline: Deadline) -> Proof | None:
    """The proof of a no by an action that is near to a functional, and one that gains nothing; with the fewest digits that separate."""
    gains = functional / problem.floats.prior
    gains = gains / np.abs(gains).max()
    for digits in DIGITS:
        whole = [int(gain) for gain in np.rint(gains * 10**digits)]
        common = gcd(*whole)
        action = {problem.values[c]: gain // common for c, gain in enumerate(whole) if gain}
        if action and (proof := by_table(problem, [action, {}], deadline)):
            return proof
    return None


def independent_inners(problem: Problem, deadline: Deadline) -> Proof | None:
    """Where A's inners are linearly independent there is one matrix at most: the pseudo-inverse of A, times B."""
    if problem.m > problem.k or problem.m * problem.k > CELLS:
        return None
    a, b = problem.floats.a, problem.floats.b
    affords(deadline, lambda: np.linalg.svd(SAMPLE, full_matrices=False), problem.k * problem.m**2, "the singular values of A")
    lengths = np.linalg.norm(a, axis=0)
    try:
        u, sizes, v = np.linalg.svd(a / lengths, full_matrices=False)
    except np.linalg.LinAlgError:  # it doesn't end
        return None
    if sizes[-1] < 1e-10 * sizes[0]:
        return None
    inverse = (v.T / sizes) @ u.T / lengths[:, None]
    matrix = inverse @ b
    beyond = b - a @ matrix
    worst = np.abs(beyond / b.max(axis=0)).max(axis=0)
    if worst.max() > 1e-8:
        return two_actions(problem, beyond[:, worst.argmax()], deadline)
    if matrix.min() < -1e-8:
        return two_actions(problem, -inverse[matrix.min(axis=1).argmin()], deadline)
    proof = made_exact(problem, above_zero(matrix), deadline)
    return None if proof is None else replace(proof, final=True)


def _widest(a: tuple[Floats, Floats], b: tuple[Floats, Floats]) -> tuple[float, float]:
    """The t at which the sum of the positive parts of x - t y is above that of A under B by most, and by how much.

    Each of the two has the probabilities of two values x and y, by inner. Both sums are piecewise linear in t, so the greatest difference is found at
    a ratio of A's.
    """
    x, y = a
    ratios = np.unique(x[y > 0] / y[y > 0])
    if len(ratios) == 0:
        return 0.0, 0.0
    sums = []
    for x, y in (a, b):
        with np.errstate(divide="ignore", invalid="ignore"):
            own = np.where(y > 0, x / np.where(y > 0, y, 1), np.inf)
        order = np.argsort(-own)
        above = np.searchsorted(-own[order], -ratios, side="left")
        of_x, of_y = (np.concatenate(([0.0], np.cumsum(side[order]))) for side in (x, y))
        sums.append(of_x[above] - ratios * of_y[above])
    more = sums[1] - sums[0]
    return float(ratios[more.argmax()]), float(more.max())


def two_values(problem: Problem, deadline: Deadline) -> Proof | None:
    """Two values against each other: is the one so many times as likely as the other? Where there are two kept values, this finds every no."""
    a, b, _ = problem.floats
    searching = deadline.within(deadline.left / 10)
    most, functional = 1e-9, None
    for x, y in permutations(range(problem.k), 2):
        ratio, more = _widest((a[x], a[y]), (b[x], b[y]))
        if more > most:
            most, functional = more, np.zeros(problem.k)
            functional[x], functional[y] = 1, -ratio
        if most > 1e-3 or searching.passed:
            break
    return None if functional is None else two_actions(problem, functional, deadline)


def one_inner_of_a(problem: Problem, deadline: Deadline) -> Proof | None:
    """No more of an inner of A can go to one of B than B's least ratio to it over its values. Where these come to less than 1, it is a no.

    Each action loses at one value alone.
    """
    a, b, _ = problem.floats
    for i, inner in enumerate(problem.a):
        in_time(deadline)
        support = sorted(inner)
        ratios = b[support] / a[support, i][:, None]
        if ratios.min(axis=0).sum() < 1 - 1e-9:
            least = {support[place] for place in ratios.argmin(axis=0)}
            losses = whole_gains(problem, {c: Fraction(-1, inner[c]) for c in least})
            return by_table(problem, [{value: loss} for value, loss in losses.items()], deadline)
    return None


def one_inner_of_b(problem: Problem, deadline: Deadline) -> Proof | None:
    """Each inner of B as a sum of A's, by least squares without negative numbers (Lawson and Hanson, 1974).

    What is left over of one is a no of two actions. Where nothing is and all sums fit together, it is a yes.
    """
    if problem.m * problem.k > CELLS // 2:
        return None
    a, b, _ = problem.floats
    affords(deadline, lambda: nnls(SAMPLE, SAMPLE[0]), SLOWER * problem.k * problem.m * min(problem.k, problem.m), "one inner of B")
    deadline = deadline.within(deadline.left - 1)
    lengths, sizes = np.linalg.norm(a, axis=0), np.linalg.norm(b, axis=0)
    matrix = np.zeros((problem.m, problem.n))
    for j in range(problem.n):
        try:
            shares, left = nnls(a / lengths, b[:, j] / sizes[j], maxiter=5 * problem.m)
        except RuntimeError:  # it doesn't end
            return None
        if left > 1e-8 and (proof := two_actions(problem, b[:, j] / sizes[j] - a @ (shares / lengths), deadline)):
            return proof
        matrix[:, j] = shares / lengths * sizes[j]
        if deadline.passed:
            raise Undecided(f"{j + 1} of {problem.n} inners in time")
    if np.abs(matrix.sum(axis=1) - 1).max() < 1e-6:
        return made_exact(problem, above_zero(matrix), deadline)
    return None
