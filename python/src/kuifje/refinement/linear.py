"""The matrix as a linear program, by HiGHS: a corner of all matrices, made exact, or a table that separates."""

from __future__ import annotations

from collections.abc import Iterator
from math import gcd

import numpy as np

from scipy.optimize import linprog
from scipy.sparse import coo_matrix, csr_matrix, hstack

from .numeric import DIGITS, Floats, Place, allowed_places, made_exact
from .problem import Deadline, Problem, Undecided, in_time
from .proofs import Proof, by_table

__all__ = ["linear_program", "near_table"]

COEFFICIENTS = 1_000_000  # of a program, at most
OTHER_CORNERS = 0.4  # of the time that is left; so long other corners are tried, by random costs
GAP = 1e-10  # a table that separates by less is taken for one that doesn't
LESSER = (0, 1, 4, 16, 64, 256, 1024)  # how many times the greatest gain is taken off where an inner of B lacks a value


INFEASIBLE = 2  # a status of `linprog`


class _Program:
    """The linear program over the places that supports allow, whose unknowns are which share of each inner of B comes from which of A."""

    def __init__(self, problem: Problem, deadline: Deadline) -> None:
        self.problem = problem
        self.i, self.j = allowed_places(problem, deadline).nonzero()
        if (count := sum(len(problem.a[i]) for i in self.i)) > COEFFICIENTS:
            raise Undecided(f"the linear program has {len(self.i):,} unknowns and {count:,} coefficients")
        a, b, _ = problem.floats
        self.outer_a, self.outer_b = a.sum(axis=0), b.sum(axis=0)
        self.share = self.outer_b[self.j] / self.outer_a[self.i]
        self.distance = np.abs((a / self.outer_a)[:, self.i] - (b / self.outer_b)[:, self.j]).sum(axis=0)

    def _equations(self, of_a: Floats, in_row: Floats) -> csr_matrix:
        """A row for each kept value and inner of B, and one for each inner of A."""
        k, m, n = self.problem.k, self.problem.m, self.problem.n
        values, unknowns = of_a[:, self.i].nonzero()
        rows = np.concatenate((values * n + self.j[unknowns], k * n + self.i))
        columns = np.concatenate((unknowns, np.arange(len(self.i))))
        data = np.concatenate((of_a[values, self.i[unknowns]], in_row))
        return coo_matrix((data, (rows, columns)), shape=(k * n + m, len(self.i))).tocsr()

    def corner(self, cost: Floats, deadline: Deadline) -> dict[Place, float] | None:
        """The matrix of least cost; none where there is no matrix. Raises ``Undecided`` where HiGHS doesn't say."""
        a, b, _ = self.problem.floats
        equations = self._equations(a / self.outer_a, self.share)
        wanted = np.concatenate(((b / self.outer_b).ravel(), np.ones(self.problem.m)))
        present = np.diff(equations.indptr) > 0
        in_time(deadline)
        if wanted[~present].any():
            return None
        found = linprog(
            cost,
            A_eq=equations[present],
            b_eq=wanted[present],
            method="highs-ds",
            options={"time_limit": deadline.left, "primal_feasibility_tolerance": 1e-10, "dual_feasibility_tolerance": 1e-9},
        )
        if found.status not in (0, INFEASIBLE):
            raise Undecided(f"HiGHS: {found.message}")
        if found.status == INFEASIBLE:
            return None
        entries = found.x * self.share
        return {(int(i), int(j)): float(x) for i, j, x in zip(self.i, self.j, entries) if x > 1e-11}

    def table(self, deadline: Deadline) -> tuple[float, Floats]:
        """The table with gains from -1 to 1 that separates most, for each kept value (row) and inner of B (column), and by how much.

        It is the dual of the program that leaves as little over as can be. Raises ``Undecided`` where HiGHS doesn't say.
        """
        a, b, _ = self.problem.floats
        k, n = b.shape
        count = len(self.i)
        equations = self._equations(a, np.ones(count))
        in_time(deadline)
        over = coo_matrix((np.ones(k * n), (np.arange(k * n), np.arange(k * n))), shape=(equations.shape[0], k * n))
        found = linprog(
            np.concatenate((np.zeros(count), np.ones(2 * k * n))),
            A_eq=hstack((equations, over, -over)),
            b_eq=np.concatenate((b.ravel(), np.ones(self.problem.m))),
            method="highs-ds",
            options={"time_limit": deadline.left},
        )
        if found.status != 0:
            raise Undecided(f"HiGHS: {found.message}")
        return float(found.fun), np.asarray(found.eqlin.marginals[: k * n].reshape(k, n))

    def costs(self, deadline: Deadline) -> Iterator[Floats]:
        """Costs whose corners are tried: by the distance of posteriors, then by random numbers."""
        yield self.distance**4
        yield np.zeros(len(self.distance))
        yield self.distance
        others, random = deadline.within(OTHER_CORNERS * deadline.left), np.random.default_rng(1)
        for turn in range(1000):
            if others.passed:
                return
            likely = (0.8, 0)[turn % 2]
            yield (random.random(len(self.distance)) < likely) + random.random(len(self.distance))


def _lessened(problem: Problem, table: Floats) -> Floats:
    """The table with so much less gain, where an inner of B lacks a value, as separates best: there gains are worth nothing to B."""
    a, b, _ = problem.floats
    greatest = np.abs(table).max()

    def gap(less: int) -> float:
        lessened = np.where(b == 0, table - less * greatest, table)
        return float(((lessened * b).sum() - (lessened.T @ a).max(axis=0).sum()) / np.abs(lessened).max())

    less = max(LESSER, key=gap)
    return np.where(b == 0, table - less * greatest, table)


def _commonest(row: Floats) -> float:
    values, counts = np.unique(np.round(row, 9), return_counts=True)
    return float(values[counts.argmax()])


def near_table(problem: Problem, table: Floats, deadline: Deadline) -> Proof | None:
    """The proof of a no by a table that is near to floats, for each kept value (row) and inner of B (column), with the fewest digits that separate.

    A number that all actions have at a value doesn't count, so the commonest becomes 0.
    """
    in_time(deadline)
    gains = _lessened(problem, table)
    gains = np.array([row - _commonest(row) for row in gains]) / problem.floats.prior[:, None]
    gains /= np.abs(gains).max()
    for digits in DIGITS:
        in_time(deadline)
        whole = np.rint(gains * 10**digits).astype(np.int64)
        common = gcd(*map(int, whole.ravel())) or 1
        columns = {tuple(map(int, column)) for column in whole.T}
        actions = [{problem.values[c]: gain // common for c, gain in enumerate(column) if gain} for column in sorted(columns)]
        if len(actions) > 1 and (proof := by_table(problem, actions, deadline)):
            return proof
    return None


def _separating(problem: Problem, program: _Program, deadline: Deadline) -> Proof:
    gap, table = program.table(deadline)
    if gap > GAP and (proof := near_table(problem, table, deadline)):
        return proof
    raise Undecided(f"floats see neither a matrix nor a table ({gap:.0e} is left over)")


def _exact_corner(problem: Problem, program: _Program, deadline: Deadline) -> Proof | None:
    """A corner of all matrices that can be checked, else one that is exact; none where there is no corner."""
    wide, reason = None, Undecided("no corner was made exact")
    for cost in program.costs(deadline):
        if deadline.passed:
            break
        try:
            entries = program.corner(cost, deadline)
            if entries is None:
                return None
            proof = made_exact(problem, entries, deadline)
        except Undecided as cause:
            reason = cause
            continue
        if proof is not None and proof.obstacle is None:
            return proof
        wide = wide or proof
    if wide is None:
        raise reason
    return wide


def linear_program(problem: Problem, deadline: Deadline) -> Proof | None:
    """A corner of all matrices, made exact, or another one where its numbers are too wide; where there is none, the table that separates most."""
    program = _Program(problem, deadline)
    return _exact_corner(problem, program, deadline) or _separating(problem, program, deadline)
