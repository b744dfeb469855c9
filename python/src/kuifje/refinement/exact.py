"""Ways to a proof over whole numbers and fractions alone: what they find is exact, and none of them needs a linear program."""

from __future__ import annotations

from collections.abc import Sequence
from fractions import Fraction
from math import gcd, lcm

from ..values import Value
from .elimination import solution
from .problem import Deadline, Problem, Weights, in_time
from .proofs import Gains, Proof, by_matrix, by_table

__all__ = ["Functional", "another_prior", "equal_inners", "neighbours", "peeling", "tries", "whole_gains"]

Functional = dict[int, Fraction]
"""A number for each kept value; at an inner it comes to the sum of these, each times the value's weight there."""


def whole_gains(problem: Problem, functional: Functional) -> Gains:
    """Whole gains that are a functional times a positive number, without a common factor."""
    gains = {c: q / problem.units[c] for c, q in functional.items() if q}
    over = lcm(*(q.denominator for q in gains.values()))
    whole = {problem.values[c]: int(q * over) for c, q in gains.items()}
    common = gcd(*whole.values())
    return {value: gain // common for value, gain in whole.items()}


def another_prior(problem: Problem, deadline: Deadline) -> Proof | None:
    """A value that is likelier in B: one action that gains there is worth more. Observing doesn't change a distribution on average."""
    more: dict[Value, int] = {}
    for sign, inners in ((-1, problem.joint_a), (1, problem.joint_b)):
        for inner in inners:
            for value, weight in inner.items():
                more[value] = more.get(value, 0) + sign * weight
    likelier = next((value for value, weight in more.items() if weight > 0), None)
    return None if likelier is None else by_table(problem, [{likelier: 1}], deadline)


def equal_inners(problem: Problem, deadline: Deadline) -> Proof | None:
    """The same inners with the same outers, in any order: a permutation."""
    places: dict[frozenset[tuple[int, int]], list[int]] = {}
    for i, inner in enumerate(problem.a):
        places.setdefault(frozenset(inner.items()), []).append(i)
    entries = {}
    for j, inner in enumerate(problem.b):
        if not (equal := places.get(frozenset(inner.items()))):
            return None
        entries[equal.pop(), j] = Fraction(1)
    return by_matrix(problem, entries, deadline) if problem.m == problem.n else None


class _Peeling:
    """The rows of the matrix that one kept value after the other fixes.

    Where a value lies in one inner of A alone, but for some whose rows are known, what B has of it says how this inner is shared out. ``rows`` has
    the rows that are known, and ``functionals`` for each a functional that is 1 at its inner and 0 at all other inners of A: at an inner of B it is
    the entry of that row. ``remaining`` is what B has of each value beyond what known rows give.
    """

    def __init__(self, problem: Problem, deadline: Deadline) -> None:
        self.problem, self.deadline = problem, deadline
        self.rows: dict[int, Functional] = {}
        self.functionals: dict[int, Functional] = {}
        self.open = [set(row) for row in problem.rows_a]
        self.remaining = [{j: Fraction(weight) for j, weight in row.items()} for row in problem.rows_b]

    def separating(self) -> Functional | None:
        """Goes on as long as a value fixes a row; gives a functional that is nowhere above 0 in A and somewhere in B, if one comes up.

        Raises ``Undecided`` where that takes too long.
        """
        ready = [c for c, inners in enumerate(self.open) if len(inners) <= 1]
        seen = set(ready)
        while ready:
            self._in_time()
            c = ready.pop()
            functional = self._of_value(c)
            if not self.open[c]:
                if left := next((q for q in self.remaining[c].values() if q), None):
                    return functional if left > 0 else {d: -q for d, q in functional.items()}
                continue
            i = self.open[c].pop()
            own = self.problem.a[i][c]
            self.functionals[i] = {d: q / own for d, q in functional.items() if q}
            self.rows[i] = {j: q / own for j, q in self.remaining[c].items() if q}
            if any(q < 0 for q in self.rows[i].values()):
                return {d: -q for d, q in self.functionals[i].items()}
            self._subtract(i)
            fixing = [d for d in self.problem.a[i] if len(self.open[d]) <= 1 and d not in seen]
            seen.update(fixing)
            ready += fixing
        return None

    def _in_time(self) -> None:
        in_time(self.deadline, f"{len(self.rows):,} of {self.problem.m:,} rows in time")

    def _of_value(self, c: int) -> Functional:
        """The functional that has at an inner the value's weight there, without those of the inners whose rows are known."""
        found = {c: Fraction(1)}
        for i, weight in self.problem.rows_a[c].items():
            self._in_time()
            for d, q in self.functionals.get(i, {}).items():
                found[d] = found.get(d, Fraction(0)) - weight * q
        return found

    def _subtract(self, i: int) -> None:
        """Takes a known row's inner away from all its values."""
        for c, weight in self.problem.a[i].items():
            self._in_time()
            self.open[c].discard(i)
            remaining = self.remaining[c]
            for j, q in self.rows[i].items():
                remaining[j] = remaining.get(j, Fraction(0)) - weight * q


def peeling(problem: Problem, deadline: Deadline) -> Proof | None:
    """Row after row that a value fixes. Where this comes to an end, the matrix is the only one; on the way there may be a no of two actions.

    It decides every A that shows a function of the target.
    """
    found = _Peeling(problem, deadline)
    functional = found.separating()
    if functional is not None:
        return by_table(problem, [whole_gains(problem, functional), {}], deadline)
    if len(found.rows) < problem.m:
        return None
    return by_matrix(problem, {(i, j): q for i, row in found.rows.items() for j, q in row.items()}, deadline, only=True)


def _sums_of_greatest(inners: Sequence[dict[Value, int]], length: int, deadline: Deadline) -> list[int]:
    """For each number of tries the probability, times the scale, that these guess the value."""
    found = [0] * length
    for inner in inners:
        in_time(deadline)
        for rank, weight in enumerate(sorted(inner.values(), reverse=True)):
            found[rank] += weight
    for rank in range(1, length):
        found[rank] += found[rank - 1]
    return found


def tries(problem: Problem, deadline: Deadline) -> Proof | None:
    """The least number of tries that guess the target more often in B. One of them is ``bayes``.

    Guessing until it is right is a sum over all numbers of tries, so that it separates only where one of these does.
    """
    length = max(map(len, problem.joint_a + problem.joint_b))
    sums = zip(*(_sums_of_greatest(inners, length, deadline) for inners in (problem.joint_a, problem.joint_b)))
    count = next((rank + 1 for rank, (of_a, of_b) in enumerate(sums) if of_b > of_a), None)
    if count is None:
        return None
    actions: dict[frozenset[Value], Gains] = {}
    for inner in problem.joint_b:
        in_time(deadline)
        guesses = sorted(inner, key=lambda value: -inner[value])[:count]
        actions[frozenset(guesses)] = dict.fromkeys(guesses, 1)
    return by_table(problem, list(actions.values()), deadline, "bayes" if count == 1 else f"tries:{count}")


def neighbours(problem: Problem, deadline: Deadline) -> Proof | None:
    """Of two kept values: a matrix that shares out each inner of A to the two inners of B that are next to it by the ratio of these values."""
    if problem.k != 2:
        return None

    def ratio(inner: Weights) -> Fraction:
        return Fraction(inner.get(0, 0), sum(inner.values()))

    inners = sorted((ratio(inner), j) for j, inner in enumerate(problem.b))
    places = set()
    for i, inner in enumerate(problem.a):
        in_time(deadline)
        own = ratio(inner)
        below, above = [j for q, j in inners if q <= own], [j for q, j in inners if q >= own]
        places |= {(i, j) for j in below[-1:] + above[:1]}
    return by_matrix(problem, solution(problem, sorted(places), deadline), deadline)
