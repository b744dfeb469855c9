"""Sparse equations, worked out over fractions; and by them the matrix that has entries at some places alone."""

from __future__ import annotations

import heapq
from collections.abc import Iterable, Sequence
from fractions import Fraction

from .problem import Deadline, Problem, Undecided, in_time

__all__ = ["Equations", "solution"]

BITS = 2000  # of a denominator on the way, at most


class Equations:
    """Equations of so many unknowns as sparse rows, on the way to a triangular form.

    ``equations[e]`` has the coefficient of each unknown and the number that they come to, ``uses[u]`` which equations have the unknown u and aren't
    solved for another, and ``solved`` which equation was solved for which unknown, in order.
    """

    def __init__(self, unknowns: int, equations: Iterable[tuple[dict[int, Fraction], Fraction]], deadline: Deadline) -> None:
        self._deadline, self._late = deadline, f"an exact solution for {unknowns} entries takes too long"
        self.equations = list(equations)
        self.uses: list[set[int]] = [set() for _ in range(unknowns)]
        for e, (terms, _) in enumerate(self.equations):
            for u in terms:
                self.uses[u].add(e)
        self.solved: list[tuple[int, int]] = []

    def eliminate(self) -> None:
        """Solves one equation after the other for an unknown, the shortest first. Raises ``Undecided`` where that can't be done in time or bits."""
        waiting = [(len(terms), e) for e, (terms, _) in enumerate(self.equations)]
        heapq.heapify(waiting)
        done = set()
        while waiting:
            length, e = heapq.heappop(waiting)
            terms, value = self.equations[e]
            if e in done or length != len(terms):
                continue
            if terms:
                done.add(e)
                for o in self._solve(e):
                    heapq.heappush(waiting, (len(self.equations[o][0]), o))
            elif value:
                raise Undecided("no solution has its entries at these places alone")

    def _solve(self, e: int) -> list[int]:
        """Solves an equation for the unknown that fewest others have, and gives the others, from which that is gone."""
        terms, value = self.equations[e]
        u = min(terms, key=lambda v: len(self.uses[v]))
        for v in terms:
            self.uses[v].discard(e)
        self.solved.append((u, e))
        others = list(self.uses[u])
        for o in others:
            self._subtract(o, u, e)
        return others

    def _subtract(self, o: int, u: int, e: int) -> None:
        """Takes so much of the equation e from the equation o that the unknown u is gone there."""
        in_time(self._deadline, self._late)
        terms, value = self.equations[e]
        changed, to = self.equations[o]
        times = changed[u] / terms[u]
        for v, q in terms.items():
            left = changed.get(v, Fraction(0)) - times * q
            if left:
                changed[v] = left
                self.uses[v].add(o)
            elif v in changed:
                del changed[v]
                self.uses[v].discard(o)
        to -= times * value
        if to.denominator.bit_length() > BITS:
            raise Undecided(f"an exact solution has numbers of more than {BITS} bits")
        self.equations[o] = changed, to

    def values(self) -> list[Fraction]:
        """The unknowns, those that nothing determines being 0."""
        found = [Fraction(0)] * len(self.uses)
        for u, e in reversed(self.solved):
            in_time(self._deadline, self._late)
            terms, value = self.equations[e]
            found[u] = (value - sum(q * found[v] for v, q in terms.items() if v != u)) / terms[u]
        return found


def _of_matrix(problem: Problem, places: Sequence[tuple[int, int]], deadline: Deadline) -> Iterable[tuple[dict[int, Fraction], Fraction]]:
    """The equations of a matrix's entries at some places."""
    columns: list[dict[int, dict[int, Fraction]]] = [{c: {} for c in inner} for inner in problem.b]
    rows: list[dict[int, Fraction]] = [{} for _ in problem.a]
    for u, (i, j) in enumerate(places):
        in_time(deadline, f"an exact solution for {len(places)} entries takes too long")
        rows[i][u] = Fraction(1)
        for c, weight in problem.a[i].items():
            columns[j].setdefault(c, {})[u] = Fraction(weight)
    for inner, column in zip(problem.b, columns):
        yield from ((terms, Fraction(inner.get(c, 0))) for c, terms in column.items())
    yield from ((terms, Fraction(1)) for terms in rows)


def solution(problem: Problem, places: Sequence[tuple[int, int]], deadline: Deadline) -> dict[tuple[int, int], Fraction]:
    """The entries at these places of a matrix that carries A to B, but that they may be below 0; an entry that nothing determines is 0.

    Raises ``Undecided`` where there are none, or they take too long to work out.
    """
    system = Equations(len(places), _of_matrix(problem, places, deadline), deadline)
    system.eliminate()
    return dict(zip(places, system.values()))
