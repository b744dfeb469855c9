"""Where a linear program is least, nearly: what HiGHS ends with, and the corner that its equations make of that, in fractions.

HiGHS is the solver that scipy brings; without scipy nothing is found here. What is found is a proposal: the one who asks checks it.
"""

from __future__ import annotations

from collections.abc import Mapping, Sequence
from dataclasses import dataclass
from fractions import Fraction
from time import monotonic

from ..deadlines import Deadline
from .tableau import Tableau

__all__ = ["ALONE", "Ends", "Near", "near_least"]

ALONE = 144  # cells of a channel up to which the exact simplex alone takes about a second
ABOVE = 1e-9  # what is taken for more than 0


@dataclass(frozen=True)
class Ends:
    """A corner in fractions: its unknowns that aren't 0, and the price of each equation."""

    solution: Mapping[int, Fraction]
    prices: Sequence[Fraction]


@dataclass(frozen=True)
class Near:
    """The unknowns that HiGHS has above 0, and its corner in fractions, where its equations have one."""

    above: frozenset[int]
    ends: Ends | None


def near_least(tableau: Tableau, until: float) -> Near | None:
    """What HiGHS finds before ``until``; none where it finds nothing, or there is no scipy."""
    try:
        import numpy as np

        from scipy.optimize import linprog
        from scipy.sparse import csr_matrix
    except ImportError:
        return None
    width = 1 + max(j for terms, _ in tableau.equations for j in terms)
    scales = [max((abs(float(q)) for q in terms.values()), default=0.0) or 1.0 for terms, _ in tableau.equations]
    entries = [(i, j, float(q) / scale) for i, ((terms, _), scale) in enumerate(zip(tableau.equations, scales)) for j, q in terms.items() if q]
    rows, columns, numbers = zip(*entries)
    matrix = csr_matrix((numbers, (rows, columns)), shape=(len(tableau.equations), width))
    costs = np.zeros(width)
    for j, q in tableau.costs.items():
        costs[j] = float(q)
    found = linprog(
        costs,
        A_eq=matrix,
        b_eq=np.array([float(side) / scale for (_, side), scale in zip(tableau.equations, scales)]),
        method="highs-ds",
        options={"time_limit": max(until - monotonic(), 0.01), "primal_feasibility_tolerance": 1e-10, "dual_feasibility_tolerance": 1e-10},
    )
    if found.status != 0:
        return None
    above = [j for j in range(width) if found.x[j] > ABOVE]
    reduced = costs - matrix.T @ found.eqlin.marginals
    free = [j for j in range(width) if reduced[j] < ABOVE]
    priced = [i for i, price in enumerate(found.eqlin.marginals) if abs(price) > ABOVE]
    return Near(frozenset(above), _made_exact(tableau, above, free, priced, Deadline(max(until - monotonic(), 0.0))))


def _made_exact(tableau: Tableau, above: Sequence[int], free: Sequence[int], priced: Sequence[int], deadline: Deadline) -> Ends | None:
    """The corner at which these unknowns alone are above 0, with the prices of these equations alone under which these unknowns cost nothing."""
    from ..refinement.elimination import Equations
    from ..refinement.problem import Undecided

    of_unknown, of_equation = {j: u for u, j in enumerate(above)}, {i: u for u, i in enumerate(priced)}
    primal = [({of_unknown[j]: Fraction(q) for j, q in terms.items() if q and j in of_unknown}, Fraction(b)) for terms, b in tableau.equations]
    columns: dict[int, dict[int, Fraction]] = {j: {} for j in free}
    for i, u in of_equation.items():
        for j, q in tableau.equations[i][0].items():
            if q and j in columns:
                columns[j][u] = Fraction(q)
    dual = [(column, Fraction(tableau.costs.get(j, 0))) for j, column in columns.items()]
    try:
        first, second = (Equations(size, equations, deadline) for size, equations in ((len(above), primal), (len(priced), dual)))
        first.eliminate()
        second.eliminate()
        solution, prices = first.values(), second.values()
    except Undecided:
        return None
    by_equation = {i: prices[u] for i, u in of_equation.items()}
    return Ends(dict(zip(above, solution)), [by_equation.get(i, Fraction(0)) for i in range(len(tableau.equations))])
