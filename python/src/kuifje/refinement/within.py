"""How much more one program leaks than another at most: by a factor, by an amount, or by both, exactly and with a proof for each side.

For joint matrices A and B (values by inners) and a factor c, some stochastic matrix R has the *excess* sum over cells of (B - c A R)+ at most d
exactly where V(B) <= c V(A) + d for all gain functions with gains from 0 to 1. So the least excess is a linear program, the prices of its equations
are a gain function that meets it, and both can be multiplied out: ``check_within`` does. With c = 1 the least d is Le Cam's deficiency of B's channel
from A's; with d = 0 the least c is how many times more any adversary gains, which for an A that shows nothing is the Bayes capacity of B.

What is found here is exact and computed in Python, not proved; under the table that it finds, ``leak`` of the proved program gives both
vulnerabilities.
"""

from __future__ import annotations

from collections.abc import Iterable, Mapping
from dataclasses import dataclass
from fractions import Fraction
from math import lcm
from time import monotonic

from ..arguments import seconds as seconds_of
from ..deadlines import Deadline
from ..design.near import near_least
from ..design.tableau import Tableau
from ..errors import KuifjeError
from ..program import Program, Writable
from ..texts import Action, GainTable, Hyper, Matrix, Verdict
from ..values import Value, ascending
from .decisions import asked_for, hyper_of

__all__ = ["Limit", "Within", "at_most", "check_within", "distance", "ratio"]

ALONE = 400  # unknowns of a matrix up to which the exact simplex alone takes about a second
ALWAYS = GainTable(1, 1, (Action("a0", {}),))  # who gains 1 whatever the secret is
Asked = Program | Writable | Hyper
Joint = list[dict[Value, Fraction]]


@dataclass(frozen=True)
class Within:
    """``b`` is worth at most ``times`` as much as ``a`` and ``plus`` more to any adversary with gains from 0 to 1, and to one of them exactly that.

    ``matrix`` proves the first, and ``table``, an action for each inner of ``b``, the second: under it V(B) = times V(A) + plus. ``times`` is none
    where no factor is enough: then ``table`` gains at a value that is possible in ``b`` alone, and there is no matrix.
    """

    times: Fraction | None
    plus: Fraction
    matrix: Matrix | None
    table: GainTable

    def __str__(self) -> str:
        """Factor and amount, then the matrix and the table as ``refine`` prints such."""
        proofs = [Verdict(True, self.matrix, None)] if self.matrix is not None else []
        texts = [str(proof).partition("\n")[2] for proof in [*proofs, Verdict(False, None, self.table)]]
        return f"times {'none' if self.times is None else self.times}\nplus {self.plus}\n{''.join(texts)}"


@dataclass(frozen=True)
class Limit:
    """Whether ``b`` is worth at most ``times`` as much as ``a`` and ``plus`` more to any adversary with gains from 0 to 1.

    ``least`` is the least ``plus`` for which that holds. ``matrix`` has that excess; under ``table`` V(B) = times V(A) + least.
    """

    times: Fraction
    plus: Fraction
    least: Fraction
    matrix: Matrix
    table: GainTable

    @property
    def holds(self) -> bool:
        """Whether it does: exactly where ``least`` is at most ``plus``."""
        return self.least <= self.plus


def distance(a: Asked, b: Asked, seconds: float | None = 60.0) -> Within:
    """The least d with V(B) <= V(A) + d for all gain functions with gains from 0 to 1; 0 exactly where ``b`` refines ``a``.

    It is from 0 to 1. Where gains are from l to h it is multiplied by h - l. It depends on the prior. Raises as ``decide`` does, and ``OutOfTime``
    after ``seconds``.
    """
    pair = _Pair.of(a, b, seconds)
    least, matrix, gains = pair.least_excess(Fraction(1))
    return Within(Fraction(1), least, matrix, pair.table(gains) if least else ALWAYS)


def ratio(a: Asked, b: Asked, seconds: float | None = 60.0) -> Within:
    """The least c, at least 1, with V(B) <= c V(A) for all gain functions whose gains aren't below 0; its ``times`` is none where there is no such c.

    If the targets are ``old`` and every value possible, the same c holds at every prior. From a program that shows nothing it is the Bayes capacity;
    its binary logarithm is in bits. Raises as ``distance`` does.
    """
    pair = _Pair.of(a, b, seconds)
    for of_class in pair.classes:
        if of_class.b and not of_class.a:
            return Within(None, Fraction(0), None, GainTable(1, 0, (Action("a0", {x: 1 for x in of_class.values}),)))
    times, table = Fraction(1), ALWAYS
    while True:
        least, matrix, gains = pair.least_excess(times)
        if least == 0:
            return Within(times, least, matrix, table)
        table = pair.table(gains)
        times = _worth(pair.b, table) / _worth(pair.a, table)


def at_most(a: Asked, b: Asked, times: Fraction | int = 1, plus: Fraction | int = 0, seconds: float | None = 60.0) -> Limit:
    """Whether V(B) <= times V(A) + plus for all gain functions with gains from 0 to 1; with 1 and 0 that is whether ``b`` refines ``a``.

    Raises ``ValueError`` where ``times`` isn't above 0 or ``plus`` below 0 or above 1, ``TypeError`` where one isn't exact, and as ``distance`` does.
    """
    for name, number in (("times", times), ("plus", plus)):
        if isinstance(number, bool) or not isinstance(number, (int, Fraction)):
            raise TypeError(f"{name} is a Fraction or a whole number, and {number!r} was given")
    if times <= 0 or not 0 <= plus <= 1:
        raise ValueError("times is above 0, and plus is from 0 to 1")
    pair = _Pair.of(a, b, seconds)
    least, matrix, gains = pair.least_excess(Fraction(times))
    return Limit(Fraction(times), Fraction(plus), least, matrix, pair.table(gains))


def check_within(found: Within | Limit, a: Hyper, b: Hyper) -> bool:
    """Whether both sides of an answer are what it says of two hypers, multiplied out in fractions and by nothing else.

    The matrix is stochastic and its excess is the one that is stated; the gains are from 0 to 1 (from 0 on, where nothing is added), and the
    vulnerabilities under them meet it.
    """
    least = found.least if isinstance(found, Limit) else found.plus
    first, second, table = _joint(a), _joint(b), found.table
    gains = [Fraction(n, table.over) for n in (table.rest, *(n for action in table.actions for n in action.gains.values()))]
    if min(gains) < 0 or (least > 0 and max(gains) > 1):
        return False
    if found.times is None:
        return _worth(first, table) == 0 < _worth(second, table)
    if found.matrix is None or len(found.matrix.rows) != len(first) or any(len(row) != len(second) for row in found.matrix.rows):
        return False
    if any(p < 0 for row in found.matrix.rows for p in row) or any(sum(row) != 1 for row in found.matrix.rows):
        return False
    if _excess(first, second, found.times, found.matrix) > least or _worth(second, table) != found.times * _worth(first, table) + least:
        return False
    return isinstance(found, Limit) or least > 0 or _worth(first, table) > 0


def _joint(hyper: Hyper) -> Joint:
    return [{x: inner.outer * p for x, p in inner.distribution.items() if p} for inner in hyper.inners]


def _worth(joint: Joint, table: GainTable) -> Fraction:
    """The posterior vulnerability under a table: of each inner what its best action gains."""
    return sum((table.vulnerability(inner) for inner in joint), Fraction(0))


def _excess(a: Joint, b: Joint, times: Fraction, matrix: Matrix) -> Fraction:
    """The sum over values and inners of ``b`` of what is above ``times`` as much as the matrix makes of ``a``."""
    total = Fraction(0)
    for j, inner in enumerate(b):
        for x, p in inner.items():
            made = sum((of_a[x] * row[j] for of_a, row in zip(a, matrix.rows) if x in of_a and row[j]), Fraction(0))
            total += max(p - times * made, Fraction(0))
    return total


@dataclass(frozen=True)
class _Class:
    """Values whose probabilities stand in one ratio in all inners of both hypers, and the sums of these."""

    values: tuple[Value, ...]
    a: Mapping[int, Fraction]
    b: Mapping[int, Fraction]


@dataclass(frozen=True)
class _Pair:
    """Two hypers about one target, as joint matrices, and the classes of values that need no equations of their own."""

    a: Joint
    b: Joint
    classes: tuple[_Class, ...]
    until: float

    @classmethod
    def of(cls, a: Asked, b: Asked, seconds: float | None) -> _Pair:
        bound = seconds_of("seconds", seconds)
        deadline = Deadline(bound)
        first, second = (hyper_of(asked_for(name, asked), deadline.left) for name, asked in (("a", a), ("b", b)))
        if first.target != second.target:
            raise KuifjeError(f"targets differ: {first.target}, and {second.target}")
        joints = _joint(first), _joint(second)
        return cls(*joints, tuple(_classes(*joints)), monotonic() + 1e9 if bound is None else monotonic() + (deadline.left or 0.0))

    def table(self, gains: list[list[Fraction]]) -> GainTable:
        """The gain table of these gains: for each inner of ``b`` an action, with a gain for each class."""
        over = lcm(*(g.denominator for row in gains for g in row))
        actions = []
        for j in range(len(self.b)):
            named = {x: int(of[j] * over) for of, c in zip(gains, self.classes) if of[j] for x in c.values}
            actions.append(Action(f"a{j}", {x: named[x] for x in ascending(named)}))
        return GainTable(over, 0, tuple(actions))

    def least_excess(self, times: Fraction) -> tuple[Fraction, Matrix, list[list[Fraction]]]:
        """The least excess at a factor, a matrix that has it, and for each class and inner of ``b`` the gain that shows that none has less."""
        m, n, k = len(self.a), len(self.b), len(self.classes)
        entry = [[i * n + j for j in range(n)] for i in range(m)]
        over = [[m * n + x * n + j for j in range(n)] for x in range(k)]
        under = [[m * n + k * n + x * n + j for j in range(n)] for x in range(k)]
        tableau = Tableau({unknown: Fraction(1) for row in over for unknown in row})
        sums = [tableau.add({unknown: 1 for unknown in row}, 1) for row in entry]
        cells = [
            [
                tableau.add({**{entry[i][j]: times * p for i, p in c.a.items()}, over[x][j]: 1, under[x][j]: -1}, c.b.get(j, Fraction(0)))
                for j in range(n)
            ]
            for x, c in enumerate(self.classes)
        ]
        near = near_least(tableau, self.until) if m * n + k * n > ALONE else None
        if near is not None and near.ends is not None:
            ends = near.ends
            found = self._answer(
                times, [[ends.solution.get(u, Fraction(0)) for u in row] for row in entry], [[ends.prices[r] for r in row] for row in cells]
            )
            if found is not None:
                return found
        most = max(range(n), key=lambda j: sum(self.b[j].values()))
        for i, number in enumerate(sums):
            tableau.enter(number, entry[i][most])
        for x, c in enumerate(self.classes):
            for j in range(n):
                lacking = c.b.get(j, Fraction(0)) - (times * sum(c.a.values()) if j == most else 0)
                tableau.enter(cells[x][j], over[x][j] if lacking >= 0 else under[x][j])
        if near is not None:
            tableau.run(self.until, near.above)
        tableau.run(self.until)
        solution = tableau.solution()
        rows = [[solution.get(u, Fraction(0)) for u in row] for row in entry]
        found = self._answer(times, rows, [[tableau.reduced_cost(u) for u in row] for row in under])
        assert found is not None, "the prices don't prove the matrix"
        return found

    def _answer(
        self, times: Fraction, rows: list[list[Fraction]], gains: list[list[Fraction]]
    ) -> tuple[Fraction, Matrix, list[list[Fraction]]] | None:
        """Matrix and gains where each proves the other; else none."""
        if any(p < 0 for row in rows for p in row) or any(sum(row) != 1 for row in rows) or any(not 0 <= g <= 1 for row in gains for g in row):
            return None
        matrix, table = Matrix(tuple(map(tuple, rows))), self.table(gains)
        least = _excess(self.a, self.b, times, matrix)
        return (least, matrix, gains) if least == _worth(self.b, table) - times * _worth(self.a, table) else None


def _classes(a: Joint, b: Joint) -> Iterable[_Class]:
    """The classes of values, in the order of their smallest ones."""
    rows: dict[Value, dict[tuple[int, int], Fraction]] = {}
    for side, joint in enumerate((a, b)):
        for i, inner in enumerate(joint):
            for x, p in inner.items():
                rows.setdefault(x, {})[side, i] = p
    members: dict[frozenset[tuple[tuple[int, int], Fraction]], list[Value]] = {}
    for x in ascending(rows):
        total = sum(rows[x].values())
        members.setdefault(frozenset((place, p / total) for place, p in rows[x].items()), []).append(x)
    for values in members.values():
        sums: list[dict[int, Fraction]] = [{}, {}]
        for x in values:
            for (side, i), p in rows[x].items():
                sums[side][i] = sums[side].get(i, Fraction(0)) + p
        yield _Class(tuple(values), *sums)
