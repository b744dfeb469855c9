"""Leakage games: public inputs of which an attacker chooses some and a defender the others, neither of them knowing what the other one chooses.

Each number of the table is the proved program's. The saddle point is computed here, in fractions, and isn't proved; ``check_saddle`` checks one by
itself. The games are those of Alvim, Chatzikokolakis, Kawamoto and Palamidessi (2018), in which it is known after a run what both chose.
"""

from __future__ import annotations

import html
from collections.abc import Iterable, Sequence
from dataclasses import dataclass
from fractions import Fraction
from math import inf

from .design.tableau import Tableau
from .model import Model, Role
from .public_inputs import Inputs, Measure, inputs_text, measure_all

__all__ = ["Saddle", "check_saddle", "minimax"]

MOST_CELLS = 10_000


@dataclass(frozen=True, repr=False)
class Saddle:
    """How an attacker and a defender choose, so that neither does better with anything else, and what is leaked then.

    ``table[i][j]`` is what was measured where the defender chooses ``defences[i]`` and the attacker ``attacks[j]``. ``defender[i]`` and
    ``attacker[j]`` are the probabilities with which they choose them, and ``value`` is the mean of the table by both. ``least`` says whether less of
    it is worse for the secret. ``fixed`` are public inputs with one value, which nobody chooses.
    """

    defences: tuple[Inputs, ...]
    attacks: tuple[Inputs, ...]
    table: tuple[tuple[Fraction, ...], ...]
    defender: tuple[Fraction, ...]
    attacker: tuple[Fraction, ...]
    value: Fraction
    least: bool = False
    fixed: tuple[str, ...] = ()

    @property
    def is_pure(self) -> bool:
        """Whether both choose one thing, and no probability is needed."""
        return 1 in self.defender and 1 in self.attacker

    @property
    def by_defence(self) -> tuple[Fraction, ...]:
        """What each defence comes to against the attacker's choice: none is better for the defender than ``value``."""
        return tuple(_mean(self.attacker, row) for row in self.table)

    @property
    def by_attack(self) -> tuple[Fraction, ...]:
        """What each attack comes to against the defender's choice: none is better for the attacker than ``value``."""
        return tuple(_mean(self.defender, column) for column in zip(*self.table))

    def records(self) -> list[dict[str, object]]:
        """A row for each pair of a defence and an attack: the inputs, and ``value``."""
        pairs = ((i, j) for i in range(len(self.defences)) for j in range(len(self.attacks)))
        return [{**self.defences[i], **self.attacks[j], "value": self.table[i][j]} for i, j in pairs]

    def __str__(self) -> str:
        more, less = ("fewer", "more") if self.least else ("more", "less")
        lines = [f"value {self.value}, {'pure' if self.is_pure else 'mixed'}", "the defender chooses"]
        lines += [f"  {inputs_text(inputs)} with probability {p}" for inputs, p in zip(self.defences, self.defender) if p]
        lines += [f"so that no attack comes to {more}:", *(f"  {inputs_text(a)}: {v}" for a, v in zip(self.attacks, self.by_attack))]
        lines += ["the attacker chooses"]
        lines += [f"  {inputs_text(inputs)} with probability {p}" for inputs, p in zip(self.attacks, self.attacker) if p]
        lines += [f"so that no defence comes to {less}:", *(f"  {inputs_text(d)}: {v}" for d, v in zip(self.defences, self.by_defence))]
        lines += [f"{name} has this value alone, since it isn't declared by one_of" for name in self.fixed]
        return "".join(f"{line}\n" for line in lines)

    def __repr__(self) -> str:
        return f"<Saddle>\n{self}".rstrip()

    def _repr_html_(self) -> str:
        return f"<pre>{html.escape(str(self))}</pre>"


def _mean(weights: Iterable[Fraction], numbers: Iterable[Fraction]) -> Fraction:
    return sum((w * x for w, x in zip(weights, numbers)), Fraction(0))


def check_saddle(found: Saddle) -> bool:
    """Whether neither side does better with anything else, by the table and both choices alone.

    The attacker's choice comes to ``value`` at least against each defence, and so against each mixture of them; the defender's comes to ``value`` at
    most against each attack. So both are best, and ``value`` is what they come to.
    """
    sign = -1 if found.least else 1
    shapes = len(found.table) == len(found.defences) == len(found.defender) and {len(row) for row in found.table} == {len(found.attacks)}
    if not shapes or len(found.attacker) != len(found.attacks):
        return False
    chosen = all(sum(side) == 1 and min(side) >= 0 for side in (found.defender, found.attacker))
    return chosen and max(sign * v for v in found.by_attack) == sign * found.value == min(sign * v for v in found.by_defence)


def _pure(losses: Sequence[Sequence[Fraction]]) -> tuple[int, int] | None:
    """A row and a column whose cell is greatest in its row and least in its column, the first ones; none where there is none."""
    for i, row in enumerate(losses):
        for j, loss in enumerate(row):
            if loss == max(row) == min(other[j] for other in losses):
                return i, j
    return None


def _mixed(losses: Sequence[Sequence[Fraction]]) -> tuple[list[Fraction], list[Fraction]]:
    """The best mixtures of rows and of columns, by an exact linear program (von Neumann 1928; Dantzig 1951).

    The unknowns are the probabilities of the rows, what is lost at most, and how far each column stays below it. It begins with the first row alone.
    The price of a column is its probability.
    """
    rows, columns, lowest = len(losses), len(losses[0]), min(min(row) for row in losses)
    tableau = Tableau({rows: 1})
    whole = tableau.add({i: 1 for i in range(rows)}, 1)
    of_column = []
    for j in range(columns):
        slack = rows + 1 + j
        of_column.append(tableau.add({**{i: losses[i][j] - lowest for i in range(rows)}, rows: -1, slack: 1}, 0, slack))
    tableau.enter(whole, 0)
    tableau.enter(of_column[max(range(columns), key=losses[0].__getitem__)], rows)
    tableau.run(inf)
    solution = tableau.solution()
    return [solution.get(i, Fraction(0)) for i in range(rows)], [tableau.reduced_cost(rows + 1 + j) for j in range(columns)]


def _sides(model: Model, attacker: Sequence[str], defender: Sequence[str]) -> tuple[tuple[str, ...], tuple[str, ...]]:
    """The public inputs of both sides. Raises ``ValueError`` where they aren't those with several values, each on one side."""
    for name, side in (("attacker", attacker), ("defender", defender)):
        if isinstance(side, str) or not all(isinstance(one, str) for one in side):
            raise TypeError(f"{name} is a list of public inputs by their names, like ['guess'], and {side!r} was given")
    several = {parameter.name for parameter in model.parameters if parameter.role is Role.PUBLIC and parameter.domain is not None}
    sides = tuple(attacker), tuple(defender)
    if unknown := [name for side in sides for name in side if name not in several]:
        raise ValueError(f"{model.name} has no public input {unknown[0]} with several values")
    named = sides[0] + sides[1]
    if len(set(named)) != len(named):
        raise ValueError(f"{next(name for name in named if named.count(name) > 1)} is chosen by one side, once")
    if lacking := sorted(several - set(named)):
        raise ValueError(f"{lacking[0]} has several values, and is chosen by neither side")
    if not all(sides):
        raise ValueError("each side chooses a public input: ask worst or best where there is one side alone")
    return sides


def minimax(
    model: Model,
    measure: Measure = "leak --gain bayes",
    *,
    attacker: Sequence[str],
    defender: Sequence[str],
    of: str = "posterior_vulnerability",
    least: bool | None = None,
    own_prior: bool = False,
) -> Saddle:
    """How an attacker and a defender choose public inputs where neither knows what the other one chooses: the saddle point.

    ``attacker`` and ``defender`` name the public inputs that each chooses; those with several values are on one side each. The measure with ``of``,
    ``least`` and ``own_prior`` is as for ``worst``: the attacker wants what is worse for the secret, the defender what is better. Where there is a
    pure saddle point, each chooses one thing; else each draws its choice, by itself, with probabilities that an exact linear program gives. What
    counts then is the mean of what is measured, since it is known after the run what was chosen: of a posterior vulnerability it is that of the
    visible choice (the book, chapter 8). ``check_saddle`` checks the answer, and has done so before it is given.

    Raises ``ValueError`` where a name is no public input with several values, one is on no side or on both, or there are more than 10,000 pairs, and
    what ``worst`` raises.
    """
    if not isinstance(model, Model):
        raise TypeError(f"{model!r} has no public inputs: minimax is asked of a model")
    attacks_of, defences_of = _sides(model, attacker, defender)
    inputs_of_all = list(model.inputs())
    if len(inputs_of_all) > MOST_CELLS:
        raise ValueError(f"the table has {len(inputs_of_all)} pairs, and may have {MOST_CELLS}")
    found, fixed, fewer = measure_all(model, measure, of, least, own_prior, "minimax")
    cells: dict[tuple[str, str], Fraction] = {}
    defences: dict[str, Inputs] = {}
    attacks: dict[str, Inputs] = {}
    for inputs, value in found:
        row, column = ({name: inputs[name] for name in names} for names in (defences_of, attacks_of))
        defences.setdefault(repr(row), row)
        attacks.setdefault(repr(column), column)
        cells[repr(row), repr(column)] = value
    table = tuple(tuple(cells[row, column] for column in attacks) for row in defences)
    return _saddle(tuple(defences.values()), tuple(attacks.values()), table, fewer, fixed)


def _saddle(
    defences: tuple[Inputs, ...], attacks: tuple[Inputs, ...], table: tuple[tuple[Fraction, ...], ...], least: bool, fixed: tuple[str, ...]
) -> Saddle:
    """The saddle point of a table."""
    losses = [[-value if least else value for value in row] for row in table]
    if (pure := _pure(losses)) is not None:
        by_row, by_column = ([Fraction(int(i == one)) for i in range(n)] for one, n in zip(pure, (len(defences), len(attacks))))
    else:
        by_row, by_column = _mixed(losses)
    value = _mean(by_row, (_mean(by_column, row) for row in table))
    found = Saddle(defences, attacks, table, tuple(by_row), tuple(by_column), value, least, fixed)
    assert check_saddle(found), "the two choices don't prove each other"
    return found
