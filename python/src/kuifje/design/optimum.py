"""The channel that leaks least under a bound on the expected loss, with a price and a blind strategy that prove that none leaks less."""

from __future__ import annotations

from collections.abc import Mapping, Sequence
from dataclasses import dataclass
from fractions import Fraction
from time import monotonic

from ..channels import Channel, Rational
from ..errors import OutOfTime
from ..texts import GainTable
from ..values import Value
from .near import ALONE, Ends, near_least
from .tableau import Tableau
from .privacy import infeasible
from .tasks import SECONDS, Aim, Loss, Task, exact, task

__all__ = ["Corner", "Optimum", "check_optimum", "optimal", "tradeoff"]


@dataclass(frozen=True)
class Optimum:
    """A channel that leaks least under a bound on the expected loss, and the proof.

    ``value`` is what it leaks: the posterior vulnerability, or the capacity. ``loss`` is its expected loss, at most ``bound``. ``price`` is what
    one unit of loss is worth in units of the value, and ``strategy[y][a]`` the probability with which an adversary who doesn't look at the channel
    takes the action ``a`` after the output ``y`` (for one guess and for capacities an action is a secret). From both ``check_optimum`` computes a
    lower bound for every channel that keeps the bound; it is ``value``.
    """

    aim: Aim
    bound: Fraction
    value: Fraction
    loss: Fraction
    channel: Channel
    price: Fraction
    strategy: Mapping[Value, Mapping[Value | str, Fraction]]


def _gains(about: Task, aim: Aim) -> tuple[list[Value | str], list[list[Fraction]]]:
    """The actions of an adversary, and for each what it adds to the aim at each secret, were the output certain there."""
    weights = [Fraction(1)] * len(about.secrets) if aim == "capacity" else list(about.prior)
    if isinstance(aim, GainTable):
        names: list[Value | str] = [action.name for action in aim.actions]
        return names, [[w * aim.gain(action, x) for w, x in zip(weights, about.secrets)] for action in aim.actions]
    if aim not in ("bayes", "capacity"):
        raise ValueError(f"the aim is 'bayes', 'capacity' or a GainTable, and not {aim!r}")
    n = len(weights)
    return list(about.secrets), [[weights[x] if x == a else Fraction(0) for x in range(n)] for a in range(n)]


def leaks(about: Task, aim: Aim, cells: Sequence[Sequence[Fraction]]) -> Fraction:
    """What a channel with these rows leaks: the sum over outputs of what the best action is worth there."""
    _, gains = _gains(about, aim)
    columns = range(len(about.outputs))
    return sum((max(sum((g * row[y] for g, row in zip(of, cells) if g and row[y]), Fraction(0)) for of in gains) for y in columns), Fraction(0))


class _Program:
    """The linear program of least leakage: cells of a channel, and for each output what the best action is worth there."""

    def __init__(self, about: Task, aim: Aim, bound: Fraction | None, price: Fraction) -> None:
        self.about, self.aim, self.given_price = about, aim, price
        self.names, gains = _gains(about, aim)
        self.lowest = min(Fraction(0), *(g / p for of in gains for g, p in zip(of, about.prior)))
        self.gains = [[g - self.lowest * p for g, p in zip(of, about.prior)] for of in gains] if isinstance(aim, GainTable) else gains
        n, m, k = len(about.secrets), len(about.outputs), len(self.gains)
        self.worth = [n * m + y for y in range(m)]
        self.slack = [[n * m + m + a * m + y for y in range(m)] for a in range(k)]
        self.spare = n * m + m + k * m
        self.bound = bound
        costs = {self.cell(x, y): price * p * q for x, (p, row) in enumerate(zip(about.prior, about.losses)) for y, q in enumerate(row)}
        self.tableau = Tableau({**costs, **{j: Fraction(1) for j in self.worth}})
        self._add(costs if bound is None else {j: about.prior[j // m] * about.losses[j // m][j % m] for j in costs})
        self._ends: Ends | None = None

    def cell(self, x: int, y: int) -> int:
        return x * len(self.about.outputs) + y

    def _add(self, costs: Mapping[int, Fraction]) -> None:
        """Adds the equations."""
        tableau, columns = self.tableau, range(len(self.about.outputs))
        self.rows = [tableau.add({self.cell(x, y): 1 for y in columns}, 1) for x in range(len(self.about.secrets))]
        self.of_worth = {
            (a, y): tableau.add({**{self.cell(x, y): g for x, g in enumerate(of)}, self.worth[y]: -1, self.slack[a][y]: 1}, 0, self.slack[a][y])
            for a, of in enumerate(self.gains)
            for y in columns
        }
        if self.bound is not None:
            self.of_bound = tableau.add({**costs, self.spare: 1}, self.bound, self.spare)

    def _begin(self) -> None:
        """Begins at the channel in which each secret shows the output that costs it least."""
        about, tableau, columns = self.about, self.tableau, range(len(self.about.outputs))
        first = [min(columns, key=row.__getitem__) for row in about.losses]
        for x, y in enumerate(first):
            tableau.enter(self.rows[x], self.cell(x, y))
        for y in columns:
            here = [x for x in range(len(first)) if first[x] == y]
            best = max(range(len(self.gains)), key=lambda a: sum((self.gains[a][x] for x in here), Fraction(0)))
            tableau.enter(self.of_worth[best, y], self.worth[y])

    def run(self, until: float) -> None:
        """Finds the least value: what HiGHS ends with, where that can be made exact and proves itself; else the exact simplex goes on from there.

        Raises ``OutOfTime``.
        """
        near = near_least(self.tableau, until) if len(self.about.secrets) * len(self.about.outputs) > ALONE else None
        if near is not None and near.ends is not None:
            self._ends = near.ends
            if self.is_proved():
                return
        self._ends = None
        self._begin()
        if near is not None:
            self.tableau.run(until, near.above)
        self.tableau.run(until)

    def is_proved(self) -> bool:
        """Whether its price and strategy show that no channel does better than its cells: by the cells and by these alone."""
        about, cells, strategy, price = self.about, self.cells(), self.strategy(), self.price()
        bound = about.loss_of(cells) if self.bound is None else self.bound
        if price < 0 or any(p < 0 for row in (*cells, *strategy) for p in row) or any(sum(row) != 1 for row in (*cells, *strategy)):
            return False
        return about.loss_of(cells) <= bound and leaks(about, self.aim, cells) == lower_bound(about, self.aim, bound, price, strategy)

    def price(self) -> Fraction:
        """What one unit of loss is worth."""
        if self.bound is None:
            return self.given_price
        return self.tableau.reduced_cost(self.spare) if self._ends is None else -self._ends.prices[self.of_bound]

    def cells(self) -> list[list[Fraction]]:
        found = self.tableau.solution() if self._ends is None else self._ends.solution
        return [[found.get(self.cell(x, y), Fraction(0)) for y in range(len(self.about.outputs))] for x in range(len(self.about.secrets))]

    def strategy(self) -> list[list[Fraction]]:
        """For each output the probability of each action, whatever is left over going to the first one: no gain is below 0 here."""

        def weight(a: int, y: int) -> Fraction:
            return self.tableau.reduced_cost(self.slack[a][y]) if self._ends is None else -self._ends.prices[self.of_worth[a, y]]

        found = [[weight(a, y) for a in range(len(self.gains))] for y in range(len(self.about.outputs))]
        for row in found:
            row[0] += 1 - sum(row)
        return found


def lower_bound(about: Task, aim: Aim, bound: Fraction, price: Fraction, strategy: Sequence[Sequence[Fraction]]) -> Fraction:
    """What every channel with at most this loss leaks at least, by a price and a strategy. It needs no linear program.

    After each output the strategy takes an action without looking at the channel, so it does no better than the best action; each channel's cells
    are weights of a mean over outputs, so no smaller than the least; and what the price adds for loss is at most the price times the bound.
    Raises ``ValueError`` where the price is below 0 or the strategy is none.
    """
    if price < 0 or any(p < 0 for row in strategy for p in row) or any(sum(row) != 1 for row in strategy):
        raise ValueError("a price isn't below 0, and a strategy has a distribution on the actions for each output")
    _, gains = _gains(about, aim)

    def worth(x: int, y: int) -> Fraction:
        return sum((w * of[x] for w, of in zip(strategy[y], gains) if w), Fraction(0)) + price * about.prior[x] * about.losses[x][y]

    return sum((min(worth(x, y) for y in range(len(about.outputs))) for x in range(len(about.secrets))), Fraction(0)) - price * bound


def check_optimum(found: Optimum, prior: Mapping[Value, Rational], outputs: Sequence[Value], loss: Loss) -> bool:
    """Whether a channel keeps its bound, leaks ``found.value``, and no channel that keeps the bound leaks less, by the price and the strategy alone.

    It works out both sides anew, in fractions: what this channel leaks and costs, and what every other one leaks at least.
    """
    about = task(prior, outputs, loss)
    names, _ = _gains(about, found.aim)
    try:
        cells = about.cells_of(found.channel)
        strategy = [[found.strategy[y].get(a, Fraction(0)) for a in names] for y in about.outputs]
        if any(a not in names for y in about.outputs for a in found.strategy[y]):
            return False
        least = lower_bound(about, found.aim, found.bound, found.price, strategy)
    except (KeyError, ValueError):
        return False
    return about.loss_of(cells) == found.loss <= found.bound and leaks(about, found.aim, cells) == found.value == least


def _optimum(about: Task, aim: Aim, bound: Fraction, price: Fraction, cells: list[list[Fraction]], strategy: list[list[Fraction]]) -> Optimum:
    names, _ = _gains(about, aim)
    value, least = leaks(about, aim, cells), lower_bound(about, aim, bound, price, strategy)
    assert value == least and about.loss_of(cells) <= bound, "the price and the strategy don't prove the channel"
    by_output = {y: {a: w for a, w in zip(names, row) if w} for y, row in zip(about.outputs, strategy)}
    return Optimum(aim, bound, value, about.loss_of(cells), about.channel(cells), price, by_output)


def _silent(about: Task, aim: Aim, bound: Fraction) -> Optimum:
    """One output whatever the secret is: nothing leaks, and no price is paid."""
    columns, one = range(len(about.outputs)), about.silent_output
    cells = [[Fraction(int(y == one)) for y in columns] for _ in about.secrets]
    _, gains = _gains(about, aim)
    best = max(range(len(gains)), key=lambda a: sum(gains[a], Fraction(0)))
    strategy = [[Fraction(int(a == best)) for a in range(len(gains))] for _ in columns]
    return _optimum(about, aim, bound, Fraction(0), cells, strategy)


def _solved(about: Task, aim: Aim, bound: Fraction | None, price: Fraction, seconds: float) -> _Program:
    program = _Program(about, aim, bound, price)
    try:
        program.run(monotonic() + seconds)
    except OutOfTime:
        size = f"{len(about.secrets)} secrets and {len(about.outputs)} outputs"
        raise OutOfTime(f"no least channel for {size} within {max(seconds, 0):g} seconds; seconds= allows more") from None
    return program


def optimal(
    prior: Mapping[Value, Rational], outputs: Sequence[Value], loss: Loss, bound: Rational, aim: Aim = "bayes", seconds: float = SECONDS
) -> Optimum:
    """The channel that leaks least among those whose expected loss is at most ``bound``, with its proof.

    ``loss(x, y)`` is what it costs that ``y`` is shown where the secret is ``x``, in any unit, and ``bound`` is in the same one. What leaks is the
    posterior Bayes vulnerability, the Bayes capacity or the posterior vulnerability under a ``GainTable``. The linear program (Shokri et al. 2012) is
    solved in whole numbers, without rounding. Secrets of probability 0 are left out.

    Raises ``Infeasible`` where no channel has so little loss, ``TypeError`` for floats, ``ValueError`` where the prior is no distribution, and
    ``OutOfTime`` where it takes longer than ``seconds``.
    """
    about, most = task(prior, outputs, loss), exact(bound, "the bound")
    _gains(about, aim)
    if most < about.least_loss:
        raise infeasible(about, most)
    if most >= about.silent_loss:
        return _silent(about, aim, most)
    program = _solved(about, aim, most, Fraction(0), seconds)
    return _optimum(about, aim, most, program.price(), program.cells(), program.strategy())


@dataclass(frozen=True)
class Corner:
    """A corner of the curve of least leakage against loss: between two corners the curve is a straight line."""

    loss: Fraction
    value: Fraction
    channel: Channel


def tradeoff(
    prior: Mapping[Value, Rational], outputs: Sequence[Value], loss: Loss, aim: Aim = "bayes", seconds: float = SECONDS
) -> tuple[Corner, ...]:
    """All corners of the least leakage as a function of the bound on the expected loss, from the least loss to that beyond which more buys nothing.

    The curve falls, and is convex and piecewise linear. Raises as ``optimal`` does.
    """
    about, until = task(prior, outputs, loss), monotonic() + seconds
    ends = [optimal(prior, outputs, loss, b, aim, until - monotonic()) for b in (about.least_loss, about.silent_loss)]
    first, last = (Corner(found.loss, found.value, found.channel) for found in ends)
    if first.loss == last.loss:
        return (last,)

    def between(left: Corner, right: Corner) -> list[Corner]:
        price = (left.value - right.value) / (right.loss - left.loss)
        program = _solved(about, aim, None, price, until - monotonic())
        cells = program.cells()
        corner = Corner(about.loss_of(cells), leaks(about, aim, cells), about.channel(cells))
        if corner.value + price * corner.loss == left.value + price * left.loss:
            return []
        return [*between(left, corner), corner, *between(corner, right)]

    return tuple(_corners([first, *between(first, last), last]))


def _corners(points: Sequence[Corner]) -> list[Corner]:
    """The corners among points of a convex curve that falls, from left to right: without points between two others, and what no longer falls."""
    found: list[Corner] = []
    for point in points:
        if found and point.value >= found[-1].value:
            break
        while len(found) > 1 and (found[-1].loss - found[-2].loss) * (found[-2].value - point.value) >= (point.loss - found[-2].loss) * (
            found[-2].value - found[-1].value
        ):
            found.pop()
        found.append(point)
    return found
