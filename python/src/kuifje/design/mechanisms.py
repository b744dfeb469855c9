"""Well-known mechanisms as channels in exact fractions, to begin with and to compare a design with."""

from __future__ import annotations

from collections.abc import Callable, Mapping, Sequence
from fractions import Fraction

from ..channels import Channel, Rational
from ..texts import Item, Target
from ..values import Value, ascending, format_value
from .tasks import Loss, exact, task

__all__ = ["exponential", "planar_geometric", "randomised_response", "remapped", "truncated_geometric"]


def _channel(secrets: Sequence[Value], outputs: Sequence[Value], weight: Callable[[Value, Value], Fraction]) -> Channel:
    """Each row has the weights of its outputs, divided by their sum. Raises ``ValueError`` where there is no value or output, or one stands twice."""
    for listed, name in ((secrets, "value"), (outputs, "output")):
        if not listed or len(set(listed)) != len(listed):
            raise ValueError(f"there is at least one {name}, and none stands twice")
    rows = {}
    for x in ascending(secrets):
        weights = [weight(x, y) for y in outputs]
        rows[x] = tuple(w / sum(weights) for w in weights)
    return Channel(Target((Item("x", True),)), tuple((y,) for y in outputs), rows)


def _above_one(factor: Rational) -> Fraction:
    found = exact(factor, "the factor")
    if found < 1:
        raise ValueError(f"the factor is e^ε, at least 1, and not {found}")
    return found


def randomised_response(values: Sequence[Value], factor: Rational) -> Channel:
    """Each value is shown as it is ``factor`` (e^ε) times as often as each other one (Warner 1965; Kairouz, Oh and Viswanath 2016)."""
    k = _above_one(factor)
    return _channel(values, ascending(values), lambda x, y: k if x == y else Fraction(1))


def truncated_geometric(n: int, factor: Rational) -> Channel:
    """A count from 0 to ``n - 1`` with two-sided geometric noise; what passes an end is shown as that end (Ghosh, Roughgarden and Sundararajan 2009).

    Neighbouring counts have the factor ``factor`` (e^ε).
    """
    k = _above_one(factor)
    if n < 2 or isinstance(n, bool):
        raise ValueError(f"there are at least two counts, and not {n!r}")
    if k == 1:
        raise ValueError("with the factor 1 the noise has no distribution")
    alpha = 1 / k

    def cell(x: int, y: int) -> Fraction:
        away = alpha ** abs(x - y)
        return away / (1 + alpha) if y in (0, n - 1) else away * (1 - alpha) / (1 + alpha)

    rows: dict[Value, tuple[Fraction, ...]] = {x: tuple(cell(x, y) for y in range(n)) for x in range(n)}
    return Channel(Target((Item("x", True),)), tuple((y,) for y in range(n)), rows)


def exponential(values: Sequence[Value], outputs: Sequence[Value], score: Callable[[Value, Value], int], factor: Rational) -> Channel:
    """An output is ``factor`` to the power of its score as likely as one of score 0 (McSherry and Talwar 2007). Scores are whole numbers.

    Where a score differs by at most 1 between two neighbours, no output is more than ``factor`` squared times as likely under one as under the other.
    """
    k = _above_one(factor)

    def weight(x: Value, y: Value) -> Fraction:
        found = score(x, y)
        if isinstance(found, bool) or not isinstance(found, int):
            raise TypeError(f"a score is a whole number, so that the powers are fractions, and not {found!r}")
        return k**found

    return _channel(values, list(outputs), weight)


def planar_geometric(width: int, height: int, factor: Rational) -> Channel:
    """A place ``(column, row)`` of a grid, shown as a place that is ``factor`` times less likely with each step away from it, up, down or sideways.

    It is the exponential mechanism with the number of steps as its cost, after the planar Laplace mechanism (Andrés, Bordenabe, Chatzikokolakis and
    Palamidessi 2013), whose straight distance would make probabilities irrational. Places d steps apart have at most ``factor ** (2 * d)``.
    """
    places: list[Value] = [(i, j) for i in range(width) for j in range(height)]

    def steps(x: Value, y: Value) -> int:
        assert isinstance(x, tuple) and isinstance(y, tuple)
        (i, j), (k, m) = ((int(a), int(b)) for a, b in (x, y) if isinstance(a, int) and isinstance(b, int))
        return -(abs(i - k) + abs(j - m))

    return exponential(places, places, steps, factor)


def remapped(channel: Channel, prior: Mapping[Value, Rational], outputs: Sequence[Value], loss: Loss) -> Channel:
    """The channel with each of its columns shown as the output that costs least there at this prior: the best remap (Chatzikokolakis, ElSalamouny and
    Palamidessi 2017). It is a cascade, so it leaks no more under any gain function, and its factors are no greater.
    """
    about = task(prior, outputs, loss)
    if lacking := [x for x in about.secrets if x not in channel.rows]:
        raise ValueError(f"the channel has no row for {format_value(lacking[0])}")
    rows = {x: channel.rows[x] for x in about.secrets}
    found = {x: [Fraction(0)] * len(about.outputs) for x in about.secrets}
    for j in range(len(channel.columns)):
        costs = [
            sum((p * rows[x][j] * row[y] for x, p, row in zip(about.secrets, about.prior, about.losses)), Fraction(0))
            for y in range(len(about.outputs))
        ]
        best = costs.index(min(costs))
        for x in about.secrets:
            found[x][best] += rows[x][j]
    return about.channel([found[x] for x in about.secrets])
