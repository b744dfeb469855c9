"""Measures that the proved program leaves out, computed here from its exact answers.

Each of these is computed in Python and not proved; what isn't rational is an interval that contains it. The terms are those of *The Science of
Quantitative Information Flow* (2020).
"""

from __future__ import annotations

import re
from collections.abc import Callable, Iterable, Mapping, Sequence
from fractions import Fraction
from math import lcm
from typing import Literal

from .channels import Channel, rational, wanted
from .channels import distribution as exact
from .intervals import Interval, log2, natural_log, total
from .texts import Action, GainTable, Hyper
from .values import Value

__all__ = [
    "additive_capacity",
    "bayes_vulnerability",
    "differential_privacy",
    "gain_table",
    "min_entropy_leakage",
    "mutual_information",
    "posterior_vulnerability",
    "prior_vulnerability",
    "shannon_entropy",
]

Distribution = Mapping[Value, Fraction]


def bayes_vulnerability(distribution: Distribution) -> Fraction:
    """Bayes vulnerability (the book, chapter 2): the probability of the likeliest value, so that of one right guess.

    Raises ``TypeError`` where a probability isn't exact, as a float, and ``ValueError`` where one is below 0, or they don't sum to 1.
    """
    return _likeliest(exact(distribution, "distribution"))


def _likeliest(distribution: Distribution) -> Fraction:
    return max(distribution.values())


def prior_vulnerability(hyper: Hyper, vulnerability: Callable[[Distribution], Fraction] = bayes_vulnerability) -> Fraction:
    """The vulnerability of the distribution before anything is seen (the book, chapter 3).

    ``vulnerability`` is that of a distribution, as ``bayes_vulnerability`` or a ``GainTable``'s is. Each measure of a hyper-distribution raises
    ``TypeError`` where it is given something else.
    """
    wanted(hyper, Hyper, "hyper")
    return vulnerability(hyper.prior)


def posterior_vulnerability(hyper: Hyper, vulnerability: Callable[[Distribution], Fraction] = bayes_vulnerability) -> Fraction:
    """The expected vulnerability of the posterior, over all inners, each with its outer (the book, chapter 5)."""
    wanted(hyper, Hyper, "hyper")
    of = _likeliest if vulnerability is bayes_vulnerability else vulnerability
    return sum((inner.outer * of(inner.distribution) for inner in hyper.inners), Fraction(0))


def shannon_entropy(distribution: Distribution) -> Interval:
    """Shannon entropy, in bits (the book, chapter 2): an interval no wider than 2^-50.

    Raises ``TypeError`` where a probability isn't exact, as a float, and ``ValueError`` where one is below 0, or they don't sum to 1.
    """
    return _entropy(exact(distribution, "distribution"))


def _entropy(distribution: Distribution) -> Interval:
    return total(p * -log2(p) for p in distribution.values() if p > 0)


def mutual_information(hyper: Hyper) -> Interval:
    """Mutual information of the secret and what is seen, in bits: how far Shannon entropy falls from the prior to the expected posterior.

    It is an interval no wider than 2^-49.
    """
    wanted(hyper, Hyper, "hyper")
    return _entropy(hyper.prior) - total(inner.outer * _entropy(inner.distribution) for inner in hyper.inners)


def min_entropy_leakage(hyper: Hyper) -> Interval:
    """Min-entropy leakage, in bits: the binary logarithm of the multiplicative Bayes leakage, as an interval no wider than 2^-50."""
    return log2(posterior_vulnerability(hyper) / prior_vulnerability(hyper))


def additive_capacity(hyper: Hyper) -> Fraction:
    """The greatest additive leakage, at this prior, under any gain function each of whose actions gains at most 1 more at one value than at another
    (the book, chapter 7).

    It is the expected total variation distance between the posterior and the prior: a vulnerability under such a gain function is 1-Lipschitz in it,
    and the actions that gain 1 where a posterior is above the prior, less what they gain at the prior, reach it.
    """
    wanted(hyper, Hyper, "hyper")

    def distance(distribution: Distribution) -> Fraction:
        return sum((max(Fraction(0), p - hyper.prior[x]) for x, p in distribution.items()), Fraction(0))

    return sum((inner.outer * distance(inner.distribution) for inner in hyper.inners), Fraction(0))


def differential_privacy(channel: Channel, neighbours: Iterable[tuple[Value, Value]] | Literal["all"]) -> tuple[Fraction | None, Interval | None]:
    """The least ratio e^ε by which the probability of what is shown differs between two neighbouring secrets, exactly, and the interval of ε.

    ``neighbours`` are pairs of secrets, each compared in both directions, or ``"all"`` pairs: local differential privacy (Duchi, Jordan and
    Wainwright, 2013), whose ratio is the greatest. ``(None, None)`` where something may be shown of one of the two and can't be of the other: then ε
    is infinite. Raises ``ValueError`` where there is no pair, or one has a value without a row, and ``TypeError`` where it is no channel, or no pair.
    """
    wanted(channel, Channel, "channel")
    if isinstance(neighbours, str):
        if neighbours != "all":
            raise ValueError(f"neighbours is {neighbours!r}, and has to be 'all' or pairs of secrets")
        compared = list(zip(*channel.rows.values()))
    else:
        compared = [cells for a, b in _pairs(channel, neighbours) for cells in zip(channel.rows[a], channel.rows[b])]
    greatest = Fraction(1)
    for cells in compared:
        high, low = max(cells), min(cells)
        if high and not low:
            return None, None
        if high:
            greatest = max(greatest, high / low)
    return greatest, natural_log(greatest)


def _pairs(channel: Channel, neighbours: Iterable[tuple[Value, Value]]) -> list[tuple[Value, Value]]:
    """The pairs of neighbours, each of two secrets of the channel."""
    pairs = []
    for pair in neighbours:
        if not isinstance(pair, (tuple, list)) or len(pair) != 2:
            raise TypeError(f"neighbours has {pair!r}, and has to have pairs of secrets")
        if lacking := [x for x in pair if x not in channel.rows]:
            raise ValueError(f"neighbours has {lacking[0]!r}, and the channel has no row for it")
        pairs.append((pair[0], pair[1]))
    if not pairs:
        raise ValueError("neighbours has no pair, and has to be 'all' or pairs of secrets")
    return pairs


def gain_table(actions: Mapping[str, Callable[[Value], Fraction | int]], values: Sequence[Value]) -> GainTable:
    """The gain function whose actions gain so much at each of these values, as a table, and 0 at any other value.

    ``actions`` has for each action's name a function from a value to what the action gains there, a ``Fraction`` or a whole number. Raises
    ``ValueError`` where a name isn't one of 1 to 64 ASCII letters, digits, ``_`` or ``-`` (docs/FORMATS.md, "Gain tables"), and ``TypeError`` where a
    gain isn't exact, as a float.
    """
    if wrong := [name for name in actions if not re.fullmatch("[A-Za-z0-9_-]{1,64}", name)]:
        raise ValueError(f"{wrong[0]!r} can't be the name of an action")
    gains = {name: {value: rational(gain(value), f"the gain of {name} at {value!r}") for value in values} for name, gain in actions.items()}
    over = 1
    for fraction in (f for named in gains.values() for f in named.values()):
        over = lcm(over, fraction.denominator)
    return GainTable(over, 0, tuple(Action(name, {x: int(f * over) for x, f in named.items()}) for name, named in gains.items()))
