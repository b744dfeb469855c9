"""Where something is first told: the mutual information of the secret and what is seen, split among the forks of a tree of traces.

At a fork traces part that were one up to there. What is told at it is the mutual information of the secret and the way that is taken, given that the
fork is reached, times the probability of that; by the chain rule of Shannon entropy these sum to the mutual information of the secret and the whole
trace, with nothing counted twice. And each fork has as many ways less 1 as it adds classes.

A site's bits are kept as whole numbers: for each weight w how often ``w log2 w`` counts, so that sums of sites are exact before a logarithm is taken.
"""

from __future__ import annotations

from collections import defaultdict
from collections.abc import Hashable, Mapping, Sequence
from dataclasses import dataclass, field
from fractions import Fraction
from functools import cache
from typing import Generic, TypeVar

from ..intervals import Interval, log2

__all__ = ["Counts", "Ledger", "bits"]

S = TypeVar("S", bound=Hashable)
Weights = Mapping[int, int]


@cache
def _logarithm(weight: int) -> Interval:
    return log2(weight) * weight


def bits(counts: Mapping[int, int], total: int) -> Interval:
    """The sum of the counts times ``w log2 w``, over the weight of all."""
    whole = Interval.exactly(0)
    for weight, count in counts.items():
        if count and weight > 1:
            whole += _logarithm(weight) * count
    return whole * Fraction(1, total)


@dataclass
class Counts:
    """What is told at one site: for each weight how often it counts, how many classes are added, and of how many forks."""

    counts: dict[int, int] = field(default_factory=lambda: defaultdict(int))
    classes: int = 0
    forks: int = 0


class Ledger(Generic[S]):
    """What each site has told, of runs that weigh ``total`` together."""

    def __init__(self, total: int) -> None:
        self.total = total
        self.sites: dict[S, Counts] = {}

    def add_function(self, site: S, ways: Sequence[int]) -> None:
        """A fork of traces that are functions of the secret: what each way weighs."""
        found = self.sites.setdefault(site, Counts())
        found.classes += len(ways) - 1
        found.forks += 1
        found.counts[sum(ways)] += 1
        for weight in ways:
            found.counts[weight] -= 1

    def add(self, site: S, ways: Sequence[Weights]) -> None:
        """A fork of traces that aren't: what each secret weighs on each way."""
        self.add_function(site, [sum(way.values()) for way in ways])
        counts = self.sites[site].counts
        secrets: dict[int, int] = defaultdict(int)
        for way in ways:
            for secret, weight in way.items():
                secrets[secret] += weight
                counts[weight] += 1
        for weight in secrets.values():
            counts[weight] -= 1

    def bits(self, site: S) -> Interval:
        """How many bits are first told at a site."""
        return bits(self.sites[site].counts, self.total)

    def all(self) -> Counts:
        """All sites together."""
        whole = Counts()
        for found in self.sites.values():
            whole.classes += found.classes
            whole.forks += found.forks
            for weight, count in found.counts.items():
                whole.counts[weight] += count
        return whole
