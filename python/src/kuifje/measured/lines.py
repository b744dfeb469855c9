"""Which line of the code leaks: where something is first told, what is left without a line, and a smallest set of lines without which little is."""

from __future__ import annotations

import time
from collections import defaultdict
from collections.abc import Iterator, Mapping, Sequence
from dataclasses import dataclass
from fractions import Fraction
from itertools import combinations
from typing import TYPE_CHECKING, Any

from ..intervals import Interval
from .models import KINDS, LOAD, STORE, TRANSFER, Model
from .places import Place
from .texts import Partition, posterior
from .told import Ledger, bits
from .traces import Fork, Traces

if TYPE_CHECKING:
    from .measurement import Measurement

__all__ = ["Lines", "Parting", "Told", "lines_of"]

TRIES, SECONDS = 2000, 10.0  # sets of lines that are tried, and how long


@dataclass(frozen=True)
class Parting:
    """Two secrets that part at a line, and where each goes from there."""

    secrets: tuple[str, str]
    ways: tuple[str, str]
    numbers: tuple[int, int]

    def __str__(self) -> str:
        return f"{self.secrets[0]} goes {self.ways[0]}; {self.secrets[1]} goes {self.ways[1]}"


@dataclass(frozen=True)
class Told:
    """What is first told at a place: how many bits, and how many classes more. ``left`` is how many classes are left, and ``vulnerability`` the
    posterior Bayes vulnerability, where the place and all that it controls show nothing."""

    place: Place
    bits: Interval
    classes: int
    kinds: tuple[str, ...]
    parting: Parting
    left: int
    vulnerability: Fraction


@dataclass(frozen=True)
class Lines:
    """The places at which something is first told, most first; their bits and classes add up to the whole.

    ``smallest`` is a smallest set of places without which no more than ``bound`` classes are left, none where that wasn't found; ``is_smallest`` says
    whether all smaller ones were tried.
    """

    told: tuple[Told, ...]
    bits: Interval
    classes: int
    smallest: tuple[Place, ...] | None
    is_smallest: bool
    bound: int

    def __str__(self) -> str:
        rows = []
        for told in self.told:
            more = f"{told.classes} class{'es' if told.classes != 1 else ''} more"
            rows.append(f"  {told.place}  first tells {float(told.bits):.3f} bits, {more}; {told.left} left without it\n")
            rows.append(f"    {told.parting}\n")
        if self.told and self.smallest:
            names = " ".join(map(str, self.smallest))
            first = "no fewer lines are enough" if self.is_smallest else "fewer may be enough"
            rows.append(f"  no more than {self.bound} left without {names} ({first})\n")
        return "".join(rows)


Event = tuple[int, int, int, int]


def _way(traces: Traces, model: Model, event: Event | None) -> str:
    """Where a trace goes at an event."""
    if event is None:
        return "to its end"
    kind, _, _, value = event
    if kind == TRANSFER:
        found = traces.places.at(value)
        return f"to line {found.line}" if found.line else f"to {found}"
    if kind in (LOAD, STORE):
        unit = value >> model.shift << model.shift
        return f"on to {'read' if kind == LOAD else 'write'} {f'a unit of {1 << model.shift} bytes ' if model.shift else ''}at {unit:#x}"
    return f"on with {KINDS[kind]} {value}"


def describe(traces: Traces, model: Model, parted: Sequence[Event | None]) -> tuple[Place, tuple[str, str]]:
    """The place where two traces part, and where each goes."""
    if not parted:
        return Place("nowhere"), ("", "")
    first = next(event for event in parted if event is not None)
    return traces.places.at(first[1]), (_way(traces, model, parted[0]), _way(traces, model, parted[1]))


class _Search:
    """One partition's tree of traces, by the places of its sites."""

    def __init__(self, traces: Traces, model: Model, partition: Partition, public: int) -> None:
        self.traces, self.model, self.partition, self.public = traces, model, partition, public
        self.sites = [traces.site(number) for number in range(traces.site_count)]
        traces.places.find({site[3] for site in self.sites} | {site[4] for site in self.sites if site[0] == TRANSFER})
        self.of_place: dict[Place, list[int]] = defaultdict(list)
        for number, site in enumerate(self.sites):
            self.of_place[self.place(site[3])].append(number)
        self._left: dict[frozenset[Place], tuple[Any, Partition]] = {}
        self.weights = self._class_weights()

    def place(self, pc: int) -> Place:
        """The line of an instruction, whatever its function is."""
        found = self.traces.places.at(pc)
        return Place(found.file, found.line, None if found.line else found.symbol, found.path)

    def _class_weights(self) -> list[dict[int, int]]:
        """What each secret weighs in each class."""
        found: list[dict[int, int]] = [{} for _ in range(self.partition.count)]
        each, noise = self.partition.noise.size, self.partition.noise.weights
        for secret, weight in enumerate(self.partition.secrets.weights):
            for other in range(each):
                if weight and noise[other]:
                    column = found[self.partition.classes[secret * each + other]]
                    column[secret] = column.get(secret, 0) + weight * noise[other]
        return found

    def forks(self, keep: Any = None) -> tuple[Any, list[Fork]]:
        """The tree's classes in order, and its forks."""
        return self.traces.forks(self.model, self.public, keep)

    def ledger(self, order: Any, forks: Sequence[Fork]) -> Ledger[Place]:
        """What is told at each place."""
        found: Ledger[Place] = Ledger(self.partition.secrets.total * self.partition.noise.total)
        if self.partition.is_function:
            sums = [0]
            for number in order[: self.partition.count]:
                sums.append(sums[-1] + sum(self.weights[number].values()))
            for fork in forks:
                ends = (*fork.children[1:], fork.high)
                found.add_function(self.place(fork.pc), [sums[end] - sums[low] for low, end in zip(fork.children, ends)])
            return found
        for fork in forks:
            found.add(self.place(fork.pc), [self._together(order[low:end]) for low, end in zip(fork.children, (*fork.children[1:], fork.high))])
        return found

    def _together(self, numbers: Sequence[int]) -> Mapping[int, int]:
        whole: dict[int, int] = defaultdict(int)
        for number in numbers:
            for secret, weight in self.weights[number].items():
                whole[secret] += weight
        return whole

    def without(self, places: frozenset[Place]) -> Partition:
        """The partition that is left where these places and what they control show nothing."""
        return self._silenced(places)[1]

    def _silenced(self, places: frozenset[Place]) -> tuple[Any, Partition]:
        if places not in self._left:
            chosen = bytearray(self.traces.site_count)
            for place in places:
                for number in self.of_place[place]:
                    chosen[number] = 1
            keep = self.traces.silence(bytes(chosen))
            classes, count = self.traces.partition(self.model, self.public, keep)
            self._left[places] = keep, Partition(self.partition.secrets, self.partition.noise, classes, count)
        return self._left[places]

    def first_run_of(self, number: int) -> int:
        """A run that is in a class."""
        return self.traces.runs(self.public)[0] + self.partition.classes.index(number)

    def parting(self, order: Any, fork: Fork) -> Parting:
        """Two secrets that part at a fork."""
        first = sorted(min(order[low:end]) for low, end in zip(fork.children, (*fork.children[1:], fork.high)))
        runs = [self.first_run_of(number) for number in first[:2]]
        numbers = [(run - self.traces.runs(self.public)[0]) // self.partition.noise.size for run in runs]
        parted = self.traces.difference(self.model, *(self.traces.trace_of(run) for run in runs))
        _, ways = describe(self.traces, self.model, parted)
        texts = [self.partition.secrets.text(number) for number in numbers]
        return Parting((texts[0], texts[1]), (ways[0], ways[1]), (numbers[0], numbers[1]))

    def candidates(self) -> Iterator[Place]:
        """Places at which something may be told: at first, and then where all places before show nothing."""
        known: list[Place] = []
        while True:
            keep = self._silenced(frozenset(known))[0] if known else None
            more = [p for p in dict.fromkeys(self.place(fork.pc) for fork in self.forks(keep)[1]) if p not in known]
            if not more:
                return
            known += more
            yield from more

    def smallest(self, bound: int) -> tuple[tuple[Place, ...] | None, bool]:
        """A smallest set of places without which at most so many classes are left, and whether all smaller ones were tried."""
        if self.partition.count <= bound:
            return (), True
        found, deadline, tries = list(self.candidates()), time.monotonic() + SECONDS, 0
        for size in range(1, len(found) + 1):
            for some in combinations(found, size):
                tries += 1
                if tries > TRIES or time.monotonic() > deadline:
                    return self._fewer(found, bound), False
                if self.without(frozenset(some)).count <= bound:
                    return some, True
                if size > 1:
                    del self._left[frozenset(some)]
        return None, True

    def _fewer(self, places: Sequence[Place], bound: int) -> tuple[Place, ...] | None:
        """Some places that do, of which none can be left out."""
        kept = list(places)
        if self.without(frozenset(kept)).count > bound:
            return None
        for place in places:
            fewer = [p for p in kept if p != place]
            if fewer and self.without(frozenset(fewer)).count <= bound:
                kept = fewer
        return tuple(kept)


def _before(order: Any, fork: Fork, other: Fork) -> bool:
    """Whether a fork is shown in place of another one: where more classes part, else the one with the first secret."""
    wide, other_wide = fork.high - fork.low, other.high - other.low
    return wide > other_wide or (wide == other_wide and min(order[fork.low : fork.high]) < min(order[other.low : other.high]))


def lines_of(measured: Measurement, model: Model, public: int = 0, bound: int = 1) -> Lines:
    """Which lines leak to a model, at one value of the public inputs; ``bound`` is how many classes may be left without a smallest set of lines."""
    traces = measured.traces_for(model)
    partition = measured.partition(model, public)
    search = _Search(traces, model, partition, public)
    order, forks = search.forks()
    ledger = search.ledger(order, forks)
    first: dict[Place, Fork] = {}
    kinds: dict[Place, set[str]] = defaultdict(set)
    for fork in forks:
        place = search.place(fork.pc)
        kinds[place].add(KINDS[fork.kind])
        if place not in first or _before(order, fork, first[place]):
            first[place] = fork
    told = []
    for place, counts in ledger.sites.items():
        left = search.without(frozenset([place]))
        parting = search.parting(order, first[place])
        told.append(Told(place, ledger.bits(place), counts.classes, tuple(sorted(kinds[place])), parting, left.count, posterior(left)))
    told.sort(key=lambda t: (-float(t.bits), -t.classes, t.place.file, t.place.line or 0))
    chosen, is_smallest = search.smallest(bound)
    whole = ledger.all()
    return Lines(tuple(told), bits(whole.counts, ledger.total), whole.classes + 1, chosen, is_smallest, bound)
