"""Programs whose secret is too large for one run: asked in parts, each with a part of one variable's values, and merged trace by trace, exactly.

Each part is a text like the program's, in which one declared variable is drawn from fewer values; the proved program lists its traces. What is kept
of a trace is its probability, and how many values of the secret have each joint probability with it: that is all that vulnerabilities need. So memory
is bounded by one part, and by what the traces have that differs.

What is proved is each part's answer. That the parts together are the program, and the sums over them, are this module's word: a run of the program
begins by drawing that variable, so its joint matrix is that of the parts, each by the probability of its values.
"""

from __future__ import annotations

import os
from collections import Counter
from collections.abc import Iterable, Iterator, Mapping
from concurrent.futures import FIRST_COMPLETED, Executor, Future, ProcessPoolExecutor, wait
from concurrent.futures.process import BrokenProcessPool
from dataclasses import dataclass
from fractions import Fraction
from functools import cached_property
from itertools import islice
from pathlib import Path
from typing import Any

from .arguments import whole
from .errors import TooLarge, refusal_of
from .gains import MOST_TRIES, check_word
from .program import Program
from .source import Choose, Declaration, Literal, Source, Uniform, edited, names_in, read
from .sweeps import own_engine
from .texts import Leakage

__all__ = ["Shards", "shards"]

MOST_PARTS = 65_536
TRIES = 3  # of a part, each of which ended its worker
Weights = Counter[Fraction]  # how many values of the secret have each joint probability


@dataclass(frozen=True)
class Shards:
    """The joint matrix of a program by what vulnerabilities need of it: for each trace how many values have each joint probability with it.

    ``prior`` has how many values of the secret have each probability before anything is seen. ``parts`` is how many were asked.
    """

    parts: int
    prior: Mapping[Fraction, int]
    columns: Mapping[str, Mapping[Fraction, int]]

    @cached_property
    def probabilities(self) -> dict[str, Fraction]:
        """The probability of each trace, by its printed text; they sum to 1. (Two traces with one posterior are one inner of the hyper.)"""
        return {trace: sum((weight * count for weight, count in column.items()), Fraction(0)) for trace, column in self.columns.items()}

    def leak(self, gain: str = "bayes") -> Leakage:
        """What ``Program.leak`` answers of the whole program, under ``bayes``, ``tries:K`` or ``guessing``.

        Raises ``ValueError`` for any other word, and ``TypeError`` for a gain table, which tells values apart.
        """
        if not isinstance(gain, str):
            raise TypeError("of a program in parts, gain is bayes, tries:K or guessing, and not a table")
        check_word(gain)
        if gain.startswith("table:"):
            raise ValueError("of a program in parts, gain is bayes, tries:K or guessing, and not a table")
        prior = _worth(self.prior, gain)
        posterior = sum((_worth(column, gain) for column in self.columns.values()), Fraction(0))
        printed = gain if not gain.startswith("tries:") else f"tries {int(gain.removeprefix('tries:'))}"
        return Leakage(printed, prior, posterior, posterior / prior, posterior - prior)

    @property
    def capacity(self) -> Fraction:
        """The Bayes capacity, where all values of the secret are equally likely: then the multiplicative Bayes leakage reaches it.

        Raises ``ValueError`` where they aren't.
        """
        if len(self.prior) > 1:
            raise ValueError("the capacity of a program in parts is known where all values of the secret are equally likely alone")
        found = self.leak("bayes").multiplicative_leakage
        assert found is not None
        return found


def _worth(column: Mapping[Fraction, int], gain: str) -> Fraction:
    """What the best action gains where values have these probabilities; for ``guessing`` the expected number of guesses."""
    tries = 1 if gain == "bayes" else MOST_TRIES if gain == "guessing" else int(gain.removeprefix("tries:"))
    total, before = Fraction(0), 0
    for weight, count in sorted(column.items(), reverse=True):
        if gain == "guessing":
            total += weight * (count * before + count * (count + 1) // 2)
        else:
            total += weight * min(count, tries - before)
        before += count
        if before >= tries and gain != "guessing":
            break
    return total


def shards(
    program: Program,
    parts: int,
    *,
    over: str | None = None,
    executor: Executor | Any = None,
    timeout: float | None = None,
    memory: int = 4 << 30,
    cache: str | os.PathLike[str] | None = None,
    progress: bool = False,
) -> Shards:
    """A program asked in at most so many parts, by the values of one declared variable, and what vulnerabilities need of its joint matrix.

    ``over`` is a variable that the target asks about as ``old``, drawn by ``uniform A..B`` or by ``choose`` with numbers alone as bounds or weights;
    where none is named, the first such one. All items of the target must be ``old``. ``executor`` is a ``concurrent.futures.Executor`` or a
    ``dask.distributed.Client``; where none is given, processes of this machine, and a part whose process ended is asked again, twice at most.
    ``timeout`` and ``memory`` bound each question, ``cache`` is a folder that keeps answers by their content, ``progress`` shows a bar.

    Raises ``ValueError`` where the program can't be cut in that way, ``Refusal`` where a part is refused, at the same place of the program, and
    ``TooLarge`` where a part takes too much or its process ended too often.
    """
    source = read(program.text.decode())
    declared = _divided(source, over)
    tasks = [
        _Part(text, weight, program.name, program.turns, timeout, memory, None if cache is None else Path(cache).resolve())
        for text, weight in _texts(source, declared, whole("parts", parts, 1, MOST_PARTS))
    ]
    prior: Weights = Counter()
    columns: dict[str, Weights] = {}
    for asked in _tracked(_answers(tasks, executor), len(tasks), progress):
        prior.update(asked.prior)
        for trace, weights in asked.columns.items():
            columns.setdefault(trace, Counter()).update(weights)
    return Shards(len(tasks), prior, columns)


# ---- parts of a text


def _divided(source: Source, over: str | None) -> Declaration:
    """The declaration that is cut in parts."""
    target = source.target
    if not target.is_initial:
        raise ValueError("a program is asked in parts where each item of its target is old")
    named = {item.name for item in target.items}
    able = [declared for declared in source.declarations if declared.name in named and _cases(declared) is not None]
    if over is None:
        if not able:
            raise ValueError("no item of the target is drawn by uniform A..B or by choose, with numbers alone as bounds or weights")
        return able[0]
    found = [declared for declared in able if declared.name == over]
    if not found:
        raise ValueError(f"{over!r} is no item of the target that is drawn by uniform A..B or by choose, with numbers alone as bounds or weights")
    return found[0]


def _number(part: object) -> int | None:
    return part.value if isinstance(part, Literal) and not isinstance(part.value, bool) else None


def _cases(declared: Declaration) -> list[tuple[str, int]] | range | None:
    """What a variable is drawn of: a range of numbers, or values with their weights; none where that isn't said by numbers alone."""
    match declared.value:
        case Uniform(low, high) if high is not None:
            first, last = _number(low), _number(high)
            return None if first is None or last is None or first > last else range(first, last + 1)
        case Choose(cases):
            weights = [_number(case.weight) for case in cases]
            if any(names_in(case.value) for case in cases) or any(weight is None for weight in weights):
                return None
            return [(case.value_text, weight) for case, weight in zip(cases, weights) if weight]
    return None


def _texts(source: Source, declared: Declaration, parts: int) -> Iterator[tuple[str, Fraction]]:
    """The texts of the parts, each with the probability of its values."""
    cases = _cases(declared)
    assert cases is not None
    at, end = declared.value.at, declared.value.end
    size = len(cases)
    cuts = [size * i // min(parts, size) for i in range(min(parts, size) + 1)]
    for first, last in zip(cuts, cuts[1:]):
        if isinstance(cases, range):
            drawn, weight = f"uniform {cases[first]}..{cases[last - 1]}", Fraction(last - first, size)
        else:
            drawn = f"choose {{ {', '.join(f'{value} : {number}' for value, number in cases[first:last])} }}"
            weight = Fraction(sum(number for _, number in cases[first:last]), sum(number for _, number in cases))
        yield edited(source.text, [(at, end, drawn)]), weight


# ---- answers to parts


@dataclass(frozen=True)
class _Answer:
    """What is kept of a part, by the whole program's probabilities: how many values have each, before a run and with each trace."""

    prior: Weights
    columns: dict[str, Weights]


@dataclass(frozen=True)
class _Part:
    """What a worker needs for a part: it goes along with it."""

    text: str
    weight: Fraction
    name: str
    turns: int
    timeout: float | None
    memory: int
    cache: Path | None

    def __call__(self) -> _Answer:
        """The joint matrix of a part, by what is needed of it."""
        files = {self.name: self.text.encode()}
        answer = own_engine(self.memory, self.timeout, self.cache).ask(["traces", self.name, "--turns", str(self.turns)], files)
        if answer.status:
            raise refusal_of(answer.status, answer.err.decode(errors="replace"), files)
        columns: dict[str, Weights] = {}
        cells: list[tuple[bytes, bytes, bytes]] = []
        for block in answer.out.split(b"\ntrace ")[1:]:
            head, _, entries = block.partition(b"\n")
            listed = [line.rpartition(b" ") for line in entries.splitlines()]
            columns[head.rpartition(b" weight ")[0].decode()] = self._weights(weight for _, _, weight in listed)
            cells += listed
        return _Answer(self._prior(cells, columns), columns)

    def _weights(self, texts: Iterable[bytes]) -> Weights:
        """How many values have each joint probability, by the printed ones of the part."""
        return Counter({Fraction(text.decode()) * self.weight: count for text, count in Counter(texts).items()})

    def _prior(self, cells: list[tuple[bytes, bytes, bytes]], columns: Mapping[str, Weights]) -> Weights:
        """How many values have each probability; where each value has one trace, that is what the traces have together."""
        prior: Weights = Counter()
        if len({value for value, _, _ in cells}) == len(cells):
            for column in columns.values():
                prior.update(column)
            return prior
        totals: dict[bytes, Fraction] = {}
        for value, _, weight in cells:
            totals[value] = totals.get(value, Fraction(0)) + Fraction(weight.decode())
        prior.update(total * self.weight for total in totals.values())
        return prior


def _answers(tasks: list[_Part], executor: Executor | Any) -> Iterator[_Answer]:
    """The answers to parts, as they come."""
    if executor is not None:
        opened: Executor = executor.get_executor(pure=False) if hasattr(executor, "get_executor") else executor
        yield from (answer for _, answer in _some(opened, dict(enumerate(tasks)), 1 << 10))
        return
    left, ended = dict(enumerate(tasks)), Counter[int]()
    while left:
        begun = set(left)
        try:
            with ProcessPoolExecutor(min(len(left), os.cpu_count() or 1)) as pool:
                for number, answer in _some(pool, left, 2 * (os.cpu_count() or 1)):
                    del left[number]
                    yield answer
        except BrokenProcessPool:
            if begun == set(left):
                ended.update(begun)
                if max(ended.values()) >= TRIES:
                    raise TooLarge(f"{TRIES} processes ended before they had an answer, most likely for want of memory") from None


def _some(executor: Executor, tasks: Mapping[int, _Part], most: int) -> Iterator[tuple[int, _Answer]]:
    """The answers to parts by an executor, which is given at most so many at a time."""
    waiting = iter(list(tasks.items()))
    futures: dict[Future[_Answer], int] = {executor.submit(task): number for number, task in islice(waiting, most)}
    try:
        while futures:
            done, _ = wait(futures, return_when=FIRST_COMPLETED)
            for future in done:
                answer = future.result()
                number = futures.pop(future)
                futures.update({executor.submit(task): i for i, task in islice(waiting, 1)})
                yield number, answer
    finally:
        for future in futures:
            future.cancel()


def _tracked(answers: Iterable[_Answer], total: int, progress: bool) -> Iterable[_Answer]:
    if not progress:
        return answers
    from rich.console import Console
    from rich.progress import track

    return track(answers, description="parts", total=total, console=Console(stderr=True))
