"""What was seen: the observations that lead to each posterior, and an attack as a tree of them.

Only observations that could have been different, after what was shown before, are listed: a guard that is always true there says nothing.

Up to 10,000 traces come from the proved program. A model with more is run in Python, which isn't proved; each posterior of these runs has to be an
inner of the proved program's hyper. If neither is possible there are no labels, and the answer says why.
"""

from __future__ import annotations

import html
from collections.abc import Callable, Iterator, Mapping, Sequence
from contextlib import contextmanager
from dataclasses import dataclass
from fractions import Fraction
from functools import cmp_to_key
from math import inf
from types import MappingProxyType
from typing import TYPE_CHECKING, Any, TypeVar, Union

from .arguments import seconds, whole
from .deadlines import Deadline
from .engine import Engine
from .errors import KuifjeError, OutOfTime, TooLarge
from .gains import Gain, gain_of, less_is_worse
from .model import Model
from .program import Program, _asked, program_of
from .texts import Attack, Hyper, Move, TraceTable, html_table
from .values import Value, compare, format_value
from .workers import too_late

if TYPE_CHECKING:
    import pandas

__all__ = ["Fork", "Label", "Labels", "Leaf", "Plan", "Tree", "drawn", "labels", "plan", "traces_of"]

MOST_TRACES = 10_000  # of the proved program
MOST_RUNS = 200_000  # of a model in Python
SECONDS, MEMORY = 20.0, 1 << 30  # that a table of traces may take: there may be 2^100 of them
MOST_VALUES = 3  # that lead to the same, of which a tree shows each
MOST_LEAVES = 1000  # of a tree, where it isn't said
NO_INPUTS: Mapping[str, Any] = MappingProxyType({})
Write = Callable[[Value], str]
K = TypeVar("K")
T = TypeVar("T")


@dataclass(frozen=True)
class Observed:
    """A trace, its probability, and the number of the inner to which it leads."""

    shown: tuple[Value, ...]
    probability: Fraction
    inner: int


def written(shown: Sequence[Value], write: Write = format_value) -> str:
    """Shown values in words."""
    return ", then ".join(map(write, shown)) if shown else "nothing"


@dataclass(frozen=True)
class Label:
    """The traces that lead to an inner, with its outer: the shortest one in words, and how many more there are. Without a label it is none."""

    outer: Fraction
    text: str | None
    more: int

    def __str__(self) -> str:
        return "no label" if self.text is None else f"{self.text}, and {self.more} more" if self.more else self.text


@dataclass(frozen=True, repr=False)
class Labels:
    """A label for each inner of a hyper, in its order; where there are none, ``cause`` says why."""

    labels: tuple[Label, ...]
    cause: str | None = None

    def __iter__(self) -> Iterator[Label]:
        return iter(self.labels)

    def __len__(self) -> int:
        return len(self.labels)

    def records(self) -> list[dict[str, object]]:
        """A row for each inner: ``inner`` (from 0), ``outer``, ``seen``, and ``more``, the number of other traces that lead to it."""
        return [{"inner": i, "outer": label.outer, "seen": label.text, "more": label.more} for i, label in enumerate(self.labels)]

    def to_pandas(self) -> pandas.DataFrame:
        """The table of ``records`` as a data frame."""
        import pandas

        return pandas.DataFrame(self.records())

    def __str__(self) -> str:
        cause = f"{self.cause}\n" if self.cause else ""
        return cause + "".join(f"inner {i} outer {label.outer}: {label}\n" for i, label in enumerate(self.labels))

    def __repr__(self) -> str:
        return f"<Labels>\n{self}".rstrip()

    def _repr_html_(self) -> str:
        return html_table(self.records(), self.cause or "What was seen")


# ---- trees


@dataclass(frozen=True)
class Leaf:
    """Where nothing that is still shown changes what is known: what is done there, in words."""

    text: str


@dataclass(frozen=True)
class Fork:
    """What is asked, in words, where something is, and what follows after what is shown."""

    branches: tuple[tuple[str, Tree], ...]
    text: str = ""


Tree = Union[Leaf, Fork]


def drawn(tree: Tree, before: str = "") -> Iterator[str]:
    """The lines of a tree."""
    if isinstance(tree, Leaf):
        yield f"{before}{tree.text}"
        return
    for i, (shown, branch) in enumerate(tree.branches):
        last = i == len(tree.branches) - 1
        text = f": {branch.text}" if branch.text else ""
        yield f"{before}{'└' if last else '├'}─ {shown}{text}"
        if isinstance(branch, Fork):
            yield from drawn(branch, f"{before}{'   ' if last else '│  '}")


def _values(values: Sequence[Value], write: Write) -> str:
    """Some values that lead to the same."""
    first = [write(value) for value in values[:MOST_VALUES]]
    more = len(values) - MOST_VALUES
    return " or ".join(first + ([f"{more} more"] if more > 0 else []))


@dataclass
class _Growing:
    """How a tree is made: how values and leaves are written, how many leaves it may still have, and by when it has to be there."""

    write: Write
    leaf: Callable[[int, Fraction], str]
    leaves: int
    deadline: Deadline

    def tree(self, observed: Sequence[Observed], depth: int = 0) -> Tree:
        """The tree of traces which are alike up to a depth; branches that lead to the same are one. Raises ``_TooMany`` and ``OutOfTime``."""
        inners = {one.inner for one in observed}
        if len(inners) == 1:
            self.leaves -= 1
            if self.leaves < 0:
                raise _TooMany
            return Leaf(self.leaf(inners.pop(), sum((one.probability for one in observed), Fraction(0))))
        while len(alike := self._alike(observed, depth)) == 1:  # nothing that is shown at this depth matters
            depth += 1
        branches = []
        for groups in alike:
            below = self.tree([one for _, group in groups for one in group], depth + 1)
            branches.append((_values([value for value, _ in groups], self.write), below))
        return Fork(tuple(branches))

    def _alike(self, observed: Sequence[Observed], depth: int) -> list[list[tuple[Value, list[Observed]]]]:
        """The values that are shown at a depth, with their traces; those that lead to the same together."""
        _in_time(self.deadline)
        by_value = _grouped(observed, lambda one: one.shown[depth])
        return list(_grouped(list(by_value.items()), lambda group: _follows(group[1], depth + 1)).values())


class _TooMany(Exception):
    """A tree would have more leaves than it may."""


def _in_time(deadline: Deadline) -> None:
    if deadline.passed:
        raise too_late(deadline)


def _told(observed: Sequence[Observed], deadline: Deadline) -> dict[int, list[tuple[Value, ...]]]:
    """For each inner the traces that lead to it, of each the values in whose place others could have been shown; the shortest first."""
    found: dict[int, list[tuple[Value, ...]]] = {}
    alike: list[tuple[list[Observed], int, tuple[Value, ...]]] = [(list(observed), 0, ())]
    while alike:
        _in_time(deadline)
        group, depth, before = alike.pop()
        if len(group) == 1:
            found.setdefault(group[0].inner, []).append(before)
            continue
        by_value = _grouped(group, lambda one: one.shown[depth])
        after = [(part, depth + 1, (*before, value) if len(by_value) > 1 else before) for value, part in by_value.items()]
        alike += reversed(after)
    return {inner: sorted(traces, key=len) for inner, traces in found.items()}


def _grouped(found: Sequence[T], key: Callable[[T], K]) -> dict[K, list[T]]:
    """What is found by a key, in the order in which the keys come first."""
    groups: dict[K, list[T]] = {}
    for one in found:
        groups.setdefault(key(one), []).append(one)
    return groups


def _follows(observed: Sequence[Observed], depth: int) -> object:
    """What can follow from a depth on: an inner where nothing that is still shown matters."""
    inners = {one.inner for one in observed}
    return inners.pop() if len(inners) == 1 else frozenset((one.shown[depth:], one.inner) for one in observed)


@dataclass(frozen=True, repr=False)
class Plan:
    """What an adversary does best after what is seen, as a tree; where there are no labels, a line for each inner, and ``cause`` says why."""

    attack: Attack
    vulnerability: Fraction
    tree: Tree
    cause: str | None = None

    def __str__(self) -> str:
        what = "expected guesses" if less_is_worse(self.attack.gain) else "posterior vulnerability"
        head = f"gain {self.attack.gain}, {what} {self.vulnerability}\n" + (f"{self.cause}\n" if self.cause else "")
        return head + "".join(f"{line}\n" for line in drawn(self.tree))

    def __repr__(self) -> str:
        return f"<Plan>\n{self}".rstrip()

    def _repr_html_(self) -> str:
        return f"<pre>{html.escape(str(self))}</pre>"


def _done(gain: str, move: Move) -> str:
    """What is done at an inner, in words."""
    if not gain.startswith(("bayes", "tries", "guessing")):
        return next(action for action, gained in move.actions.items() if gained == move.value)
    guesses = list(move.actions)
    more = f", then {len(guesses) - MOST_VALUES} more" if len(guesses) > MOST_VALUES else ""
    return f"guess {', then '.join(guesses[:MOST_VALUES])}{more}"


# ---- where the traces come from


def traces_of(program: Program, deadline: Deadline) -> list[tuple[tuple[Value, ...], Mapping[Value, Fraction]]]:
    """The traces of a program with their columns. Raises ``TooLarge`` where they are more than 10,000, or can't be counted in time."""
    own = program.engine
    engine = Engine(memory=MEMORY, timeout=deadline.left, cache=None if own is None else own.cache)
    try:
        text = _asked(engine, ["traces", program.name, "--turns", str(program.turns)], {program.name: program}, None).out.decode()
    except TooLarge as cause:
        raise TooLarge(f"there are too many traces: {cause}") from None
    finally:
        engine.close()
    count = int(text.split("\n", 3)[2].removeprefix("traces "))
    if count > MOST_TRACES:
        raise TooLarge(f"there are {count} traces, and at most {MOST_TRACES} are gone through")
    return [(trace.shown, trace.joint) for trace in TraceTable.parse(text).traces]


def _runs(model: Model, inputs: Mapping[str, Any], deadline: Deadline) -> list[tuple[tuple[Value, ...], Mapping[Value, Fraction]]]:
    """The traces of a model with their columns, by its runs in Python. Raises ``TooLarge`` where these are too many."""
    columns: dict[tuple[Value, ...], dict[Value, Fraction]] = {}
    for number, run in enumerate(model.runs(**inputs)):
        if number == MOST_RUNS:
            raise TooLarge(f"there are more than {MOST_RUNS} runs in Python, too")
        if deadline.passed:
            raise OutOfTime(f"{number} runs in Python took {deadline.seconds:.3g} seconds, and there are more")
        column = columns.setdefault(tuple(seen.value for seen in run.trace), {})
        column[run.secret] = column.get(run.secret, Fraction(0)) + run.probability
    return [(shown, columns[shown]) for shown in sorted(columns, key=cmp_to_key(compare))]


def _observed(asked: Program | Model, program: Program, hyper: Hyper, inputs: Mapping[str, Any], deadline: Deadline) -> list[Observed]:
    """The traces, ascending, each with the inner to which it leads. Raises ``TooLarge`` where nothing gives them.

    The program's may take 20 seconds, and half of the time that is left where a model's runs can follow.
    """
    is_model = isinstance(asked, Model)
    try:
        if len(hyper.inners) > MOST_TRACES:
            raise TooLarge(f"there are at least {len(hyper.inners)} traces, and at most {MOST_TRACES} are gone through")
        columns = traces_of(program, deadline.within(min(SECONDS, deadline.left / 2 if is_model else deadline.left)))
    except TooLarge as cause:
        if not isinstance(asked, Model):
            raise
        try:
            columns = _runs(asked, inputs, Deadline(deadline.left))
        except TooLarge as other:
            raise TooLarge(f"{cause}; {other}") from None
    numbers = {frozenset(inner.distribution.items()): i for i, inner in enumerate(hyper.inners)}
    found = []
    for shown, column in columns:
        _in_time(deadline)
        probability = sum(column.values(), Fraction(0))
        number = numbers.get(frozenset((x, p / probability) for x, p in column.items()))
        if number is None:
            raise KuifjeError(f"{written(shown)} is seen before a posterior that isn't one of the program's inners")
        found.append(Observed(shown, probability, number))
    return found


def _program(asked: Program | Model, inputs: Mapping[str, Any], write: Write) -> Program:
    """The program that is asked. Raises ``TypeError`` where an argument isn't what it may be."""
    if not isinstance(inputs, Mapping):
        raise TypeError(f"inputs is a mapping of names to values, and a value of type {type(inputs).__name__} was given")
    if not callable(write):
        raise TypeError(f"write is a function of a value, and a value of type {type(write).__name__} was given")
    if isinstance(asked, Model):
        return asked.program(**inputs)
    if inputs:
        raise TypeError("a program has no public inputs")
    return program_of("asked", asked)


def labels(asked: Program | Model, inputs: Mapping[str, Any] = NO_INPUTS, *, write: Write = format_value, timeout: float | None = None) -> Labels:
    """What is seen before each inner of a program, or of a model with these public inputs: the shortest trace, and how many more lead there.

    ``write`` puts a value into words. The whole call takes ``timeout`` seconds at most, and the program's table of traces 20 in any case. If only the
    hyper is there by then, there are no labels, and ``cause`` says why; if not even that, ``OutOfTime`` is raised.
    """
    deadline = Deadline(seconds("timeout", timeout))
    program = _program(asked, inputs, write)
    with _bounded(deadline):
        hyper = program.hyper(_left(deadline))
    try:
        told = _told(_observed(asked, program, hyper, inputs, deadline), deadline)
    except TooLarge as cause:
        return Labels(tuple(Label(outer, None, 0) for outer in hyper.outers), f"no inner has a label: {cause}")
    return Labels(tuple(Label(outer, written(told[i][0], write), len(told[i]) - 1) for i, outer in enumerate(hyper.outers)))


def _left(deadline: Deadline) -> float | None:
    """What a question may take: all the time that is left; where there is no bound, what its engine says."""
    return None if deadline.seconds == inf else deadline.left


@contextmanager
def _bounded(deadline: Deadline) -> Iterator[None]:
    """Says of a question that had what was left how much all of it may take."""
    try:
        yield
    except OutOfTime:
        if deadline.seconds == inf:
            raise
        raise too_late(deadline) from None


def plan(
    asked: Program | Model,
    gain: Gain = "bayes",
    inputs: Mapping[str, Any] = NO_INPUTS,
    *,
    write: Write = format_value,
    timeout: float | None = None,
    leaves: int = MOST_LEAVES,
) -> Plan:
    """What an adversary with this gain function does best after what is seen, as a tree.

    The tree is that of a program, or of a model with these public inputs; ``write`` puts a shown value into words. Each leaf has the best action, its
    value (the vulnerability there), and the probability of reaching it. So the sum of their products is the posterior vulnerability. If the tree
    would have more than ``leaves`` leaves, there is a line instead for each of the first ``leaves`` inners, with its label; ``cause`` says so.

    The whole call takes ``timeout`` seconds at most. If only the best action at each inner is known by then, there is a line for each inner without a
    label; if not even that, ``OutOfTime`` is raised.
    """
    deadline = Deadline(seconds("timeout", timeout))
    whole("leaves", leaves, 1, 1 << 30)
    gain_of(gain)
    program = _program(asked, inputs, write)
    with _bounded(deadline):
        hyper, attack = program.hyper(_left(deadline)), program.attack(gain, _left(deadline))
    vulnerability = sum((move.outer * move.value for move in attack.moves), Fraction(0))
    actions = [f"{_done(attack.gain, move)} (value {move.value}" for move in attack.moves]

    def leaf(inner: int, probability: Fraction) -> str:
        return f"{actions[inner]}, probability {probability})"

    names = [f"inner {i}" for i in range(min(leaves, len(actions)))]
    try:
        observed = _observed(asked, program, hyper, inputs, deadline)
        try:
            return Plan(attack, vulnerability, _Growing(write, leaf, leaves, deadline).tree(observed))
        except (_TooMany, RecursionError) as cause:
            what = f"more than {leaves} leaves" if isinstance(cause, _TooMany) else "too many forks one after the other"
            reason = f"the tree of {len(observed)} traces has {what}: a line for each inner has the shortest trace that leads there"
            told = _told(observed, deadline)
            names = [str(Label(move.outer, written(told[i][0], write), len(told[i]) - 1)) for i, move in enumerate(attack.moves[:leaves])]
    except TooLarge as cause:
        reason = f"no inner has a label: {cause}"
    lines = [(name, Leaf(leaf(i, attack.moves[i].outer))) for i, name in enumerate(names)]
    if more := len(actions) - len(lines):
        lines.append((f"and {more} more inners", Leaf("the attack has what is done there")))
    return Plan(attack, vulnerability, Fork(tuple(lines)), reason)
