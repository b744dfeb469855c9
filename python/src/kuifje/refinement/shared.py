"""Both programs as one with the same draws: what is seen of A, and what is seen of B, in each of its runs.

Where B is A with an observation taken away, or with another one in its place, each run of both shows a trace of A and one of B. How the runs that
lead to an inner of A are shared out to the inners of B is a row of the matrix. It carries A to B where the secret doesn't matter for that any more,
as where B's trace is a function of A's; whether it does is tried as of any matrix.
"""

from __future__ import annotations

from collections.abc import Iterator, Mapping, Sequence
from dataclasses import dataclass
from fractions import Fraction
from typing import TypeAlias, Union

from ..errors import Refusal, TooLarge
from ..observations import traces_of
from ..program import Program
from ..source import Assign, If, Observe, Skip, Source, Statement, While, read
from ..texts import Hyper
from ..values import Value
from .problem import Deadline, Problem, Undecided, in_time
from .proofs import Proof, by_matrix

__all__ = ["shared_draws"]

SHARE = 0.3  # of the time that is left, which the table of traces may take

Sides = tuple[bool, bool]
"""Whether what a statement shows is seen of A, and of B."""
BOTH, OF_A, OF_B = (True, True), (True, False), (False, True)
Column = dict[Value, Fraction]
Seen = tuple[Value, ...]


@dataclass(frozen=True)
class _One:
    """A statement without others in it: its text, and who sees the value that it shows; none where it shows none."""

    text: str
    sides: Sides | None


@dataclass(frozen=True)
class _Branch:
    """A conditional, or a loop where there is no ``otherwise``."""

    guard: str
    sides: Sides
    then: tuple[_Item, ...]
    otherwise: tuple[_Item, ...] | None


_Item: TypeAlias = Union[_One, _Branch]


class _Apart(Exception):
    """The programs differ in more than in what they show."""


class _Merging:
    """The statements of two programs as those of one. Each gets what it shows, and variables of its own."""

    def __init__(self, a: Source, b: Source) -> None:
        self.sources = a, b
        more, less = (a, b) if len(a.declarations) >= len(b.declarations) else (b, a)
        if not set(less.declarations) <= set(more.declarations) or a.target != b.target:
            raise _Apart
        self.head = f"{more.text[: more.begin]}\n"
        self.visible = {declared.name for declared in more.declarations if declared.visible}
        self.items = self.merged(a.statements, b.statements)

    def text(self) -> str:
        """The text of the program that is both."""
        return self.head + "".join(f"{line}\n" for line in _lines(self.items))

    def merged(self, a: Sequence[Statement], b: Sequence[Statement]) -> tuple[_Item, ...]:
        """Two blocks as one. Raises ``_Apart`` where that can't be."""
        found: list[_Item] = []
        left: list[list[Statement]] = [[statement for statement in side if not isinstance(statement, Skip)] for side in (a, b)]
        while any(left):
            runs = self._run(left[0], 0), self._run(left[1], 1)
            found += self._shown(*runs)
            if all(left):
                found.append(self._paired(left[0].pop(0), left[1].pop(0)))
            elif not any(runs):
                raise _Apart
        return tuple(found)

    def _own(self, statement: Statement, side: int) -> bool:
        """Whether a statement changes nothing of the other program: it only shows, or assigns to a variable that the other one hasn't."""
        match statement:
            case Skip() | Observe():
                return True
            case Assign(name, _):
                return name not in self.sources[1 - side].names
            case If(_, then, otherwise):
                return all(self._own(one, side) for one in then + otherwise)
        return False

    def _run(self, statements: list[Statement], side: int) -> list[Statement]:
        """Takes the statements up to the first one that changes something of the other program."""
        found = []
        while statements and self._own(statements[0], side):
            found.append(statements.pop(0))
        return found

    def _shown(self, of_a: list[Statement], of_b: list[Statement]) -> Iterator[_Item]:
        """What both show at one place: what they show alike once, then what only B does. In between nothing changes that both have."""
        others, pairs = list(of_b), dict[int, Statement]()
        for alike in (_equal, _one_guard):  # conditionals whose branches differ have one guard, since it may be drawn
            for number, statement in enumerate(of_a):
                other = None if number in pairs else next((one for one in others if alike(statement, one)), None)
                if other is not None:
                    pairs[number] = other
                    others.remove(other)
        for number, statement in enumerate(of_a):
            if number not in pairs:
                yield self._item(statement, 0, OF_A)
            elif statement == pairs[number]:
                yield self._item(statement, 0, BOTH)
            else:
                yield self._paired(statement, pairs[number])
        for statement in others:
            yield self._item(statement, 1, OF_B)

    def _item(self, statement: Statement, side: int, sides: Sides) -> _Item:
        """A statement that is there for one program, or for both alike."""
        text = self.sources[side].text
        match statement:
            case If(guard, then, otherwise):
                parts = [tuple(self._item(one, side, sides) for one in block) for block in (then, otherwise)]
                return _Branch(text[guard.at : guard.end], sides, parts[0], parts[1])
            case Assign(name, _):
                return _One(text[statement.at : statement.end], sides if name in self.visible else None)
        return _One(text[statement.at : statement.end], sides if isinstance(statement, Observe) else None)

    def _paired(self, a: Statement, b: Statement) -> _Item:
        """Two statements that change what both have, as one."""
        text = self.sources[0].text
        match (a, b):
            case (If(guard, then, otherwise), If(other, others, rest)) if guard == other:
                return _Branch(text[guard.at : guard.end], BOTH, self.merged(then, others), self.merged(otherwise, rest))
            case (While(guard, body), While(other, others)) if guard == other:
                return _Branch(text[guard.at : guard.end], BOTH, self.merged(body, others), None)
            case (Assign(), Assign()) if a == b:
                return self._item(a, 0, BOTH)
        raise _Apart


def _equal(a: Statement, b: Statement) -> bool:
    return a == b


def _one_guard(a: Statement, b: Statement) -> bool:
    return isinstance(a, If) and isinstance(b, If) and a.guard == b.guard


def _lines(items: Sequence[_Item]) -> Iterator[str]:
    for item in items:
        if isinstance(item, _One):
            yield item.text
        else:
            yield f"{'if' if item.otherwise is not None else 'while'} {item.guard} {{"
            yield from _lines(item.then)
            yield "}"
            if item.otherwise is not None:
                yield "else {"
                yield from _lines(item.otherwise)
                yield "}"


def _parted(items: Sequence[_Item], trace: Iterator[Value], found: tuple[list[Value], list[Value]]) -> None:
    """Goes through statements as the truths of guards in a trace say, and puts each value to those who see it."""

    def take(sides: Sides) -> Value:
        value = next(trace)
        for seen, side in zip(found, sides):
            if side:
                seen.append(value)
        return value

    for item in items:
        if isinstance(item, _One):
            if item.sides is not None:
                take(item.sides)
        elif item.otherwise is not None:
            _parted(item.then if take(item.sides) else item.otherwise, trace, found)
        else:
            while take(item.sides):
                _parted(item.then, trace, found)


def _inners(hyper: Hyper, columns: Mapping[Seen, Column]) -> dict[Seen, int]:
    """The inner to which each trace leads. Raises ``Undecided`` where one leads to none: then the programs weren't put together rightly."""
    numbers = {frozenset(inner.distribution.items()): i for i, inner in enumerate(hyper.inners)}
    found = {}
    for seen, column in columns.items():
        probability = sum(column.values(), Fraction(0))
        number = numbers.get(frozenset((value, p / probability) for value, p in column.items()))
        if number is None:
            raise Undecided("a trace of both leads to no inner")
        found[seen] = number
    return found


def _merged(a: Program, b: Program) -> tuple[Program, tuple[_Item, ...]] | None:
    """Both programs as one, with its statements; none where they differ in more than in what they show."""
    try:
        both = _Merging(read(a.text.decode()), read(b.text.decode()))
    except (ValueError, RecursionError, _Apart):
        return None
    return Program(both.text(), name="both.kf", turns=a.turns, engine=a.engine), both.items


def shared_draws(problem: Problem, deadline: Deadline, programs: tuple[Program, Program], hypers: tuple[Hyper, Hyper]) -> Proof | None:
    """The matrix by which the runs that lead to an inner of A are shared out to the inners of B, where both draw alike."""
    if (merged := _merged(*programs)) is None:
        return None
    program, items = merged
    try:
        traces = traces_of(program, deadline.within(SHARE * deadline.left))
    except (TooLarge, Refusal) as cause:
        raise Undecided(str(cause).splitlines()[0]) from None
    columns: tuple[dict[Seen, Column], dict[Seen, Column]] = ({}, {})
    together: dict[tuple[Seen, Seen], Fraction] = {}
    for shown, column in traces:
        in_time(deadline)
        lists: tuple[list[Value], list[Value]] = ([], [])
        try:
            _parted(items, iter(shown), lists)
        except StopIteration:
            raise Undecided("a trace of both ends too early") from None
        of_a, of_b = tuple(lists[0]), tuple(lists[1])
        for sums, seen in zip(columns, (of_a, of_b)):
            kept = sums.setdefault(seen, {})
            for value, p in column.items():
                kept[value] = kept.get(value, Fraction(0)) + p
        together[of_a, of_b] = together.get((of_a, of_b), Fraction(0)) + sum(column.values(), Fraction(0))
    first, second = (_inners(hyper, sums) for hyper, sums in zip(hypers, columns))
    entries: dict[tuple[int, int], Fraction] = {}
    for (of_a, of_b), p in together.items():
        place = first[of_a], second[of_b]
        entries[place] = entries.get(place, Fraction(0)) + p / hypers[0].inners[place[0]].outer
    return by_matrix(problem, entries, deadline)
