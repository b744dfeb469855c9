"""Steps and columns of `hyper` and of `lines`, counted by a plain program that pushes columns of stores with fractions, after docs/LANGUAGE.md.

Expressions and distributions are those of plain.py. A step is a store of a column with a value that is drawn there; columns that are
proportional are one. Of a line it counts what is pushed again: its top-level statement and all that follows."""

from __future__ import annotations

from collections import defaultdict
from collections.abc import Callable, Iterable, Iterator, Mapping, Sequence
from fractions import Fraction

from kuifje.source import Assign, Distribution, If, Observe, Statement, While

from ..plain import Inner, Program, Store, Value, choices, posterior, rank

Column = frozenset[tuple[Store, Fraction]]
Stores = Mapping[Store, Fraction]
Columns = dict[Column, Fraction]
Piece = tuple[Stores, Fraction]  # a part of a column that is left or goes on, and the column's weight

MOST_STEPS = 100_000  # of a program that is counted


class TooMany(Exception):
    """There are more steps than are counted here."""


class Pushing:
    """Columns that are pushed through statements, with the steps that this took and the most columns that there were at once.

    A column is a set of stores, each with its share; these sum to 1. Columns are a table from these to weights."""

    def __init__(self, program: Program, silent: Statement | None = None) -> None:
        self.program, self.silent, self.steps, self.most = program, silent, 0, 0

    def drawn(self, distribution: Distribution, column: Iterable[tuple[Store, Fraction]]) -> Iterator[tuple[Store, Value, Fraction]]:
        """Each store of a column with each value that is drawn there, and its share."""
        for store, share in column:
            found, total = choices(distribution, self.program.values(store))
            self.steps += len(found)
            if self.steps > MOST_STEPS:
                raise TooMany
            for value, weight in found:
                yield store, value, share * Fraction(weight, total)

    def merged(self, pieces: Iterable[Piece], waiting: int) -> Columns:
        """The columns of pieces, each a table of stores with a weight; proportional ones are one."""
        columns: defaultdict[Column, Fraction] = defaultdict(Fraction)
        for piece, weight in pieces:
            if total := sum(piece.values(), Fraction(0)):
                columns[frozenset((store, share / total) for store, share in piece.items())] += weight * total
        self.most = max(self.most, waiting + len(columns))
        return dict(columns)

    def push(self, statements: Sequence[Statement], columns: Columns, waiting: int = 0) -> Columns:
        """The columns after statements, while others wait."""
        for statement in statements:
            if statement is self.silent:
                columns = self.merged([(self.hidden([statement], dict(column)), weight) for column, weight in columns.items()], waiting)
            else:
                columns = self.passed(statement, columns, waiting)
        return columns

    def passed(self, statement: Statement, columns: Columns, waiting: int) -> Columns:
        """The columns after a statement that shows what it shows."""
        match statement:
            case Assign(name, value):
                return self.merged(self.split(value, columns, name in self.program.visible, self.setting(name, value)), waiting)
            case Observe(value):
                return self.merged(self.split(value, columns, True, lambda store, drawn: store), waiting)
            case If(guard, then, otherwise):
                yes, no = self.sides(guard, columns, waiting)
                yes = self.push(then, yes, waiting + len(no))
                return self.joined(yes, self.push(otherwise, no, waiting + len(yes)), waiting)
            case While(guard, body):
                left: Columns = {}
                while columns:
                    columns, done = self.sides(guard, columns, waiting + len(left))
                    left = self.joined(left, done, waiting + len(columns))
                    columns = self.push(body, columns, waiting + len(left))
                return left
        return columns

    def setting(self, name: str, distribution: Distribution) -> Callable[[Store, Value], Store]:
        """What a store becomes where a variable takes a value that was drawn."""
        return lambda store, drawn: self.program.moved(store, name, drawn, distribution.at)

    def split(self, distribution: Distribution, columns: Columns, is_shown: bool, end: Callable[[Store, Value], Store]) -> Iterator[Piece]:
        """What columns become where a value is drawn: one for each value where it is shown."""
        for column, weight in columns.items():
            pieces: defaultdict[Value, defaultdict[Store, Fraction]] = defaultdict(lambda: defaultdict(Fraction))
            for store, value, share in self.drawn(distribution, column):
                pieces[value if is_shown else None][end(store, value)] += share
            yield from ((piece, weight) for piece in pieces.values())

    def sides(self, guard: Distribution, columns: Columns, waiting: int) -> tuple[Columns, Columns]:
        """The columns that go on, and those that are done."""
        sides: dict[bool, list[Piece]] = {True: [], False: []}
        for column, weight in columns.items():
            pieces: dict[bool, defaultdict[Store, Fraction]] = {True: defaultdict(Fraction), False: defaultdict(Fraction)}
            for store, value, share in self.drawn(guard, column):
                pieces[value][store] += share
            for value, piece in pieces.items():
                sides[value].append((piece, weight))
        return self.merged(sides[True], waiting), self.merged(sides[False], waiting)

    def joined(self, one: Columns, other: Columns, waiting: int) -> Columns:
        """The columns of both."""
        columns = defaultdict(Fraction, one)
        for column, weight in other.items():
            columns[column] += weight
        self.most = max(self.most, waiting + len(columns))
        return dict(columns)

    def hidden(self, statements: Sequence[Statement], stores: Stores) -> Stores:
        """What one column becomes where nothing is shown."""
        for statement in statements:
            match statement:
                case Assign(name, value):
                    after: defaultdict[Store, Fraction] = defaultdict(Fraction)
                    for store, drawn, share in self.drawn(value, stores.items()):
                        after[self.program.moved(store, name, drawn, value.at)] += share
                    stores = after
                case If(guard, then, otherwise):
                    yes, no = self.parts(guard, stores)
                    stores = added(self.hidden(then, yes), self.hidden(otherwise, no))
                case While(guard, body):
                    left: Stores = {}
                    while stores:
                        stores, done = self.parts(guard, stores)
                        left, stores = added(left, done), self.hidden(body, stores)
                    stores = left
                case Observe(value):
                    after = defaultdict(Fraction)
                    for store, _, share in self.drawn(value, stores.items()):
                        after[store] += share
                    stores = after
        return stores

    def parts(self, guard: Distribution, stores: Stores) -> tuple[Stores, Stores]:
        """The stores that go on, and those that are done."""
        parts: dict[bool, defaultdict[Store, Fraction]] = {True: defaultdict(Fraction), False: defaultdict(Fraction)}
        for store, value, share in self.drawn(guard, stores.items()):
            parts[value][store] += share
        return parts[True], parts[False]

    def inners(self, columns: Columns) -> dict[Inner, Fraction]:
        """The hyper of columns: the inners with their outers."""
        found: defaultdict[Inner, Fraction] = defaultdict(Fraction)
        for column, weight in columns.items():
            inner: defaultdict[Value, Fraction] = defaultdict(Fraction)
            for store, share in column:
                inner[self.program.target_in(store)] += share
            found[tuple(sorted(inner.items(), key=lambda pair: rank(pair[0])))] += weight
        return found


def added(one: Stores, other: Stores) -> Stores:
    """The stores of both."""
    stores = defaultdict(Fraction, one)
    for store, share in other.items():
        stores[store] += share
    return stores


def row(name: str, inners: Mapping[Inner, Fraction]) -> str:
    """What `lines` prints of a hyper."""
    return f"{name} inners {len(inners)} posterior {posterior(inners, 'bayes')}"


def counted(text: str) -> tuple[int, int, int, int, list[str]]:
    """The steps and the columns of `hyper`, the most of each that a line takes, and what `lines` has to print."""
    program = Program(text)
    start = {frozenset((store, share) for (_, store), share in program.starts().items()): Fraction(1)}
    whole, before = Pushing(program), [start]
    for statement in program.body:
        before.append(whole.push([statement], before[-1]))
    answers = [row("all", whole.inners(before[-1]))]
    steps, columns = 0, 0
    for number, top in enumerate(program.body):
        for silent in program.showing([top]):
            line = Pushing(program, silent)
            answers.append(row(program.place(silent.at), line.inners(line.push(program.body[number:], before[number]))))
            steps, columns = max(steps, line.steps), max(columns, line.most)
    return whole.steps, max(whole.most, 1), steps, columns, answers
