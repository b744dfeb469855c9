"""A plain reading of Kuifje: every way through a program from each store alone, with fractions, after docs/LANGUAGE.md and docs/FORMATS.md.

It shares no code with the crates, and nothing here is clever: the Python package's reader makes a tree of a text, a store is a tuple of values, and
what runs leave is a table from traces and stores to probabilities. A text is taken to be a program that keeps the type rules."""

from __future__ import annotations

from collections import defaultdict
from collections.abc import Callable, Iterable, Iterator, Mapping, Sequence
from fractions import Fraction
from math import gcd, lcm
from typing import Any, TypeVar

from kuifje.source import (
    Assign,
    Call,
    Choose,
    Distribution,
    Expression,
    Flip,
    If,
    Literal,
    Name,
    Observe,
    Part,
    Range,
    SetOf,
    Statement,
    Sure,
    Tuple,
    Type,
    Uniform,
    While,
    read,
)

Value = Any  # a truth, a number, a tuple or a frozenset, as the type rules have it
Store = tuple[Value, ...]
Trace = tuple[Value, ...]
Way = tuple[Trace, Store]
Inner = tuple[tuple[Value, Fraction], ...]
Key = TypeVar("Key")
Weight = TypeVar("Weight", int, Fraction)

MOST_WAYS = 3000


class Fault(Exception):
    """The first fault of a program: its word, and the byte at which the distribution begins that has it."""

    def __init__(self, word: str, at: int | None = None) -> None:
        super().__init__(word)
        self.word, self.at = word, at


class Large(Exception):
    """There are more ways than are gone here."""


# ---- values


def rank(value: Value) -> tuple[Any, ...]:
    """Values ascend as these do."""
    if isinstance(value, bool):
        return 0, value
    if isinstance(value, int):
        return 1, value
    if isinstance(value, tuple):
        return 2, tuple(map(rank, value))
    return 3, tuple(sorted(map(rank, value), reverse=True))


def shown(value: Value) -> str:
    """A value as it is printed."""
    if isinstance(value, tuple):
        return "(" + ", ".join(map(shown, value)) + ")"
    if isinstance(value, frozenset):
        return "{" + ", ".join(map(shown, sorted(value, key=rank))) + "}"
    return str(value).lower()


def trace_shown(trace: Trace) -> str:
    """A trace as it is printed."""
    return "[" + ", ".join(map(shown, trace)) + "]"


def is_of(value: Value, type_: Type) -> bool:
    """Whether a value is of a type."""
    match type_:
        case Range(low, high):
            return bool(low <= value <= high)
        case Tuple(parts):
            return all(map(is_of, value, parts))
        case SetOf(base):
            return all(is_of(member, base) for member in value)
    return True


def narrow(number: int) -> int:
    """The number, where it has 64 bits."""
    if not -(2**63) <= number < 2**63:
        raise Fault("ArithWide")
    return number


def quotient(a: int, b: int) -> tuple[int, int]:
    """The quotient and the remainder, which is from 0 to below the divisor's absolute value."""
    if b == 0:
        raise Fault("DivZero")
    rest = a % abs(b)
    return (a - rest) // b, rest


OPERATORS: dict[str, Callable[..., Value]] = {
    "xor": lambda a, b: a != b,
    "implies": lambda a, b: not a or b,
    "not": lambda a: not a,
    "=": lambda a, b: a == b,
    "!=": lambda a, b: a != b,
    "<": lambda a, b: a < b,
    "<=": lambda a, b: a <= b,
    ">": lambda a, b: a > b,
    ">=": lambda a, b: a >= b,
    "in": lambda a, b: a in b,
    "subset": lambda a, b: a <= b,
    "+": lambda a, b: narrow(a + b),
    "-": lambda a, *b: narrow(a - b[0] if b else -a),
    "*": lambda a, b: narrow(a * b),
    "div": lambda a, b: narrow(quotient(a, b)[0]),
    "mod": lambda a, b: quotient(a, b)[1],
    "union": lambda a, b: a | b,
    "less": lambda a, b: a - b,
    "inter": lambda a, b: a & b,
    "size": len,
    "min": min,
    "max": max,
    "abs": lambda a: narrow(abs(a)),
    "tuple": lambda *parts: parts,
    "set": lambda *members: frozenset(members),
}


def value_of(expression: Expression, store: Mapping[str, Value]) -> Value:
    """The value in a store, which has a value for each name; the first fault from left to right is raised."""
    match expression:
        case Literal(value):
            return value
        case Name(name):
            return store[name]
        case Part(whole, number):
            return value_of(whole, store)[number]
        case Call("or", (first, second)):
            return value_of(first, store) or value_of(second, store)
        case Call("and", (first, second)):
            return value_of(first, store) and value_of(second, store)
        case Call("cond", (test, yes, no)):
            return value_of(yes if value_of(test, store) else no, store)
        case Call(operator, parts):
            return OPERATORS[operator](*[value_of(part, store) for part in parts])


def listed_by(distribution: Distribution, store: Mapping[str, Value]) -> list[tuple[Value, int]]:
    """What a distribution lists, each value with its weight."""
    match distribution:
        case Flip(over, under):
            return [(True, over), (False, under - over)]
        case Uniform(elements, None):
            return [(value, 1) for value in value_of(elements, store)]
        case Uniform(first, last) if last is not None:
            low, high = value_of(first, store), value_of(last, store)
            if high - low >= 65536:
                raise Fault("RangeLong")
            return [(value, 1) for value in range(low, high + 1)]
        case Choose(cases):
            return [(value, weight) for case in cases for value, weight in case_of(case.value, case.weight, store)]
        case Sure(value):
            return [(value_of(value, store), 1)]
    raise AssertionError(distribution)


def case_of(value: Expression, weighing: Expression, store: Mapping[str, Value]) -> list[tuple[Value, int]]:
    """What a case of a choice lists: nothing where its weight is 0."""
    weight = value_of(weighing, store)
    if weight < 0:
        raise Fault("NegativeWeight")
    return [(value_of(value, store), weight)] if weight else []


def choices(distribution: Distribution, store: Mapping[str, Value]) -> tuple[list[tuple[Value, int]], int]:
    """What it chooses, in ascending order, with weights that have no common factor, and their sum."""
    weights: dict[Value, int] = {}
    try:
        for value, weight in listed_by(distribution, store):
            weights[value] = weights.get(value, 0) + weight
        if not any(weights.values()):
            raise Fault("NoWeight")
    except Fault as fault:
        raise Fault(fault.word, distribution.at) from fault
    common = gcd(*weights.values())
    found = [(value, weights[value] // common) for value in sorted(weights, key=rank) if weights[value]]
    return found, sum(weight for _, weight in found)


# ---- programs


class Program:
    """A program of a text. A store is a tuple: the values of the variables, and then what the `old` items were."""

    def __init__(self, text: str, turns: int = 1024) -> None:
        self.text, self.turns = text, turns
        source = read(text)
        self.decls, self.body = source.declarations, source.statements
        self.items = [(item.old, item.name) for item in source.target.items]
        self.names = [decl.name for decl in self.decls]
        self.types = {decl.name: decl.type for decl in self.decls}
        self.visible = {decl.name for decl in self.decls if decl.visible}
        self.copied = [name for initial, name in self.items if initial]

    def place(self, at: int) -> str:
        """The line and the column, in bytes, of a place in the text."""
        before = self.text[:at].encode()
        return f"{before.count(10) + 1}:{len(before) - before.rfind(10)}"

    def values(self, store: Store) -> dict[str, Value]:
        """The variables with their values."""
        return dict(zip(self.names, store))

    def target_in(self, store: Store) -> Value:
        """The value of the target."""
        found = tuple(store[len(self.names) + self.copied.index(name)] if initial else store[self.names.index(name)] for initial, name in self.items)
        return found[0] if len(found) == 1 else found

    def with_copies(self, stores: Mapping[Store, Weight]) -> dict[Store, Weight]:
        """Stores with the values of the `old` items after their own."""
        return {store + tuple(store[self.names.index(name)] for name in self.copied): kept for store, kept in stores.items()}

    def moved(self, store: Store, name: str, value: Value, at: int) -> Store:
        """The store in which a variable has this value, which is drawn at a place."""
        if not is_of(value, self.types[name]):
            raise Fault("OutOfRange", at)
        place = self.names.index(name)
        return store[:place] + (value,) + store[place + 1 :]

    # ---- the support pass, which meets the first fault, with the least common multiple of the scales that lead to each store

    def scale(self) -> int:
        """The least number over which all joint probabilities are whole."""
        stores: dict[Store, int] = {(): 1}
        for decl in self.decls:
            ends: defaultdict[Store, int] = defaultdict(lambda: 1)
            for store in sorted(stores, key=rank):
                found, total = choices(decl.value, self.values(store))
                for value, _ in found:
                    if not is_of(value, decl.type):
                        raise Fault("OutOfRange", decl.value.at)
                    ends[store + (value,)] = lcm(ends[store + (value,)], stores[store] * total)
            stores = ends
        return lcm(*self.passed(self.body, self.with_copies(stores)).values())

    def passed(self, statements: Sequence[Statement], stores: dict[Store, int]) -> dict[Store, int]:
        """The stores after statements."""
        for statement in statements:
            match statement:
                case Assign(name, value):
                    stores = self.stepped(value, stores, lambda store, drawn: self.moved(store, name, drawn, value.at))
                case Observe(value):
                    stores = self.stepped(value, stores, lambda store, drawn: store)
                case If(guard, then, otherwise):
                    sides = self.sides(guard, stores)
                    stores = both(self.passed(then, sides[True]), self.passed(otherwise, sides[False]))
                case While(guard, body):
                    stores = self.turned(guard, body, stores)
        return stores

    def turned(self, guard: Distribution, body: Sequence[Statement], stores: dict[Store, int]) -> dict[Store, int]:
        """The stores after a loop."""
        left: dict[Store, int] = {}
        for _ in range(self.turns):
            sides = self.sides(guard, stores)
            left = both(left, sides[False])
            if not sides[True]:
                return left
            stores = self.passed(body, sides[True])
        for store in sorted(stores, key=rank):
            # the store's own fault comes first, then that it goes on, and only then what the next store meets
            if any(value for value, _ in choices(guard, self.values(store))[0]):
                raise Fault("LoopBound", guard.at)
        return both(left, self.sides(guard, stores)[False])

    def stepped(self, distribution: Distribution, stores: Mapping[Store, int], end: Callable[[Store, Value], Store]) -> dict[Store, int]:
        """The stores after a draw."""
        ends: defaultdict[Store, int] = defaultdict(lambda: 1)
        for store in sorted(stores, key=rank):
            found, total = choices(distribution, self.values(store))
            for value, _ in found:
                after = end(store, value)
                ends[after] = lcm(ends[after], stores[store] * total)
        return ends

    def sides(self, guard: Distribution, stores: Mapping[Store, int]) -> dict[bool, dict[Store, int]]:
        """The stores for which a guard holds, and those for which it doesn't."""
        sides: dict[bool, dict[Store, int]] = {True: {}, False: {}}
        for store in sorted(stores, key=rank):
            found, total = choices(guard, self.values(store))
            for value, _ in found:
                sides[value][store] = stores[store] * total
        return sides

    # ---- runs: the probability of each trace with each store behind it

    def starts(self) -> dict[Way, Fraction]:
        """The ways up to the first statement."""
        found: dict[Store, Fraction] = {(): Fraction(1)}
        for decl in self.decls:
            found = gathered((store + (value,), chance * part) for store, chance in found.items() for value, part in self.chances(decl.value, store))
        return {((), store): chance for store, chance in self.with_copies(found).items()}

    def chances(self, distribution: Distribution, store: Store) -> list[tuple[Value, Fraction]]:
        """What a distribution chooses, with probabilities."""
        found, total = choices(distribution, self.values(store))
        return [(value, Fraction(weight, total)) for value, weight in found]

    def run(
        self, statements: Sequence[Statement], ways: dict[Way, Fraction], quiet: bool = False, silent: Statement | None = None
    ) -> dict[Way, Fraction]:
        """The ways after statements; where `quiet` they show nothing, and the statement that is `silent` never does."""
        for statement in statements:
            hides = quiet or statement is silent
            match statement:
                case Assign(name, value):
                    ways = gathered(self.assigned(name, value, ways, hides))
                case Observe(value):
                    ways = gathered((way, chance) for _, way, chance in self.leaked(value, ways, hides))
                case If(guard, then, otherwise):
                    yes, no = self.split(guard, ways, hides)
                    ways = gathered([*self.run(then, yes, hides, silent).items(), *self.run(otherwise, no, hides, silent).items()])
                case While(guard, body):
                    left: list[tuple[Way, Fraction]] = []
                    while ways:
                        going, done = self.split(guard, ways, hides)
                        left += done.items()
                        ways = self.run(body, going, hides, silent)
                    ways = gathered(left)
        return ways

    def assigned(self, name: str, distribution: Distribution, ways: Mapping[Way, Fraction], quiet: bool) -> Iterator[tuple[Way, Fraction]]:
        """The ways after an assignment."""
        for value, (trace, store), chance in self.leaked(distribution, ways, quiet or name not in self.visible):
            yield (trace, self.moved(store, name, value, distribution.at)), chance

    def leaked(self, distribution: Distribution, ways: Mapping[Way, Fraction], quiet: bool) -> Iterator[tuple[Value, Way, Fraction]]:
        """Each way with each value that is drawn there, which is shown unless it is quiet."""
        for (trace, store), chance in ways.items():
            for value, part in self.chances(distribution, store):
                yield value, (trace if quiet else trace + (value,), store), chance * part

    def split(self, guard: Distribution, ways: Mapping[Way, Fraction], quiet: bool) -> tuple[dict[Way, Fraction], dict[Way, Fraction]]:
        """The ways on which a guard holds, and those on which it doesn't."""
        found = list(self.leaked(guard, ways, quiet))
        yes, no = (gathered((way, chance) for value, way, chance in found if value is side) for side in (True, False))
        return yes, no

    def rows(self, ways: Mapping[Way, Fraction] | None = None) -> dict[Trace, dict[Value, Fraction]]:
        """Each trace, ascending, with the probability of each value of the target: of these ways, or of all from the start."""
        rows: defaultdict[Trace, defaultdict[Value, Fraction]] = defaultdict(lambda: defaultdict(Fraction))
        for (trace, store), chance in (self.run(self.body, self.starts()) if ways is None else ways).items():
            rows[trace][self.target_in(store)] += chance
        return {trace: rows[trace] for trace in sorted(rows, key=rank)}

    # ---- what is printed

    def target(self) -> str:
        """The line of the target."""
        return "target " + ", ".join(("old " if initial else "") + name for initial, name in self.items)

    def hyper(self, ways: Mapping[Way, Fraction] | None = None) -> list[str]:
        """What `hyper` prints of these ways, or of all."""
        inners = sorted(beliefs(self.rows(ways).values()).items(), key=lambda inner: order_of(inner[0]))
        lines = [self.target(), f"scale {self.scale()}", f"inners {len(inners)}"]
        for number, (inner, outer) in enumerate(inners):
            lines += [f"inner {number} outer {outer}", *(f"  {shown(value)} {chance}" for value, chance in inner)]
        return lines

    def traces(self) -> list[str]:
        """What `traces` prints."""
        rows = self.rows()
        lines = [self.target(), f"scale {self.scale()}", f"traces {len(rows)}"]
        for trace, row in rows.items():
            lines.append(f"trace {trace_shown(trace)} weight {sum(row.values())}")
            lines += [f"  {shown(value)} {row[value]}" for value in sorted(row, key=rank)]
        return lines

    def channel(self) -> list[str]:
        """What `channel` prints, where the target is initial."""
        rows = self.rows()
        whole = gathered((value, chance) for row in rows.values() for value, chance in row.items())
        lines = [self.target(), f"columns {len(rows)}", *(f"column {i} {trace_shown(trace)}" for i, trace in enumerate(rows)), f"rows {len(whole)}"]
        for value in sorted(whole, key=rank):
            lines += [f"row {shown(value)}", *(f"  {row[value] / whole[value]}" for row in rows.values())]
        return lines

    def trail(self) -> list[str]:
        """How many classes of columns of whole stores there are behind each statement."""
        lines, ways = [], self.starts()
        for number in range(len(self.body) + 1):
            columns: defaultdict[Trace, dict[Store, Fraction]] = defaultdict(dict)
            for (trace, store), chance in ways.items():
                columns[trace][store] = chance
            lines.append(f"after {number} inners {len(beliefs(columns.values()))}")
            ways = self.run(self.body[number : number + 1], ways)
        return lines

    def showing(self, statements: Sequence[Statement]) -> Iterator[Statement]:
        """The statements that may show something, wherever they stand, in the order of the text."""
        for statement in statements:
            match statement:
                case Observe() | If() | While():
                    yield statement
                case Assign(name, _) if name in self.visible:
                    yield statement
            match statement:
                case If(_, then, otherwise):
                    yield from self.showing(then)
                    yield from self.showing(otherwise)
                case While(_, body):
                    yield from self.showing(body)

    def lines(self, gain: str = "bayes") -> list[str]:
        """How much is seen, and how much where each statement alone that may show something is silent."""
        lines = []
        for name, silent in [("all", None), *((self.place(statement.at), statement) for statement in self.showing(self.body))]:
            inners = beliefs(self.rows(self.run(self.body, self.starts(), silent=silent)).values())
            lines.append(f"{name} inners {len(inners)} posterior {posterior(inners, gain)}")
        return lines

    def answer(self, command: str, *options: str) -> tuple[int, list[str]]:
        """The status of a command, and the lines of its answer or of its refusal."""
        try:
            if self.scale() >= 2**127:
                return 7, ["scale passes 2^127 - 1"]
        except Fault as fault:
            assert fault.at is not None
            return 6, [f"{self.place(fault.at)}: {fault.word}"]
        lines: list[str] = getattr(self, command)(*options)
        return 0, lines


def gathered(pairs: Iterable[tuple[Key, Fraction]]) -> dict[Key, Fraction]:
    """The sums of what has one key."""
    found: defaultdict[Key, Fraction] = defaultdict(Fraction)
    for key, chance in pairs:
        found[key] += chance
    if len(found) > MOST_WAYS:
        raise Large
    return found


def both(one: dict[Store, int], other: dict[Store, int]) -> dict[Store, int]:
    """The stores of both, with the least common multiples of their scales."""
    return {store: lcm(one.get(store, 1), other.get(store, 1)) for store in one | other}


def beliefs(columns: Iterable[Mapping[Value, Fraction]]) -> dict[Inner, Fraction]:
    """The inners that columns leave, each as pairs of a value and its probability, with their outers."""
    found: defaultdict[Inner, Fraction] = defaultdict(Fraction)
    for column in columns:
        outer = sum(column.values(), Fraction(0))
        found[tuple((value, column[value] / outer) for value in sorted(column, key=rank) if column[value])] += outer
    return found


def posterior(inners: Mapping[Inner, Fraction], gain: str) -> Fraction:
    """The posterior vulnerability of inners with their outers, under a gain without a table."""
    name, _, tries = gain.partition(":")
    total = Fraction(0)
    for inner, outer in inners.items():
        chances = sorted((chance for _, chance in inner), reverse=True)
        if name == "guessing":
            total += outer * sum((number * chance for number, chance in enumerate(chances, 1)), Fraction(0))
        else:
            total += outer * sum(chances[: int(tries or 1)], Fraction(0))
    return total


def order_of(inner: Inner) -> list[tuple[tuple[Any, ...], int]]:
    """Inners stand in the order of their values with whole weights that have no common factor."""
    over = lcm(*(chance.denominator for _, chance in inner))
    weights = [int(chance * over) for _, chance in inner]
    return [(rank(value), weight // gcd(*weights)) for (value, _), weight in zip(inner, weights)]
