"""Between which bounds the values of variables and expressions stay: truths, whole numbers, tuples and sets, by abstract interpretation.

Branches are followed under what their tests say, and loops turn by turn, up to as many turns as a loop may take.
"""

from __future__ import annotations

from collections.abc import Callable, Iterable, Sequence
from dataclasses import dataclass
from functools import reduce
from typing import TypeAlias, Union

from ..values import Value
from .errors import Place
from .sizes import VALUES
from .evaluate import bad
from .tree import (
    Assign,
    Choose,
    Expr,
    Fixed,
    Flip,
    If,
    Literal,
    Lookup,
    Node,
    Observe,
    Operation,
    Part,
    SetOf,
    Statement,
    Store,
    TupleOf,
    Uniform,
    UniformRange,
    Variable,
    While,
)
from .parameters import Unfolded

__all__ = ["Range", "Ranges", "Sets", "Truth", "Tuples", "Whole", "count", "join", "least", "of_value"]

BOUND = 1_000_000  # of a range's numbers, on either side of 0
BASE = 16  # values of the base of a set
STEPS = 200_000  # statements that are followed, each turn of a loop anew
LATEST = 8  # turns that a turn of a loop is compared with; with all others only whether it is the same


@dataclass(frozen=True)
class Truth:
    """Which truths there may be."""

    no: bool = True
    yes: bool = True


@dataclass(frozen=True)
class Whole:
    """Whole numbers between two bounds, both with them."""

    low: int
    high: int


@dataclass(frozen=True)
class Tuples:
    """Tuples with these parts."""

    parts: tuple[Range, ...]


@dataclass(frozen=True)
class Sets:
    """Sets of these elements; none where only the empty set is known."""

    of: Range | None


Range: TypeAlias = Union[Truth, Whole, Tuples, Sets]
State = dict[str, Range]


class Clash(Exception):
    """Two values are of different kinds."""


def join(a: Range, b: Range) -> Range:
    """What covers both. Raises ``Clash`` where their kinds differ."""
    if isinstance(a, Truth) and isinstance(b, Truth):
        return Truth(a.no or b.no, a.yes or b.yes)
    if isinstance(a, Whole) and isinstance(b, Whole):
        return Whole(min(a.low, b.low), max(a.high, b.high))
    match (a, b):
        case (Tuples(parts=x), Tuples(parts=y)) if len(x) == len(y):
            return Tuples(tuple(map(join, x, y)))
        case (Sets(of=None), Sets()):
            return b
        case (Sets(), Sets(of=None)):
            return a
        case (Sets(of=x), Sets(of=y)) if x is not None and y is not None:
            return Sets(join(x, y))
    raise Clash


def of_value(value: Value) -> Range:
    """The range of one value."""
    if isinstance(value, bool):
        return Truth(not value, value)
    if isinstance(value, int):
        return Whole(value, value)
    if isinstance(value, tuple):
        return Tuples(tuple(map(of_value, value)))
    return Sets(reduce(join, map(of_value, value)) if value else None)


def least(found: Range) -> Value:
    """The least value of a range, in the language's order; a truth may be false, and a set empty."""
    match found:
        case Whole(low=low):
            return low
        case Tuples(parts=parts):
            return tuple(map(least, parts))
        case Sets():
            return frozenset()
    return False


def count(found: Range) -> int:
    """How many values the type of a range has."""
    match found:
        case Whole(low=low, high=high):
            return high - low + 1
        case Tuples(parts=parts):
            return reduce(lambda n, part: n * count(part), parts, 1)
        case Sets(of=of):
            return 1 << min(count(of), 128) if of is not None else 2  # all that is more than a type may have
    return 2


def _corners(a: Whole, b: Whole, work: Callable[[int, int], int]) -> Whole:
    found = [work(x, y) for x in (a.low, a.high) for y in (b.low, b.high)]
    return Whole(min(found), max(found))


def bits(*ranges: Whole) -> int:
    """How many bits the numbers take, without a sign."""
    return max(max(r.high, -r.low - 1, 0).bit_length() for r in ranges)


def _modulo(a: Whole, b: Whole) -> Whole:
    if b.low == b.high and b.low > 0 and a.low // b.low == a.high // b.low:
        return Whole(a.low % b.low, a.high % b.low)
    return a if 0 <= a.low and a.high < b.low else Whole(0, max(b.high - 1, 0))


def _and(a: Whole, b: Whole) -> Whole:
    if a.low < 0 and b.low < 0:
        return Whole(-(1 << bits(a, b)), (1 << bits(a, b)) - 1)
    return Whole(0, min(r.high for r in (a, b) if r.low >= 0))


def _or(a: Whole, b: Whole) -> Whole:
    signed = a.low < 0 or b.low < 0
    return Whole(-(1 << bits(a, b)) if signed else 0, (1 << bits(a, b)) - 1)


ARITHMETIC: dict[str, Callable[[Whole, Whole], Whole]] = {
    "+": lambda a, b: Whole(a.low + b.low, a.high + b.high),
    "-": lambda a, b: Whole(a.low - b.high, a.high - b.low),
    "*": lambda a, b: _corners(a, b, lambda x, y: x * y),
    "//": lambda a, b: _corners(a, Whole(max(b.low, 1), max(b.high, 1)), lambda x, y: x // y),
    "%": _modulo,
    "&": _and,
    "|": _or,
    "^": _or,
    "<<": lambda a, b: _corners(a, b, lambda x, y: x << y),
    ">>": lambda a, b: _corners(a, b, lambda x, y: x >> y),
    "min": lambda a, b: Whole(min(a.low, b.low), min(a.high, b.high)),
    "max": lambda a, b: Whole(max(a.low, b.low), max(a.high, b.high)),
}
COMPARED: dict[str, Callable[[Whole, Whole], Truth]] = {
    "<": lambda a, b: Truth(a.high >= b.low, a.low < b.high),
    "<=": lambda a, b: Truth(a.high > b.low, a.low <= b.high),
    ">": lambda a, b: Truth(a.low <= b.high, a.high > b.low),
    ">=": lambda a, b: Truth(a.low < b.high, a.high >= b.low),
    "==": lambda a, b: Truth(not (a.low == a.high == b.low == b.high), a.low <= b.high and b.low <= a.high),
    "!=": lambda a, b: Truth(a.low <= b.high and b.low <= a.high, not (a.low == a.high == b.low == b.high)),
}
OPPOSITE = {"<": ">=", ">=": "<", ">": "<=", "<=": ">", "==": "!=", "!=": "=="}
TURNED = {"<": ">", ">": "<", "<=": ">=", ">=": "<=", "==": "==", "!=": "!="}


def number(found: Range, place: Place) -> Whole:
    """The range as numbers: a truth counts as 0 or 1."""
    if isinstance(found, Truth):
        return Whole(0 if found.no else 1, 1 if found.yes else 0)
    if not isinstance(found, Whole):
        bad("a number is wanted here, and this is none", "take a part of a tuple, or len(..) of a set", place)
    return found


class Ranges:
    """The ranges of a model: ``types`` has those of its variables, ``at`` those of its expressions, where a run may get there."""

    def __init__(self, model: Unfolded, turns: int) -> None:
        self.turns, self.declared = turns, model.ranges
        self.types: dict[str, Range] = {}
        self.places: dict[str, Place] = {}
        self._found: dict[int, Range] = {}
        self._steps = 0
        state: State = {}
        for variable in model.declared:
            state = self.assign(variable.name, self.node(variable.value, state), variable.place, state)
        self.run(model.body, state)

    def at(self, node: Node) -> Range | None:
        """The range of an expression or a draw; none where no run gets there."""
        return self._found.get(id(node))

    # Statements

    def run(self, statements: Iterable[Statement], state: State | None) -> State | None:
        """The state after statements; none where no run gets there."""
        for statement in statements:
            if state is None:
                return None
            self._steps += 1
            if self._steps > STEPS:
                bad(f"loops take more than {STEPS} steps until it is known how far their variables go", "take fewer turns", statement.place)
            state = self.statement(statement, state)
        return state

    def statement(self, statement: Statement, state: State) -> State | None:
        """The state after a statement."""
        match statement:
            case Assign(place=place, name=name, value=value):
                return self.assign(name, self.node(value, state), place, state)
            case Store(place=place, names=names, index=index, value=value):
                where, stored = self.index(index, len(names), state), self.node(value, state)
                for name in names[where.low : where.high + 1]:
                    if name not in state:
                        bad("an entry of this array may have no value here", "give the whole array a value before: a = [0] * 3", place)
                    state = self.assign(name, self.joined(state[name], stored, place), place, state)
            case Observe(value=value):
                self.node(value, state)
            case If(test=test, then=then, orelse=orelse):
                self.truth(test, state)
                return self.either(self.run(then, self.assume(test, True, state)), self.run(orelse, self.assume(test, False, state)))
            case While():
                return self.loop(statement, state)
        return state

    def assign(self, name: str, value: Range, place: Place, state: State) -> State:
        """The state after an assignment."""
        if name in self.declared:
            given, where = self.declared[name]
            if not isinstance(value, Whole) or value.high < given[0] or value.low > given[-1]:
                bad(f"this value isn't in {given}", "give the variable a range that has it", where)
            value = Whole(max(value.low, given[0]), min(value.high, given[-1]))
            self.types[name] = Whole(given[0], given[-1])
        self.places.setdefault(name, place)
        self.types[name] = self.joined(self.types.get(name, value), value, place)
        self.bounded(name, self.types[name], place)
        return state | {name: value}

    def bounded(self, name: str, found: Range, place: Place) -> None:
        """Refuses a variable that has too many values."""
        form = f"say how far it goes, as {name}: range(256) = 0, or keep it in bounds, as by % 256"
        match found:
            case Whole(low=low, high=high) if low < -BOUND or high > BOUND:
                bad(f"{name} may go from {low} to {high}, and numbers of variables stay within {BOUND} of 0", form, place)
            case Tuples(parts=parts):
                for part in parts:
                    self.bounded(name, part, place)
            case Sets(of=of) if of is not None:
                self.bounded(name, of, place)
                if count(of) > BASE:
                    bad(f"the elements of {name} may have {count(of)} values, and {BASE} are allowed", "take a smaller range of elements", place)
        if count(found) > VALUES:
            bad(f"{name} may have {count(found)} values, and {VALUES} are allowed", form, place)

    def joined(self, a: Range, b: Range, place: Place) -> Range:
        """What covers both. Refuses values of different kinds."""
        try:
            return join(a, b)
        except Clash:
            bad("this value has another kind than one before", "use another name, or int(..) of a truth", place)

    def either(self, a: State | None, b: State | None) -> State | None:
        """The state where two branches meet: a variable without a value in one of them has none."""
        if a is None or b is None:
            return a if b is None else b
        found = {}
        for name in a.keys() & b.keys():
            try:
                found[name] = join(a[name], b[name])
            except Clash:
                bad(f"{name} has another kind in one branch", "use another name, or int(..) of a truth", self.places[name])
        return found

    def loop(self, loop: While, state: State) -> State | None:
        """The state after a loop, turn by turn until a turn brings nothing new."""
        after: State | None = None
        seen: list[State] = []
        equal = set[frozenset[tuple[str, Range]]]()
        before: State | None = state
        while before is not None and len(seen) <= self.turns and not any(_within(before, old) for old in reversed(seen[-LATEST:])):
            if (key := frozenset(before.items())) in equal:
                break
            equal.add(key)
            seen.append(before)
            self.truth(loop.test, before)
            after = self.either(after, self.assume(loop.test, False, before))
            before = self.run(loop.body, self.assume(loop.test, True, before))
        return after

    # Expressions

    def node(self, node: Node, state: State | None) -> Range:
        """The range of an expression or a draw in a state."""
        assert state is not None
        found = self.expression(node, state) if isinstance(node, Expr) else self.draw(node, state)
        before = self._found.get(id(node))
        self._found[id(node)] = found if before is None else self.joined(before, found, node.place)
        return found

    def draw(self, node: Node, state: State) -> Range:
        """The range of what is drawn."""
        match node:
            case Fixed(distribution=distribution):
                return self.cover([of_value(value) for value in distribution.weights], node.place)
            case Flip(numerator=n, denominator=d):
                return Truth(n < d, n > 0)
            case UniformRange(first=first, last=last):
                ends = number(self.node(first, state), first.place), number(self.node(last, state), last.place)
                return Whole(ends[0].low, max(ends[1].high, ends[0].low))
            case Uniform(values=values):
                found = self.node(values, state)
                if not isinstance(found, Sets) or found.of is None:
                    bad("uniform has a set, a range or a list of values", "write uniform({0, 1} - {x}), or uniform(range(4))", node.place)
                return found.of
            case Choose(cases=cases):
                for _, weight in cases:
                    number(self.node(weight, state), weight.place)
                return self.cover([self.node(value, state) for value, _ in cases], node.place)
        raise AssertionError(node)

    def cover(self, ranges: Sequence[Range], place: Place) -> Range:
        """What covers all of these ranges."""
        return reduce(lambda a, b: self.joined(a, b, place), ranges)

    def expression(self, node: Expr, state: State) -> Range:
        """The range of an expression."""
        match node:
            case Literal(value=value):
                return of_value(value)
            case Variable(name=name, place=place):
                if name not in state:
                    bad("this may have no value here", "assign it before: x = 0", place)
                return state[name]
            case TupleOf(parts=parts):
                return Tuples(tuple(self.node(part, state) for part in parts))
            case SetOf(members=members):
                return Sets(self.cover([self.node(member, state) for member in members], node.place) if members else None)
            case Part(whole=whole, number=n):
                found = self.node(whole, state)
                if not isinstance(found, Tuples) or len(found.parts) <= n:
                    bad("this is no tuple with so many parts", "use the parts that it has", node.place)
                return found.parts[n]
            case Lookup(entries=entries, index=index):
                where = self.index(index, len(entries), state)
                return self.cover([self.node(entry, state) for entry in entries[where.low : where.high + 1]], node.place)
            case Operation():
                return self.operation(node, state)
        raise AssertionError(node)

    def index(self, index: Expr, entries: int, state: State) -> Whole:
        """The range of an index. Refuses one that may be outside."""
        found = number(self.node(index, state), index.place)
        if found.low < 0 or found.high >= entries:
            goes = f"be {found.low}" if found.low == found.high else f"go from {found.low} to {found.high}"
            reason = f"the index may {goes}, and there are {entries} entries"
            bad(reason, f"keep it in bounds, as by min(i, {entries - 1}), % {entries}, or a test before", index.place)
        return found

    def truth(self, node: Node, state: State) -> Truth:
        """The range of a test."""
        found = self.node(node, state)
        if not isinstance(found, Truth):
            bad("a truth is wanted here, and this is none", "compare: x != 0", node.place)
        return found

    def operation(self, node: Operation, state: State) -> Range:
        """The range of an operator's value."""
        word, place = node.operator, node.place
        if word in ("and", "or"):
            return self.junction(node, state)
        if word == "cond":
            return self.conditional(node, state)
        found = [self.node(argument, state) for argument in node.arguments]
        if word == "truth":
            return self.as_truth(found[0], place)
        if word == "not":
            assert isinstance(found[0], Truth)
            return Truth(found[0].yes, found[0].no)
        if word in ("==", "!="):
            return self.equality(word, found[0], found[1], place)
        if word == "changed":
            if isinstance(found[0], Sets):
                bad("a set would be changed in place, under each name that it has", "write s = s | {x}", place)
            return found[0]
        if isinstance(found[0], Sets) or word in ("size", "in", "set") or isinstance(found[-1], Sets):
            return self.of_sets(word, found, place)
        if word in ("&", "|", "^") and all(isinstance(side, Truth) for side in found):
            return Truth()
        if word in ("min", "max") and {type(side) for side in found} == {Truth, Whole}:
            bad("one value is a truth and the other a number", "write int(..) for the truth", place)
        numbers = [number(side, place) for side in found]
        if word in COMPARED:
            return COMPARED[word](numbers[0], numbers[1])
        if word in ("//", "%") and numbers[1].low < 0:
            bad("the divisor may be below 0, where Python and the language divide otherwise", "divide by a number above 0", place)
        if word in ("<<", ">>") and (numbers[1].low < 0 or numbers[1].high > 62):
            bad(f"the shift may go from {numbers[1].low} to {numbers[1].high}", "shift by 0 to 62", place)
        if word in ARITHMETIC:
            return ARITHMETIC[word](numbers[0], numbers[1])
        (x,) = numbers
        if word == "abs":
            return Whole(0 if x.low <= 0 <= x.high else min(abs(x.low), abs(x.high)), max(abs(x.low), abs(x.high)))
        return {"neg": Whole(-x.high, -x.low), "~": Whole(-x.high - 1, -x.low - 1), "number": x}[word]

    def as_truth(self, found: Range, place: Place) -> Truth:
        """What a test of a value may give."""
        match found:
            case Truth():
                return found
            case Whole(low=low, high=high):
                return Truth(low <= 0 <= high, not low == high == 0)
            case Sets():
                return Truth()
        bad("a tuple is always true", "compare its parts", place)

    def junction(self, node: Operation, state: State) -> Truth:
        """The range of ``and`` and ``or``: the second part is evaluated where the first doesn't decide."""
        wanted = node.operator == "and"
        first, second = node.arguments
        left = self._operand(first, state)
        under = self.assume(first, wanted, state)
        right = Truth(False, False) if under is None else self._operand(second, under)
        if wanted:
            return Truth(left.no or right.no, left.yes and right.yes)
        return Truth(left.no and right.no, left.yes or right.yes)

    def _operand(self, node: Expr, state: State) -> Truth:
        found = self.node(node, state)
        if not isinstance(found, Truth):
            bad("and and or give one of their values, and in the language a truth", "compare: x != 0 and y != 0", node.place)
        return found

    def conditional(self, node: Operation, state: State) -> Range:
        """The range of a conditional expression."""
        test, a, b = node.arguments
        self.truth(test, state)
        sides = [(side, self.assume(test, wanted, state)) for side, wanted in ((a, True), (b, False))]
        found = [self.node(side, under) for side, under in sides if under is not None]
        if {type(side) for side in found} == {Truth, Whole}:
            bad("one value is a truth and the other a number", "write int(..) for the truth", node.place)
        return self.cover(found, node.place)

    def equality(self, word: str, a: Range, b: Range, place: Place) -> Truth:
        """The range of ``==`` and ``!=``."""
        if isinstance(a, (Truth, Whole)) and isinstance(b, (Truth, Whole)):
            return COMPARED[word](number(a, place), number(b, place))
        self.joined(a, b, place)
        return Truth()

    def of_sets(self, word: str, found: Sequence[Range], place: Place) -> Range:
        """The range of an operator of sets."""
        match (word, *found):
            case ("size", Sets(of=of)):
                return Whole(0, count(of) if of is not None else 0)
            case ("set", Sets()):
                return found[0]
            case ("in", _, Sets(of=of)):
                if of is not None:
                    self.joined(found[0], of, place)
                return Truth()
            case (("<=" | "<" | ">=" | ">"), Sets(), Sets()):
                self.joined(found[0], found[1], place)
                return Truth()
            case (("|" | "^"), Sets(), Sets()):
                return self.joined(found[0], found[1], place)
            case (("&" | "-"), Sets(), Sets()):
                self.joined(found[0], found[1], place)
                return found[0]
        bad("this operator has no meaning for these values", "sets have |, &, -, ^, <=, in and len(..)", place)

    # What tests say

    def assume(self, test: Node, wanted: bool, state: State) -> State | None:
        """The state where a test is true, or false; none where it never is."""
        found = self.node(test, state)
        if isinstance(found, Truth) and not (found.yes if wanted else found.no):
            return None
        match test:
            case Variable(name=name) if isinstance(found, Truth):
                return state | {name: Truth(not wanted, wanted)}
            case Operation(operator="not", arguments=(inner,)):
                return self.assume(inner, not wanted, state)
            case Operation(operator="truth", arguments=(inner,)):
                if isinstance(self.node(inner, state), Truth):
                    return self.assume(inner, wanted, state)
                return self.narrowed(inner, "!=" if wanted else "==", Whole(0, 0), state)
            case Operation(operator=("and" | "or") as word, arguments=(first, second)):
                if wanted == (word == "and"):
                    under = self.assume(first, wanted, state)
                    return None if under is None else self.assume(second, wanted, under)
                under = self.assume(first, not wanted, state)
                return self.either(self.assume(first, wanted, state), None if under is None else self.assume(second, wanted, under))
            case Operation(operator=word, arguments=(a, b)) if word in OPPOSITE:
                word = word if wanted else OPPOSITE[word]
                left, right = self.node(a, state), self.node(b, state)
                if isinstance(left, Whole) and isinstance(right, Whole):
                    under = self.narrowed(a, word, right, state)
                    return None if under is None else self.narrowed(b, TURNED[word], left, under)
        return state

    def narrowed(self, node: Expr, word: str, other: Whole, state: State) -> State | None:
        """The state where a variable compares so with another number."""
        found = state.get(node.name) if isinstance(node, Variable) else None
        if not isinstance(node, Variable) or not isinstance(found, Whole):
            return state
        low, high = found.low, found.high
        if word == "!=" and other.low == other.high:
            low, high = low + (low == other.low), high - (high == other.low)
        elif word == "==":
            low, high = max(low, other.low), min(high, other.high)
        elif word in ("<", "<="):
            high = min(high, other.high - (word == "<"))
        elif word in (">", ">="):
            low = max(low, other.low + (word == ">"))
        return state | {node.name: Whole(low, high)} if low <= high else None


def _within(a: State, b: State) -> bool:
    """Whether each variable of the second state stays in its range in the first, and has a value there."""
    return b.keys() <= a.keys() and all(_covers(b[name], a[name]) for name in b)


def _covers(b: Range, a: Range) -> bool:
    """Whether a range has all of another one."""
    if isinstance(a, Whole) and isinstance(b, Whole):
        return b.low <= a.low and a.high <= b.high
    return join(a, b) == b
