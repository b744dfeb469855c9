"""All runs of a program, one after the other, in fractions: a second way to what a program shows, and to how its values end."""

from __future__ import annotations

from collections.abc import Callable, Iterable, Mapping
from fractions import Fraction

from kuifje import source as s

Store = tuple[object, ...]
Run = tuple[Store, Store, tuple[str, ...], tuple[object, ...]]
"""The values at the beginning and at the end, what was seen, and what the chosen observations showed, in their order."""

OPERATORS: dict[str, Callable[..., object]] = {
    "=": lambda a, b: a == b,
    "!=": lambda a, b: a != b,
    "<": lambda a, b: a < b,
    ">": lambda a, b: a > b,
    ">=": lambda a, b: a >= b,
    "+": lambda a, b: a + b,
    "-": lambda a, b=None: -a if b is None else a - b,
    "*": lambda a, b: a * b,
    "mod": lambda a, b: a % abs(b),
    "div": lambda a, b: (a - a % abs(b)) // b,
    "in": lambda a, b: a in b,
    "less": lambda a, b: a - b,
    "min": min,
    "max": max,
    "abs": abs,
    "not": lambda a: not a,
    "tuple": lambda *parts: parts,
    "set": lambda *parts: frozenset(parts),
}


def value(part: s.Expression, store: Mapping[str, object]) -> object:
    match part:
        case s.Literal(found):
            return found
        case s.Name(name):
            return store[name]
        case s.Part(whole, number):
            return value(whole, store)[number]  # type: ignore[index]
        case s.Call("cond", (asked, yes, no)):
            return value(yes if value(asked, store) else no, store)
        case s.Call("and", (a, b)):
            return value(a, store) and value(b, store)
        case s.Call("or", (a, b)):
            return value(a, store) or value(b, store)
        case s.Call(operator, arguments):
            return OPERATORS[operator](*(value(argument, store) for argument in arguments))
    raise AssertionError(part)


def cases(drawn: s.Distribution, store: Mapping[str, object]) -> list[tuple[object, Fraction]]:
    """The values that may be drawn, with their probabilities."""
    match drawn:
        case s.Sure(part):
            found = [(value(part, store), 1)]
        case s.Flip(over, under):
            found = [(True, over), (False, under - over)]
        case s.Uniform(low, None):
            found = [(one, 1) for one in value(low, store)]  # type: ignore[attr-defined]
        case s.Uniform(low, high):
            found = [(one, 1) for one in range(value(low, store), value(high, store) + 1)]  # type: ignore[call-overload, arg-type]
        case s.Choose(all_cases):
            found = [(value(case.value, store), w) for case in all_cases if (w := value(case.weight, store))]  # type: ignore[misc]
    total = sum(weight for _, weight in found)
    return [(one, Fraction(weight, total)) for one, weight in found if weight]


def summed(runs: Iterable[tuple[Run, Fraction]]) -> dict[Run, Fraction]:
    found: dict[Run, Fraction] = {}
    for run, p in runs:
        found[run] = found.get(run, Fraction(0)) + p
    return found


class Runs:
    """The runs of a text, with their probabilities; ``kept`` chooses observations by their texts."""

    def __init__(self, text: str, kept: Callable[[str], bool]) -> None:
        self.source, self.kept = s.read(text), kept
        self.names = self.source.names
        self.visible = {one.name for one in self.source.declarations if one.visible}
        stores: list[tuple[dict[str, object], Fraction]] = [({}, Fraction(1))]
        for one in self.source.declarations:
            stores = [({**store, one.name: v}, p * q) for store, p in stores for v, q in cases(one.value, store)]
        first = [(tuple(store.values()), p) for store, p in stores]
        self.runs = self.block(self.source.statements, summed(((store, store, (), ()), p) for store, p in first))

    def block(self, statements: Iterable[s.Statement], runs: dict[Run, Fraction]) -> dict[Run, Fraction]:
        for statement in statements:
            runs = self.step(statement, runs)
        return runs

    def drawn(self, part: s.Distribution, runs: dict[Run, Fraction]) -> Iterable[tuple[Run, object, Fraction]]:
        return ((run, v, p * q) for run, p in runs.items() for v, q in cases(part, dict(zip(self.names, run[1]))))

    def step(self, statement: s.Statement, runs: dict[Run, Fraction]) -> dict[Run, Fraction]:
        match statement:
            case s.Assign(name, part):
                i, seen = self.names.index(name), name in self.visible
                after = (((f, (*l[:i], v, *l[i + 1 :]), (*t, repr(v)) if seen else t, k), p) for (f, l, t, k), v, p in self.drawn(part, runs))
                return summed(after)
            case s.Observe(part):
                kept = self.kept(self.source.text[statement.at : statement.end])
                return summed(((f, l, (*t, repr(v)), (*k, v) if kept else k), p) for (f, l, t, k), v, p in self.drawn(part, runs))
            case s.If(asked, then, otherwise):
                yes, no = self.guard(asked, runs)
                return summed([*self.block(then, yes).items(), *self.block(otherwise, no).items()])
            case s.While(asked, body):
                done: list[tuple[Run, Fraction]] = []
                while runs:
                    runs, no = self.guard(asked, runs)
                    done += no.items()
                    runs = self.block(body, runs)
                return summed(done)
        return runs

    def guard(self, asked: s.Distribution, runs: dict[Run, Fraction]) -> tuple[dict[Run, Fraction], dict[Run, Fraction]]:
        found = [(((f, l, (*t, repr(v)), k), p), v) for (f, l, t, k), v, p in self.drawn(asked, runs)]
        return summed(one for one, v in found if v), summed(one for one, v in found if not v)


Hyper = dict[frozenset[tuple[object, Fraction]], Fraction]


def hyper(pairs: Iterable[tuple[object, object, Fraction]]) -> Hyper:
    """The outers by their inners, of triples of what is seen, a secret and their probability."""
    columns: dict[object, dict[object, Fraction]] = {}
    for seen, secret, p in pairs:
        column = columns.setdefault(seen, {})
        column[secret] = column.get(secret, Fraction(0)) + p
    found: Hyper = {}
    for column in columns.values():
        outer = sum(column.values())
        inner = frozenset((x, p / outer) for x, p in column.items())
        found[inner] = found.get(inner, Fraction(0)) + outer
    return found


def vulnerability(found: Hyper, gains: list[dict[object, int]]) -> Fraction:
    """What is gained under gains of actions, each with a number for each secret."""
    return sum((outer * max(sum((p * gain[x] for x, p in inner), Fraction(0)) for gain in gains) for inner, outer in found.items()), Fraction(0))
