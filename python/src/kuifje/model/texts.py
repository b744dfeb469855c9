"""Trees as texts of the language's expressions, with how tightly they bind and how many nodes they have."""

from __future__ import annotations

from collections.abc import Callable, Sequence
from dataclasses import dataclass
from itertools import groupby

from ..channels import GREATEST, NODES
from ..expressions import lookup
from ..values import Value, ascending, format_value
from .declare import Distribution
from .errors import Place
from .evaluate import bad
from .ranges import Range, Ranges, Sets, Truth, Tuples, Whole, bits, least
from .tree import Expr, Literal, Lookup, Operation, Part, SetOf, TupleOf, Variable, children

__all__ = ["Expressions", "Text", "distribution_text", "type_text"]

WIDEST = 2**63  # numbers are below it
ATOM = 6  # nodes of what may be written several times
TABLE = 400  # nodes of a table that is written as one expression
INFIX = {"+": ("+", 5), "-": ("-", 5), "*": ("*", 6), "//": ("div", 6), "%": ("mod", 6), "and": ("and", 2), "or": ("or", 1)}
COMPARED = {"==": "=", "!=": "!=", "<": "<", "<=": "<=", ">": ">", ">=": ">="}
OF_SETS = {"|": ("union", 5), "-": ("less", 5), "&": ("inter", 6), "<=": ("subset", 4)}
OF_TRUTHS = {"&": ("and", 2), "|": ("or", 1), "^": ("xor", 1)}


@dataclass(frozen=True)
class Text:
    """The text of an expression, how tightly it binds (docs/LANGUAGE.md, "Operators"), and its nodes."""

    text: str
    level: int
    nodes: int

    def __format__(self, level: str) -> str:
        """The text where one is wanted that binds at least so tightly."""
        return f"({self.text})" if level and self.level < int(level) else self.text


def infix(a: Text, word: str, b: Text, level: int) -> Text:
    """An operator between two expressions; of one level the left ones bind first, and comparisons don't go on."""
    left = level + 1 if level == 4 else level
    return Text(f"{a:{left}} {word} {b:{level + 1}}", level, a.nodes + b.nodes + 1)


def whole(value: int) -> Text:
    """A number."""
    if value < 0:
        return Text(f"-{whole(-value):8}", 7, whole(-value).nodes + 1)
    if value <= GREATEST:
        return Text(str(value), 8, 1)
    high, low = divmod(value, GREATEST)
    return infix(infix(whole(high), "*", whole(GREATEST), 6), "+", whole(low), 5)


def cond(test: Text, a: Text, b: Text) -> Text:
    """One value or the other."""
    return Text(f"cond({test}, {a}, {b})", 8, test.nodes + a.nodes + b.nodes + 1)


def listed(parts: Sequence[Text], brackets: str) -> Text:
    """A tuple or a set of parts."""
    return Text(f"{brackets[0]}{', '.join(part.text for part in parts)}{brackets[1]}", 8, sum(part.nodes for part in parts) + 1)


def literal(value: Value, found: Range) -> Text:
    """The text of a constant, of a range that has it: the empty set needs an element to be taken away."""
    match (value, found):
        case (bool(), _):
            return Text(format_value(value), 8, 1)
        case (int() as n, _):
            return whole(n)
        case (tuple() as parts, Tuples(parts=ranges)):
            return listed([literal(part, part_range) for part, part_range in zip(parts, ranges)], "()")
        case (frozenset() as members, Sets(of=of)) if members:
            assert of is not None
            return listed([literal(member, of) for member in ascending(members)], "{}")
        case (_, Sets(of=of)):
            one = listed([literal(least(of), of) if of is not None else whole(0)], "{}")
            return infix(one, "less", one, 5)
    raise AssertionError(value)


def type_text(found: Range) -> str:
    """The type of a range."""
    match found:
        case Truth():
            return "bool"
        case Whole(low=low, high=high):
            return f"{low}..{high}"
        case Tuples(parts=parts):
            return f"({', '.join(map(type_text, parts))})"
        case Sets(of=of):
            return f"set of {type_text(of) if of is not None else 'bool'}"


def distribution_text(distribution: Distribution, found: Range) -> str:
    """The draw of constants, as shortly as the language has it."""
    weights = distribution.weights
    values, equal = list(weights), len(set(weights.values())) == 1
    if len(values) == 1:
        return literal(values[0], found).text
    if isinstance(values[0], bool):
        return f"flip {weights[True]}/{sum(weights.values())}"
    texts = [literal(value, found) for value in values]
    if equal and isinstance(found, Whole) and values == list(range(found.low, found.low + len(values))):
        return f"uniform {texts[0]}..{texts[-1]}"
    if equal and sum(text.nodes for text in texts) < NODES:
        return f"uniform {listed(texts, '{}')}"
    return f"choose {{ {', '.join(f'{text} : {weight}' for text, weight in zip(texts, weights.values()))} }}"


class Expressions:
    """Writes expressions. ``keep`` writes an expression into a variable before the statement, and gives its name."""

    def __init__(self, ranges: Ranges, keep: Callable[[str, Range, Place], Text]) -> None:
        self.ranges, self.keep, self.strict = ranges, keep, True

    def range(self, node: Expr) -> Range:
        """The range of an expression that a run may get to."""
        found = self.ranges.at(node)
        assert found is not None
        return found

    def reached(self, node: Expr) -> bool:
        """Whether a run may get to an expression."""
        return self.ranges.at(node) is not None

    def write(self, node: Expr) -> Text:
        """The text of an expression."""
        match node:
            case Literal(value=value):
                return self.constant(value, self.range(node), node.place)
            case Variable(name=name):
                return Text(name, 8, 1)
            case TupleOf(parts=parts):
                return listed([self.write(part) for part in parts], "()")
            case SetOf(members=members):
                return listed([self.write(member) for member in members], "{}") if members else literal(frozenset(), self.range(node))
            case Part(whole=base, number=n):
                base_text = self.write(base)
                return Text(f"{base_text:8}.{n}", 8, base_text.nodes + 1)
            case Lookup():
                return self.lookup(node)
            case Operation():
                return self.operation(node)
        raise AssertionError(node)

    def constant(self, value: Value, found: Range, place: Place) -> Text:
        """The text of a constant."""
        if isinstance(value, int) and not -WIDEST <= value < WIDEST:
            shown = value if value.bit_length() < 1000 else "this"
            bad(f"{shown} is no number of 64 bits", "numbers go from -2^63 to 2^63 - 1", place)
        return literal(value, found)

    def number(self, node: Expr) -> Text:
        """An expression as a number: a truth is 1 or 0."""
        text = self.write(node)
        return cond(text, whole(1), whole(0)) if isinstance(self.range(node), Truth) else text

    def lazy(self, node: Expr) -> Text:
        """A part of an expression that isn't always evaluated."""
        before, self.strict = self.strict, False
        try:
            return self.write(node)
        finally:
            self.strict = before

    def operation(self, node: Operation) -> Text:
        """The text of an operator."""
        word, arguments = node.operator, node.arguments
        if word in ("and", "or"):
            return self.junction(node)
        if word == "cond":
            return self.conditional(node)
        if word in ("truth", "not", "number", "set", "changed"):
            return self.of_one(node)
        if any(isinstance(self.range(a), Sets) for a in arguments):
            return self.of_sets(node)
        if word in ("==", "!=") and isinstance(self.range(arguments[0]), type(self.range(arguments[1]))):
            return infix(self.write(arguments[0]), COMPARED[word], self.write(arguments[1]), 4)
        if word in OF_TRUTHS and all(isinstance(self.range(a), Truth) for a in arguments):
            other, level = OF_TRUTHS[word]
            return infix(self.write(arguments[0]), other, self.write(arguments[1]), level)
        if word in ("&", "|", "^"):
            return self.bitwise(word, *arguments)
        if word in ("<<", ">>"):
            return self.shifted(word, *arguments)
        texts = [self.number(a) for a in arguments]
        if word in COMPARED:
            return infix(texts[0], COMPARED[word], texts[1], 4)
        if word in INFIX:
            return infix(texts[0], INFIX[word][0], texts[1], INFIX[word][1])
        if word == "neg":
            return Text(f"-{texts[0]:8}", 7, texts[0].nodes + 1)
        if word == "~":
            return infix(Text(f"-{texts[0]:8}", 7, texts[0].nodes + 1), "-", whole(1), 5)
        return Text(f"{word}({', '.join(text.text for text in texts)})", 8, sum(text.nodes for text in texts) + 1)

    def junction(self, node: Operation) -> Text:
        """``and`` and ``or``, without a part that is never evaluated."""
        first, second = node.arguments
        if not self.reached(second):
            return self.write(first)
        word, level = INFIX[node.operator]
        return infix(self.write(first), word, self.lazy(second), level)

    def conditional(self, node: Operation) -> Text:
        """A conditional expression, without a part that is never evaluated."""
        test, a, b = node.arguments
        if not (self.reached(a) and self.reached(b)):
            return self.write(a if self.reached(a) else b)
        return cond(self.write(test), self.of_range(a, self.range(node), self.lazy), self.of_range(b, self.range(node), self.lazy))

    def of_range(self, node: Expr, found: Range, write: Callable[[Expr], Text] | None = None) -> Text:
        """An expression where a range is wanted: an empty set has its elements' kind from there."""
        if isinstance(self.range(node), Sets) and isinstance(node, (SetOf, Literal)) and self.range(node) == Sets(None):
            return literal(frozenset(), found)
        return (write or self.write)(node)

    def of_one(self, node: Operation) -> Text:
        """The truth of a value, its negation, or a truth as a number."""
        (inner,) = node.arguments
        found = self.range(inner)
        if node.operator == "not":
            text = self.write(inner)
            return Text(f"not {text:4}", 3, text.nodes + 1)
        if node.operator == "number":
            return self.number(inner)
        if node.operator == "truth" and isinstance(found, Sets):
            text = self.write(inner)
            return infix(Text(f"size({text})", 8, text.nodes + 1), ">", whole(0), 4)
        text = self.write(inner)
        return infix(text, "!=", whole(0), 4) if node.operator == "truth" and isinstance(found, Whole) else text

    def of_sets(self, node: Operation) -> Text:
        """An operator of sets."""
        word = node.operator
        if word == "size":
            text = self.write(node.arguments[0])
            return Text(f"size({text})", 8, text.nodes + 1)
        if word == "in":
            return infix(self.write(node.arguments[0]), "in", self.write(node.arguments[1]), 4)
        known = [found for a in node.arguments if (found := self.range(a)) != Sets(None)]
        a, b = (self.of_range(a, known[0] if known else Sets(None)) for a in node.arguments)
        if word in (">", ">="):
            a, b, word = b, a, {">": "<", ">=": "<="}[word]
        if word in ("==", "!="):
            return infix(a, COMPARED[word], b, 4)
        if word == "<":
            return infix(infix(a, "subset", b, 4), "and", infix(a, "!=", b, 4), 2)
        if word == "^":
            return infix(infix(a, "less", b, 5), "union", infix(b, "less", a, 5), 5)
        return infix(a, OF_SETS[word][0], b, OF_SETS[word][1])

    # Tables

    def atom(self, node: Expr, hint: str) -> Text:
        """An expression that is written several times: a name or a little more, else a variable that holds it."""
        text = self.number(node)
        if text.nodes <= 1:
            return text
        found = self.range(node)
        assert isinstance(found, (Whole, Truth))
        bounds = found if isinstance(found, Whole) else Whole(0, 1)
        if not self.strict:
            self.harmless(node)
            text = Text(f"max({bounds.low}, min({bounds.high}, {text}))", 8, text.nodes + 4)
        return self.keep(f"{hint} := {text};", bounds, node.place)

    def harmless(self, node: Expr) -> None:
        """Refuses an expression that is worked out too early, and may have no value then."""
        divisor = node.arguments[1] if isinstance(node, Operation) and node.operator in ("//", "%") else None
        if divisor is not None and not (isinstance(divisor, Literal) and divisor.value):
            bad("this may divide by 0 where it isn't evaluated", "keep it in a variable of its own: x = a // b", node.place)
        for child in children(node):
            self.harmless(child)

    def lookup(self, node: Lookup, alone: bool = False) -> Text:
        """The entry at an index: a tree of comparisons, or for a long table a choice, of its own before the statement unless it stands alone."""
        where, found = self.range(node.index), self.range(node)
        bounds = Whole(0, 1) if isinstance(where, Truth) else where
        assert isinstance(bounds, Whole)
        first, last = bounds.low, bounds.high
        entries: list[Text] = []
        for entry in node.entries[first : last + 1]:
            if not self.reached(entry):
                entries.append(entries[-1])
                continue
            text = self.of_range(entry, found, self.lazy)
            entries.append(self.as_number(text, entry) if isinstance(found, Whole) else text)
        if len(entries) == 1:
            return entries[0]
        index = self.atom(node.index, "index")
        groups = [len(list(group)) for _, group in groupby(entry.text for entry in entries)]
        nodes = 4 * (len(groups) - 1) + sum(entry.nodes for entry in entries)
        if nodes <= TABLE:
            return Text(lookup(f"{index}", [*[entries[0].text] * first, *(entry.text for entry in entries)]), 8, nodes)
        cases = [f"{entry} : {self.weight(index, i, first, last)}" for i, entry in enumerate(entries, first)]
        choice = f"choose {{ {', '.join(cases)} }}"
        return Text(choice, 8, 1) if alone else self.keep(f"table := {choice};", found, node.place)

    def as_number(self, text: Text, node: Expr) -> Text:
        """The text of an entry among numbers."""
        return cond(text, whole(1), whole(0)) if isinstance(self.range(node), Truth) else text

    def weight(self, index: Text, i: int, first: int, last: int) -> str:
        """The weight of an entry: 1 at its index, of the first and the last also beyond, where nobody looks."""
        return f"cond({index} {'<=' if i == first else '>=' if i == last else '='} {whole(i)}, 1, 0)"

    # Bits

    def bitwise(self, word: str, a: Expr, b: Expr) -> Text:
        """``&``, ``|`` and ``^`` of numbers: of a constant by its runs of bits, of others bit by bit."""
        ranges = [self.bounds(side) for side in (a, b)]
        if ranges[0].low == ranges[0].high:
            return self.masked(word, b, ranges[0].low)
        if ranges[1].low == ranges[1].high:
            return self.masked(word, a, ranges[1].low)
        signed, length = any(found.low < 0 for found in ranges), bits(*ranges)
        x, y = (self.atom(side, "bits") for side in (a, b))
        terms = [self.bit(word, x, y, i) for i in range(length)]
        if signed:
            sign = self.bit(word, x, y, length)
            terms.append(Text(f"-{sign:8}", 7, sign.nodes + 1))
        return self.total(terms)

    def bounds(self, node: Expr) -> Whole:
        """The range of an expression as numbers."""
        found = self.range(node)
        if isinstance(found, Truth):
            return Whole(0 if found.no else 1, 1 if found.yes else 0)
        assert isinstance(found, Whole)
        return found

    def bit(self, word: str, x: Text, y: Text, i: int) -> Text:
        """What one bit of two numbers adds."""
        p, q = (Text(*_div(side, i)) for side in (x, y))
        if word == "^":
            one = infix(infix(p, "+", q, 5), "mod", whole(2), 6)
        else:
            ends = [infix(side, "mod", whole(2), 6) for side in (p, q)]
            one = infix(ends[0], "*", ends[1], 6) if word == "&" else Text(f"max({ends[0]}, {ends[1]})", 8, ends[0].nodes + ends[1].nodes + 1)
        return infix(one, "*", whole(1 << i), 6) if i else one

    def total(self, terms: Sequence[Text]) -> Text:
        """The sum of terms."""
        found = terms[-1] if terms else whole(0)
        for term in reversed(terms[:-1]):
            found = infix(found, "+", term, 5)
        return found

    def masked(self, word: str, node: Expr, mask: int) -> Text:
        """An operator of bits with a constant: x | m is x + m - (x & m), and x ^ m is x + m - 2 (x & m), for whole numbers of any sign."""
        found = self.bounds(node)
        if word == "&":
            return self.and_mask(self.number(node), found, mask)
        full = found.low >= 0 and mask >= 0 and (1 << bits(found)) - 1 & ~mask == 0
        if full:
            return whole(mask) if word == "|" else infix(whole(mask), "-", self.number(node), 5)
        x = self.atom(node, "bits") if self.number(node).nodes > ATOM else self.number(node)
        both = self.and_mask(x, found, mask)
        if both.text == "0":
            return infix(x, "+", whole(mask), 5) if mask else x
        twice = both if word == "|" else infix(both, "*", whole(2), 6)
        return infix(infix(x, "+", whole(mask), 5), "-", twice, 5)

    def and_mask(self, x: Text, found: Whole, mask: int) -> Text:
        """A number and a constant: each run of ones is a quotient's remainder; of a mask below 0 what it leaves out is taken away."""
        if mask < 0:
            rest = self.and_mask(x, found, ~mask)
            return x if rest.text == "0" else infix(x, "-", rest, 5)
        terms, i = [], 0
        while mask >> i:
            length = 0
            while mask >> (i + length) & 1:
                length += 1
            if length and (found.low < 0 or found.high >> i):
                terms.append(self.run(x, found, i, length))
            i += max(length, 1)
        return self.total(terms)

    def run(self, x: Text, found: Whole, i: int, length: int) -> Text:
        """What a run of bits of a number adds."""
        part = Text(*_div(x, i))
        if found.low < 0 or found.high >> (i + length):
            part = infix(part, "mod", whole(1 << length), 6)
        return infix(part, "*", whole(1 << i), 6) if i else part

    def shifted(self, word: str, node: Expr, by: Expr) -> Text:
        """A shift: a product or a quotient."""
        found, operator = self.bounds(by), "*" if word == "<<" else "div"
        if found.low == found.high:
            return infix(self.number(node), operator, whole(1 << found.low), 6) if found.low else self.number(node)
        powers = [whole(1 << i).text for i in range(found.low, found.high + 1)]
        nodes = 5 * len(powers) - 4 + 2 * sum(i > 29 for i in range(found.low, found.high + 1))
        index = self.atom(by, "index")
        power = Text(lookup(f"{index}", [*[powers[0]] * found.low, *powers]), 8, nodes)
        return infix(self.number(node), operator, power, 6)


def _div(x: Text, i: int) -> tuple[str, int, int]:
    found = infix(x, "div", whole(1 << i), 6) if i else x
    return found.text, found.level, found.nodes
