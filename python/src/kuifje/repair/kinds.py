"""Types that hold every value of an expression, from the types of the variables in it."""

from __future__ import annotations

from collections.abc import Mapping
from itertools import product

from ..source import Call, Choose, Distribution, Expression, Flip, Literal, Name, Part, Range, SetOf, Sure, Truth, Tuple, Type, Uniform

__all__ = ["VALUES", "NoType", "first_value", "joined", "size_of", "type_of", "type_text"]

TRUTHS = {"=", "!=", "<", "<=", ">", ">=", "in", "subset", "or", "xor", "implies", "and", "not"}
VALUES = 65_536  # of a type, at most


class NoType(ValueError):
    """No type of the language holds all values of an expression, or none is found."""


def type_text(kind: Type) -> str:
    """A type as it is written."""
    match kind:
        case Truth():
            return "bool"
        case Range(low, high):
            return f"{low}..{high}"
        case Tuple(parts):
            return f"({', '.join(map(type_text, parts))})"
        case SetOf(base):
            return f"set of {type_text(base)}"


def first_value(kind: Type) -> str:
    """The text of a value of a type."""
    match kind:
        case Truth():
            return "false"
        case Range(low, _):
            return str(low)
        case Tuple(parts):
            return f"({', '.join(map(first_value, parts))})"
        case SetOf(base):
            one = first_value(base)
            return f"{{{one}}} less {{{one}}}"


def joined(a: Type, b: Type) -> Type:
    """The least type with all values of both."""
    match a, b:
        case (Truth(), Truth()):
            return a
        case (Range(low, high), Range(other_low, other_high)):
            return Range(min(low, other_low), max(high, other_high))
        case (Tuple(parts), Tuple(others)) if len(parts) == len(others):
            return Tuple(tuple(map(joined, parts, others)))
        case (SetOf(base), SetOf(other)):
            return SetOf(joined(base, other))
    raise NoType("its values are of several kinds")


def size_of(kind: Type) -> int:
    """How many values a type has; of a set's, 2^64 where it has more."""
    match kind:
        case Truth():
            return 2
        case Range(low, high):
            return high - low + 1
        case Tuple(parts):
            count = 1
            for part in parts:
                count *= size_of(part)
            return count
        case SetOf(base):
            return 1 << min(size_of(base), 64)


def _bounds(kind: Type) -> tuple[int, int]:
    if not isinstance(kind, Range):
        raise NoType("a number is expected")
    return kind.low, kind.high


def _arithmetic(operator: str, parts: list[Type]) -> Range:
    (a, b), *more = map(_bounds, parts)
    if operator == "-" and not more:
        return Range(-b, -a)
    if operator == "abs":
        return Range(0 if a <= 0 <= b else min(abs(a), abs(b)), max(abs(a), abs(b)))
    ((c, d),) = more
    match operator:
        case "+":
            return Range(a + c, b + d)
        case "-":
            return Range(a - d, b - c)
        case "*":
            found = [x * y for x, y in product((a, b), (c, d))]
        case "min" | "max":
            choose = min if operator == "min" else max
            return Range(choose(a, c), choose(b, d))
        case "div":
            found = [x // y if y > 0 else -(x // -y) for x in (a, b) for y in {c, d, *(y for y in (-1, 1) if c <= y <= d)} - {0}]
        case "mod":
            greatest = max(abs(c), abs(d)) - 1
            return Range(0, min(b, greatest) if a >= 0 else greatest)
        case _:
            raise NoType(f"{operator} isn't known")
    if not found:
        raise NoType("it divides by 0")
    return Range(min(found), max(found))


def _of(part: Expression, types: Mapping[str, Type]) -> Type:
    match part:
        case Literal(value):
            return Truth() if isinstance(value, bool) else Range(value, value)
        case Name(name):
            return types[name]
        case Part(whole, number):
            found = _of(whole, types)
            if isinstance(found, Tuple) and number < len(found.parts):
                return found.parts[number]
        case Call(operator, _) if operator in TRUTHS:
            return Truth()
        case Call("tuple", arguments):
            return Tuple(tuple(_of(argument, types) for argument in arguments))
        case Call("set", arguments):
            base = _of(arguments[0], types)
            for argument in arguments[1:]:
                base = joined(base, _of(argument, types))
            return SetOf(base)
        case Call("cond", (_, yes, no)):
            return joined(_of(yes, types), _of(no, types))
        case Call("union", (a, b)):
            return joined(_of(a, types), _of(b, types))
        case Call("inter" | "less", (a, _)):
            return _of(a, types)
        case Call("size", (a,)):
            found = _of(a, types)
            if isinstance(found, SetOf):
                return Range(0, size_of(found.base))
        case Call(operator, arguments):
            return _arithmetic(operator, [_of(argument, types) for argument in arguments])
    raise NoType("its type isn't found")


def type_of(value: Distribution, types: Mapping[str, Type]) -> Type:
    """A type with every value that a distribution may choose, of at most 65,536 values. Raises ``NoType`` where none is found."""
    match value:
        case Sure(part):
            found = _of(part, types)
        case Flip():
            found = Truth()
        case Uniform(low, None):
            base = _of(low, types)
            if not isinstance(base, SetOf):
                raise NoType("a set is expected")
            found = base.base
        case Uniform(low, high):
            assert high is not None
            found = Range(_bounds(_of(low, types))[0], _bounds(_of(high, types))[1])
        case Choose(cases):
            found = _of(cases[0].value, types)
            for case in cases[1:]:
                found = joined(found, _of(case.value, types))
    if isinstance(found, Range) and size_of(found) > VALUES:
        found = Range(-VALUES // 2, VALUES // 2 - 1)
    if size_of(found) > VALUES:
        raise NoType(f"a type with its values has {size_of(found):,} of them, and may have {VALUES:,}")
    return found
