"""Values of the language, and their printed texts.

A value is a truth (``bool``), a whole number (``int``), a tuple of values, or a set of values (``frozenset``). A value of a target with several
items is the tuple of theirs. Each value has one text, and a text is read back as the value that it was printed from.
"""

from __future__ import annotations

import re
from collections.abc import Iterable
from functools import cmp_to_key
from typing import Any, TypeAlias, Union

Value: TypeAlias = Union[bool, int, tuple["Value", ...], frozenset[Any]]

__all__ = ["Value", "ascending", "compare", "format_value", "parse_value", "split_values"]

_NUMBER = re.compile(r"-?[1-9][0-9]*|0")


def _kind(value: Value) -> int:
    """Booleans come before numbers, these before tuples, and tuples before sets."""
    for number, kind in enumerate((bool, int, tuple, frozenset)):
        if isinstance(value, kind):
            return number
    raise TypeError(f"{value!r} is no value of the language")


def compare(a: Value, b: Value) -> int:
    """The order of values in the language: below 0, 0 or above 0, as ``a`` comes before ``b``, is ``b``, or comes after it.

    Within a type, false comes before true, numbers ascend, of tuples the first part that differs decides, and of two sets the one is greater that
    has the greatest value that stands in exactly one of them.
    """
    if _kind(a) != _kind(b):
        return _kind(a) - _kind(b)
    if isinstance(a, tuple) and isinstance(b, tuple):
        for x, y in zip(a, b):
            if (decided := compare(x, y)) != 0:
                return decided
        return len(a) - len(b)
    if isinstance(a, frozenset) and isinstance(b, frozenset):
        apart = ascending(a ^ b)
        if not apart:
            return 0
        return 1 if apart[-1] in a else -1
    assert isinstance(a, int) and isinstance(b, int)
    return int(a) - int(b)


def ascending(values: Iterable[Value]) -> list[Value]:
    """The values in the language's order."""
    found = list(values)
    if all(type(value) is int for value in found):
        return sorted(found)
    return sorted(found, key=cmp_to_key(compare))


def format_value(value: Value) -> str:
    """The text of a value, as the program prints it: ``true``, ``-3``, ``(1, true)``, ``{0, 2}`` or ``{}``."""
    if isinstance(value, bool):
        return "true" if value else "false"
    if isinstance(value, int):
        return str(value)
    if isinstance(value, tuple):
        return f"({', '.join(map(format_value, value))})"
    if isinstance(value, frozenset):
        return f"{{{', '.join(map(format_value, ascending(value)))}}}"
    raise TypeError(f"{value!r} is no value of the language")


def parse_value(text: str) -> Value:
    """The value that has this text.

    Raises ``ValueError`` where the text isn't that of a value.
    """
    try:
        value, end = _value_at(text, 0)
    except RecursionError:
        raise ValueError("the text has too many brackets in each other") from None
    if end != len(text):
        raise ValueError(f"{text!r} goes on after a value")
    return value


def split_values(text: str) -> tuple[Value, ...]:
    """The values of a list in brackets, as of a trace: ``[0, true]``."""
    if not text.startswith("["):
        raise ValueError(f"{text!r} is no list of values")
    values, end = _list_at(text, 0, "]")
    if end != len(text):
        raise ValueError(f"{text!r} goes on after a list of values")
    return tuple(values)


def _value_at(text: str, at: int) -> tuple[Value, int]:
    """The value whose text begins at a place, and the place after it."""
    if number := _NUMBER.match(text, at):
        return int(number[0]), number.end()
    for word, truth in (("true", True), ("false", False)):
        if text.startswith(word, at):
            return truth, at + len(word)
    if text[at : at + 1] == "(":
        parts, end = _list_at(text, at, ")")
        if len(parts) < 2:
            raise ValueError(f"{text!r} has a tuple of fewer than two parts")
        return tuple(parts), end
    if text[at : at + 1] == "{":
        elements, end = _list_at(text, at, "}")
        if any(compare(x, y) >= 0 for x, y in zip(elements, elements[1:])):
            raise ValueError(f"{text!r} has a set whose elements don't ascend")
        return frozenset(elements), end
    raise ValueError(f"{text!r} has no value at {at}")


def _list_at(text: str, at: int, closing: str) -> tuple[list[Value], int]:
    """The values between the bracket at a place and the closing one, and the place after that."""
    values: list[Value] = []
    at += 1
    if text[at : at + 1] == closing:
        return values, at + 1
    while True:
        value, at = _value_at(text, at)
        values.append(value)
        if text.startswith(", ", at):
            at += 2
        elif text[at : at + 1] == closing:
            return values, at + 1
        else:
            raise ValueError(f"{text!r} has neither a comma nor {closing!r} at {at}")
