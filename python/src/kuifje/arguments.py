"""What arguments may be: each function raises ``TypeError`` or ``ValueError`` with the argument's name and what is allowed."""

from __future__ import annotations

import re
from fractions import Fraction
from math import nan
from numbers import Rational, Real
from operator import index
from typing import Any

__all__ = ["Probability", "probability", "seconds", "text_of", "whole"]

Probability = Fraction | int | str
NINE_DIGITS = 10**9  # which the numerator and the denominator of a probability are below
FRACTION = re.compile(r"-?[0-9]{1,40}(/[0-9]{1,40}|\.[0-9]{1,40})?", re.ASCII)


def _given(value: object) -> str:
    """A value in an error: a number or a short text as it is, of all else the type."""
    if isinstance(value, (Real, str, type(None))) and len(written := repr(value)) <= 40:
        return written
    return f"a value of type {type(value).__name__}"


def whole(name: str, value: Any, least: int, most: int) -> int:
    """A whole number within bounds."""
    wanted = f"{name} is a whole number from {least:,} to {most:,}"
    try:
        if isinstance(value, bool):
            raise TypeError
        number = index(value)
    except TypeError:
        raise TypeError(f"{wanted}, and {_given(value)} was given") from None
    if not least <= number <= most:
        raise ValueError(f"{wanted}, and {number if abs(number) < 10**20 else 'one far from these'} was given")
    return number


def seconds(name: str, value: Any) -> float | None:
    """A bound on time in seconds, or none; infinitely many are allowed."""
    if value is None:
        return None
    if isinstance(value, bool) or not isinstance(value, Real):
        raise TypeError(f"{name} is a number of seconds or None, and {_given(value)} was given")
    try:
        found = float(value)
    except OverflowError:
        found = nan
    if not found >= 0:  # which "not a number" isn't either
        raise ValueError(f"{name} is a number of seconds from 0 on, or None, and {_given(value)} was given")
    return found


def probability(name: str, value: Any, *, one: bool) -> Fraction:
    """A probability above 0, below or up to 1, whose numerator and denominator have at most nine digits."""
    wanted = f'{name} is a Fraction, or a text like "1/2"'
    if isinstance(value, bool) or not isinstance(value, (Rational, str)):
        raise TypeError(f"{wanted}, and {_given(value)} was given")
    if isinstance(value, str) and not FRACTION.fullmatch(value):
        raise ValueError(f"{wanted}, and {_given(value)} was given")
    try:
        found = Fraction(value)
    except ZeroDivisionError:
        raise ValueError(f"{wanted}, and {_given(value)} was given") from None
    if not 0 < found <= 1 or found == 1 and not one:
        raise ValueError(f"{name} lies above 0 and {'is at most' if one else 'below'} 1, and {found} was given")
    if found.denominator >= NINE_DIGITS:
        raise ValueError(f"{name} has a numerator and a denominator below 10^9, and {found} was given")
    return found


def text_of(name: str, value: Any) -> bytes:
    """The bytes of a text: a number, of which Python would make as many zeros, isn't one."""
    if isinstance(value, str):
        return value.encode()
    if isinstance(value, (bytes, bytearray, memoryview)):
        return bytes(value)
    raise TypeError(f"{name} is a text (str or bytes), and {_given(value)} was given")
