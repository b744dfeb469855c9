"""Expressions of the language, as texts: a number that depends on a variable, and a weighted choice."""

from __future__ import annotations

from collections.abc import Mapping, Sequence
from itertools import groupby
from typing import Any

from .values import format_value

__all__ = ["choose", "lookup"]


def lookup(name: str, numbers: Sequence[int | str]) -> str:
    """An expression that is the number (or the text of an expression) at the place, from 0 on, that a variable says.

    It halves what is left by ``<``, so it has fewer than 17 open brackets for 65,536 numbers; equal neighbours are one leaf. With n leaves it has
    5n - 4 nodes, and more than 1,000 are refused as ``Long``. Raises ``ValueError`` where there are no numbers.
    """
    if not numbers:
        raise ValueError("a table has at least one number")
    runs, start = [], 0
    for number, equal in groupby(numbers):
        runs.append((start, number))
        start += len(list(equal))

    def part(low: int, high: int) -> str:
        if high - low == 1:
            return str(runs[low][1])
        middle = (low + high) // 2
        return f"cond({name} < {runs[middle][0]}, {part(low, middle)}, {part(middle, high)})"

    return part(0, len(runs))


def choose(weights: Mapping[Any, object]) -> str:
    """A choice of the values by weights, which are whole numbers or texts of expressions. Raises ``ValueError`` where there are none."""
    if not weights:
        raise ValueError("a choice is between at least one value")
    return f"choose {{ {', '.join(f'{format_value(value)} : {weight}' for value, weight in weights.items())} }}"
