"""How much a model may be made of: what is huge is refused by its number, and not made a list of first."""

from __future__ import annotations

from collections.abc import Iterable, Sized
from itertools import islice
from typing import Any

__all__ = ["BITS", "CASES", "ENTRIES", "TURNS", "VALUES", "TooMany", "length", "listed"]

VALUES = 65_536  # of a type, and so of a distribution
CASES = 1 << 20  # of values with weights, of which many may be equal
ENTRIES = 65_536  # of what is gone over, looked up or compared entry by entry
TURNS = 1 << 17  # of all loops together that are unrolled
BITS = 1 << 16  # of a number that is worked out


class TooMany(ValueError):
    """More values, entries or turns than there may be."""


def length(values: Any) -> int | None:
    """How many values there are, where that is known without going over them."""
    if isinstance(values, range):
        return max(0, -((values.start - values.stop) // values.step))
    return len(values) if isinstance(values, Sized) else None


def listed(values: Iterable[Any], most: int = ENTRIES) -> list[Any]:
    """The values as a list. Raises ``TooMany`` where there are more than so many."""
    found = length(values)
    if found is not None and found > most:
        raise TooMany(f"there are {found} entries, and {most} are allowed")
    several = list(islice(values, most + 1))
    if len(several) > most:
        raise TooMany(f"there are more than {most} entries")
    return several
