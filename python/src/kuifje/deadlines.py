"""A time by which something has to end."""

from __future__ import annotations

from math import inf
from time import monotonic

__all__ = ["NEVER", "Deadline"]


class Deadline:
    """A time by which something has to end: in so many ``seconds``, or never where none are given."""

    def __init__(self, seconds: float | None) -> None:
        self.seconds = inf if seconds is None else seconds
        self._end = monotonic() + self.seconds

    @property
    def left(self) -> float:
        """The seconds that are left, at least 0; without a bound they are infinite."""
        return max(0.0, self._end - monotonic())

    @property
    def passed(self) -> bool:
        """Whether no time is left."""
        return self.left == 0

    def within(self, seconds: float) -> Deadline:
        """A deadline in so many seconds, or this one where it is earlier."""
        return Deadline(min(seconds, self.left))


NEVER = Deadline(None)
