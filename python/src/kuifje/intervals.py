"""Numbers that aren't rational, as intervals with rational ends that contain them."""

from __future__ import annotations

from collections.abc import Iterable
from dataclasses import dataclass
from fractions import Fraction

__all__ = ["Interval", "log2", "natural_log", "total"]

BITS = 50  # binary places of a logarithm: an interval is no wider than 2^-50, which is below 10^-15
WORKING = 256  # binary places that are kept on the way


@dataclass(frozen=True)
class Interval:
    """All numbers from ``low`` to ``high``, both with it."""

    low: Fraction
    high: Fraction

    def __post_init__(self) -> None:
        if self.low > self.high:
            raise ValueError(f"{self.low} is above {self.high}")

    @classmethod
    def exactly(cls, value: Fraction | int) -> Interval:
        """The interval of this number alone."""
        return cls(Fraction(value), Fraction(value))

    @property
    def width(self) -> Fraction:
        """How far its ends are apart."""
        return self.high - self.low

    def __add__(self, other: Interval) -> Interval:
        return Interval(self.low + other.low, self.high + other.high)

    def __neg__(self) -> Interval:
        return Interval(-self.high, -self.low)

    def __sub__(self, other: Interval) -> Interval:
        return self + -other

    def __mul__(self, factor: Fraction | int) -> Interval:
        ends = sorted((self.low * factor, self.high * factor))
        return Interval(*ends)

    __rmul__ = __mul__

    def __contains__(self, value: Fraction | int) -> bool:
        return self.low <= value <= self.high

    def __float__(self) -> float:
        """The number in the middle, rounded."""
        return float((self.low + self.high) / 2)

    def __str__(self) -> str:
        return f"{float(self):.12g}"


def total(intervals: Iterable[Interval]) -> Interval:
    """The interval of a sum."""
    return sum(intervals, Interval.exactly(0))


def log2(x: Fraction | int) -> Interval:
    """The binary logarithm of a number above 0: exact where it is a whole number, else no wider than 2^-50. Raises ``ValueError`` for others.

    Each binary place is found by squaring: the logarithm of a number from 1 to 2 is at least 1/2 where its square is at least 2. What is carried is
    rounded down at one end and up at the other, with more places where they are too few to decide.
    """
    x = Fraction(x)
    if x <= 0:
        raise ValueError(f"{x} has no logarithm")
    whole = x.numerator.bit_length() - x.denominator.bit_length()
    if Fraction(2) ** whole > x:
        whole -= 1
    rest = x / Fraction(2) ** whole
    if rest == 1:
        return Interval.exactly(whole)
    working = WORKING
    while (places := _places(rest, 1 << working)) is None:
        working *= 2  # this ends: no power of a rational number but a power of 2 is one
    return Interval(whole + Fraction(places, 1 << BITS), whole + Fraction(places + 1, 1 << BITS))


def _places(rest: Fraction, unit: int) -> int | None:
    """The first ``BITS`` binary places of the logarithm of a number between 1 and 2, as a whole number; none where the unit decides too little."""
    low = rest.numerator * unit // rest.denominator
    high, places = low + 1, 0
    for _ in range(BITS):
        low, high = low * low // unit, -(-high * high // unit)
        if low >= 2 * unit:
            places, low, high = 2 * places + 1, low // 2, -(-high // 2)
        elif high <= 2 * unit:
            places = 2 * places
        else:
            return None
    return places


def _log_of_two() -> Interval:
    """The natural logarithm of 2: the sum of 1 / (n 2^n); what is left after n terms is at most the last of them."""
    terms = [Fraction(1, n << n) for n in range(1, 80)]
    return Interval(sum(terms, Fraction(0)), sum(terms, Fraction(0)) + terms[-1])


def natural_log(x: Fraction | int) -> Interval:
    """The natural logarithm of a number above 0. Raises ``ValueError`` for others."""
    binary, two = log2(x), _log_of_two()
    ends = [a * b for a in (binary.low, binary.high) for b in (two.low, two.high)]
    return Interval(min(ends), max(ends))
