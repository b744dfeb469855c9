"""Logarithms lie in their intervals, which are narrow."""

import math
from fractions import Fraction

import pytest
from hypothesis import given
from hypothesis import strategies as st

from kuifje.intervals import Interval, log2, natural_log

POSITIVE = st.fractions(min_value=Fraction(1, 10**9), max_value=10**9)
NARROW = Fraction(1, 10**12)


def by_series(x):
    """The natural logarithm of a number another way: ln x = 2 artanh((x - 1) / (x + 1)), whose series falls at least as a geometric one."""
    y = (x - 1) / (x + 1)
    terms = [2 * y ** (2 * n + 1) / (2 * n + 1) for n in range(40)]
    rest = abs(terms[-1]) / (1 - y * y)
    return Interval(sum(terms) - rest, sum(terms) + rest)


@given(st.fractions(Fraction(1, 2), 2, max_denominator=1000))
def test_logarithms_by_a_series(x):
    """Both intervals are narrow, and have a number in common; log2 times ln 2 is ln."""
    wanted, two = by_series(x), by_series(Fraction(2))
    assert wanted.width <= NARROW and two.width <= NARROW
    assert max(natural_log(x).low, wanted.low) <= min(natural_log(x).high, wanted.high)
    ends = [a * b for a in (log2(x).low, log2(x).high) for b in (two.low, two.high)]
    assert max(min(ends), wanted.low) <= min(max(ends), wanted.high)


@given(POSITIVE)
def test_a_binary_logarithm_is_in_its_interval(x):
    found = log2(x)
    assert found.width <= NARROW
    assert abs(float(found) - math.log2(x)) < 1e-9


@pytest.mark.parametrize("digits", [60, 100, 300])
def test_the_root_of_two_is_told_from_a_fraction_beside_it(digits):
    """p / q with p^2 just below or above 2 q^2: its logarithm is just below or above 1/2, however near."""
    q = 10**digits
    p = math.isqrt(2 * q * q)
    below, above = log2(Fraction(p, q)), log2(Fraction(p + 1, q))
    assert below.low < Fraction(1, 2) <= below.high and above.low <= Fraction(1, 2) < above.high
    assert below.width <= NARROW and above.width <= NARROW


@pytest.mark.parametrize("exponent", [-70, -1, 0, 1, 5, 200])
def test_powers_of_two_are_exact(exponent):
    assert log2(Fraction(2) ** exponent) == Interval.exactly(exponent)


@given(st.integers(1, 12), st.integers(1, 12))
def test_short_logarithms_by_whole_numbers(a, b):
    """log2(a/b) compared with k/8 exactly: it is at least k/8 where (a/b)^8 is at least 2^k."""
    found = log2(Fraction(a, b))
    for k in range(-32, 33):
        at_least = Fraction(a, b) ** 8 >= Fraction(2) ** k
        assert found.high >= Fraction(k, 8) if at_least else found.low <= Fraction(k, 8)


@given(POSITIVE)
def test_a_natural_logarithm_is_in_its_interval(x):
    assert natural_log(x).width <= NARROW
    assert abs(float(natural_log(x)) - math.log(x)) < 1e-9


@pytest.mark.parametrize("x", [0, -1])
def test_other_numbers_have_none(x):
    with pytest.raises(ValueError):
        log2(x)


@given(POSITIVE, POSITIVE, st.fractions(-5, 5))
def test_sums_and_multiples_contain_what_they_are_of(x, y, factor):
    a, b = log2(x), log2(y)
    middle = (a.low + a.high) / 2 - factor * (b.low + b.high) / 2
    assert middle in a - factor * b
