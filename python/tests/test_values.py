"""Values: their texts, and their order."""

from functools import cmp_to_key

import pytest
from hypothesis import given
from hypothesis import strategies as st

from kuifje import format_value, parse_value
from kuifje.values import compare, split_values

NUMBERS = st.integers(-(10**6), 10**6)
ATOMS = st.booleans() | NUMBERS


def alike(elements):
    """Tuples and sets of values of one kind."""
    return st.lists(elements, min_size=2, max_size=4).map(tuple) | st.frozensets(elements, max_size=4)


VALUES = st.recursive(st.booleans(), alike, max_leaves=12) | st.recursive(NUMBERS, alike, max_leaves=12)


@given(VALUES)
def test_a_text_is_read_back(value):
    assert parse_value(format_value(value)) == value


@pytest.mark.parametrize("text", ["", "01", "-0", "(1)", "(1, 2", "{1, 0}", "{0, 0}", "1 ", "True", "[1]", "(1,2)"])
def test_other_texts_are_refused(text):
    with pytest.raises(ValueError):
        parse_value(text)


def test_brackets_without_an_end_are_refused():
    for text in ("(" * 100_000, "{" * 100_000):
        with pytest.raises(ValueError, match="too many brackets in each other"):
            parse_value(text)


def test_a_trace_is_a_list_of_values():
    assert split_values("[0, (true, {1})]") == (0, (True, frozenset({1})))
    assert split_values("[]") == ()


def test_sets_are_ordered_by_the_greatest_value_in_one_of_them():
    subsets = [frozenset(x for x in range(3) if n >> x & 1) for n in range(8)]
    assert sorted(reversed(subsets), key=cmp_to_key(compare)) == subsets


def test_kinds_are_ordered():
    kinds = [False, True, -1, 3, (0, 0), (0, 1), frozenset(), frozenset({0})]
    assert sorted(reversed(kinds), key=cmp_to_key(compare)) == kinds
