"""Public inputs of two sides: saddle points by hand, and by a plain search among the corners of both sides' mixtures."""

from __future__ import annotations

from dataclasses import replace
from fractions import Fraction
from itertools import combinations

import pytest
from hypothesis import given
from hypothesis import strategies as st

from kuifje.games import _saddle, check_saddle
from kuifje.model import Public, Secret, choose, model, observe, one_of, uniform
from kuifje.strategies import best, minimax, worst

pytestmark = pytest.mark.usefixtures("built")
HALF, THIRD = Fraction(1, 2), Fraction(1, 3)


@model
def below(x: Secret = uniform(range(8)), bound: Public = one_of(range(1, 8))):
    observe(x < bound)


@model
def kept_bits(x: Secret = uniform(range(8)), kept: Public = one_of([1, 2]), asked: Public = one_of([0, 1])):
    """The defender shows 1 or 2 bits at least, the attacker asks for one more or not."""
    if asked == 1 and kept == 2:
        observe(x)
    else:
        observe(x % (2**kept))


@model
def pennies(x: Secret = uniform(range(4)), hidden: Public = one_of([0, 1]), looked: Public = one_of([0, 1])):
    """Where the attacker looks at the side at which the defender keeps the secret it sees all of it, and else nothing."""
    if hidden == looked:
        observe(x)


@model
def uneven(x: Secret = uniform(range(4)), hidden: Public = one_of([0, 1]), looked: Public = one_of([0, 1])):
    """As above, but at the side 1 only one bit is seen."""
    if hidden == looked:
        if hidden == 0:
            observe(x)
        else:
            observe(x % 2)


@model
def by_day(x: Secret = uniform(range(2)), day: Public = one_of([0, 1])):
    observe(choose((x, 3 + day), (1 - x, 1)))


# ---- the best input


def test_the_best_input_by_hand():
    """A noisy bit is right with 3/4 on day 0 and 4/5 on day 1. To find a number of 8 takes most where the bound tells 1 from 7."""
    found = best(by_day)
    assert (dict(found.inputs), found.value) == ({"day": 0}, Fraction(3, 4)) and worst(by_day).value == Fraction(4, 5)
    assert str(found).startswith("day = 0 leaks least: 3/4\nday = 0: 3/4\n") and repr(found).startswith("<Best>\nday = 0 leaks least")
    found = best(below, "leak --gain guessing")
    # (1 · 1 + 7 · 4)/8 guesses with the bound 1, and as many with 7.
    assert (dict(found.inputs), found.value) == ({"bound": 1}, Fraction(29, 8)) and str(found).startswith(
        "bound = 1 leaks least (the greatest number): 29/8\n"
    )
    with pytest.raises(TypeError, match="best is asked of a model"):
        best(below.program(bound=1))


# ---- two sides


def test_a_pure_saddle_point_by_hand():
    """One bit kept shows 2 classes, 2/8, whatever is asked; two kept show 4 or all 8. So the defender keeps one, and asking is worth nothing."""
    found = minimax(kept_bits, attacker=["asked"], defender=["kept"])
    assert found.is_pure and found.value == Fraction(1, 4) and check_saddle(found)
    assert found.table == ((Fraction(1, 4), Fraction(1, 4)), (HALF, Fraction(1))) and found.defender == (1, 0)
    assert found.by_defence[0] == Fraction(1, 4) and max(found.by_attack) == Fraction(1, 4)
    assert "value 1/4, pure" in str(found) and "so that no attack comes to more:" in str(found)


def test_a_mixed_saddle_point_by_hand():
    """Each side is chosen half of the time: (1 + 1/4)/2. Where side 1 shows one bit, 1/2, the defender keeps it there three times of four:

    the attack at 0 comes to 1/4 · 1 + 3/4 · 1/4 and that at 1 to 1/4 · 1/4 + 3/4 · 1/2, both 7/16; the attacker looks at 0 once in four times.
    """
    found = minimax(pennies, attacker=["looked"], defender=["hidden"])
    assert (found.value, found.defender, found.attacker) == (Fraction(5, 8), (HALF, HALF), (HALF, HALF)) and not found.is_pure
    found = minimax(uneven, attacker=["looked"], defender=["hidden"])
    assert found.value == Fraction(7, 16) and found.defender == (Fraction(1, 4), Fraction(3, 4)) == found.attacker
    assert set(found.by_attack) == set(found.by_defence) == {Fraction(7, 16)} and len(found.records()) == 4


def test_of_guesses_fewer_are_worse():
    """All of four is 1 guess, and nothing is 5/2 of them: half of the time each is 7/4, whoever it is that wants more."""
    found = minimax(pennies, "leak --gain guessing", attacker=["looked"], defender=["hidden"])
    assert found.least and found.value == Fraction(7, 4) and check_saddle(found)
    assert not check_saddle(replace(found, least=False, defender=(Fraction(1), Fraction(0))))
    assert "so that no attack comes to fewer:" in str(found) and "so that no defence comes to more:" in str(found)


def test_a_spoilt_saddle_point_is_none():
    found = minimax(uneven, attacker=["looked"], defender=["hidden"])
    moved = Fraction(1, 1000)
    for spoilt in (
        replace(found, value=found.value + moved),
        replace(found, defender=(HALF, HALF)),
        replace(found, attacker=(HALF, HALF)),
        replace(found, defender=(Fraction(5, 4), Fraction(-1, 4))),
        replace(found, attacker=(Fraction(1, 4), Fraction(1, 4))),
        replace(found, attacker=(Fraction(1, 4), HALF, Fraction(1, 4))),
        replace(found, table=found.table[:1]),
        replace(found, table=(found.table[0], (Fraction(1), Fraction(1)))),
    ):
        assert not check_saddle(spoilt)


def value_by_corners(losses: list[list[int]]) -> Fraction:
    """The least that rows come to at most: the least over mixtures of the rows, each a corner where some columns come to the same."""
    if len(losses) == 1:
        return Fraction(max(losses[0]))
    first, second = losses
    shares = {Fraction(0), Fraction(1)}
    for a, b in combinations(range(len(first)), 2):
        # share · first + (1 - share) · second is the same in both columns
        if slope := first[a] - second[a] - first[b] + second[b]:
            shares.add(Fraction(second[b] - second[a], slope))
    return min(max(share * x + (1 - share) * y for x, y in zip(first, second)) for share in shares if 0 <= share <= 1)


@given(st.lists(st.tuples(st.integers(-9, 9), st.integers(-9, 9)), min_size=1, max_size=6))
def test_two_rows_as_all_their_mixtures_have_it(columns):
    losses = [[column[i] for column in columns] for i in (0, 1)]
    table = tuple(tuple(map(Fraction, row)) for row in losses)
    names = tuple({"a": i} for i in range(2)), tuple({"b": j} for j in range(len(columns)))
    found = _saddle(*names, table, False, ())
    assert check_saddle(found) and found.value == value_by_corners(losses)
    turned = _saddle(names[1], names[0], tuple(zip(*table)), True, ())
    assert check_saddle(turned) and turned.value == found.value


@given(
    st.integers(1, 5).flatmap(lambda n: st.lists(st.lists(st.fractions(-3, 3, max_denominator=20), min_size=n, max_size=n), min_size=1, max_size=5))
)
def test_each_table_has_a_saddle_point(rows):
    found = _saddle(tuple({"a": i} for i in range(len(rows))), tuple({"b": j} for j in range(len(rows[0]))), tuple(map(tuple, rows)), False, ())
    assert check_saddle(found)


@pytest.mark.parametrize(
    ("raised", "words", "sides"),
    [
        (TypeError, "like \\['guess'\\]", {"attacker": "looked", "defender": ["hidden"]}),
        (ValueError, "no public input day", {"attacker": ["day"], "defender": ["hidden"]}),
        (ValueError, "hidden is chosen by one side", {"attacker": ["looked", "hidden"], "defender": ["hidden"]}),
        (ValueError, "hidden has several values, and is chosen by neither side", {"attacker": ["looked"], "defender": []}),
        (ValueError, "each side chooses", {"attacker": ["looked", "hidden"], "defender": []}),
    ],
)
def test_each_input_is_on_one_side(raised, words, sides):
    with pytest.raises(raised, match=words):
        minimax(pennies, **sides)
    with pytest.raises(TypeError, match="minimax is asked of a model"):
        minimax(pennies.program(hidden=0, looked=0), **sides)
