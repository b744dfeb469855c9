"""Bounds for loops that chance ends, beside sums of series that were worked out by hand."""

from fractions import Fraction
from math import sqrt

import pytest

from kuifje import Action, GainTable, Program, Refusal, refine
from kuifje.cut_loops import bounds

NOISY = """var x : 0..1 := uniform 0..1;
var go : bool := true;
about {about};
while go {{
  observe choose {{ x : 3, 1 - x : 1 }};
  go := flip 1/2;
}}
"""
ENDING = """# Each turn ends with probability (x + 1)/8, and turns are seen.
var x : 0..3 := uniform 0..3;
var going : bool := true;
about old x;
while going {
  going := choose { true : 7 - x, false : x + 1 };
}
"""


def test_a_noisy_bit_which_has_no_rational_answer() -> None:
    """V = 1/2 + 1/sqrt(13): with p = 3/4, and going on with 1/2, the series sums to (p - q)/2 (1/sqrt(1 - 4pq/4) - 1) above p."""
    exact = 0.5 + 1 / sqrt(13)
    found = bounds(Program(NOISY.format(about="old x")), 12)
    assert found.left == Fraction(1, 4096)
    assert found.lower < exact < found.upper and found.width < Fraction(1, 10**5)
    one = bounds(Program(NOISY.format(about="go, x")), 12)
    assert one.low is None and one.lower < exact < one.upper and found.lower > one.lower


def test_turns_that_tell_the_secret() -> None:
    """The likeliest secret after n turns, summed up: 52231/131072, which eight turns already show."""
    total, n = Fraction(0), 1
    chances = [Fraction(i, 8) for i in range(1, 5)]
    while max(chances, key=lambda p: (1 - p) ** (n - 1) * p) != chances[0]:
        total += max((1 - p) ** (n - 1) * p for p in chances)
        n += 1
    exact = (total + (1 - chances[0]) ** (n - 1)) / 4
    assert exact == Fraction(52231, 131072)
    assert bounds(Program(ENDING), 8).lower == exact <= bounds(Program(ENDING), 8).upper
    assert bounds(Program(ENDING), 3).lower < exact < bounds(Program(ENDING), 3).upper


def test_the_bounds_close_in() -> None:
    found = [bounds(Program(ENDING), turns, "guessing") for turns in (1, 4, 16)]
    for wider, closer in zip(found, found[1:]):
        assert wider.lower <= closer.lower <= closer.upper <= wider.upper and closer.width < wider.width


def test_low_and_high_are_in_the_order_of_refinement() -> None:
    small, large = bounds(Program(ENDING), 2), bounds(Program(ENDING), 3)
    programs = [small.high, large.high, large.low, small.low]
    for more, less in zip(programs, programs[1:]):
        assert more is not None and less is not None and refine(more, less).refines


def test_a_guard_that_is_drawn_and_statements_after_the_loop() -> None:
    """No turn with 1/2: then the guess is right with 1/2, and else as with the noisy bit."""
    text = "var x : 0..1 := uniform 0..1;\nabout old x;\nwhile flip 1/2 { observe choose { x : 3, 1 - x : 1 }; } # { the end\nobserve 3;\n"
    found = bounds(Program(text), 12)
    assert found.lower < Fraction(1, 4) + (0.5 + 1 / sqrt(13)) / 2 < found.upper


def test_what_follows_the_loop_counts() -> None:
    text = "var x : 0..3 := uniform 0..3;\nabout old x;\nwhile flip 1/2 { skip; }\nobserve x < 2;\n"
    found = bounds(Program(text), 20)
    assert found.lower < Fraction(1, 2) == found.upper or found.lower <= Fraction(1, 2) <= found.upper
    assert found.width < Fraction(1, 10**5)


def test_gains_that_are_not_from_0_to_1() -> None:
    """One action gains 5 at 1 and -3 elsewhere, the other 1/2: with the secret in the end shown it is worth (5 + 1/2) / 2."""
    table = GainTable(2, 1, (Action("bold", {0: -6, 1: 10}), Action("meek", {})))
    text = "var x : 0..1 := uniform 0..1;\nvar t : 0..1 := 0;\nabout {about};\nwhile flip 1/2 {{ skip; }}\nobserve x;\n"
    exact = (Fraction(5) + Fraction(1, 2)) / 2
    for about in ("old x", "x"):
        found = bounds(Program(text.format(about=about)), 10, table)
        assert found.lower <= exact <= found.upper and found.width <= Fraction(8, 1024)


def test_names_that_are_taken() -> None:
    text = ENDING.replace("while going", "# turn\nwhile going").replace("var going", "var turn : 0..1 := 0;\nvar going")
    assert bounds(Program(text), 8).lower == Fraction(52231, 131072)


def test_what_cannot_be_cut() -> None:
    program = Program(ENDING)
    with pytest.raises(ValueError, match="turns is a whole number"):
        bounds(program, 0)
    with pytest.raises(ValueError, match="no top-level loop$"):
        bounds(Program("var x : 0..1 := 0;"), 3)
    with pytest.raises(ValueError, match="they begin at line 5"):
        bounds(program, 3, line=1)
    with pytest.raises(ValueError, match="lines 3, 4"):
        bounds(Program("var x : 0..1 := 0;\nabout old x;\nwhile x = 1 { skip; }\nwhile x = 1 { skip; }\n"), 3)
    with pytest.raises(ValueError, match="old alone"):
        bounds(Program(ENDING.replace("old x", "x")), 3, "guessing")
    for gain in ("many", "table:nowhere.json"):
        with pytest.raises(ValueError, match="tries:K"):
            bounds(program, 3, gain)


def test_a_loop_within_that_chance_ends_is_refused_as_it_is() -> None:
    text = "var x : 0..1 := uniform 0..1;\nabout old x;\nwhile flip 1/2 { while flip 1/2 { skip; } }\n"
    with pytest.raises(Refusal, match="LoopBound"):
        bounds(Program(text), 3)
