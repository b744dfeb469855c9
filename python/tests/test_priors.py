"""Priors of programs, values that aren't possible, and for which priors a verdict holds: by hand."""

from fractions import Fraction
from itertools import product

import pytest
from hypothesis import given
from hypothesis import strategies as st

from kuifje import Program, format_value, refine
from kuifje.priors import declarations, difference, impossible, obstacle, prior_of, scope

HALF = Fraction(1, 2)


@pytest.mark.usefixtures("built")
def test_of_an_old_target_the_declarations_are_asked_alone():
    """The statements divide by what may be 0, so that the whole program is refused; its prior isn't."""
    program = Program("var x : 0..1 := uniform 0..1; var y : 0..9 := uniform 0..9;\nabout old x;\nobserve 5 div y;\n")
    assert declarations(program).text.endswith(b"about old x;") and prior_of(program) == {0: HALF, 1: HALF}
    later = Program("var x : 0..3 := uniform 0..3;\nabout x;\nx := x mod 2;\n")
    assert declarations(later) is None
    with pytest.warns(UserWarning):
        assert prior_of(later) == {0: HALF, 1: HALF}


def test_the_smallest_value_that_differs_is_named():
    first = {1: Fraction(1, 4), 2: Fraction(1, 4), 3: HALF}
    assert difference(first, dict(reversed(first.items())), ("here", "there")) is None
    second = {0: HALF, 1: Fraction(1, 4), 3: Fraction(1, 4)}
    assert difference(first, second, ("here", "there")) == "0 has the probability 0 here, and 1/2 there"
    assert difference(second, first, ("here", "there")) == "0 has the probability 1/2 here, and 0 there"
    assert difference({False: HALF, True: HALF}, {0: HALF, 1: HALF}, ("here", "there")) is not None
    assert difference({(0, True): Fraction(1)}, {(0, False): Fraction(1)}, ("here", "there")).startswith("(0, false) has the probability 0 here")


KINDS = [
    ("bool", [False, True]),
    ("-1..1", [-1, 0, 1]),
    ("(0..1, bool)", list(product([0, 1], [False, True]))),
    ("set of 0..1", [frozenset(), frozenset({0}), frozenset({1}), frozenset({0, 1})]),
    ("(set of bool, 5..5)", [(frozenset(s), 5) for s in ([], [False], [True], [False, True])]),
]


@pytest.mark.parametrize(("kind", "values"), KINDS, ids=[kind for kind, _ in KINDS])
def test_a_value_that_is_not_possible_is_found_in_each_type(kind, values):
    """Of a prior on all values of a type none is missing, and of one without a value this one is."""
    program = Program(f"var x : {kind} := 0;\nabout old x;\n")
    assert impossible(program, {value: Fraction(1, len(values)) for value in values}) is None
    for missing in values:
        prior = {value: Fraction(1, len(values)) for value in values if value != missing}
        assert format_value(impossible(program, prior)) == format_value(missing)


def test_pairs_that_are_not_possible_are_found_though_each_value_is():
    program = Program("var x : 0..1 := uniform 0..1; var y : bool := flip 1/2;\nabout old x, old y;\n")
    assert impossible(program, {(0, False): HALF, (1, True): HALF}) == (0, True)
    assert impossible(program, {pair: Fraction(1, 4) for pair in product([0, 1], [False, True])}) is None
    large = Program("var x : (set of 0..40, set of 0..40) := ({0}, {0});\nabout old x;\n")
    assert impossible(large, {(frozenset(), frozenset()): Fraction(1)}) == (frozenset(), frozenset({0}))


def about(prior, shown, item="old x", name="p.kf"):
    weights = ", ".join(f"{value} : {weight}" for value, weight in enumerate(prior))
    return Program(f"var x : 0..{len(prior) - 1} := choose {{ {weights} }};\nabout {item};\nobserve {shown};\n", name=name)


SHOWN = ["x", "x mod 2", "0", "choose { x mod 2 : 2, 0 : 1 }", "choose { x : 1, 0 : 1 }"]
WEIGHTS = st.lists(st.integers(1, 5), min_size=3, max_size=3)


@pytest.mark.usefixtures("built")
@given(st.sampled_from(SHOWN), st.sampled_from(SHOWN), WEIGHTS, WEIGHTS)
def test_a_verdict_that_holds_for_every_prior_is_the_same_at_another(first, second, weights, others):
    """Where all values are possible, at any two priors ``refine`` says the same of two programs that are drawn alike."""
    a, b = about(weights, first, name="a.kf"), about(weights, second, name="b.kf")
    prior = prior_of(a)
    assert obstacle(a, b, prior, prior_of(b)) is None
    refines = refine(a, b).refines
    assert refine(about(others, first), about(others, second)).refines == refines
    wanted = "on the secret, since each of its values is possible" if refines else "under which each value of the secret is possible"
    assert scope(a, b, prior, prior, refines) == f"It holds for every prior {wanted}."


@pytest.mark.usefixtures("built")
def test_a_no_of_two_priors_and_a_value_of_probability_0():
    """At a prior without the value 1 both show all there is; with it, only one does."""
    a, b = about([1, 0, 1], "x = 2", name="a.kf"), about([1, 0, 1], "x", name="b.kf")
    prior = prior_of(a)
    assert refine(a, b).refines and not refine(about([1, 1, 1], "x = 2"), about([1, 1, 1], "x")).refines
    assert obstacle(a, b, prior, prior) == "1 is a value of the secret, and has the probability 0"
    assert scope(a, b, prior, prior, True) == "It holds for every prior on the secret's values that are possible here; 1 isn't."
    other = about([1, 1, 2], "0", name="c.kf")
    text = "0 has the probability 1/2 in a.kf, and 1/4 in c.kf"
    assert obstacle(a, other, prior, prior_of(other)) == f"the priors differ: {text}"
    assert scope(a, other, prior, prior_of(other), False) == f"The priors differ: {text}. So it says nothing of which program leaks more."
