"""Losses, with numbers worked out by hand, and beside the definition over the hyper."""

import json
from fractions import Fraction

import pytest
from hypothesis import given, settings, strategies as st

from kuifje import Action, GainTable, Program
from kuifje.losses import LossLeakage, leak_loss, loss_json, loss_table, read
from kuifje.texts import LossTable
from kuifje.values import Value

SQUARES = loss_table({f"g{w}": lambda x, w=w: (x - w) ** 2 for w in range(4)}, range(4))  # type: ignore[misc, operator]
HALF = Program("var x : 0..3 := uniform 0..3;\nabout old x;\nobserve x < 2;\n")


def test_a_square_loss_by_hand() -> None:
    """Of 0 to 3 the best guess is 1 or 2, and loses (1 + 0 + 1 + 4) / 4; of two neighbours either loses 1/2."""
    found = leak_loss(HALF, SQUARES)
    assert found == LossLeakage(Fraction(3, 2), Fraction(1, 2))
    assert found.multiplicative_leakage == 3 and found.additive_leakage == 1


def test_a_loss_of_one_for_a_wrong_guess_that_is_seen() -> None:
    shown = Program("var x : 0..3 := uniform 0..3;\nabout old x;\nobserve x;\n")
    wrong = GainTable.loss(1, 1, [Action(f"g{w}", {w: 0}) for w in range(4)])
    found = leak_loss(shown, wrong)
    assert found == LossLeakage(Fraction(3, 4), Fraction(0)) and found.multiplicative_leakage is None


def test_a_table_of_gains_is_refused() -> None:
    gains = GainTable(1, 0, (Action("g", {0: 1}),))
    with pytest.raises(TypeError, match="LossTable"):
        leak_loss(HALF, gains)  # type: ignore[arg-type]


def test_the_loss_of_a_value_without_a_number() -> None:
    """Where rest is 0, an action that names little loses little: so a table made of functions has the greatest loss there."""
    assert SQUARES.lost(SQUARES.actions[0], 3) == 9 and SQUARES.lost(SQUARES.actions[0], 77) == 9
    assert GainTable.loss(2, 3, [Action("g", {1: 5})]).lost(Action("g", {}), 0) == Fraction(3, 2)


def test_the_file_of_a_loss_table() -> None:
    text = loss_json(SQUARES)
    assert json.loads(text)["actions"][3] == {"losses": [["0", 9], ["1", 4], ["2", 1], ["3", 0]], "name": "g3"}
    assert read(text) == SQUARES and isinstance(read(text), LossTable)


@pytest.mark.parametrize(
    "spoilt",
    [
        "",
        "[]",
        "{}",
        '{"actions":[],"format":"kuifje-loss-1","over":1,"rest":0}',
        '{"actions":[{"gains":[],"name":"g"}],"format":"kuifje-loss-1","over":1,"rest":0}',
        '{"actions":[{"losses":[],"name":"g"}],"format":"kuifje-gain-1","over":1,"rest":0}',
        '{"actions":[{"losses":[],"name":"g"}],"format":"kuifje-loss-1","over":0,"rest":0}',
        '{"actions":[{"losses":[],"name":"g"}],"format":"kuifje-loss-1","over":1.5,"rest":0}',
        '{"actions":[{"losses":[],"name":"g"}],"format":"kuifje-loss-1","over":1,"rest":true}',
        '{"actions":[{"losses":[["0",1],["0",2]],"name":"g"}],"format":"kuifje-loss-1","over":1,"rest":0}',
        '{"actions":[{"losses":[["0"]],"name":"g"}],"format":"kuifje-loss-1","over":1,"rest":0}',
        '{"actions":[{"losses":[["?",1]],"name":"g"}],"format":"kuifje-loss-1","over":1,"rest":0}',
    ],
)
def test_what_is_no_loss_table(spoilt: str) -> None:
    with pytest.raises(ValueError, match="no loss table"):
        read(spoilt)


@given(
    weights=st.lists(st.integers(1, 5), min_size=2, max_size=4),
    cuts=st.integers(1, 3),
    numbers=st.lists(st.lists(st.integers(-3, 9), min_size=4, max_size=4), min_size=1, max_size=3),
)
@settings(max_examples=25, deadline=None)
def test_by_the_definition(weights: list[int], cuts: int, numbers: list[list[int]]) -> None:
    """The least expected loss over the actions, of the prior and over the inners."""
    cases = ", ".join(f"{i} : {weight}" for i, weight in enumerate(weights))
    program = Program(f"var x : 0..3 := choose {{ {cases} }};\nabout old x;\nobserve x < {cuts};\n")

    def uncertainty(joint: dict[int, Fraction]) -> Fraction:
        return min(sum((p * row[x] for x, p in joint.items()), Fraction(0)) for row in numbers)

    prior = {i: Fraction(weight, sum(weights)) for i, weight in enumerate(weights)}
    groups = [{x: p for x, p in prior.items() if (x < cuts) is side} for side in (True, False)]
    values: list[Value] = [0, 1, 2, 3]
    table = loss_table({f"a{i}": lambda x, row=row: row[x] for i, row in enumerate(numbers)}, values)  # type: ignore[misc, index]
    assert leak_loss(program, table) == LossLeakage(uncertainty(prior), sum((uncertainty(joint) for joint in groups if joint), Fraction(0)))
