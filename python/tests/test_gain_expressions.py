"""Gain expressions, with tables worked out in Python's own arithmetic."""

import pytest

from kuifje import Program, Refusal
from kuifje.gain_expressions import expanded

PIN = Program("var x : 0..3 := choose { 0 : 3, 1 : 1, 2 : 1, 3 : 1 };\nabout old x;\nobserve x < 2;\n")


def test_a_distance() -> None:
    table = expanded("action w : 0..3; gain 3 - abs(w - x); over 3;", PIN)
    assert (table.over, table.rest) == (3, 0)
    assert {action.name: dict(action.gains) for action in table.actions} == {
        f"w{w}": {x: 3 - abs(w - x) for x in range(4) if abs(w - x) < 3} for w in range(4)
    }


def test_no_over_and_a_comment_and_several_lines() -> None:
    table = expanded("# one step off is half right\naction w : 1..2;\n  gain cond(w = x, 2,\n  cond(w = x + 1, 1, 0 - 1));\n", PIN)
    assert table.over == 1
    assert [dict(action.gains) for action in table.actions] == [{0: 1, 1: 2, 2: -1, 3: -1}, {0: -1, 1: 1, 2: 2, 3: -1}]


def test_items_of_every_type() -> None:
    program = Program("var p : (0..1, bool) := (0, true);\nvar s : set of 0..1 := {0};\nvar b : bool := true;\nabout old p, s, old b;\nobserve b;\n")
    table = expanded("action w : bool; gain cond(w = p.1, 1, 0) + 2 * size(s) + cond(b, 4, 0);", program)
    sets = [frozenset(), frozenset({0}), frozenset({1}), frozenset({0, 1})]
    for w, action in zip((False, True), table.actions):
        wanted = {((n, t), s, b): (w == t) + 2 * len(s) + 4 * b for n in range(2) for t in (False, True) for s in sets for b in (False, True)}
        assert dict(action.gains) == {value: gain for value, gain in wanted.items() if gain}
    assert table.gain(table.actions[0], ((0, True), frozenset(), False)) == 0


@pytest.mark.parametrize(
    "text, kind, place",
    [
        ("action w : 0..3; gain 3 - abs(w - y);", "Unknown", (1, 35)),
        ("action w : 0..3;\n gain 3 div (w - x);", "DivZero", (2, 7)),
        ("action w : 3..0; gain w;", "BadRange", (1, 12)),
        ("# é\naction w : 0..3; # é\n gain 1 +\n # é\n  é + 1;", "Unknown", (5, 3)),
        ("# é\naction w : 0..3; gain é + §;", "Char", (2, 28)),
        ("action w : 0..3; gain w +;", "Syntax", (1, 26)),
        ("action w : 0..3; gain w + true;", "Clash", (1, 23)),
    ],
)
def test_a_refusal_stands_at_its_place(text: str, kind: str, place: tuple[int, int]) -> None:
    with pytest.raises(Refusal) as caught:
        expanded(text, PIN)
    assert (caught.value.kind, caught.value.file) == (kind, "the gain expression")
    assert (caught.value.line, caught.value.column) == place


@pytest.mark.parametrize(
    "text, word",
    [
        ("", "a gain expression is"),
        ("gain x;", "a gain expression is"),
        ("action w : 0..3; gain w; over 0;", "over is from 1"),
        ("action w : 0..3; gain w; over 1000000001;", "over is from 1"),
        ("action x : 0..3; gain x;", "has the name of an item"),
        ("action w : 0..3; gain w = x;", "a gain is a number"),
        ("action w : set of 0..15; gain size(w);", "more than 4,096"),
    ],
)
def test_what_is_no_gain_expression(text: str, word: str) -> None:
    with pytest.raises(ValueError, match=word):
        expanded(text, PIN)


def test_an_item_before_and_after() -> None:
    with pytest.raises(ValueError, match="before and after"):
        expanded("action w : 0..3; gain w;", Program("var x : 0..3 := 0;\nabout old x, x;\nx := 1;\n"))


def test_nothing_is_asked_of_the_program_itself() -> None:
    """Only the declared types count: the prior of the program, its statements and its faults don't."""
    broken = Program("var x : 0..1 := 0;\nabout old x;\nobserve 1 div x;\n")
    assert [dict(action.gains) for action in expanded("action w : 0..1; gain cond(w = x, 1, 0);", broken).actions] == [{0: 1}, {1: 1}]
