"""Repairs of models: named by Python lines, written in Python where that can be, and judged once more by Python's own runs."""

from __future__ import annotations

from fractions import Fraction
from pathlib import Path
from typing import Any

import pytest

import kuifje.model as m
from kuifje import check
from kuifje.intervals import Interval
from kuifje.measured import Lines, Parting, Told
from kuifje.measured.places import Place
from kuifje.measures import posterior_vulnerability
from kuifje.model import Public, Secret, flip, model, observe, uniform
from kuifje.repair import BadPurpose, code_hints, floor, repair

pytestmark = pytest.mark.usefixtures("built")


def line_of(function: Any, text: str) -> int:
    """The line, from 1, of a text in this file, the first one in a function or after it."""
    lines = Path(__file__).read_text(encoding="utf-8").split("\n")
    return next(i for i, line in enumerate(lines, 1) if i >= function.__code__.co_firstlineno and text in line)


@model
def early(pin: Secret = [uniform(range(3))] * 3, guess: Public = (0, 1, 2)):
    same = True
    for i in range(3):
        if same:  # what is seen
            same = pin[i] == guess[i]
    observe(same)


@model
def leaves(pin: Secret = [uniform(range(3))] * 3, guess: Public = (0, 1, 2)):
    same = True
    for i in range(3):
        if pin[i] != guess[i]:
            same = False
            break
    observe(same)


@model
def down(x: Secret = uniform(range(4))):
    n, y = 0, x
    while y > 0:  # counts
        y = y - 1

        if y == 1:
            n = n + 1
        elif y == 2:
            n = n + 1
    observe(n > 0)


@model
def within(x: m.Secret = m.uniform(range(4))):
    y, n = x, 0
    while y > 0:
        z = y
        while z > 0 and n < 3:
            z, n = z - 1, n + 1
        y = y - 1
    m.observe(n == 3)


@model
def shown(x: Secret = uniform(range(4))):
    if x == 1:
        observe(1)
    else:
        observe(1)
    observe(x > 1)


@model
def drawn(x: Secret = uniform(range(4))):
    n = 0
    if x > 0:
        n = uniform(range(2))
    if flip(1, 3):
        n = 1
    observe(n == 1)


def helper(x):
    n = 0
    if x == 1:
        n = 1
    return n


@model
def calls(x: Secret = uniform(range(4))):
    observe(helper(x) == 2)


@model
def listed(x: Secret = [uniform(range(2))] * 2):
    for i in range(2):
        observe(x[i])
    if x[0] == x[1]:
        pass


# Each guess is right for one value of each class of what is kept, all values being equally likely.
FLOORS = [
    (early, Fraction(2, 27), "if hide(same):"),
    (leaves, Fraction(2, 27), "if hide(pin[i] != guess[i]):"),
    (down, Fraction(2, 4), "elif hide(y == 2):"),  # n is above 0 where x is 2 or 3
    (within, Fraction(2, 4), "if m.hide(on_2):"),  # n ends at 3 where x is 2 or 3
]


@pytest.mark.parametrize("found, value, form", FLOORS)
def test_a_model_is_repaired_in_python(found: m.Model, value: Fraction, form: str) -> None:
    repaired = repair(found)
    best = repaired.best
    assert best is not None and best.at_floor and posterior_vulnerability(best.hyper) == value < posterior_vulnerability(repaired.floor.hyper)
    assert best.model is not None and f"+{' ' * 4}" in best.diff and form in best.diff
    assert best.model.hyper_of_runs() == best.hyper == best.program.hyper()
    assert best.certificate is not None and check(best.certificate, found, best.model).accepted


def test_lines_are_those_of_python() -> None:
    best = repair(early).best
    line = line_of(early.function, "if same:  # what is seen")
    assert best is not None and best.lines == (line,) and best.needed == {(line, 9): Fraction(4, 27)}
    assert repair(early.program(guess=(2, 2, 2)), line_of(early.function, "observe(same)")).best is not None
    with pytest.raises(BadPurpose, match=f"no observation begins in line {line}"):
        repair(early, line)


def test_the_import_is_added_where_it_is_missing_and_only_there() -> None:
    for found, is_added in ((early, True), (within, False)):
        best = repair(found).best
        assert best is not None and ("+from kuifje.model import hide\n" in best.diff) == is_added


def test_comments_stay() -> None:
    best = repair(early).best
    assert best is not None and "+        if hide(same):  # what is seen\n" in best.diff
    loop = repair(down).best
    assert loop is not None and "+        on = on and (y > 0)\n" in loop.diff and "+        if hide(on):  # counts\n" in loop.diff


@pytest.mark.parametrize(
    "found, value, text", [(shown, Fraction(2, 4), "observe(x > 1)"), (drawn, None, "observe(n == 1)"), (calls, Fraction(1, 4), "observe(")]
)
def test_what_has_no_form_in_python_is_shown_as_a_text(found: m.Model, value: Fraction | None, text: str) -> None:
    """Observations and draws in branches, and branches of a function that is called: the lines are Python's, and the diff is the text's."""
    best = repair(found, line_of(found.function, text)).best
    assert best is not None and best.at_floor and best.model is None
    assert f"--- {found.name}.kf" in best.diff and "yes" in best.program.text.decode()
    assert value is None or posterior_vulnerability(best.hyper) == value
    assert line_of(helper if found is calls else found.function, "if ") in best.lines


def test_what_a_loop_over_constants_shows_is_a_sequence() -> None:
    """Both entries are kept, in their order: all of the secret."""
    line = line_of(listed.function, "observe(x[i])")
    found = floor(listed, line)
    assert found.is_reached and found.repeated == {line: 2} and posterior_vulnerability(found.floor) == 1


def test_a_model_with_free_variables() -> None:
    most = 3

    @model
    def inner(x: Secret = uniform(range(4))):
        n = 0
        if x < most:
            n = 1
        observe(n == 2)

    best = repair(inner).best
    assert best is not None and best.at_floor and best.model is not None and "+        if hide(x < most):" in best.diff
    assert best.model.hyper_of_runs() == best.hyper


def test_hints_at_lines_of_compiled_code() -> None:
    parting = Parting(("0", "1"), ("to line 5", "to line 6"), (0, 1))
    one = Told(Place("check.c", 4), Interval(1, 1), 1, ("control flow", "load"), parting, 3, Fraction(1, 2))
    two = Told(Place("check.c", 9), Interval(0, 1), 1, ("division", "operand of a division"), parting, 2, Fraction(1, 2))
    found = code_hints(Lines((one, two), Interval(1, 2), 4, None, True, 1))
    assert [(str(hint.place), hint.left, len(hint.patterns)) for hint in found] == [("check.c:4", 3, 2), ("check.c:9", 2, 1)]
    assert "select by a mask" in str(found[0]) and str(found[1]).startswith("check.c:9: how long a division takes")


def test_a_model_in_a_file_by_the_commands(tmp_path: Path) -> None:
    """The first of two letters that is wrong is seen; of nine words two classes are left by what is kept."""
    testing = pytest.importorskip("click.testing")
    from kuifje.lab import main

    file = tmp_path / "words.py"
    file.write_text(
        "from kuifje.model import Secret, model, observe, uniform\n\n\n@model\ndef early(word: Secret = [uniform(range(3))] * 2):\n"
        "    same = True\n    for i in range(2):\n        if same:\n            same = word[i] == 0\n    observe(same)\n"
    )
    floors = testing.CliRunner().invoke(main, ["floor", f"{file}:early", "--keep", "10"])
    said = "one guess is right with 1/3, before a run with 1/9, and with 2/9 by what is kept alone\nabove the floor by 1/9\n"
    assert (floors.exit_code, floors.output) == (1, f"{file}:early: {said}")
    repaired = testing.CliRunner().invoke(main, ["repair", f"{file}:early", "--keep", "10"])
    assert repaired.exit_code == 0 and "repair 1 (structure): one guess is right with 2/9; at the floor" in repaired.output
    assert "-        if same:\n+        if hide(same):\n" in repaired.output
    assert testing.CliRunner().invoke(main, ["floor", f"{file}:late", "--keep", "10"]).exit_code == 2
