"""Each form that may stand in a model: its hyper-distribution is that of the function's runs in Python, and a number that was worked out by hand."""

from fractions import Fraction
from itertools import permutations
from typing import Annotated

import pytest
from random_models import made

from kuifje import Refusal
from kuifje.model import BadModel, EndlessLoop, Model, Noise, Public, Secret, choose, flip, hide, model, observe, one_of, uniform

pytestmark = pytest.mark.usefixtures("built")
TABLE = [3, 1, 0, 2]
LONG = [(i * 37 + 11) % 256 for i in range(256)]


def agrees(asked: Model, posterior: str | int, **public: object) -> None:
    """The program's answer is that of the runs, and its posterior Bayes vulnerability this one."""
    program = asked.program(**public)
    assert str(program.hyper()) == str(asked.hyper_of_runs(**public)), asked.text(**public)
    assert program.leak().posterior_vulnerability == Fraction(posterior)
    assert sum(run.probability for run in asked.runs(**public)) == 1


def test_an_if_is_seen_and_a_hidden_one_is_not():
    @model
    def seen(x: Secret = uniform(range(4))):
        y = 0
        if x > 2:
            y = 1
        observe(y == 2)

    @model
    def hidden(x: Secret = uniform(range(4))):
        y = 0
        if hide(x > 2):
            y = 1
        observe(y == 2)

    agrees(seen, "1/2")
    agrees(hidden, "1/4")


def test_hidden_branches_assign_one_after_the_other():
    """x = 0 gives (1, 0), 1 gives (2, 1), 2 gives (2, 5) and 3 gives (3, 4): all differ."""

    @model
    def it(x: Secret = uniform(range(4))):
        a, b = x, 0
        if hide(x > 1):
            b = a + 3
            if hide(b == 5):
                a = 2
            else:
                a, b = 3, 4
            b = b if a == 2 else 4
        else:
            a += 1
            b = a - 1
        observe((a, b))

    agrees(it, 1)


def test_while_and_arrays_by_variables():
    """Two tries at one of nine: found at the first, found at the second, or not."""

    @model
    def it(pin: Secret = [uniform(range(3))] * 2):
        guess, tries = [0, 0], 0
        while tries < 2 and pin != guess:
            i = tries
            guess[i] = (guess[i] + 1) % 3
            tries += 1
        observe(pin[tries % 2] == guess[tries % 2])

    agrees(it, "4/9")


def test_break_continue_else_and_return():
    """The bits of x from below: it breaks at the first 1, and then shows how many there were before."""

    @model
    def it(x: Secret = uniform(range(8))):
        zeros = 0
        for i in range(3):
            if x >> i & 1:
                break
            zeros += 1
        else:
            observe(-1)
            return
        for i in range(3):
            if i == 1:
                continue
            observe(zeros == i)

    agrees(it, "1/2")


def test_what_stands_after_a_loop_whose_else_returns():
    """Only where the loop breaks, at x = 1 or 2, the parity is seen: 0 and 3 look alike."""

    @model
    def it(x: Secret = uniform(range(4)), y: Noise = flip(1, 2)):
        for i in range(1, 3):
            if hide(x == i):
                y = True
        for i in range(2):
            if y and 0 < x < 3:
                break
        else:
            return
        observe(x % 2)

    agrees(it, "3/4")


def early(a, b):
    for x, y in zip(a, b):
        if x != y:
            return False
    return True


def double(x):
    return 2 * x


def bits(x):
    """How many bits are 1."""
    found = 0
    while x > 0:
        found += x & 1
        x >>= 1
    return found


def test_functions_are_inlined():
    """Early exit at (1, 2): wrong at the first, at the second, or right. The turns of a loop are seen, and with them how long x is."""

    @model
    def it(x: Secret = uniform(range(4)), y: Secret = uniform(range(4))):
        observe(early((x, y), (1, 2)))

    @model
    def loops(x: Secret = uniform(range(4))):
        observe(bits(double(x) + 1) + bits(x))

    agrees(it, "3/16")
    agrees(loops, 1)


def test_bits_on_ranges_of_any_sign():
    @model
    def it(x: Secret = uniform(range(8)), y: Secret = uniform(range(-4, 5))):
        observe((x ^ y, x & y, x | y))
        observe((~y << 2 >> 1, 1 << (x & 3), x >> (y & 1), y & -3, y | 5, y ^ -2))

    agrees(it, 1)


def test_truths_with_bits():
    @model
    def it(x: Secret = flip(1, 2), y: Secret = flip(1, 2)):
        observe(x ^ y)
        observe(x & y | (not x and not y))

    agrees(it, "1/2")


def test_tables_short_and_long():
    """Of the long table the upper half of the second entry is seen: 37 i + 11 is odd times i, so each half has as many."""

    @model
    def short(x: Secret = uniform(range(4))):
        observe(TABLE[x] // 2)

    @model
    def long(x: Secret = uniform(range(256))):
        y = LONG[x ^ 17]
        observe((LONG[y ^ 99] // 128, y < 1000))

    agrees(short, "1/2")
    agrees(long, "1/128")


def test_indices_that_leave_entries_out():
    """Only the first and the last entry are looked at: whether x is above 2, and whether it is above 1."""

    @model
    def it(x: Secret = uniform(range(4))):
        cells, i = [x, 5, x + 1], 0
        while i < 3:
            observe(cells[i] > 2)
            cells[i] = 0
            i += 2
        observe(cells)

    agrees(it, "3/4")


def test_draws():
    """A bit that is shown with probability 3/4 as it is, and a fair coin that only shows whether another one is the same."""

    @model
    def it(x: Secret = uniform(range(2)), noise: Noise = flip(1, 2)):
        observe(choose((x, 3), (1 - x, 1)))
        twice = [flip(1, 2)] * 2
        apart = [flip(1, 2) for _ in range(2)]
        observe((twice[0] == twice[1], apart[0] == apart[1]))
        observe(uniform({0, 1} - {x}) == 1 - x)
        if flip(1, 3):
            observe(noise)
        observe(uniform(range(x * 0 + 2)))

    agrees(it, "3/4")


def test_secrets_that_depend_and_tuples():
    """Where x is 0 so is y, else y is x or 0; the layout is a tuple, and shows nothing of which is which."""

    @model
    def it(x: Secret = uniform(range(2)), y: Secret = lambda x: choose((x, 1), (0, 1)), layout: Noise = uniform(permutations(range(2)))):
        observe(layout[x] == layout[y])

    agrees(it, "3/4")


def drawn_by(x):
    return uniform({x, 0})


def test_secrets_that_a_named_function_draws():
    @model
    def it(x: Noise = uniform(range(2)), y: Secret = drawn_by):
        observe(x * 0)

    agrees(it, "3/4")


def test_sets():
    """Of the nine pairs ({0, 2}, 0) and ({0, 2}, 2) alone look alike: both observations in between are the same."""

    @model
    def it(s: Secret = uniform([frozenset(), frozenset({0}), frozenset({0, 2})]), x: Secret = uniform(range(3))):
        more = s | {x}
        observe(len(more) == 2 and x in s)
        observe((more - {0} <= {1}, bool(s & {2}), s ^ {1} == {0, 1}))
        empty = set()
        if hide(x == 1):
            empty = {x}
        observe(empty)

    agrees(it, "8/9")


def test_comprehensions_and_sums():
    """Of the nine pairs (0, 1) and (1, 2) alone look alike: both are turned to two equal digits above 0."""

    @model
    def it(digits: Secret = [uniform(range(3))] * 2):
        turned = [(d + i) % 3 for i, d in enumerate(reversed(digits))]
        observe(sum(d > 0 for d in turned) * 10 + max(turned) - min(turned))
        observe(all(d == 0 for d in digits) or any(x == y for x, y in zip(digits, turned)))
        a, b = turned
        a, b = b, a
        observe(set([a, b]) == {0, 1})

    agrees(it, "8/9")


def test_public_inputs_are_constants():
    @model
    def it(x: Secret = uniform(range(4)), guess: Public = one_of(range(4)), both: Public = False, table: Public = (0, 1, 0, 1)):
        if both:
            observe(x)
        else:
            observe(table[x] == table[guess])

    agrees(it, 1, guess=0, both=True)
    agrees(it, "1/2", guess=3)
    assert list(it.inputs()) == [{"guess": g, "both": False, "table": (0, 1, 0, 1)} for g in range(4)]
    for public, said in (
        ({}, "needs the public input guess"),
        ({"guess": 4}, "isn't one of the values"),
        ({"guess": 0, "x": 1}, "no public input x"),
    ):
        with pytest.raises(TypeError, match=said):
            it.text(**public)


def test_a_public_array_may_be_assigned():
    @model
    def it(x: Secret = uniform(range(4)), guess: Public = [one_of(range(2))] * 2):
        guess[0] += x
        observe(guess)

    agrees(it, 1, guess=[1, 0])
    assert len(list(it.inputs())) == 4


def test_annotations_give_ranges():
    """Where x is 1 it stays so, and where it is 0 it is 0 or 2."""

    @model
    def it(x: Secret = uniform(range(2))):
        n: Annotated[int, range(9)] = 0
        m: range(3) = x  # type: ignore[valid-type]
        coin = flip(1, 2)
        while n < 8 and coin:
            n += 1
            m = 2 - m
            coin = flip(1, 2)
        observe(m)

    assert "var n : 0..8 := 0;" in it.text() and "var m : 0..2 := x;" in it.text()
    agrees(it, 1)


def test_a_value_outside_of_its_range_is_refused_at_its_python_line(proved):
    it = made(
        "from kuifje.model import *\n" "@model\n" "def it(x: Secret = uniform(range(4))):\n" "    n: range(3) = 0\n" "    n = x\n" "    observe(n)\n"
    )
    with pytest.raises(Refusal) as caught:
        it.program().hyper()
    assert (caught.value.kind, caught.value.line, caught.value.source) == ("OutOfRange", 5, "    n = x")


def test_a_division_by_0_is_refused_at_its_python_line(proved):
    it = made("from kuifje.model import *\n@model\ndef it(x: Secret = uniform(range(4))):\n    observe(1)\n    observe(4 // x)\n")
    with pytest.raises(Refusal) as caught:
        it.program().hyper()
    assert (caught.value.kind, caught.value.line) == ("DivZero", 5)
    with pytest.raises(ZeroDivisionError):
        list(it.runs())


def test_a_loop_without_an_end_is_refused_at_its_python_line(proved):
    """Both by the program and by Python, after as many turns as a loop may take."""
    it = made("from kuifje.model import *\n@model(turns=5)\ndef it(x: Secret = flip(1, 2)):\n    while flip(1, 2):\n        observe(x)\n")
    with pytest.raises(Refusal) as caught:
        it.program().hyper()
    assert (caught.value.kind, caught.value.line) == ("LoopBound", 4)


def test_a_loop_without_an_end_ends_in_python():
    @model(turns=5)
    def it(x: Secret = flip(1, 2)):
        while flip(1, 2):
            observe(x)

    with pytest.raises(EndlessLoop, match="more than 5 turns"):
        list(it.runs())


def test_public_sets_and_arrays_of_arrays():
    """What is seen of 0 and 4 is the same, and of 1 and 2."""

    @model
    def it(x: Secret = uniform(range(6)), some: Public = frozenset({1, 2}), grid: Public = [[0, 1, 1], [1, 0, 2]]):
        observe(x in some)
        observe(grid[x // 3][x % 3])

    agrees(it, "2/3")


def test_lines_of_the_text_come_from_lines_of_python():
    source = (
        "from kuifje.model import *\n\n"
        "def twice(x):\n    y = x + x\n    observe(y)\n\n"
        "@model\ndef it(x: Secret = uniform(range(4))):\n    if x > 1:\n        twice(x)\n    observe(x % 2)\n"
    )
    it = made(source)
    found = it.translation()
    lines = dict(zip(found.text.splitlines(), found.lines))
    assert [(text.split("  #")[0].strip(), place.line) for text, place in lines.items() if not text.startswith("#")] == [
        ("var x : 0..3 := uniform 0..3;", 8),
        ("var twice_y : 4..6 := 4;", 4),
        ("about old x;", 8),
        ("if x > 1 {", 9),
        ("twice_y := x + x;", 4),
        ("observe twice_y;", 5),
        ("} else {", 9),
        ("skip;", 9),
        ("}", 9),
        ("observe x mod 2;", 11),
    ]
    place = next(place for text, place in lines.items() if "observe twice_y" in text)
    assert place.function == "twice" and place.caller is not None and place.caller.line == 10
    assert [place.line for place in found.statements] == [9, 11]
    assert [(place.line, line.inners) for place, line in it.blame()] == [(9, 2), (11, 3)]
    lines = [(place.line, silent.inners, silent.posterior) for place, silent in it.lines()]
    assert lines == [(9, 2, Fraction(1, 2)), (5, 4, 1), (11, 3, Fraction(3, 4))]
    assert [silent.posterior for _, silent in it.lines("guessing")] == [Fraction(3, 2), 1, Fraction(5, 4)]
    assert it.quiet(9, 10) == it.program().quiet(0, 1) and len(it.quiet(11, 11).inners) == 3
    with pytest.raises(ValueError, match="no statement"):
        it.quiet(3, 4)


def test_refusals_are_placed_in_python():
    it = made("from kuifje.model import *\n@model\ndef it(x: Secret = uniform(range(4))):\n    y = x\n    y += 1\n    observe(y)\n")
    found = it.translation()
    line = found.text.splitlines().index("observe y;  # 6") + 1
    placed = found.placed(Refusal(6, "DivZero", "it.kf", line, 9, "observe y;  # 6"))
    assert (placed.line, placed.column, placed.source, placed.kind) == (6, 5, "    observe(y)", "DivZero")
    assert placed.text.endswith(":6:5: DivZero") and placed.caret == "    observe(y)\n    ^"
    assert found.place(line) == found.lines[line - 1] and found.placed(Refusal(12, "want of memory")) == Refusal(12, "want of memory")
    for wrong in (0, len(found.lines) + 1):
        with pytest.raises(IndexError):
            found.place(wrong)


def test_runs_have_their_lines():
    it = made(
        "from kuifje.model import *\n@model\ndef it(x: Secret = uniform(range(2)), day: Public = 3):\n"
        "    for i in range(day):\n        if i == 1:\n            observe(x)\n    while x > 0:\n        x -= 1\n"
    )
    runs = list(it.runs())
    assert [run.secret for run in runs] == [0, 1] and [run.probability for run in runs] == [Fraction(1, 2)] * 2
    assert [(seen.place.line, seen.value, seen.guard) for seen in runs[1].trace] == [(6, 1, False), (7, True, True), (7, False, True)]


def test_the_question_is_about_the_secret_as_it_was():
    @model
    def it(pin: Secret = uniform(range(4))):
        observe(pin)
        pin = 0

    assert it.program().question.startswith("What an observer learns about pin, as it was")
    agrees(it, 1)


def test_a_model_without_a_secret_is_none():
    with pytest.raises(BadModel, match="a model has a secret"):

        @model
        def it(x: Noise = uniform(range(4))):
            observe(x)


def test_draws_outside_of_a_model():
    assert uniform([1, 1, 0]).weights == {0: 1, 1: 2} and flip(Fraction(1, 5)).weights == {False: 4, True: 1}
    assert choose({0: 9, 1: 3}).weights == {0: 3, 1: 1} and one_of({2, 1}).values == (1, 2)
    for work in (lambda: flip(3, 2), lambda: uniform([]), lambda: choose((0, -1))):
        with pytest.raises(ValueError):
            work()
    for work in (lambda: uniform([0.5]), lambda: uniform([0, True]), lambda: choose((0, 0.5)), lambda: uniform(["a"])):
        with pytest.raises(TypeError):
            work()
    for work in (lambda: observe(1), lambda: hide(True)):
        with pytest.raises(RuntimeError):
            work()
