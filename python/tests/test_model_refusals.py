"""What can't be translated is refused at its line, with the reason and a form that works."""

import pytest
from random_models import made

from kuifje.model import BadModel

HEAD = """from itertools import permutations

from kuifje.model import *


def recursive(x):
    return recursive(x - 1) if x else 0


def looping(x):
    while x > 0:
        x -= 1
    return x


def many(*values):
    return values[0]


def maybe(x):
    if x > 1:
        return x


def changes(cells):
    cells = [1, 2]
    observe(cells)


def lengths(x):
    if x:
        return [x]
    return [0]


@model
def it(x: Secret = uniform(range(4)), pair: Secret = uniform([(0, 1), (1, 0)]), cells: Noise = [uniform(range(3))] * 2):
"""
AT = HEAD.count("\n") + 1
BODIES = [
    # expressions
    (["d = {x: 1}"], 1, "a dictionary can't be translated"),
    (["observe((y := x))"], 1, "an assignment in an expression can't be translated"),
    (["y = f'{x}'"], 1, "a text can't be translated"),
    (["observe(x / 2)"], 1, "numbers are whole"),
    (["observe(x ** x)"], 1, "numbers are whole"),
    (["observe(0.5)"], 1, "0.5 is no truth, whole number, tuple or set"),
    (["observe(None)"], 1, "None is no truth"),
    (["observe((x,))"], 1, "a tuple has two or more parts"),
    (["observe(nothing)"], 1, "nothing isn't defined"),
    (["if x > 1:", "    y = x", "observe(y)"], 3, "this may have no value here"),
    (["if x > 1:", "    y = 1", "observe(y)"], 3, "y may have no value here, or one of several"),
    (["for i in range(2):", "    if x > i:", "        k = i", "observe(k)"], 4, "k may have no value here, or one of several"),
    (["observe(cells + 1)"], 1, "an array has no such operator"),
    (["observe(x is pair)"], 1, "whether two names are one object"),
    (["observe(cells == (1, 2))"], 1, "a list never equals a tuple"),
    (["observe((0, 1) if x else (1, 2, 3))"], 1, "both values of a conditional expression"),
    (["for i in range(x):", "    pass"], 1, "how many numbers these are isn't a constant"),
    (["for i in {x, 1}:", "    pass"], 1, "how many entries there are isn't a constant"),
    (["observe(sum(c for c in cells if c > x))"], 1, "which entries there are isn't a constant"),
    (["for a, b in [1, 2]:", "    pass"], 1, "how many entries there are"),
    (["a, b = [x, 1, 2]"], 1, "3 values for 2 names"),
    (["observe({5: 1}[x])"], 1, "the keys of a table are"),
    (["observe(x[0])"], 1, "only arrays, tuples and constant tables have an index"),
    (["observe(cells[2])"], 1, "there are 2 entries, and none at 2"),
    (["observe([(0, 1), (1, 2, 3)][x % 2])"], 1, "the entries have different lengths"),
    (["observe(cells[:x])"], 1, "a part of an array has constant bounds"),
    (["observe(cells[x])"], 1, "the index may go from 0 to 3, and there are 2 entries"),
    (["observe(cells[x - 2])"], 1, "the index may go from -2 to 1"),
    (["cells[x] = 1"], 1, "the index may go from 0 to 3"),
    (["y = observe(x)"], 1, "observe can't stand in an expression"),
    (["cells.append(x)"], 1, "this call does nothing"),
    (["observe(cells.index(x))"], 1, "this function isn't known"),
    (["observe(divmod(x, 2))"], 1, "this call can't be translated"),
    (["observe(min([]))"], 1, "min of nothing"),
    (["observe(x in cells[0:0])", "observe(len([][0]))"], 2, "there are 0 entries"),
    (["observe(1 + (True if x else 2))"], 1, "one value is a truth and the other a number"),
    (["observe(x and 2)"], 1, "and and or give one of their values"),
    (["observe(x < {1})"], 1, "this operator has no meaning for these values"),
    (["observe(pair + (x, 1) < (1, 2))"], 1, "a number is wanted here"),
    (["observe(x // (x - 1))"], 1, "the divisor may be below 0"),
    (["observe(x >> (1 - x))"], 1, "the shift may go from -2 to 1"),
    (["observe(9223372036854775808 + x)"], 1, "9223372036854775808 is no number of 64 bits"),
    # draws
    (["y = flip(x, 4)"], 1, "the probability of flip is a constant"),
    (["y = flip(5, 4)"], 1, "5/4 is no probability"),
    (["y = choose((x, 1, 2))"], 1, "a case of choose is a value and its weight"),
    (["y = choose({x: 1, 0: 2})"], 1, "a dictionary keeps one weight of equal keys"),
    (["y = choose({0: x, 0: 2})"], 1, "a dictionary keeps one weight of equal keys"),
    (["y = uniform(range(0, x, 2))"], 1, "this range has a step"),
    (["y = flip(1, denominator=4)"], 1, "a draw has no arguments by name"),
    (["y = looping(**{'x': x})"], 1, "arguments can't be given by a dictionary"),
    (["y = max(x, x > 1)"], 1, "one value is a truth and the other a number"),
    (["y = uniform([])"], 1, "there is no value with a weight above 0"),
    (["y = uniform(x)"], 1, "uniform has a set, a range or a list"),
    (["y = choose((x, 1), (x == 1, 1))"], 1, "this value has another kind than one before"),
    (["observe(x > 1 and flip(1, 2))"], 1, "a draw stands in a part of an expression that isn't always evaluated"),
    # branches and loops
    (["if hide(x > 1):", "    observe(x)"], 2, "a hidden branch only assigns"),
    (["if hide(x > 1):", "    y = flip(1, 2)"], 2, "a hidden branch only assigns"),
    (["if hide(x > 1):", "    while x > 0:", "        x -= 1"], 2, "a hidden branch only assigns"),
    (["if hide(x > 1):", "    if x > 2:", "        x -= 1"], 2, "an if in a hidden branch would be seen"),
    (["while x > 0:", "    break"], 1, "a while loop has no break"),
    (["while x > 0:", "    x -= 1", "else:", "    x = 1"], 1, "a while loop has no else"),
    (["while flip(1, 2) and x > 0:", "    x -= 1"], 1, "a draw stands in a part"),
    (["for c in cells:", "    cells[0] = 1", "    cells[1] = 2", "    observe(c)"], 1, "a variable in this value has changed since"),
    # statements
    (["try:", "    x = 1", "finally:", "    x = 2"], 1, "a statement of this kind (try) can't be translated"),
    (["assert x"], 1, "a statement of this kind (assert)"),
    (["observe(x, 1)"], 1, "observe has one argument"),
    (["print(x)"], 1, "this call does nothing"),
    (["x.y = 1"], 1, "this can't be assigned to"),
    (["pair[0] = 1"], 1, "only entries of an array can be assigned"),
    (["cells[0:1] = [1]"], 1, "parts of an array can't be assigned at once"),
    (["cells[5] = 1"], 1, "there are 2 entries, and none at 5"),
    (["other = cells", "other[0] = 1"], 1, "two names would stand for one array"),
    (["rows = [cells, [x, 1]]"], 1, "two names would stand for one array"),
    (["pairs = (cells, 1)"], 1, "two names would stand for one array"),
    (["a = [x, 1]", "b = a if x > 1 else cells"], 2, "two names would stand for one array"),
    (["g = [[x, 1], [1, x]]", "r = g[x % 2]"], 2, "two names would stand for one array"),
    (["g = [[x, 1], [1, x]]", "r = list(g)"], 2, "two names would stand for one array"),
    (["g = [[x, 1], [1, x]]", "g[0] = cells"], 2, "two names would stand for one array"),
    (["a, b = cells, [x, 1]"], 1, "two names would stand for one array"),
    (["b = [x, 1]", "b, cells = cells, b"], 2, "two names would stand for one array"),
    (["s = {x, 1}", "t = s", "s |= {2}"], 3, "a set would be changed in place"),
    (["a = b = [x, 1]"], 1, "two names would stand for one array"),
    (["cells = [1, 2, 3]"], 1, "cells has another length here"),
    (["cells = x"], 1, "cells is an array, and this is none"),
    (["y = (1, x)", "y = x"], 2, "y is another kind of tuple here than before, or none"),
    (["y = x", "y = x > 1"], 2, "this value has another kind than one before"),
    (["y: range(0, 4, 2) = 0"], 1, "a range of values has no step"),
    (["y: range(3) = 5"], 1, "this value isn't in range(0, 3)"),
    (["return x"], 1, "a model gives nothing back"),
    # functions
    (["observe(recursive(x))"], 1, "recursive calls itself"),
    (["observe(x > 1 and looping(x) == 0)"], 1, "looping has statements"),
    (["observe(many(x))"], 1, "many has *values"),
    (["observe(looping())"], 1, "looping: missing a required argument"),
    (["observe(maybe(x) + 1)"], 1, "maybe doesn't give back one value"),
    (["observe(sum(lengths(x)))"], 1, "lengths doesn't give back one value"),
    (["changes(cells)"], 1, "cells is an array, and changes assigns it as a whole"),
    # limits
    (["y = x * 500000"], 1, "y may go from 0 to 1500000, and numbers of variables stay within 1000000 of 0"),
    (["y = x * 30000"], 1, "y may have 90001 values, and 65536 are allowed"),
    (["n = 0", "while x > 0:", "    n += 1000"], 3, "n may have"),
    (["s = {x, 9}", "s = s | {20}"], 2, "the elements of s may have 21 values, and 16 are allowed"),
    (["y = " + " + ".join(["x"] * 501)], 1, "this takes an expression of 1001 nodes, and 1000 are allowed"),
    (["z = 0"] + [f"y{i} = x + {i}" for i in range(30)], 28, "y26 is one variable too many"),
    (["for i in range(70):", "    if flip(1, 2):", "        break"], 2, "more than 64 brackets would stand open"),
    ([f"{'y' * 900} = x + 1", "for i in range(1200):", f"    observe({'y' * 900})"], 3, "the text passes 1048576 bytes"),
    ([f"a{i} = x * 20000" for i in range(5)], 5, "all variables together have more than 2^63 values"),
]


def refusal(body):
    with pytest.raises(BadModel) as caught:
        made(HEAD + "".join(f"    {line}\n" for line in body)).text()
    return caught.value


@pytest.mark.parametrize("body, line, reason", BODIES, ids=[body[0][:40] for body, _, _ in BODIES])
def test_what_can_not_be_translated(body, line, reason):
    found = refusal(body)
    while (place := found.place).function != "it" and place.caller is not None:
        found.place = place.caller
    assert reason in found.reason and found.place.line == AT + line - 1, found
    assert found.form and str(found).splitlines()[-1] == found.form and "^" in found.place.caret


DECLARATIONS = [
    ("x=uniform(range(4))", "x isn't declared"),
    ("x: Secret", "x has no distribution"),
    ("x: Secret = 3", "x has no distribution"),
    ("x: Secret = [uniform(range(4)), 1]", "x has no distribution"),
    ("x: Noise = uniform(range(4))", "a model has a secret"),
    ("*x: Secret", "x isn't declared"),
    ("x: Secret = lambda y: y", "x is drawn by a function of y, which is no earlier parameter"),
]


@pytest.mark.parametrize("parameter, reason", DECLARATIONS)
def test_parameters_that_are_none(parameter, reason):
    with pytest.raises(BadModel) as caught:
        made(f"from kuifje.model import *\n\n\n@model\ndef it({parameter}):\n    observe(1)\n")
    assert reason in caught.value.reason and caught.value.place.line == 5


def test_a_prior_with_statements():
    source = "from kuifje.model import *\n\ndef drawn(y):\n    z = y\n    return z\n\n"
    source += "@model\ndef it(y: Noise = flip(1, 2), x: Secret = drawn):\n    observe(x)\n"
    with pytest.raises(BadModel) as caught:
        made(source).text()
    assert "drawn has statements" in caught.value.reason and caught.value.place.line == 8


def test_a_function_without_a_source():
    names = {}
    with pytest.raises(BadModel, match="the source of it isn't there"):
        exec("from kuifje.model import *\n@model\ndef it(x: Secret = flip(1, 2)):\n    observe(x)\n", names)


def test_an_error_says_where_what_and_what_works():
    body = ["y = 1", "observe(x / 2)"]
    found = refusal(body)
    lines = str(found).splitlines()
    assert lines[0].endswith(f":{AT + 1}:13: numbers are whole, and this operator isn't one of the language's")
    assert lines[1:] == ["    observe(x / 2)", "            ^", "write a // b"]


def test_an_error_in_a_function_says_what_calls_it():
    source = "from kuifje.model import *\n\ndef half(x):\n    return x / 2\n\n@model\ndef it(x: Secret = uniform(range(4))):\n    observe(half(x))\n"
    with pytest.raises(BadModel) as caught:
        made(source).text()
    assert [line.split(":")[-2] for line in str(caught.value).splitlines() if line.startswith(("<", "called"))] == ["12", "8"]
    assert str(caught.value).splitlines()[3].startswith("called at ") and caught.value.place.line == 4
