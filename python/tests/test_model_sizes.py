"""What is huge is refused at its line by the number that is allowed, before it is a list, a text or an hour."""

import time
from http import HTTPStatus
from itertools import count, cycle, permutations

import pytest
from random_models import made

from kuifje.model import BadModel, choose, one_of, uniform
from kuifje.model import ranges

HEAD = "from collections import Counter\nfrom itertools import count\nfrom kuifje.model import *\n"
MANY = 10**6
SECONDS = 20  # of the processor, at most, on a machine that is shared; each takes about one


@pytest.fixture(autouse=True)
def quick():
    before = time.process_time()
    yield
    assert time.process_time() - before < SECONDS


def model_of(body, head="", parameters="x: Secret = uniform(range(4))"):
    return made(HEAD + head + f"@model\ndef it({parameters}):\n" + "".join(f"    {line}\n" for line in body))


@pytest.mark.parametrize(
    "word, work, reason",
    [
        ("uniform", lambda: uniform(range(10**12)), "there are 1000000000000 values, and 65536 are allowed"),
        ("uniform", lambda: uniform(range(10**30)), f"there are {10**30} values, and 65536 are allowed"),
        ("uniform", lambda: uniform(range(5, -(10**7), -1)), "there are 10000005 values, and 65536 are allowed"),
        ("uniform", lambda: uniform(count()), "there are more than 65536 values, and 65536 are allowed"),
        ("uniform", lambda: uniform(permutations(range(12))), "there are more than 65536 values"),
        ("uniform", lambda: uniform(cycle([0, 1])), "there are more than 1048576 values with weights"),
        ("uniform", lambda: uniform([tuple(range(MANY))]), "a value has 1000000 parts, and 65536 are allowed"),
        ("choose", lambda: choose({i: 1 for i in range(MANY)}), "there are more than 65536 values"),
        ("one_of", lambda: one_of(range(10**12)), "there are 1000000000000 values, and 65536 are allowed"),
        ("one_of", lambda: one_of(count()), "there are more than 65536 values"),
    ],
)
def test_values_of_a_distribution(word, work, reason):
    """The place is that of the call."""
    with pytest.raises(BadModel) as caught:
        work()
    assert caught.value.reason.startswith(f"{word}: {reason}"), caught.value
    assert caught.value.place.file == __file__ and f"{word}(" in caught.value.place.source[caught.value.place.column - 1 :]


def test_as_many_values_as_are_allowed():
    assert len(uniform(range(65_536)).weights) == 65_536 == len(one_of(range(65_536)).values)
    assert uniform([0, 1, 1] * 200_000).weights == {0: 1, 1: 2}
    assert choose({i: i < 2 for i in range(100_000)}).weights == {0: 1, 1: 1}
    assert choose((0, 2**130), (1, 2**130)).weights == {0: 1, 1: 1}
    with pytest.raises(ValueError, match="the weights sum to more than"):
        choose((0, 2**127 - 1), (1, 1))


BODIES = [
    (["for i in range(10**8):", "    observe(x)"], 1, "there are 100000000 entries, and 65536 are allowed"),
    (["for i in range(10**30):", "    observe(x)"], 1, f"there are {10**30} entries, and 65536 are allowed"),
    (["for i in count():", "    observe(x)"], 1, "there are more than 65536 entries"),
    (["for i in range(10**4):", "    for j in range(10**4):", "        observe(x)"], 3, "the text passes 1048576 bytes"),
    (["for i in range(10**4):", "    for j in range(10**4):", "        pass"], 2, "loops are unrolled over more than 131072 turns"),
    (["for i in range(40):", "    if flip(1, 2):", "        continue", "    if flip(1, 2):", "        break"], 4, "the text passes 1048576 bytes"),
    (["for i in range(50000):", "    if x == i:", "        break"], 0, "branches and expressions stand too deep in each other"),
    (["observe(sum(range(10**9)) + x)"], 1, "there are 1000000000 entries, and 131072 are allowed"),
    (["observe(sum([i % 7 for i in range(10**5) for j in range(10**5)]))"], 1, "there are 10000000000 entries"),
    (["observe(sum([x for i in range(10**3) for j in range(10**3)]))"], 1, "loops are unrolled over more than 131072 turns"),
    (["observe(x in range(0, 10**12, 2))"], 1, "there are 500000000000 entries"),
    (["y = [0] * 10**10", "observe(y[x])"], 1, "there are 10000000000 entries, and 65536 are allowed"),
    (["y = [x] * 10**10", "observe(y[x])"], 1, "there are 10000000000 entries, and 65536 are allowed"),
    (["y = [0] * 50000", "y[x] = 1"], 1, "y_4095 is one variable too many: there are more than 4096"),
    (["observe(x + 3 ** (10**9))"], 1, "the number has more than 65536 bits"),
    (["observe(x + (1 << 10**10))"], 1, "the number has more than 65536 bits"),
    (["for a, b in enumerate(range(10**12)):", "    observe(a + x)"], 1, "there are 1000000000000 entries"),
    (["for a in reversed(range(10**12)):", "    observe(a + x)"], 1, "there are 1000000000000 entries"),
    (["observe(uniform(range(10**12)) + x)"], 1, "uniform: there are 1000000000000 values, and 65536 are allowed"),
    (["observe(choose(COUNTS) + x)"], 1, "choose: there are more than 65536 values"),
    (["observe(TABLE[x])"], 1, "there are 1000000 entries, and 65536 are allowed"),
]


@pytest.mark.parametrize("body, line, reason", BODIES, ids=[" ".join(body)[:50] for body, _, _ in BODIES])
def test_bodies(body, line, reason):
    head = f"TABLE = list(range({MANY}))\nCOUNTS = Counter(TABLE)\n"
    with pytest.raises(BadModel) as caught:
        model_of(body, head).text()
    start = HEAD.count("\n") + 4
    assert caught.value.reason.startswith(reason) and caught.value.place.line == start + line, caught.value


def test_ranges_that_are_never_gone_over():
    """A test is two comparisons, and a known index one number."""
    text = model_of(["observe(x in range(1, 10**8))", "observe(range(10**12)[5] + len(range(10**12)) + x)"]).text()
    assert "observe 1 <= x and x <= 99999999;" in text and "observe 1000 * 1000000000 + 5 + x;" in text


def test_loops_in_each_other_whose_ranges_take_too_long(monkeypatch):
    monkeypatch.setattr(ranges, "STEPS", 2_000)
    body = ["n = 0", "while n < 1000:", "    m = 0", "    while m < 1000:", "        m += 1", "    n += 1"]
    with pytest.raises(BadModel, match="loops take more than 2000 steps until it is known how far their variables go"):
        model_of(body).text()


def test_a_loop_of_as_many_turns_as_one_may_take():
    """n goes up by one in each of 1,000 turns, and x by two every time: both ranges are found."""
    text = model_of(["n, y = 0, 0", "while n < 1000:", "    n += 1", "    y = (y + x) % 7", "observe(y)"]).text()
    assert "var n : 0..1000 := 0;" in text and "var y : 0..6 := 0;" in text


def test_parameters():
    for parameters, reason in (
        ("x: Secret = [uniform(range(4))] * 10**6", "x has more than 65536 entries"),
        ("x: Secret = [[[uniform(range(4))] * 1000] * 1000] * 1000", "x has more than 65536 entries"),
        ("x: Secret = flip(1, 2), p: Public = [0] * 10**6", "p has more than 65536 entries"),
    ):
        with pytest.raises(BadModel) as caught:
            model_of(["observe(0)"], parameters=parameters)
        assert caught.value.reason == reason
    with pytest.raises(BadModel, match="x_32 is one variable too many: 32 are allowed"):
        model_of(["observe(0)"], parameters="x: Secret = [uniform(range(4))] * 60000").text()


def test_public_inputs_that_are_huge():
    """They are named in the text's first line by their kind; all that they may be are gone through one by one."""
    asked = model_of(["observe(x in p)"], parameters="x: Secret = uniform(range(4)), p: Public = range(10**12)")
    assert "with p = range(0, 1000000000000)." in asked.text()
    for value in (range(10**30), range(10**5000)):
        with pytest.raises(BadModel, match="is no number of 64 bits"):
            asked.text(p=value)
    assert "with p = a int." in model_of(["observe(x)"], parameters="x: Secret = flip(1, 2), p: Public = 10**5000").text()
    asked = model_of(["observe(x)"], parameters="x: Secret = flip(1, 2), p: Public = [one_of(range(256))] * 8")
    inputs = asked.inputs()
    assert [next(inputs)["p"][-2:] for _ in range(257)][-2:] == [[0, 255], [1, 0]]


def test_whole_numbers_of_other_kinds():
    numpy = pytest.importorskip("numpy")
    assert uniform(numpy.arange(4)).weights == {0: 1, 1: 1, 2: 1, 3: 1} and {type(x) for x in uniform(numpy.arange(4)).weights} == {int}
    assert uniform(numpy.array([[0, 1], [1, 0]])).weights == {(0, 1): 1, (1, 0): 1}
    assert choose((numpy.bool_(True), numpy.int64(3)), (False, 1)).weights == {False: 1, True: 3}
    assert one_of([HTTPStatus.OK, 404]).values == (200, 404)
    with pytest.raises(TypeError, match="0.5 is no truth, whole number, tuple or set"):
        uniform(numpy.array([0.5, 1]))


def test_a_method_of_a_number():
    """The form that is shown does the same: the bit lengths of 0 to 3 are 0, 1, 2 and 2."""
    with pytest.raises(BadModel) as caught:
        model_of(["observe(x.bit_length())"]).text()
    assert caught.value.reason == "bit_length is a method, and values have none here" and "sum([x >= 2 ** i for i in range(20)])" in caught.value.form
    asked = model_of(["observe(sum([x >= 2 ** i for i in range(20)]))"])
    assert [run.trace[-1].value for run in asked.runs()] == [0, 1, 2, 2]
