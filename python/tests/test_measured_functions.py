"""Python functions that are measured, models that are tried against code, and numbers for tests."""

import random
import threading
from fractions import Fraction

import pytest
from measured_code import example

from kuifje.errors import KuifjeError
from kuifje.intervals import Interval
from kuifje.measured import Unmeasured, leaks, measured, tried_against
from kuifje.measures import mutual_information
from kuifje.model import Secret, model, observe, uniform

pytestmark = pytest.mark.usefixtures("built")


@measured(pin=[range(4)] * 3)
def early(pin):
    for a, b in zip(pin, [3, 1, 2]):
        if a != b:
            return False
    return True


def test_lines_that_run_are_seen():
    """The place of the first difference of three, or none: 4 classes of 64."""
    assert early([3, 1, 2]) and not early([0, 1, 2])
    assert (early.classes(), early.classes("returned"), early.capacity()) == (4, 2, 4)
    assert early.leak().posterior_vulnerability == Fraction(4, 64)
    (told,) = early.first_told()
    assert told.place.line == early.function.__code__.co_firstlineno + 3 and told.classes == 3
    information = mutual_information(early.program().hyper())
    for bits in (told.bits, early.bits()):
        assert max(bits.low, information.low) <= min(bits.high, information.high)


def test_values_of_any_kind_an_exception_and_noise():
    """What raises goes another way, and has another value; a coin that is added to a bit hides it, though lines differ."""

    @measured(word=("left", "right", "up"))
    def turned(word):
        if word == "up":
            raise KeyError(word)
        return {"left": 1, "right": 2}[word]

    assert (turned.classes(), turned.classes("returned")) == (2, 3)
    assert turned.first_told()[0].secrets == ("word = 'left'", "word = 'up'")

    @measured(bit=range(2), noise={"coin": range(2)})
    def hidden(bit, coin):
        if bit ^ coin:
            return 1
        return 0

    assert hidden.capacity() == 1 and hidden.first_told()[0].bits == Interval.exactly(0)


@pytest.mark.parametrize("see, classes", [("lines", 1), ("opcodes", 2)])
def test_bytecodes_show_what_lines_hide(see, classes):
    """Both tests stand on one line: where the first is true, the second isn't run. What is returned differs in any case."""

    @measured(see=see, x=range(4))
    def small(x):
        return x < 1 or x < 3

    assert small.classes() == classes


def test_what_is_refused_of_functions():
    known = []

    def grows(x):
        known.append(x)
        if len(known) > 5:
            return 1
        return x

    def endless(x):
        while x == 2:
            pass

    def starts(x):
        threading.Thread(target=print).start()

    def draws(x):
        if random.random() < 0.5:
            return 1
        return x

    for function, word in ((grows, "Earlier"), (endless, "Endless"), (starts, "Threads"), (draws, "Earlier"), (lambda x: 0, "Nothing")):
        with pytest.raises(Unmeasured) as caught:
            measured(x=range(40))(function)
        assert caught.value.word == word
    with pytest.raises(ValueError):
        measured(x=[range(2), range(3)])(early.function)
    with pytest.raises(ValueError):
        early.classes("colours")


@model
def the_comparison(pin: Secret = [uniform(range(10))] * 4):
    guess = [3, 1, 4, 1]
    for i in range(4):
        if pin[i] != guess[i]:
            break


@model
def too_little(pin: Secret = [uniform(range(10))] * 4):
    observe(pin[0] == 3)


@model
def too_much(pin: Secret = [uniform(range(10))] * 4):
    observe(pin[3])


@model
def another(pin: Secret = [uniform(range(9))] * 4):
    observe(pin[3])


def test_a_model_is_tried_against_its_code():
    code = example("comparison", "comparison")
    assert tried_against(the_comparison, code).agrees
    assert str(tried_against(the_comparison, code)) == "of 10000 secrets the model and the code tell the same apart\n"
    found = tried_against(too_little, code)
    assert not found.agrees and found.by_code.place == "comparison.c:7" and found.by_model is None
    found = tried_against(too_much, code)
    assert found.by_model.secrets == ("pin = [0, 0, 0, 0]", "pin = [0, 0, 0, 1]") and found.by_model.place.endswith(f":{place_of(too_much)}")
    with pytest.raises(KuifjeError):
        tried_against(another, code)


def place_of(found):
    return found.function.__code__.co_firstlineno + 2


def test_a_number_for_tests():
    code = example("comparison", "comparison")
    assert leaks(code, model="control-flow") == Fraction(1, 2000) and leaks(code, model="control-flow") <= Fraction(1, 5)
    with pytest.raises(AssertionError, match="comparison.c:7"):
        assert leaks(code, model="control-flow") <= Fraction(1, 10000)
