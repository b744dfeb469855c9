"""Arguments that can't be meant: each is an error that names it and what is allowed, before anything is asked. Some that are as good as others."""

import math
import re
from fractions import Fraction

import pytest

import kuifje
from kuifje import Action, Certificate, Engine, GainTable, Program, engine as engines
from kuifje.model import Secret, model, observe, uniform
from kuifje.refinement import decide

PIN = Program("var pin : 0..9 := uniform 0..9;\nabout old pin;\nobserve pin = 3;\n", name="pin.kf")
NOTHING = Program("var pin : 0..9 := uniform 0..9;\nabout old pin;\nobserve 0;\n", name="nothing.kf")
PROOF = Certificate("{}")
GAIN = "gain is bayes, tries:K with K from 1 to 65535, guessing, table:FILE, or a GainTable, and "
FRACTION = 'probability is a Fraction, or a text like "1/2", and '
SECONDS = "timeout is a number of seconds from 0 on, or None, and "


@model
def shown(pin: Secret = uniform(range(10))):
    observe(pin == 3)


@pytest.fixture
def nothing_asked(monkeypatch):
    """Nothing gets as far as the program."""

    def asked(*_):
        raise AssertionError("a question was asked")

    monkeypatch.setattr(engines.Engine, "_asked", asked)


WRONG = [
    (lambda: PIN.leak("bays"), ValueError, f"{GAIN}'bays' was given"),
    (lambda: PIN.leak("bayes --json"), ValueError, f"{GAIN}'bayes --json' was given"),
    (lambda: PIN.leak("tries:0"), ValueError, f"{GAIN}'tries:0' was given"),
    (lambda: PIN.leak("tries:65536"), ValueError, f"{GAIN}'tries:65536' was given"),
    (lambda: PIN.leak("tries:1\n"), ValueError, f"{GAIN}'tries:1\\n' was given"),
    (lambda: PIN.leak("table:"), ValueError, f"{GAIN}'table:' was given"),
    (lambda: PIN.leak(None), TypeError, f"{GAIN}a value of type NoneType was given"),
    (lambda: PIN.attack(3), TypeError, f"{GAIN}a value of type int was given"),
    (lambda: PIN.lines("Bayes"), ValueError, f"{GAIN}'Bayes' was given"),
    (lambda: kuifje.plan(PIN, "bays"), ValueError, f"{GAIN}'bays' was given"),
    (lambda: PIN.reach(Fraction(3, 2)), ValueError, "probability lies above 0 and is at most 1, and 3/2 was given"),
    (lambda: PIN.reach(0), ValueError, "probability lies above 0 and is at most 1, and 0 was given"),
    (lambda: PIN.reach(0.5), TypeError, f"{FRACTION}0.5 was given"),
    (lambda: PIN.reach(True), TypeError, f"{FRACTION}True was given"),
    (lambda: PIN.reach("1/0"), ValueError, f"{FRACTION}'1/0' was given"),
    (lambda: PIN.reach("1e-999999999"), ValueError, f"{FRACTION}'1e-999999999' was given"),
    (lambda: PIN.reach(Fraction(1, 10**9)), ValueError, "below 10^9, and 1/1000000000 was given"),
    (lambda: kuifje.choice(PIN, PIN, 2), ValueError, "probability lies above 0 and below 1, and 2 was given"),
    (lambda: kuifje.choice(PIN, PIN, 1), ValueError, "probability lies above 0 and below 1, and 1 was given"),
    (lambda: kuifje.choice(PIN, PIN, 0.1), TypeError, f"{FRACTION}0.1 was given"),
    (lambda: PIN.quiet(-1, 9), ValueError, "start is a whole number from 0 to 99,998, and -1 was given"),
    (lambda: PIN.quiet(1, 1), ValueError, "start is below end, and 1 and 1 were given"),
    (lambda: PIN.quiet(0, 100_000), ValueError, "end is a whole number from 1 to 99,999, and 100000 was given"),
    (lambda: PIN.quiet("a", 1), TypeError, "start is a whole number from 0 to 99,998, and 'a' was given"),
    (lambda: Program("skip;", turns=-1), ValueError, "turns is a whole number from 1 to 65,535, and -1 was given"),
    (lambda: Program("skip;", turns=10**30), ValueError, "turns is a whole number from 1 to 65,535, and one far from these was given"),
    (lambda: Program("skip;", turns=True), TypeError, "turns is a whole number from 1 to 65,535, and True was given"),
    (lambda: Program("skip;", turns="x"), TypeError, "turns is a whole number from 1 to 65,535, and 'x' was given"),
    (lambda: Program("skip;", turns=2.0), TypeError, "turns is a whole number from 1 to 65,535, and 2.0 was given"),
    (lambda: Program("skip;", name=3), TypeError, "name is a str"),
    (lambda: Program("skip;", engine="4 GB"), TypeError, "engine an Engine or None"),
    (lambda: Program(3), TypeError, "text is a text (str or bytes), and 3 was given"),
    (lambda: Program(10**9), TypeError, "text is a text (str or bytes), and 1000000000 was given"),
    (lambda: Program(None), TypeError, "text is a text (str or bytes), and None was given"),
    (lambda: Program(["observe 1;"]), TypeError, "text is a text (str or bytes), and a value of type list was given"),
    (lambda: Certificate(10**9), TypeError, "text is a text (str or bytes), and 1000000000 was given"),
    (lambda: kuifje.refine(PIN, None), TypeError, "b is a Program or a model, and None was given"),
    (lambda: kuifje.refine("skip;", PIN), TypeError, "a is a Program or a model, and a value of type str was given"),
    (lambda: kuifje.refine(PIN, Program), TypeError, "b is a Program or a model, and a value of type type was given"),
    (lambda: kuifje.certificate(PIN, 3), TypeError, "b is a Program or a model, and a value of type int was given"),
    (lambda: kuifje.covers(None, PIN), TypeError, "a is a Program or a model, and None was given"),
    (lambda: kuifje.check(PIN, PIN, PIN), TypeError, "proof is a Certificate, and a value of type Program was given"),
    (lambda: kuifje.check(PROOF, PIN, None), TypeError, "b is a Program or a model, and None was given"),
    (lambda: kuifje.cascade(None, PIN), TypeError, "a is a Program or a model, and None was given"),
    (lambda: kuifje.parallel(PIN, None), TypeError, "b is a Program or a model, and None was given"),
    (lambda: kuifje.labels(None), TypeError, "asked is a Program or a model, and None was given"),
    (lambda: kuifje.plan("skip;"), TypeError, "asked is a Program or a model, and a value of type str was given"),
    (lambda: kuifje.plan(shown, inputs=3), TypeError, "inputs is a mapping of names to values, and a value of type int was given"),
    (lambda: kuifje.plan(PIN, write="words"), TypeError, "write is a function of a value, and a value of type str was given"),
    (lambda: kuifje.plan(PIN, leaves=0), ValueError, "leaves is a whole number from 1 to "),
    (lambda: decide(PIN, 3), TypeError, "b is a Program, a model or a Hyper, and a value of type int was given"),
    (lambda: decide(PIN, PIN, seconds=math.nan), ValueError, "seconds is a number of seconds from 0 on, or None, and nan was given"),
    (lambda: decide(PIN, PIN, seconds="10"), TypeError, "seconds is a number of seconds or None, and '10' was given"),
    (lambda: decide(PIN, PIN, timeout=-1), ValueError, f"{SECONDS}-1 was given"),
    (lambda: PIN.leak(timeout=math.nan), ValueError, f"{SECONDS}nan was given"),
    (lambda: PIN.hyper(-1), ValueError, f"{SECONDS}-1 was given"),
    (lambda: PIN.hyper(10**400), ValueError, f"{SECONDS}a value of type int was given"),
    (lambda: PIN.hyper("x"), TypeError, "timeout is a number of seconds or None, and 'x' was given"),
    (lambda: PIN.hyper(True), TypeError, "timeout is a number of seconds or None, and True was given"),
    (lambda: kuifje.refine(PIN, PIN, math.nan), ValueError, f"{SECONDS}nan was given"),
    (lambda: kuifje.labels(PIN, timeout=-0.5), ValueError, f"{SECONDS}-0.5 was given"),
    (lambda: kuifje.plan(PIN, timeout=math.nan), ValueError, f"{SECONDS}nan was given"),
    (lambda: Engine(timeout=math.nan), ValueError, f"{SECONDS}nan was given"),
    (lambda: Engine(memory=math.nan), TypeError, "memory is a whole number from 1 to 9,223,372,036,854,775,807, and nan was given"),
    (lambda: Engine(memory=-1), ValueError, "memory is a whole number from 1 to 9,223,372,036,854,775,807, and -1 was given"),
    (lambda: Engine(memory="1G"), TypeError, "memory is a whole number from 1 to 9,223,372,036,854,775,807, and '1G' was given"),
    (lambda: Engine(workers=0), ValueError, "workers is a whole number from 1 to 1,024, and 0 was given"),
    (lambda: Engine(cache="folder"), TypeError, "cache is a Cache or None, and a value of type str was given"),
]


@pytest.mark.usefixtures("nothing_asked")
@pytest.mark.parametrize("number", range(len(WRONG)))
def test_an_argument_that_is_wrong_is_named(number):
    question, kind, text = WRONG[number]
    with pytest.raises(kind, match=re.escape(text)) as caught:
        question()
    assert caught.type is kind


@pytest.mark.usefixtures("built")
def test_arguments_that_are_as_good_as_others():
    """Texts of fractions, infinitely many seconds, bytes of another type, leading zeros, and models where programs are wanted."""
    assert PIN.reach("1/5") == PIN.reach(Fraction(1, 5)) and PIN.reach("0.2") == PIN.reach("1/5")
    assert PIN.reach(1).tries == 9
    assert kuifje.choice(PIN, NOTHING, "1/2").both == Fraction(3, 2)  # half of two columns and half of one: 2/2 + 1/2
    assert PIN.leak("tries:00002").posterior_vulnerability == Fraction(3, 10)  # 3, or one guess more at the nine others: 1/10 + 2/10
    assert PIN.leak(timeout=math.inf) == PIN.leak(timeout=Fraction(600)) == Program(bytearray(PIN.text)).leak(timeout=None)
    assert kuifje.refine(shown, PIN).refines and kuifje.refine(PIN, shown, math.inf).refines
    assert kuifje.check(kuifje.certificate(shown, PIN), shown, PIN).accepted
    assert kuifje.covers(PIN, PIN, timeout=None).refines and kuifje.parallel(shown, PIN).both == 2
    assert decide(shown, PIN, seconds=math.inf).refines and decide(shown, PIN, seconds=None).refines
    table = GainTable(1, 0, (Action("three", {3: 1}),))
    assert PIN.leak(table).posterior_vulnerability == Fraction(1, 10)
