"""Verdicts on programs that ``refine`` refuses for their size, each found within ten seconds.

A time is that of this process's processor, without hypers and checks, so that others on a busy machine don't count. Where more processes want
processors than there are, they also share caches, and a second does less: so many times more seconds are taken for ten there.
"""

import os
import random
import time

import pytest

pytest.importorskip("scipy")

import pairs  # noqa: E402
from kuifje import Program, Refusal, check, refine  # noqa: E402
from kuifje.refinement import decide, decisions  # noqa: E402

pytestmark = [pytest.mark.usefixtures("built"), pytest.mark.filterwarnings("ignore::kuifje.questions.AsItIsLeft")]
whole = pytest.mark.whole

SECONDS = 10
PIN = "".join(f"var {digit} : 0..9 := uniform 0..9;\n" for digit in "abcd")
EARLY = "if a = ga { if b = gb { if c = gc { if d = gd { open := true; } else { gd := (gd + 1) mod 10; } } else { gc := (gc + 1) mod 10; } }\n"
EARLY += "else { gb := (gb + 1) mod 10; } } else { ga := (ga + 1) mod 10; }\n"


def pin(tries, early):
    """A PIN of four digits and a robot that tries from 0000 on: it sees at which digit the comparison stopped, or only whether the lock opened."""
    guess = "".join(f"var g{digit} : 0..9 := 0;\n" for digit in "abcd") if early else "var guess : 0..9999 := 0;\n"
    compared = EARLY if early else "open := 1000 * a + 100 * b + 10 * c + d = guess;\nguess := guess + 1;\n"
    head = f"{PIN}{guess}var tried : 0..{tries} := 0;\nvar open : bool := false;\nabout old a, old b, old c, old d;\n"
    return Program(
        f"{head}while tried < {tries} and not open {{\n{compared}tried := tried + 1;\n}}\nobserve open;\n", name=f"{'early' if early else 'whole'}.kf"
    )


def decided(a, b, seconds=300.0):
    """What is decided of two programs, in the time that it may take; of a no, what ``leak`` says of its table."""
    hypers = {id(of): of.hyper() for of in (a, b)}
    known = pytest.MonkeyPatch()
    known.setattr(decisions, "hyper_of", lambda of, _: hypers[id(of)])
    start = time.process_time()
    try:
        found = decide(a, b, seconds)
    finally:
        known.undo()
    took = time.process_time() - start
    print(f"{a.name} {b.name} {len(hypers[id(a)].inners)}x{len(hypers[id(b)].inners)}: {took:.2f} seconds, {found}")
    assert took < SECONDS * max(1, os.getloadavg()[0] / (os.cpu_count() or 1))
    if found.refines is not None:
        assert check(found.certificate, a, b).accepted
    return found


@pytest.mark.parametrize(
    "tries", [3, pytest.param(6, marks=whole), pytest.param(10, marks=whole), pytest.param(20, marks=whole), pytest.param(40, marks=whole)]
)
def test_a_pin_that_is_compared_as_a_whole_leaks_no_more(tries):
    """An observer of the early exit sees whether the lock opened, too, and more."""
    early, at_once = pin(tries, True), pin(tries, False)
    assert decided(early, at_once).refines is True
    found = decided(at_once, early)
    assert found.refines is False and len(found.certificate.text) <= 168


DIGITS = "var token : 0..9999 := uniform 0..9999;\nabout old token;\nobserve token {};\n"


def test_a_hundred_posteriors_against_themselves():
    last_two = Program(DIGITS.format("mod 100"), name="last_two.kf")
    with pytest.raises(Refusal):
        refine(last_two, last_two)
    assert decided(last_two, last_two).found == "equal inners"
    first_two = Program(DIGITS.format("div 100"), name="first_two.kf")
    assert decided(last_two, first_two).refines is False
    assert decided(Program(DIGITS.format("div 1000"), name="first.kf"), first_two).refines is False
    assert decided(first_two, Program(DIGITS.format("div 1000"), name="first.kf")).refines is True


@pytest.mark.parametrize("values", [4, 20, 100])
def test_a_hundred_posteriors_shuffled_and_with_one_value_moved(values):
    """With one weight moved it is a no where all inners are independent, and with fewer values it may be either."""
    rng = random.Random(values)
    inners = pairs.joint(rng, 100, values, top=99)
    shuffled = decide(pairs.hyper(inners), pairs.hyper(rng.sample(inners, 100)))
    assert shuffled.found == "equal inners"
    for factor, part in ((2, 0.5), (100, 0.01), (10000, 0.0001)):
        found = decided(*pairs.programs(pairs.times(inners, factor), pairs.moved(rng, pairs.times(inners, factor), part)))
        assert found.refines is False or values < 100 and found.refines


# ---- programs that `refine` refuses


def publish(shown):
    """Ages, more or less exactly, and diagnoses of three patients; a neighbour of the first knows its age. One diagnosis is rare below 50."""
    drawn = "".join(f"var age{i} : 40..59 := uniform 40..59;\n" for i in range(3))
    drawn += "".join(f"var ill{i} : 0..3 := choose {{ 0 : 4, 1 : 3, 2 : 2, 3 : cond(age{i} >= 50, 3, 1) }};\n" for i in range(3))
    rows = ", ".join(f"({shown.format(f'age{i}')}, ill{i})" if shown else f"ill{i}" for i in range(3))
    return Program(f"{drawn}about old ill0;\nobserve age0;\nobserve {{{rows}}};\n", name=f"{shown.format('age') or 'none'}.kf".replace(" ", "_"))


EXACT, FIVE, DECADE, NONE = "{}", "{} div 5", "{} div 10", ""


@whole
@pytest.mark.parametrize("a, b, refines", [(DECADE, FIVE, False), (NONE, FIVE, False), (EXACT, FIVE, True), (EXACT, DECADE, True)])
def test_ages_are_published_less_exactly(a, b, refines):
    assert decided(publish(a), publish(b)).refines is refines


SBOX = (12, 5, 6, 11, 9, 0, 10, 13, 3, 14, 15, 8, 4, 7, 1, 2)  # of the cipher PRESENT (Bogdanov and others, 2007)


def cache(line):
    """Two rounds of a toy cipher with four bits of key each, of a known text: the line of the table that each round reads is seen."""
    substituted = "".join(f"cond(x = {x}, {y}, " for x, y in enumerate(SBOX[:-1])) + str(SBOX[-1]) + ")" * 15
    exclusive = " + ".join(f"({{0}} div {bit} + {{1}} div {bit}) mod 2 * {bit}" for bit in (1, 2, 4, 8))
    names = "".join(f"var {name} : 0..15 := {start};\n" for name, start in (("k", "uniform 0..15"), ("l", "uniform 0..15"), ("p", 0), ("x", 0)))
    body = f"p := uniform 0..15;\nobserve p;\nx := {exclusive.format('p', 'k')};\nobserve x div {line};\n"
    body += f"x := {substituted};\nx := {exclusive.format('x', 'l')};\nobserve x div {line};\n"
    return Program(f"{names}about old k, old l;\n{body}", name=f"lines_of_{line}.kf")


@whole
def test_longer_cache_lines_leak_no_more():
    assert decided(cache(4), cache(8)).refines is True
    assert decided(cache(8), cache(4)).refines is False


def pad(camera):
    """A PIN of three digits on a pad with four keys: the touched keys are seen, or the touched places where keys are at random places."""
    digits = "".join(f"var {digit} : 0..3 := uniform 0..3;\n" for digit in "abc")
    if not camera:
        return Program(f"{digits}about old a, old b, old c;\nobserve {{a, b, c}};\n", name="touched.kf")
    digits += "".join(f"var p{key} : 0..3 := 0;\n" for key in range(4))
    free = ["{0, 1, 2, 3}", *("({0, 1, 2, 3} less {" + ", ".join(f"p{other}" for other in range(key)) + "})" for key in range(1, 4))]
    drawn = "".join(f"p{key} := uniform {keys};\n" for key, keys in enumerate(free))
    seen = "".join(f"observe cond({d} = 0, p0, cond({d} = 1, p1, cond({d} = 2, p2, p3)));\n" for d in "abc")
    return Program(f"{digits}about old a, old b, old c;\n{drawn}{seen}", name="places.kf")


def test_touched_keys_and_places():
    for a, b in ((pad(False), pad(True)), (pad(True), pad(False))):
        found = decided(a, b)
        assert found.refines is False and found.found == "peeling" and len(pairs.table_of(found.certificate).actions) == 2


def compressed(padded):
    """A cookie of three letters is compressed after eight guesses, one after the other: each right letter saves one; padding adds up to 3."""
    names = "".join(f"var s{i} : 0..5 := uniform 0..5;\n" for i in range(3)) + "".join(f"var g{i} : 0..5 := 0;\n" for i in range(3))
    shown = "choose { 20 - m : 1, 21 - m : 1, 22 - m : 1, 23 - m : 1 }" if padded else "20 - m"
    right = "m := cond(s0 = g0, cond(s1 = g1, cond(s2 = g2, 3, 2), 1), 0);\n"
    turn = "".join(f"g{i} := cond(m = {i}, (g{i} + 1) mod 6, g{i});\n" for i in range(3))
    head = f"{names}var m : 0..3 := 0;\nvar n : 0..8 := 0;\nabout old s0, old s1, old s2;\n"
    return Program(f"{head}while n < 8 {{\n{right}observe {shown};\n{turn}n := n + 1;\n}}\n", name=f"{'padded' if padded else 'plain'}.kf")


@whole
def test_padding_is_not_decided_since_the_only_matrix_is_too_long():
    plain, padded = compressed(False), compressed(True)
    assert decided(padded, plain).refines is False
    found = decided(plain, padded)
    assert (found.refines, found.found, found.certifiable) == (None, "peeling", False)
    assert found.reason.startswith("the certificate has 2,8") and len(found.certificate.text) > 2_800_000


def answers(days):
    """A bit is reported each day, wrong with 1/4, of a memory of it that is wrong with 1/4 itself (as in RAPPOR: Erlingsson and others, 2014)."""
    head = f"var bit : 0..1 := choose {{ 0 : 9, 1 : 1 }};\nvar memo : 0..1 := 0;\nvar day : 0..{days} := 0;\nabout old bit;\n"
    loop = f"while day < {days} {{\nobserve choose {{ memo : 3, 1 - memo : 1 }};\nday := day + 1;\n}}\n"
    return Program(f"{head}memo := choose {{ bit : 3, 1 - bit : 1 }};\n{loop}", name=f"days{days}.kf")


@whole
def test_fewer_days_are_not_decided_since_the_scale_leaves_no_room():
    found = decided(answers(30), answers(14), 10)
    assert (found.refines, found.checked, found.certifiable) == (None, False, None) and "may have 127" in found.reason


def noisy(times):
    return Program("var x : 0..63 := uniform 0..63;\n" + "observe choose { x mod 2 : 3, 1 - x mod 2 : 1 };\n" * times, name=f"noisy{times}.kf")


def test_one_more_noisy_look():
    assert decided(noisy(50), noisy(49)).refines is True
    found = decided(noisy(49), noisy(50))
    assert found.refines is False and len(pairs.table_of(found.certificate).actions) == 2
    assert decided(noisy(60), noisy(59)).refines is None


# ---- 500 inners against 500


@whole
@pytest.mark.parametrize(
    "values, each, columns, most",
    [
        (100, None, 100, 1),
        (100, 10, 500, 1),
        (20, None, 100, 1),
        (8, None, 100, 1),
        (100, None, 500, 5),
        (100, 10, 500, 5),
        (100, 3, 500, 5),
        (8, None, 500, 500),
    ],
)
def test_five_hundred_inners(values, each, columns, most):
    """B is a function of A, or has up to 5 entries a row, or 500; and with one weight moved: a no of 100 values, of fewer it may be either."""
    rng = random.Random(values + columns + most)
    a = pairs.joint(rng, 500, values, top=9, share=1, each=each)
    if most == 1:
        a, b = pairs.function(rng, a, columns)
    else:
        a, b = pairs.garbled(rng, a, columns, 12, most) if most == 5 else pairs.dense(rng, a, columns, 2000)
    assert decided(*pairs.programs(a, b)).refines is True
    for factor, part in ((2, 0.5), (100, 0.01)):
        found = decided(*pairs.programs(pairs.times(a, factor), pairs.moved(rng, pairs.times(b, factor), part)))
        assert found.refines is False or values < 100 and found.refines
