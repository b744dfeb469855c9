"""Mutual information, split among the lines of texts and models along their traces."""

from fractions import Fraction
from math import log2
from pathlib import Path

import pytest

from kuifje import Program
from kuifje.intervals import Interval
from kuifje.measured import first_told
from kuifje.measures import mutual_information
from kuifje.model import Secret, model, observe, uniform

pytestmark = pytest.mark.usefixtures("built")
TOP = Path(__file__).resolve().parents[2]


def told(text):
    return {t.line: (t.bits, t.traces) for t in first_told(Program(text)).lines}


def exactly(number):
    return Interval.exactly(number)


def test_two_lines_that_show_the_same_give_all_to_the_first():
    text = "var x : 0..3 := uniform 0..3;\nabout old x;\nobserve x mod 2;\nobserve x;\n"
    assert told(text) == {3: (exactly(1), 1), 4: (exactly(1), 2)}
    assert told(text.replace("x mod 2", "x")) == {3: (exactly(2), 3)}


def test_a_line_in_a_branch_counts_as_often_as_it_is_met():
    """The guard shows 1 bit; in its branch, of probability 1/2, one more of two values: 1/2 bit."""
    text = "var x : 0..3 := uniform 0..3;\nabout old x;\nif x < 2 {\n  observe x;\n} else {\n  observe 7;\n}\n"
    assert told(text) == {3: (exactly(1), 1), 4: (exactly(Fraction(1, 2)), 1)}


def test_noise_tells_nothing_and_hides():
    """A fair coin is shown, and then x with the coin added: by both together x is known, by the coin alone nothing."""
    text = "var x : 0..1 := uniform 0..1;\nvar r : 0..1 := uniform 0..1;\nabout old x;\nobserve r;\nobserve (x + r) mod 2;\n"
    assert told(text) == {4: (exactly(0), 1), 5: (exactly(1), 2)}


def test_a_loop_and_a_visible_variable():
    """Each guard tells one bit less often: 1 - 1/2 of the first, and so on; the last turn tells nothing more."""
    text = "var x : 0..3 := uniform 0..3;\nvis y : 0..1 := 0;\nabout old x;\nwhile x > 1 {\n  y := x mod 2;\n  x := 0;\n}\n"
    assert told(text) == {4: (exactly(1), 1), 5: (exactly(Fraction(1, 2)), 1)}


@pytest.mark.parametrize("path", ["pin.kf", "noisy.kf", "guard.kf", "dinner.kf", "password/early.kf", "telemetry/fresh.kf"])
def test_the_bits_add_up_to_the_mutual_information(path):
    if not (TOP / "examples" / path).exists():
        pytest.skip(f"there is no {path}")
    program = Program.from_file(TOP / "examples" / path)
    found, information = first_told(program), mutual_information(program.hyper())
    whole = sum((t.bits for t in found.lines), exactly(0))
    for bits in (whole, found.bits):
        assert max(bits.low, information.low) <= min(bits.high, information.high) and bits.width < Fraction(1, 10**9)


@model
def early(pin: Secret = [uniform(range(4))] * 2):
    for digit in pin:
        if digit != 3:
            break
    observe(pin[0] % 2)


def test_a_model_speaks_of_its_own_lines():
    """The guards tell whether the first digit is 3, and with 1/4 whether the second is; the observation the parity of a first digit of 0, 1 or 2."""
    found = first_told(early)
    assert [(Path(t.file).name, t.source) for t in found.lines] == [
        (Path(__file__).name, "if digit != 3:"),
        (Path(__file__).name, "observe(pin[0] % 2)"),
    ]
    guards, observed = (float(t.bits) for t in found.lines)
    assert abs(guards - entropy(1, 3) * 5 / 4) < 1e-9 and abs(observed - entropy(1, 2) * 3 / 4) < 1e-9


def entropy(*weights):
    return sum(-w / sum(weights) * log2(w / sum(weights)) for w in weights)
