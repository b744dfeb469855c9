"""Which line of measured code leaks: bits and classes that add up, what is left without a line, smallest sets, and what newer code tells."""

from fractions import Fraction
from math import log2

import pytest
from measured_code import example, written

from kuifje.intervals import Interval
from kuifje.measured.told import Ledger
from kuifje.measures import mutual_information

pytestmark = pytest.mark.usefixtures("built")


def close(interval: Interval, value: float) -> bool:
    return interval.width < Fraction(1, 10**9) and abs(float(interval) - value) < 1e-9


def entropy(*weights):
    return sum(-w / sum(weights) * log2(w / sum(weights)) for w in weights)


def check_sums(measured, model):
    """All that is told at lines is the mutual information, and one class less than there are."""
    lines = measured.lines(model)
    information = mutual_information(measured.program(model, measured.worst_public(model)).hyper())
    whole = sum((told.bits for told in lines.told), Interval.exactly(0))
    for found in (whole, lines.bits):
        assert max(found.low, information.low) <= min(found.high, information.high)
    assert sum(told.classes for told in lines.told) + 1 == lines.classes == measured.partition(model, measured.worst_public(model)).count
    return lines


def test_a_comparison_tells_all_at_its_branch():
    """Of 10,000 PINs 9,000 differ at once, 900 at the second digit, 90, 9, and one not at all."""
    lines = check_sums(example("comparison", "comparison"), "control-flow")
    (told,) = lines.told
    assert str(told.place) == "comparison.c:7" and told.classes == 4 and told.left == 1
    assert close(told.bits, entropy(9000, 900, 90, 9, 1))
    assert told.parting.secrets[0] != told.parting.secrets[1] and told.parting.ways[0] != told.parting.ways[1]
    assert [str(place) for place in lines.smallest] == ["comparison.c:7"] and lines.is_smallest


def test_bits_are_split_among_lines():
    """At -O0 each test is a branch of its own line: first whether block[0] is 0, and of a third whether block[1] is 2; then where the zero is.

    Without the loop both errors are left, whether there is a zero, and what memmove shows of a length of 0 to 5: 0, 1, 2 or 3, and 4 or 5.
    """
    lines = check_sums(example("unpadding", "unpadding", level="0"), "control-flow")
    told = {t.place.line: t for t in lines.told}
    assert sorted(told) == [7, 9, 12] and {line: t.classes for line, t in told.items()} == {7: 1, 9: 1, 12: 6}
    assert close(told[7].bits, entropy(1, 2)) and close(told[9].bits, entropy(1, 2) / 3)
    assert close(told[12].bits, entropy(243, 162, 108, 72, 48, 32, 64) / 9)
    assert (told[7].left, told[9].left, told[12].left) == (1, 2, 7)
    assert told[12].vulnerability == Fraction(7, 6561)


def test_two_look_ups_of_one_index(tmp_path):
    """The bytes show 2 bits first, and the words 2 more; but the words show all 4 bits. So both lines make the smallest set."""
    text = """
    _Alignas(64) uint8_t bytes[256];
    _Alignas(64) uint32_t words[256];
    KUIFJE_SECRET(uint8_t, key, 1, 0, 255);
    volatile uint32_t sink;
    KUIFJE_MEASURE {
        uint8_t i = key[0] ^ 0x5a;
        uint32_t a = bytes[i];
        __asm__ volatile("" : "+r"(a));
        uint32_t b = words[i];
        __asm__ volatile("" : "+r"(b));
        sink = a ^ b;
        return 0;
    }
    """
    measured = written(tmp_path, text)
    lines = check_sums(measured, "lines")
    told = {t.place.line: t for t in lines.told}
    assert {line: (float(t.bits), t.classes, t.left) for line, t in told.items()} == {9: (2.0, 3, 16), 11: (2.0, 12, 4)}
    assert [place.line for place in lines.smallest] == [9, 11] and lines.is_smallest
    assert [place.line for place in measured.lines("lines", bound=4).smallest] == [11]


def test_what_a_branch_controls_is_silent_with_it(tmp_path):
    """Without the branch at line 6 neither its loop nor the look-up in it shows anything; what comes after it still does."""
    text = """
    KUIFJE_SECRET(uint8_t, x, 2, 0, 3);
    _Alignas(64) volatile uint8_t table[256];
    KUIFJE_MEASURE {
        if (x[0] & 1)
            for (int i = 0; i < x[0]; i++)
                table[64 * x[1]];
        table[64 * (x[1] & 1)];
        return 0;
    }
    """
    lines = check_sums(written(tmp_path, text, level="0"), "lines")
    told = {t.place.line: t for t in lines.told}
    assert lines.classes == 2 + 4 + 4
    assert told[6].left == 2
    assert told[9].left == 1 + 4 + 4


def test_nothing_is_told_where_nothing_is_seen():
    lines = example("comparison", "comparison_whole").lines("constant-time")
    assert lines.told == () and lines.classes == 1 and lines.smallest == ()


def test_the_patch_leaks_no_more_and_back_it_does():
    whole, early = example("comparison", "comparison_whole"), example("comparison", "comparison")
    found = whole.refines(early, "control-flow")
    assert found.refines and found.proved and found.decision.certificate is not None and found.told is None
    back = early.refines(whole, "control-flow")
    assert not back.refines and back.proved
    assert back.told.place == "comparison.c:7" and back.told.secrets[0] != back.told.secrets[1]


@pytest.mark.whole
@pytest.mark.parametrize(
    "harness, old, new, model, line",
    [
        ("unpadding", "unpadding", "unpadding_whole", "control-flow", 9),
        ("hash_table", "hash_table", "hash_table_whole", "control-flow", 29),
        ("base64", "base64", "base64_arithmetic", "lines", 20),
        ("division", "division", "division_constant", "constant-time", 6),
        ("sbox", "sbox", "sbox_all", "lines", 14),
    ],
)
def test_patches_of_the_gallery(harness, old, new, model, line):
    before, after = example(harness, old), example(harness, new)
    found, back = after.refines(before, model), before.refines(after, model)
    assert found.refines and found.proved and found.decision.certificate is not None
    assert not back.refines and back.told is not None and back.told.place == f"{old}.c:{line}"
    check_sums(before, model)


def test_a_ledger_is_exact_before_logarithms_are_taken():
    """A fork of 4 and 4, and one of 4 into 1 and 3: all that is left in the sum is the whole, and the classes 4, 1 and 3."""
    ledger = Ledger(8)
    ledger.add_function("a", [4, 4])
    ledger.add_function("b", [1, 3])
    assert ledger.bits("a") == Interval.exactly(1) and ledger.sites["b"].classes == 1
    assert {w: c for w, c in ledger.all().counts.items() if c} == {8: 1, 4: -1, 1: -1, 3: -1}
    assert close(ledger.bits("b"), entropy(1, 3) / 2)


def test_a_fork_that_noise_decides_tells_nothing():
    """Two secrets, each on both ways alike; and then each on a way of its own."""
    ledger = Ledger(4)
    ledger.add("noise", [{0: 1, 1: 1}, {0: 1, 1: 1}])
    ledger.add("secret", [{0: 1}, {1: 1}])
    assert ledger.bits("noise") == Interval.exactly(0) and ledger.bits("secret") == Interval.exactly(Fraction(1, 2))
