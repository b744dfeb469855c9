"""Texts of what was measured: the proved program gives each partition back, and a text that says something else is caught."""

import random
from fractions import Fraction

import pytest
from hypothesis import given
from hypothesis import strategies as st

from kuifje import Action, GainTable
from kuifje.measured.domains import Domain, Variable
from kuifje.measured.refusals import Unmeasured
from kuifje.measured.texts import MeasuredProgram, Partition, by_classes, measured_program, natural

pytestmark = pytest.mark.usefixtures("built")


def partition(cells, classes, noise=()):
    """A partition whose classes are numbered by first occurrence."""
    numbers = {}
    return Partition(Domain(tuple(cells)), Domain(tuple(noise)), [numbers.setdefault(c, len(numbers)) for c in classes], len(numbers))


def one(classes):
    return partition([Variable("key", 1, 0, len(classes) - 1)], classes)


def test_assignments_are_numbered_in_mixed_radix():
    domain = Domain((Variable("pin", 2, 1, 3), Variable("bit", 1, 0, 1)))
    assert domain.size == 18 and domain.values(0) == (1, 1, 0) and domain.values(17) == (3, 3, 1)
    assert [domain.number(domain.values(i)) for i in range(18)] == list(range(18))
    assert domain.text(7) == "pin = [2, 1], bit = 1"
    with pytest.raises(ValueError):
        domain.number((0, 1, 0))


@given(st.lists(st.integers(0, 6), min_size=2, max_size=60))
def test_both_forms_of_a_text_give_the_partition_back(classes):
    found = one(classes)
    expected = Fraction(len(set(classes)), len(classes))
    for program in (MeasuredProgram(natural(found), found), MeasuredProgram(*_by_classes(found))):
        assert program.leak().posterior_vulnerability == expected
        assert program.capacity() == len(set(classes))


def _by_classes(found):
    text, numbering = by_classes(found)
    return text, found, numbering


def test_a_text_by_classes_has_few_cases_for_any_partition():
    """Of 65,536 secrets there are at most 362 sizes of classes, since 1 + 2 + .. + 362 is above that."""
    sizes = [c for c in range(361) for _ in range(c + 1)]
    secrets = sizes + [361] * (65536 - len(sizes))
    random.Random(1).shuffle(secrets)
    found = one(secrets)
    program = measured_program(found, "", 200_000)
    assert program.numbering is not None and len(program.text) < 40_000
    assert program.capacity() == 362


def test_entries_that_begin_elsewhere_and_have_weights():
    """A pair of 2 to 4, weights 1, 2, 1: what is seen is whether both are 3, of probability 1/4. One guess is right with 1/4, and with 1/4 + 1/8."""
    cells = [Variable("a", 2, 2, 4, "secret", (1, 2, 1))]
    found = partition(cells, [(i // 3, i % 3) == (1, 1) for i in range(9)])
    leak = measured_program(found).leak()
    assert (leak.prior_vulnerability, leak.posterior_vulnerability) == (Fraction(1, 4), Fraction(1, 4) + Fraction(1, 8))


def test_names_that_the_language_reserves():
    found = partition([Variable("about", 1, 0, 1), Variable("at", 1, 0, 1), Variable("_x", 1, 0, 1)], list(range(8)))
    assert measured_program(found).capacity() == 8


@pytest.mark.parametrize(
    "old, new", [(b"< 3, 0", b"< 4, 0"), (b"uniform 0..9", b"uniform 0..8"), (b"observe", b"observe x = 0; observe"), (b"about old x;", b"")]
)
def test_a_text_that_says_something_else_is_caught_at_every_question(old, new):
    found = partition([Variable("x_", 1, 0, 9)], [i >= 3 for i in range(10)])
    text = natural(found).replace("x_", "x").encode()
    program = MeasuredProgram(text, found)
    assert program.capacity() == 2
    assert old in text
    program.text = text.replace(old, new)
    for question in (program.leak, program.capacity, program.hyper, program.traces):
        with pytest.raises(Unmeasured, match="Text"):
            question()


def test_a_text_of_another_numbering_is_caught():
    found = one([0, 1, 1, 2, 2, 2])
    text, numbering = by_classes(found)
    numbering.secrets[0], numbering.secrets[1] = numbering.secrets[1], numbering.secrets[0]
    with pytest.raises(Unmeasured):
        MeasuredProgram(text, found, numbering).leak()


def test_the_table_beside_a_text():
    found = one([0, 1, 1])
    text, numbering = by_classes(found)
    assert MeasuredProgram(text, found, numbering).table() == "number\tsecret\tclass\n0\tkey = 0\t0\n1\tkey = 1\t1\n2\tkey = 2\t1\n"


def test_refinement_is_a_function_of_classes():
    fine, coarse = one([0, 1, 2, 3]), one([0, 0, 1, 1])
    assert fine.refines_to(coarse) is None and coarse.refines_to(fine) == (0, 1)
    assert one([0, 0, 1, 1]).refines_to(one([0, 1, 0, 1])) == (0, 1)


def test_what_has_no_text_is_refused():
    many = partition([Variable("a", 40, 0, 0), Variable("b", 1, 0, 1)], [0, 1])
    assert natural(many) is None and measured_program(many).capacity() == 2
    noisy = Partition(Domain((Variable("x", 1, 0, 1),)), Domain((Variable("r", 2, 0, 255, "noise"),)), [0] * (1 << 17), 1)
    with pytest.raises(Unmeasured, match="131072 runs"):
        measured_program(noisy)


def test_a_table_of_gains_names_secrets_as_they_are_in_the_code():
    """One action that gains 1 at key 2 alone. By classes the secrets have other numbers, so that such a text has no answer."""
    found = one([0, 1, 1, 0])
    table = GainTable(1, 0, (Action("bet", {2: 1}), Action("none", {})))
    assert measured_program(found).leak(table).posterior_vulnerability == Fraction(1, 4)
    text, numbering = by_classes(found)
    with pytest.raises(Unmeasured, match="numbered by their classes"):
        MeasuredProgram(text, found, numbering).leak(table)
