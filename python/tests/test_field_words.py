"""Answers in the book's words, with bits that are rounded."""

from fractions import Fraction

import pytest

from kuifje import Leakage
from kuifje.field_words import BITS, bits, leakage_lines, leakage_rows

BAYES = Leakage.parse("gain bayes\nprior 1/8\nposterior 3/8\nquotient 3\ndifference 1/4\n")
GUESSING = Leakage.parse("gain guessing\nprior 9/2\nposterior 3/2\nquotient 1/3\ndifference -3\n")
TABLE = Leakage.parse("gain table\nprior 0\nposterior 1/2\nquotient undefined\ndifference 1/2\n")


def test_bits_by_hand():
    """2^1.585 = 3.0001, 2^1.5845 = 2.9991: the logarithm of 3 is 1.585, rounded. That of 8/3 is 3 less that."""
    assert (bits(Fraction(8)), bits(Fraction(3)), bits(Fraction(8, 3)), bits(Fraction(1)), bits(Fraction(1, 2))) == (
        "3.000",
        "1.585",
        "1.415",
        "0.000",
        "-1.000",
    )


def test_one_guess_has_bits():
    rows = leakage_rows(BAYES)
    assert [row["measure"] for row in rows] == ["prior vulnerability", "posterior vulnerability", "multiplicative leakage", "additive leakage"]
    assert [row[BITS] for row in rows] == ["3.000", "1.415", "1.585", ""]
    assert [row["value under bayes"] for row in rows] == [Fraction(1, 8), Fraction(3, 8), Fraction(3), Fraction(1, 4)]


def test_other_gains_have_none():
    for found in (GUESSING, TABLE):
        assert all(BITS not in row for row in leakage_rows(found))
    assert "undefined" in [row["value under table"] for row in leakage_rows(TABLE)]
    assert [row["measure"] for row in leakage_rows(GUESSING)][:2] == ["prior guessing entropy", "posterior guessing entropy"]


@pytest.mark.parametrize(
    "found, wanted",
    [
        (
            BAYES,
            "gain bayes                              bits of min-entropy, rounded\n"
            "prior vulnerability      1/8 (0.125)  3.000\n"
            "posterior vulnerability  3/8 (0.375)  1.415\n"
            "multiplicative leakage   3            1.585\n"
            "additive leakage         1/4 (0.25)\n",
        ),
        (
            TABLE,
            "gain table\n"
            "prior vulnerability      0\n"
            "posterior vulnerability  1/2 (0.5)\n"
            "multiplicative leakage   undefined\n"
            "additive leakage         1/2 (0.5)\n",
        ),
    ],
)
def test_lines(found, wanted):
    head, *lines = leakage_lines(found).splitlines()
    assert lines == wanted.splitlines()[1:] and head.split() == wanted.splitlines()[0].split()
    if found is BAYES:
        assert head.index("bits") == lines[0].index("3.000")


def test_a_notebook_has_these_words_and_the_printed_bytes_stay():
    shown = BAYES._repr_html_()
    assert "prior vulnerability" in shown and BITS in shown and "<td>1.585</td>" in shown and "prior_vulnerability" not in shown
    assert str(BAYES) == "gain bayes\nprior 1/8\nposterior 3/8\nquotient 3\ndifference 1/4\n"


def test_a_data_frame_stays_as_it_was():
    pytest.importorskip("pandas")
    frame = BAYES.to_pandas()
    assert frame["prior_vulnerability"].tolist() == [Fraction(1, 8)] and frame["multiplicative_leakage"].tolist() == [Fraction(3)]
