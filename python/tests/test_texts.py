"""What is no text of the program isn't taken, and how answers show: in a session, in a notebook, as JSON and as a data frame."""

import json
from fractions import Fraction

import pytest

from kuifje import Channel, Hyper, texts


@pytest.mark.parametrize(
    ("kind", "text"),
    [
        (texts.Hyper, "target old x\nscale 2\ninners 1\ninner 0 outer 2/2\n  0 1\n"),
        (texts.Hyper, "target old x\nscale 2\ninners 2\ninner 0 outer 1\n  0 1\n"),
        (texts.Hyper, "target old x\nscale 2\ninners 1\ninner 1 outer 1\n  0 1\n"),
        (texts.Hyper, "target old x\nscale 2\ninners 1\ninner 0 outer 1\n  0 1"),
        (texts.Leakage, "gain bayes\nprior 1/4\nposterior 1/2\nquotient 2\n"),
        (Channel, "target old x\ncolumns 2\ncolumn 0 [0]\ncolumn 1 [1]\nrows 1\nrow 0\n  1\n"),
        (texts.Verdict, "refines yes\nmatrix 1 2\n1\n"),
        (texts.Verdict, "refines perhaps\n"),
        (texts.Mark, "rejected colour\n"),
        (texts.Capacity, "capacity 1\ncapacity 1\n"),
        (texts.Lines, "2:1 inners 1 posterior 1\n"),
        (texts.Lines, "all inners 1 posterior 1\n2 inners 1 posterior 1\n"),
        (texts.Lines, "all inners 1 posterior 1\n2:0 inners 1 posterior 1\n"),
        (texts.Lines, "all inners 1 posterior 1\n3:1 inners 1 posterior 1\n2:4 inners 1 posterior 1\n"),
        (texts.Lines, "all inners 1 posterior 1\n3:1 inners 1 posterior 1\n3:1 inners 1 posterior 1\n"),
    ],
)
def test_other_texts_are_not_taken(kind, text):
    with pytest.raises(ValueError):
        kind.parse(text)


HALF = Fraction(1, 2)
HYPER = Hyper.parse("target old x\nscale 4\ninners 2\ninner 0 outer 3/4\n  {0} 1\ninner 1 outer 1/4\n  {} 1/2\n  {1} 1/2\n")


def test_a_hyper_has_outers_and_a_prior():
    """{} and {1} come of the second inner alone, with half of 1/4 each; the prior's values ascend."""
    assert HYPER.outers == (Fraction(3, 4), Fraction(1, 4))
    assert list(HYPER.prior.items()) == [(frozenset(), Fraction(1, 8)), (frozenset({0}), Fraction(3, 4)), (frozenset({1}), Fraction(1, 8))]


def test_an_answer_shows_what_the_program_printed():
    assert repr(HYPER) == f"<Hyper>\n{HYPER}".rstrip()
    trail = texts.Trail(tuple(range(1, 100)))
    lines = repr(trail).splitlines()
    assert len(lines) == 42 and lines[1] == "after 0 inners 1" and lines[-1] == ".. and 59 more lines"
    assert len(repr(texts.Trail(tuple(range(1, 42)))).splitlines()) == 42


def test_an_answer_is_a_table_in_notebooks():
    shown = HYPER._repr_html_()
    assert "<th>outer</th>" in shown and "<td>3/4 (0.75)</td>" in shown and "<td>{0}</td>" in shown and "<caption>" not in shown
    long = texts.Trail(tuple(range(1, 1000)))._repr_html_()
    assert long.count("<tr>") == 202 and ".. and 799 more rows" in long
    asked = texts.Capacity(HALF, question="What is <this>?")._repr_html_()
    assert "<caption>What is &lt;this&gt;?</caption>" in asked and "<td>1/2 (0.5)</td>" in asked


def test_an_answer_is_json():
    """Values and fractions are texts; what wasn't asked has no question."""
    assert json.loads(HYPER.to_json()) == {
        "target": {"items": [{"name": "x", "old": True}]},
        "scale": 4,
        "inners": [{"outer": "3/4", "distribution": {"{0}": "1"}}, {"outer": "1/4", "distribution": {"{}": "1/2", "{1}": "1/2"}}],
    }
    assert json.loads(texts.Lines.parse("all inners 2 posterior 1\n3:12 inners 1 posterior 1/2\n").to_json()) == {
        "all": {"inners": 2, "posterior": "1"},
        "without": [{"line": 3, "column": 12, "inners": 1, "posterior": "1/2"}],
    }
    assert json.loads(texts.Leakage("bayes", HALF, HALF, None, Fraction(0)).to_json())["multiplicative_leakage"] is None


def test_an_answer_is_a_data_frame():
    pytest.importorskip("pandas")
    frame = HYPER.to_pandas()
    assert list(frame.columns) == ["inner", "outer", "value", "probability"] and list(frame["probability"]) == [1, HALF, HALF]
    channel = Channel.from_rows({0: (HALF, HALF), 1: (0, 1)}).to_pandas()
    assert list(channel.columns) == ["value", "[0]", "[1]"] and list(channel["[1]"]) == [HALF, 1]


@pytest.mark.parametrize(
    ("text", "kind", "rows"),
    [
        ("gain bayes\ninner 0 outer 1 value 1/2\n  0 1/2\n  1 1/2\n", texts.Attack, 2),
        ("all inners 2 bayes 1\nwithout 0 inners 1 bayes 1/2\n", texts.Blame, 2),
        ("all inners 2 posterior 1\n3:12 inners 1 posterior 1/2\n", texts.Lines, 2),
        ("target old x\nscale 2\ntraces 1\ntrace [] weight 1\n  0 1/2\n  1 1/2\n", texts.TraceTable, 2),
        ("refines yes\nmatrix 2 1\n1\n1\n", texts.Verdict, 2),
        ("refines no\nover 2\nrest 1\nactions 1\naction b0\n  0 2\n  1 0\n", texts.Verdict, 2),
        ("tries 1\nposterior 1/2\nbefore 0\n", texts.Reach, 1),
        ("rows 1\ncolumns 1\nfirst 1\nsecond 1\nboth 1\n", texts.Composition, 1),
        ("observations 1\nscale 2\ninners 1\nlast 1\n", texts.Made, 1),
        ("accepted\n", texts.Mark, 1),
        ("rejected cell\n", texts.Mark, 1),
    ],
)
def test_each_kind_has_rows(text, kind, rows):
    found = kind.parse(text)
    assert str(found) == text and len(found.records()) == rows and len({tuple(row) for row in found.records()}) == 1
