"""Pictures: what is drawn where, and the whole pictures as they were looked at, with the version of matplotlib that drew them."""

from fractions import Fraction
from pathlib import Path

import pytest

matplotlib = pytest.importorskip("matplotlib")

from kuifje import Order, Pair, Program, channels, pictures  # noqa: E402
from kuifje.design import Corner  # noqa: E402
from kuifje.texts import Blame, BlameLine, Lines, Trail  # noqa: E402

STORED = Path(__file__).parent / "pictures"
HALF, THIRD, QUARTER = Fraction(1, 2), Fraction(1, 3), Fraction(1, 4)
CHANNEL = channels.from_rows({1: (HALF, HALF, 0, 0), 2: (0, QUARTER, HALF, QUARTER), 3: (HALF, THIRD, Fraction(1, 6), 0)})
HYPER = channels.hyper(CHANNEL, {1: QUARTER, 2: HALF, 3: QUARTER})
TWO = channels.from_rows({0: (Fraction(17, 20), Fraction(3, 20)), 1: (Fraction(3, 20), Fraction(17, 20))})
TEXT = "var a : 0..3 := uniform 0..3;\nabout old a;\nif a = 3 {\n\tskip;\n} else { skip; }\nobserve 0;\nobserve a mod 2;\n"
BLAME = Blame(BlameLine(3, Fraction(3, 4)), (BlameLine(2, HALF), BlameLine(3, Fraction(3, 4)), BlameLine(2, HALF)))
TRAIL = Trail((1, 2, 2, 3))
NAMES = ("whole", "parity", "odd", "half", "other", "nothing")
YES = {("whole", name) for name in NAMES} | {(name, "nothing") for name in NAMES} | {("parity", "odd"), ("odd", "parity")}
UNKNOWN = ({"half", "other"},)
CURVE = [Corner(Fraction(0), Fraction(1), TWO), Corner(HALF, Fraction(3, 5), TWO), Corner(Fraction(3, 2), HALF, TWO)]
ORDER = Order(NAMES, {(a, b): Pair(True if (a, b) in YES else None if {a, b} in UNKNOWN else False) for a in NAMES for b in NAMES if a != b})

DRAWN = {
    "triangle": lambda: pictures.triangle(HYPER),
    "bars": lambda: pictures.bars(HYPER),
    "channel": lambda: pictures.channel(CHANNEL),
    "hasse": lambda: pictures.hasse(ORDER),
    "vulnerability": lambda: pictures.vulnerability(TWO),
    "blame": lambda: pictures.blame(Program(TEXT), BLAME),
    "trail": lambda: pictures.trail(Program(TEXT), TRAIL),
    "tradeoff": lambda: pictures.tradeoff(CURVE),
}


def texts_of(axes):
    return [text.get_text() for text in axes.texts]


@pytest.mark.parametrize("name", DRAWN)
def test_a_picture_is_as_it_was_looked_at(name, tmp_path):
    if matplotlib.__version__ != (STORED / "VERSION").read_text().strip():
        pytest.skip("another matplotlib drew the stored pictures")
    pictures.save(DRAWN[name](), tmp_path / "drawn.svg")
    assert (tmp_path / "drawn.svg").read_text() == (STORED / f"{name}.svg").read_text()


def test_a_picture_is_written_as_png(tmp_path):
    pictures.save(DRAWN["triangle"](), tmp_path / "drawn.png")
    assert (tmp_path / "drawn.png").read_bytes().startswith(b"\x89PNG\r\n")


def test_discs_lie_at_their_posteriors():
    """The inner (1/2, 0, 1/2) lies in the middle of the left side, and (0, 1, 0) in the right corner."""
    axes = pictures.triangle(HYPER)
    centres = [tuple(map(float, dots.get_offsets()[0])) for dots in axes.collections]
    assert any(abs(x - 0.25) + abs(y - pictures.HEIGHT / 2) < 1e-9 for x, y in centres)
    assert any(abs(x - 1) + abs(y) < 1e-9 for x, y in centres)
    assert {"1/3", "1/4", "7/24", "1/8"} <= set(texts_of(axes))


def test_two_values_lie_on_a_side():
    axes = pictures.triangle(channels.hyper(TWO, {0: HALF, 1: HALF}))
    centres = sorted(tuple(map(float, dots.get_offsets()[0])) for dots in axes.collections)
    assert [(round(x, 9), y) for x, y in centres] == [(0.15, 0), (0.5, 0), (0.85, 0)]


def test_bars_are_as_wide_as_outers():
    widths = {round(patch.get_width(), 9) for patch in pictures.bars(HYPER).patches}
    assert widths == {round(float(inner.outer), 9) for inner in HYPER.inners}


def test_column_maxima_are_framed():
    framed = {(round(patch.get_y() + 0.44), round(patch.get_x() + 0.46)) for patch in pictures.channel(CHANNEL).patches}
    assert framed == {(0, 0), (2, 0), (0, 1), (1, 2), (1, 3)}


def test_posterior_vulnerability_by_hand():
    """One guess at the channel that shows the secret rightly 17 times in 20: max(p, 17/20, 1 - p)."""
    posterior, prior = pictures.vulnerability(TWO, points=20).lines
    for x, y in zip(*posterior.get_data()):
        assert abs(y - max(x, 0.85, 1 - x)) < 1e-12
    assert list(prior.get_ydata()) == [max(k, 20 - k) / 20 for k in range(21)]


def test_a_curve_goes_through_its_corners():
    axes = pictures.tradeoff(CURVE)
    curve, corners = (line.get_xydata().tolist() for line in axes.lines)
    assert corners == [[0, 1], [0.5, 0.6], [1.5, 0.5]] == curve[:3] and curve[3][1] == 0.5 and curve[3][0] > 1.5
    assert texts_of(axes) == ["(0, 1)", "(1/2, 3/5)", "(3/2, 1/2)", "no channel"]
    assert len(pictures.tradeoff(CURVE[:1]).lines) == 2
    with pytest.raises(ValueError, match="a curve has a corner"):
        pictures.tradeoff([])


def test_the_least_leak_stands_above():
    heights = {text.get_text(): text.get_position()[1] for text in pictures.hasse(ORDER).texts}
    assert heights["nothing"] > heights["half"] == heights["parity = odd"] > heights["whole"] and "?" in heights


def test_blame_stands_beside_its_line():
    places = [(text.get_text(), text.get_position()[1]) for text in pictures.blame(Program(TEXT), BLAME).texts]
    assert {("1/4", 2), ("0", 5), ("1/4", 6), ("if a = 3 {", 2), ("observe a mod 2;", 6)} <= set(places)


def test_lines_stand_beside_their_statements():
    """Two statements of line 3 are marked together, and the longest bar is that of the greatest change; a line that isn't there is refused."""
    text = "var a : 0..1 := uniform 0..1;\nabout old a;\nif a = 1 { observe flip 1/2; } else { skip; }\nobserve 0;\n"
    answer = "all inners 2 posterior 1\n3:1 inners 1 posterior 1/2\n3:12 inners 2 posterior 1\n4:1 inners 2 posterior 1\n"
    axes = pictures.lines(Program(text), Lines.parse(answer))
    places = [(found.get_text(), found.get_position()[1]) for found in axes.texts]
    assert {("1/2, 0", 2), ("0", 3), ("observe 0;", 3)} <= set(places)
    assert [(round(-bar.get_width() / 0.12, 9), round(bar.get_y() + 0.4)) for bar in axes.patches] == [(1, 2)]
    with pytest.raises(ValueError, match="no line 4"):
        pictures.lines(Program(text.removesuffix("observe 0;\n")), Lines.parse(answer))


def test_numbers_of_posteriors_stand_beside_their_lines():
    """Two posteriors after the first statement and the second, four after the third: bars of half the length, and of the whole."""
    axes = pictures.trail(Program(TEXT), Trail((1, 2, 2, 4)))
    places = [(text.get_text(), text.get_position()[1]) for text in axes.texts]
    assert {("2", 2), ("2", 5), ("4", 6)} <= set(places)
    assert [round(-bar.get_width() / 0.12, 9) for bar in axes.patches] == [0.5, 0.5, 1]


def test_statements_on_one_line_are_marked_together():
    text = "var x : 0..1 := uniform 0..1; about old x; skip; observe x;\n"
    axes = pictures.trail(Program(text), Trail((1, 1, 2)))
    assert ("1, 2", 0) in [(found.get_text(), found.get_position()[1]) for found in axes.texts]
    assert len(pictures.trail(Program("var x : 0..1 := 0;\n"), Trail((1,))).patches) == 0


@pytest.mark.parametrize(
    "draw",
    [
        lambda: pictures.trail(Program(TEXT), Trail((1, 1))),
        lambda: pictures.triangle(channels.hyper(channels.from_rows({x: (1,) for x in range(4)}), {x: QUARTER for x in range(4)})),
        lambda: pictures.vulnerability(CHANNEL),
        lambda: pictures.blame(Program(TEXT), Blame(BLAME.all, BLAME.without[:2])),
    ],
)
def test_what_does_not_fit_is_refused(draw):
    with pytest.raises(ValueError):
        draw()


def test_a_picture_of_an_order_names_other_priors():
    names = "abcd"
    pairs = {(a, b): Pair(False, apart=f"0 has the probability 1 in {a}, and 0 in {b}") for a in names for b in names if a != b}
    texts = [text.get_text() for text in pictures.hasse(Order(tuple(names[:2]), pairs)).texts]
    assert texts[-1] == "top leaks least\na and b: other priors"
    assert pictures.hasse(Order(tuple(names), pairs)).texts[-1].get_text().endswith("\na and d: other priors\n.. and more")
