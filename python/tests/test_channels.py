"""Channels by hand, and laws of the book on those that hypothesis makes."""

from fractions import Fraction

import pytest
from hypothesis import given
from hypothesis import strategies as st

from kuifje import Channel, Program, channels
from kuifje.measures import posterior_vulnerability

HALF, THIRD, QUARTER, SIXTH = Fraction(1, 2), Fraction(1, 3), Fraction(1, 4), Fraction(1, 6)
BOOK = Channel.from_rows({1: (HALF, HALF, 0, 0), 2: (0, QUARTER, HALF, QUARTER), 3: (HALF, THIRD, SIXTH, 0)})


@st.composite
def made_channels(draw, rows=st.integers(1, 4), most=4):
    """A channel with whole weights below 6, of as many rows and columns as are drawn."""
    count, columns = draw(rows), draw(st.integers(1, most))
    weights = [draw(st.lists(st.integers(0, 5), min_size=columns, max_size=columns).filter(any)) for _ in range(count)]
    return Channel.from_rows({x: [Fraction(w, sum(row)) for w in row] for x, row in enumerate(weights)})


@st.composite
def priors(draw, channel):
    weights = draw(st.lists(st.integers(0, 5), min_size=len(channel.rows), max_size=len(channel.rows)).filter(any))
    return {x: Fraction(w, sum(weights)) for x, w in zip(channel.rows, weights)}


def bayes(channel, prior):
    """The posterior Bayes vulnerability, as the sum of the joint matrix's column maxima."""
    return sum(max(prior.get(x, 0) * row[j] for x, row in channel.rows.items()) for j in range(len(channel.columns)))


def test_the_hyper_of_a_prior_and_a_channel():
    """The book's example at the prior (1/4, 1/2, 1/4): its joint columns are (3, 0, 3), (3, 3, 2), (0, 6, 1) and (0, 3, 0) over 24.

    In lowest terms (1, 0, 1) comes before (3, 3, 2), and (0, 1, 0) before (0, 6, 1).
    """
    found = channels.hyper(BOOK, {1: QUARTER, 2: HALF, 3: QUARTER})
    assert [(inner.outer, inner.distribution) for inner in found.inners] == [
        (QUARTER, {1: HALF, 3: HALF}),
        (THIRD, {1: Fraction(3, 8), 2: Fraction(3, 8), 3: QUARTER}),
        (Fraction(1, 8), {2: 1}),
        (Fraction(7, 24), {2: Fraction(6, 7), 3: Fraction(1, 7)}),
    ] and found.scale == 24


def test_columns_in_proportion_are_one():
    doubled = Channel.from_rows({0: (HALF, QUARTER, QUARTER, 0), 1: (0, HALF, HALF, 0)})
    found = channels.reduced(doubled)
    assert found.columns == ((0,), (1,)) and list(found.rows.values()) == [(HALF, HALF), (0, 1)]


def test_compositions_by_hand():
    a = Channel.from_rows({0: (HALF, HALF), 1: (0, 1)})
    b = Channel.from_rows({0: (1, 0), 1: (THIRD, 1 - THIRD)})
    assert list(channels.cascade(a, b).rows.values()) == [(Fraction(2, 3), THIRD), (THIRD, Fraction(2, 3))]
    assert list(channels.parallel(a, b).rows.values()) == [(HALF, 0, HALF, 0), (0, 0, THIRD, 1 - THIRD)]
    assert list(channels.visible_choice(a, b, QUARTER).rows.values()) == [
        (Fraction(1, 8), Fraction(1, 8), Fraction(3, 4), 0),
        (0, QUARTER, QUARTER, HALF),
    ]
    assert list(channels.hidden_choice(a, b, QUARTER).rows.values()) == [(Fraction(7, 8), Fraction(1, 8)), (QUARTER, Fraction(3, 4))]
    both = channels.product(a, b)
    assert both.rows[1, 0] == (0, 0, 1, 0) and both.rows[0, 1] == (SIXTH, THIRD, SIXTH, THIRD) and str(both.target) == "old x, old x"
    assert list(channels.product(both, a).rows)[1] == (0, 0, 1)


def test_what_is_no_channel():
    for rows in ({}, {0: (1,), 1: (HALF, HALF)}, {0: (2, -1)}, {0: (HALF, THIRD)}):
        with pytest.raises(ValueError):
            Channel.from_rows(rows)
    with pytest.raises(ValueError):
        Channel.from_rows({0: (HALF, HALF)}, columns=((0,), (0,)))
    with pytest.raises(ValueError):
        channels.parallel(BOOK, Channel.from_rows({0: (1,)}))
    with pytest.raises(ValueError):
        channels.cascade(BOOK, Channel.from_rows({0: (1,)}))
    with pytest.raises(ValueError):
        channels.hidden_choice(BOOK, BOOK, 2)
    for prior in ({1: HALF}, {1: 2, 2: -1}, {7: 1}):
        with pytest.raises(ValueError):
            channels.hyper(BOOK, prior)


def test_rows_that_are_not_exact_name_their_cell():
    for row, error, reason in (
        ([0.5, 0.5], TypeError, "cell 0 in the row of 3 is 0.5, and has to be exact"),
        ([HALF, float("nan")], TypeError, "cell 1 in the row of 3 is nan, and has to be exact"),
        ([2, -1], ValueError, "the row of 3 is no distribution: its first 1 cells sum to 2"),
        ([HALF, -HALF], ValueError, "cell 1 in the row of 3 is -1/2, and may not be below 0"),
        ([HALF, QUARTER], ValueError, "the row of 3 is no distribution: its first 2 cells sum to 3/4"),
    ):
        with pytest.raises(error, match=reason):
            Channel.from_rows({1: [HALF, HALF], 3: row})
    with pytest.raises(ValueError, match="there are 3 labels for 2 columns"):
        Channel.from_rows({1: [HALF, HALF]}, [(0,), (1,), (2,)])


def test_whole_numbers_of_numpy_stay_exact():
    """A fraction of numpy's numbers would have a numerator of 64 bits, which goes round."""
    numpy = pytest.importorskip("numpy")
    found = Channel.from_rows({0: numpy.array([1, 0]), 1: numpy.array([0, 1])})
    assert {type(cell.numerator) for row in found.rows.values() for cell in row} == {int}


def test_rows_and_labels_that_are_huge_are_refused_at_once():
    for work, reason in (
        (lambda: Channel.from_rows({0: range(10**12)}), "its first 3 cells sum to 3"),
        (lambda: Channel.from_rows({0: [HALF, HALF]}, range(10**12)), "there are 1000000000000 labels for 2 columns"),
        (lambda: channels.product(*[Channel.from_rows({x: [1] + [0] * 99 for x in range(100)})] * 2), "the product would have 100000000 cells"),
        (
            lambda: channels.parallel(*[Channel.from_rows({x: [1] + [0] * 4999 for x in range(2)})] * 2),
            "the channel of both would have 50000000 cells",
        ),
    ):
        with pytest.raises(ValueError, match=reason):
            work()


def test_other_things_than_channels_are_named():
    hyper = channels.hyper(BOOK, dict.fromkeys((1, 2, 3), THIRD))
    for work, reason in (
        (lambda: channels.hyper(hyper, {1: 1}), "channel has to be a Channel, and is of type Hyper"),
        (lambda: channels.from_hyper(BOOK), "found has to be a Hyper, and is of type Channel"),
        (lambda: channels.reduced(hyper), "channel has to be a Channel"),
        (lambda: channels.cascade(hyper, BOOK), "a has to be a Channel"),
        (lambda: channels.parallel(BOOK, hyper), "b has to be a Channel"),
        (lambda: channels.product(BOOK, None), "b has to be a Channel, and is of type NoneType"),
        (lambda: channels.hidden_choice(BOOK, BOOK, 0.5), "probability is 0.5, and has to be exact"),
        (lambda: channels.visible_choice(BOOK, BOOK, None), "probability is None, and has to be exact"),
    ):
        with pytest.raises(TypeError, match=reason):
            work()
    with pytest.raises(ValueError, match="probability is 3/2, and goes from 0 to 1"):
        channels.visible_choice(BOOK, BOOK, Fraction(3, 2))


@given(made_channels().flatmap(lambda c: st.tuples(st.just(c), priors(c))))
def test_a_hyper_and_its_channel_are_one(found):
    """A hyper's channel at its prior gives the hyper again; its vulnerability is that of the joint matrix, and no less than the prior's."""
    channel, prior = found
    hyper = channels.hyper(channel, prior)
    assert hyper.prior == {x: p for x, p in prior.items() if p} and sum(inner.outer for inner in hyper.inners) == 1
    assert posterior_vulnerability(hyper) == bayes(channel, prior) >= max(prior.values())
    assert channels.hyper(channels.from_hyper(hyper), hyper.prior) == hyper
    assert channels.hyper(channels.reduced(channel), prior) == hyper


@given(made_channels(rows=st.just(3)).flatmap(lambda c: st.tuples(st.just(c), made_channels(rows=st.just(len(c.columns))), priors(c))))
def test_what_comes_after_shows_no_more(found):
    """Data processing (the book, chapter 4): a cascade leaks no more than its first channel."""
    first, second, prior = found
    assert bayes(channels.cascade(first, second), prior) <= bayes(first, prior)


@given(made_channels(rows=st.just(3)), made_channels(rows=st.just(3)), st.fractions(0, 1))
def test_both_show_no_less_and_a_hidden_choice_no_more(a, b, p):
    uniform = dict.fromkeys(range(3), THIRD)
    assert bayes(channels.parallel(a, b), uniform) >= max(bayes(a, uniform), bayes(b, uniform))
    visible = bayes(channels.visible_choice(a, b, p), uniform)
    assert visible == p * bayes(a, uniform) + (1 - p) * bayes(b, uniform) >= bayes(channels.hidden_choice(a, b, p), uniform)


@pytest.mark.usefixtures("built")
@pytest.mark.parametrize("prior", [None, {1: QUARTER, 2: HALF, 3: QUARTER}, {1: 0, 2: THIRD, 3: 1 - THIRD}])
def test_a_channel_is_written_as_a_program(prior):
    program = Program(BOOK.to_program(prior))
    wanted = channels.hyper(BOOK, prior or dict.fromkeys((1, 2, 3), THIRD))
    found = program.hyper()
    assert [inner.outer for inner in found.inners] == [inner.outer for inner in wanted.inners] and found.scale % wanted.scale == 0
    kept = [row for x, row in BOOK.rows.items() if prior is None or prior[x]]
    assert list(channels.reduced(program.channel()).rows.values()) == list(channels.reduced(Channel.from_rows(dict(enumerate(kept)))).rows.values())


@pytest.mark.usefixtures("built")
def test_as_many_secrets_as_an_expression_holds():
    """200 secrets, each told from its neighbours: 996 nodes, and 8 brackets deep."""
    identity = Channel.from_rows({x: [x % 2, 1 - x % 2] for x in range(200)})
    found = Program(identity.to_program()).leak()
    assert (found.prior_vulnerability, found.posterior_vulnerability) == (Fraction(1, 200), Fraction(1, 100))


@pytest.mark.parametrize(
    ("rows", "limit"),
    [
        ({x: [x % 2, 1 - x % 2] for x in range(201)}, "1001 nodes"),
        ({0: [Fraction(1, 10**9 + 7), 1 - Fraction(1, 10**9 + 7)]}, "1000000006"),
        ({x: [Fraction(1, p), 1 - Fraction(1, p)] for x, p in enumerate((999999937, 999999929, 999999893, 999999883, 999999797))}, "scale"),
        ({0: [Fraction(1, 120_000)] * 120_000}, "bytes"),
    ],
)
def test_a_limit_of_the_language_is_named(rows, limit):
    with pytest.raises(ValueError, match=limit):
        Channel.from_rows(rows).to_program()
