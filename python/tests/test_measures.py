"""Measures by hand, and on what hypothesis makes."""

from decimal import Decimal
from fractions import Fraction
from itertools import permutations

import pytest
from hypothesis import given
from hypothesis import strategies as st

from kuifje import Channel, Program, channels, measures
from kuifje.intervals import Interval, natural_log

HALF, QUARTER = Fraction(1, 2), Fraction(1, 4)
NARROW = Fraction(1, 10**12)
TELL = Channel.from_rows({0: (Fraction(3, 4), QUARTER), 1: (QUARTER, Fraction(3, 4))})
UNIFORM = {0: HALF, 1: HALF}


def test_entropies_by_hand():
    """(1/2, 1/4, 1/8, 1/8) has 7/4 bits. A channel that shows one bit of two tells one bit; min-entropy falls by one, too."""
    assert measures.shannon_entropy({0: HALF, 1: QUARTER, 2: Fraction(1, 8), 3: Fraction(1, 8)}) == Interval.exactly(Fraction(7, 4))
    hyper = channels.hyper(Channel.from_rows({x: [x % 2, 1 - x % 2] for x in range(4)}), dict.fromkeys(range(4), QUARTER))
    assert measures.mutual_information(hyper) == Interval.exactly(1) == measures.min_entropy_leakage(hyper)


def test_the_capacity_of_a_noisy_bit():
    """1 - H(1/4) = 3/4 log2(3) - 1 bits, and log2(3) lies between 19/12 and 65/41, as 2^19 < 3^12 and 3^41 < 2^65."""
    found = measures.mutual_information(channels.hyper(TELL, UNIFORM))
    assert 3**12 > 2**19 and 3**41 < 2**65
    assert Fraction(3, 4) * Fraction(19, 12) - 1 <= found.low <= found.high <= Fraction(3, 4) * Fraction(65, 41) - 1
    assert found.width <= NARROW


WRONG = [
    ({0: 0.5, 1: 0.5}, TypeError, "the probability of 0 is 0.5, and has to be exact"),
    ({0: HALF, 1: 0.5}, TypeError, "the probability of 1 is 0.5, and has to be exact"),
    ({0: None}, TypeError, "the probability of 0 is None, and has to be exact"),
    ([HALF, HALF], TypeError, "has to be a mapping of values to probabilities, and is of type list"),
    ({0: 2}, ValueError, "the probabilities sum to 2, and have to sum to 1"),
    ({0: Fraction(3, 2), 1: -HALF}, ValueError, "the probability of 1 is -1/2, and may not be below 0"),
    ({0: HALF, 1: QUARTER}, ValueError, "the probabilities sum to 3/4, and have to sum to 1"),
    ({0: "half", 1: HALF}, ValueError, "the probability of 0 is 'half', and has to be"),
    ({0: "1/0"}, ValueError, "the probability of 0 is '1/0', and has to be"),
    ({}, ValueError, "the probabilities sum to 0, and have to sum to 1"),
]


@pytest.mark.parametrize("given, error, reason", WRONG)
def test_what_is_no_distribution_is_refused(given, error, reason):
    for measure in (measures.shannon_entropy, measures.bayes_vulnerability):
        with pytest.raises(error, match=f"distribution.*{reason}"):
            measure(given)
    for work in (channels.hyper, Channel.to_program):
        with pytest.raises(error, match=f"prior.*{reason}"):
            work(TELL, given)


def test_exact_numbers_of_other_kinds():
    assert measures.shannon_entropy({0: "1/2", 1: HALF, 2: 0}) == Interval.exactly(1) == measures.shannon_entropy({False: Decimal("0.5"), True: HALF})
    numpy = pytest.importorskip("numpy")
    assert measures.shannon_entropy({0: numpy.int64(1)}) == Interval.exactly(0)
    with pytest.raises(TypeError, match="has to be exact"):
        measures.shannon_entropy({0: numpy.float32(1)})


OF_HYPERS = ["prior_vulnerability", "posterior_vulnerability", "mutual_information", "min_entropy_leakage", "additive_capacity"]


@pytest.mark.parametrize("name", OF_HYPERS)
def test_measures_of_hypers_take_nothing_else(name):
    for other in (TELL, UNIFORM, None):
        with pytest.raises(TypeError, match=f"hyper has to be a Hyper, and is of type {type(other).__name__}"):
            getattr(measures, name)(other)


# The mechanism of examples/geometric/one.kf: rows 4 1 1, 2 2 2 and 1 1 4 over 6.
GEOMETRIC = Channel.from_rows({n: [Fraction(w, 6) for w in row] for n, row in enumerate(((4, 1, 1), (2, 2, 2), (1, 1, 4)))})


def test_which_pairs_are_neighbours_is_for_the_caller_to_say():
    """0 and 2 differ by 4/6 over 1/6; counts that are one apart by 4/6 over 2/6 and by 2/6 over 1/6."""
    assert measures.differential_privacy(GEOMETRIC, neighbours="all") == (4, natural_log(4))
    assert measures.differential_privacy(GEOMETRIC, neighbours=[(0, 1), (1, 2)]) == (2, natural_log(2))
    assert measures.differential_privacy(GEOMETRIC, iter([(1, 0)])) == (2, natural_log(2))
    with pytest.raises(TypeError, match="neighbours"):
        measures.differential_privacy(GEOMETRIC)
    for wrong, error, reason in (
        ("some", ValueError, "neighbours is 'some', and has to be 'all' or pairs of secrets"),
        ([], ValueError, "neighbours has no pair"),
        ([(0, 7)], ValueError, "neighbours has 7, and the channel has no row for it"),
        ([0, 1], TypeError, "neighbours has 0, and has to have pairs of secrets"),
    ):
        with pytest.raises(error, match=reason):
            measures.differential_privacy(GEOMETRIC, neighbours=wrong)
    with pytest.raises(TypeError, match="channel has to be a Channel, and is of type dict"):
        measures.differential_privacy(UNIFORM, neighbours="all")


def test_all_pairs_of_many_secrets():
    """The 200 million pairs of 20,000 secrets are compared column by column: 4/6 over 1/6."""
    many = Channel.from_rows({n: GEOMETRIC.rows[n % 3] for n in range(20_000)})
    assert measures.differential_privacy(many, neighbours="all")[0] == 4


def test_differential_privacy_by_hand():
    ratio, epsilon = measures.differential_privacy(TELL, neighbours="all")
    assert ratio == 3 and epsilon == natural_log(3) and epsilon.width <= NARROW
    one_sided = Channel.from_rows({0: (HALF, HALF, 0), 1: (QUARTER, HALF, QUARTER), 2: (HALF, HALF, 0)})
    assert measures.differential_privacy(one_sided, neighbours="all") == (None, None)
    assert measures.differential_privacy(one_sided, [(0, 2)]) == (1, Interval.exactly(0))


def test_additive_capacity_by_hand():
    """From (1/2, 1/2) the posteriors are (3/4, 1/4) and (1/4, 3/4): each lies 1/4 away. One guess gains as much: 3/4 - 1/2."""
    hyper = channels.hyper(TELL, UNIFORM)
    assert measures.additive_capacity(hyper) == QUARTER == measures.posterior_vulnerability(hyper) - measures.prior_vulnerability(hyper)


@st.composite
def hypers(draw):
    rows = [draw(st.lists(st.integers(0, 4), min_size=3, max_size=3).filter(any)) for _ in range(3)]
    prior = draw(st.lists(st.integers(1, 4), min_size=3, max_size=3))
    channel = Channel.from_rows({x: [Fraction(w, sum(row)) for w in row] for x, row in enumerate(rows)})
    return channels.hyper(channel, {x: Fraction(w, sum(prior)) for x, w in enumerate(prior)})


@given(hypers(), st.lists(st.lists(st.fractions(0, 1), min_size=3, max_size=3), min_size=1, max_size=4))
def test_no_gains_that_span_one_leak_more_than_the_additive_capacity(hyper, gains):
    def vulnerability(distribution):
        return max(sum(p * row[x] for x, p in distribution.items()) for row in gains)

    leakage = measures.posterior_vulnerability(hyper, vulnerability) - measures.prior_vulnerability(hyper, vulnerability)
    assert 0 <= leakage <= measures.additive_capacity(hyper)


@given(hypers())
def test_the_additive_capacity_is_reached(hyper):
    """By an action for each set of values, which gains 1 in it, less what it is expected to gain at the prior: all values lie within 1."""
    sets = [{x for x in range(3) if n >> x & 1} for n in range(8)]

    def vulnerability(distribution):
        return max(sum(p for x, p in distribution.items() if x in s) - sum(hyper.prior[x] for x in s) for s in sets)

    assert vulnerability(hyper.prior) == 0
    assert measures.posterior_vulnerability(hyper, vulnerability) == measures.additive_capacity(hyper)


@given(hypers())
def test_intervals_are_narrow_and_information_lies_within_its_bounds(hyper):
    found, prior = measures.mutual_information(hyper), measures.shannon_entropy(hyper.prior)
    assert found.width <= NARROW and measures.min_entropy_leakage(hyper).width <= NARROW
    assert found.high >= 0 and found.low <= prior.high


@given(st.lists(st.integers(1, 5), min_size=2, max_size=2), st.lists(st.integers(1, 5), min_size=2, max_size=2))
def test_epsilon_by_all_pairs(one, two):
    rows = {0: [Fraction(w, sum(one)) for w in one], 1: [Fraction(w, sum(two)) for w in two]}
    ratio, _ = measures.differential_privacy(Channel.from_rows(rows), neighbours="all")
    assert ratio == max(rows[a][j] / rows[b][j] for a, b in permutations(rows) for j in range(2))


def test_a_table_of_functions():
    table = measures.gain_table({"even": lambda x: 1 - x % 2, "third": lambda x: Fraction(x, 3)}, range(3))
    assert (table.over, table.rest) == (3, 0)
    assert [action.gains for action in table.actions] == [{0: 3, 1: 0, 2: 3}, {0: 0, 1: 1, 2: 2}]
    assert table.vulnerability({0: HALF, 2: HALF}) == 1 and table.vulnerability({1: 1}) == Fraction(1, 3)
    with pytest.raises(TypeError, match="the gain of half at 1 is 0.5, and has to be exact"):
        measures.gain_table({"half": lambda x: 0.5}, [1])
    for name in ("", "two words", "x" * 65, "é"):
        with pytest.raises(ValueError):
            measures.gain_table({name: lambda x: x}, range(3))


@pytest.mark.usefixtures("built")
def test_the_program_takes_a_table_of_functions():
    """A guess gains 1 where it is right and 1/2 where it is off by one: of three equal values the middle one gains 2/3. Once it is seen whether
    the value is 2, a guess gains 1 there, and of 0 and 1 it gains 3/4."""
    table = measures.gain_table({f"say_{y}": lambda x, y=y: 1 - Fraction(abs(x - y), 2) for y in range(3)}, range(3))
    found = Program("var x : 0..2 := uniform 0..2;\nabout old x;\nobserve x = 2;\n").leak(table)
    assert (found.prior_vulnerability, found.posterior_vulnerability) == (Fraction(2, 3), Fraction(2, 3) * Fraction(3, 4) + Fraction(1, 3))
