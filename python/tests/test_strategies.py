"""Public inputs and strategies: numbers by hand, and by a plain search through all strategies."""

import time
from fractions import Fraction
from itertools import product

import pytest
from hypothesis import given, settings
from hypothesis import strategies as st

from kuifje import Program, TooLarge, strategies
from kuifje.model import Noise, Public, Secret, choose, flip, model, observe, one_of, uniform
from kuifje.strategies import adaptive, worst

pytestmark = pytest.mark.usefixtures("built")


@model
def below(x: Secret = uniform(range(8)), bound: Public = one_of(range(1, 8))):
    observe(x < bound)


@model
def early(pin: Secret = [uniform(range(4))] * 3, guess: Public = [one_of(range(4))] * 3):
    for i in range(3):
        if pin[i] != guess[i]:
            break


@model
def noisy(x: Secret = flip(1, 2), precise: Public = one_of([False, True])):
    if precise:
        observe(choose((x, 3), (not x, 1)))
    else:
        observe(choose((x, 2), (not x, 1)))


@model
def masked(x: Secret = uniform(range(4)), mask: Noise = uniform(range(4)), which: Public = one_of(range(2))):
    if which == 0:
        observe((x + mask) % 4)
    else:
        observe(mask)


# ---- the worst input


def test_the_worst_input_by_hand():
    """One guess is right with 2/8 whatever the bound is. To find the number takes (1 + .. + 4) · 2 / 8 guesses on average where the bound is 4."""
    found = worst(below)
    assert (dict(found.inputs), found.value) == ({"bound": 1}, Fraction(1, 4)) and len(found.measured) == 7
    found = worst(below, "leak --gain guessing")
    assert (dict(found.inputs), found.value) == ({"bound": 4}, Fraction(5, 2)) and str(found).startswith(
        "bound = 4 leaks most (the least number): 5/2\n"
    )
    assert found.records()[0] == {"bound": 1, "value": Fraction(1 + sum(range(1, 8)), 8)} and "bound = 4 leaks most" in repr(found)


def test_the_worst_input_by_other_measures():
    """Three tries find 3 numbers of 5 and 3 of 3: 6 of 8 with the bounds 3, 4 and 5; with 1 it is one and three of seven."""
    assert worst(below, "leak --gain tries:3").value == Fraction(6, 8) and dict(worst(below, "leak --gain tries:3").inputs) == {"bound": 3}
    assert worst(below, lambda program: program.capacity()).value == 2
    assert dict(worst(below, "reach 1/1").inputs) == {"bound": 4} and worst(below, "reach 1/1").value == 4
    with pytest.raises(TypeError, match="no number"):
        worst(below, "hyper")
    with pytest.raises(TypeError, match="no number"):
        worst(below, lambda program: program.capacity() > 1)


def guesses(program):
    return program.leak("guessing").posterior_vulnerability


def test_of_a_number_of_guesses_the_least_is_the_worst():
    """With the bound 4 two halves of four numbers are left, 5/2 guesses; with 1 or 7 one number and seven: (1 + 28) / 8."""
    found = worst(below, guesses, least=True)
    assert (dict(found.inputs), found.value, found.least) == ({"bound": 4}, Fraction(5, 2), True)
    found = worst(below, guesses)
    assert (dict(found.inputs), found.value) == ({"bound": 1}, Fraction(29, 8))
    assert worst(below, lambda program: program.leak("guessing")).value == worst(below, "leak --gain guessing", least=True).value == Fraction(5, 2)
    for measure, least in (("leak --gain guessing", False), ("leak", True), ("reach 1/1", False)):
        with pytest.raises(ValueError, match="least is"):
            worst(below, measure, least=least)
    with pytest.raises(TypeError, match="least is 1"):
        worst(below, guesses, least=1)


@model
def key(n: Public = one_of([2, 4, 64]), k: Secret = lambda n: uniform(range(n))):
    observe(k % 2 if n > 2 else 0)


def test_inputs_with_different_priors_are_compared_by_leakages():
    """With n = 2 nothing is shown: 1/2 and then 1/2. With n = 4 a bit is: 2/4 after 1/4, and with n = 64 2/64 after 1/64."""
    for measure in ("leak", "leak --gain guessing", "reach 1/2", guesses, lambda program: program.capacity()):
        with pytest.raises(ValueError, match=r"the prior with n = 4 isn't the one with n = 2, .* of=\"multiplicative_leakage\""):
            worst(key, measure)
    found = worst(key, of="multiplicative_leakage")
    assert [value for _, value in found.measured] == [1, 2, 2] and dict(found.inputs) == {"n": 4}
    assert [value for _, value in worst(key, of="additive_leakage").measured] == [0, Fraction(1, 4), Fraction(1, 64)]
    assert [value for _, value in worst(key, "capacity").measured] == [1, 2, 2]
    assert worst(key, lambda program: program.capacity(), own_prior=True).value == 2
    # 64 numbers take 65/2 guesses, and 32 of them 33/2: 16 fewer, of 4 numbers 5/2 and 3/2
    found = worst(key, "leak --gain guessing", of="additive_leakage")
    assert [value for _, value in found.measured] == [0, -1, -16] and dict(found.inputs) == {"n": 64}
    with pytest.raises(ValueError, match="of is 'prior'"):
        worst(key, of="prior")
    with pytest.raises(ValueError, match="a number of leak"):
        worst(key, "capacity", of="additive_leakage")


@model
def shown(x: Secret = uniform(range(4)), guess: Public = 3, more: Public = one_of([1, 2])):
    observe(x == guess)
    observe(x == more)


@model
def single(x: Secret = uniform(range(4)), guess: Public = 3):
    observe(x == guess)


@model
def alone(x: Secret = uniform(range(4))):
    observe(x)


def test_inputs_that_have_one_value_are_said_to():
    """Of four numbers two are told from the others, and one guess more is right with 1/2 of 2/4."""
    found = worst(shown)
    assert found.value == Fraction(3, 4) and found.fixed == ("guess",)
    assert str(found).endswith("guess has this value alone, since it isn't declared by one_of\n")
    with pytest.raises(ValueError, match=r"no public input with several values: write guess: Public = one_of\(\.\.\)"):
        worst(single)
    with pytest.raises(ValueError, match="alone has no public input"):
        worst(alone)
    with pytest.raises(TypeError, match="worst is asked of a model"):
        worst(alone.program())


# ---- strategies by hand


@pytest.mark.parametrize(("rounds", "reached"), [(0, Fraction(1, 8)), (1, Fraction(1, 4)), (2, Fraction(1, 2)), (3, Fraction(1)), (4, Fraction(1))])
def test_a_search_by_halves(rounds, reached):
    """Each round has two answers, so k of them tell at most 2^k numbers apart."""
    found = adaptive(below, rounds=rounds)
    assert found.vulnerability == reached == found.confirmed.posterior_vulnerability == found.program.leak().posterior_vulnerability


def test_a_fixed_pair_of_questions_is_worth_less():
    """The bounds 2, 4 and 6, two rounds: the second one depends on the first answer. Any fixed pair leaves three groups: 3/8."""
    queries = [{"bound": bound} for bound in (2, 4, 6)]
    found = adaptive(below, queries, 2)
    assert found.vulnerability == Fraction(4, 8)
    lines = str(found).splitlines()
    assert lines[0] == "rounds 2, gain bayes, posterior vulnerability 1/2" and lines[2] == "bound = 4"
    assert "the proved program confirms that it is reached" in lines[1] and lines[3] == "├─ false: bound = 6"
    assert lines[4].strip("│ ") == "├─ false: guess 6 (value 1/2, probability 1/4)"


def test_a_noisy_bit():
    """Three quarters, and after two answers the same; of three the majority is right with 27/64 + 27/64."""
    assert [adaptive(noisy, rounds=rounds).vulnerability for rounds in (1, 2, 3)] == [Fraction(3, 4), Fraction(3, 4), Fraction(27, 32)]


def test_noise_is_drawn_anew_in_each_round():
    """What is masked says nothing without its mask, and the mask of another round is another one."""
    assert adaptive(masked, rounds=2).vulnerability == Fraction(1, 4)


def test_several_guesses():
    """Two rounds leave four groups of two numbers, and two guesses find each."""
    assert adaptive(below, rounds=2, tries=2).vulnerability == 1 and adaptive(below, rounds=1, tries=2).vulnerability == Fraction(1, 2)


def test_an_early_exit():
    """One try has four outcomes: it ends at one of three letters, or is right. So one guess after it is right with 4/64. A script that bumps the
    letter at which it stopped reaches 20/64 in three tries; the best strategy reaches as much at least."""
    assert adaptive(early, rounds=1).vulnerability == Fraction(4, 64)
    found = adaptive(early, rounds=3)
    assert found.vulnerability >= Fraction(20, 64) and found.confirmed.prior_vulnerability == Fraction(1, 64)


def test_the_program_of_a_strategy_is_a_text():
    found = adaptive(below, [{"bound": 4}, {"bound": 6}], 2)
    text = found.program.text.decode()
    assert text.startswith(
        "# The best strategy of 2 rounds. x is the number of the secret among 0, 1, 2, 3, 4, 5, 6, 7.\nvar x : 0..7 := uniform 0..7;\n"
    )
    assert "  # bound = 4\n" in text and Program(text).leak().posterior_vulnerability == Fraction(3, 8)


@pytest.mark.parametrize("name", ["rounds", "tries"])
@pytest.mark.parametrize(
    ("value", "raised"), [(2.5, TypeError), (True, TypeError), ("3", TypeError), (None, TypeError), (-1, ValueError), (10**30, ValueError)]
)
def test_counts_are_whole_numbers_within_bounds(name, value, raised):
    with pytest.raises(raised, match=f"{name} is a whole number from"):
        adaptive(below, **{name: value})


@pytest.mark.parametrize("queries", [{"bound": 4}, [4], 4, "bound"])
def test_queries_are_public_inputs(queries):
    with pytest.raises(TypeError, match="queries is .* has to be a list of public inputs"):
        adaptive(below, queries)


@model
def liar(x: Secret = uniform(range(2)), day: Public = 0):
    observe(choose((x, 3), (1 - x, 1)))


def test_a_strategy_with_too_many_ways_to_end_is_refused():
    """A noisy bit, asked 20 times: as long as both values are possible there are two answers, and it is never certain. Where it is surer after a
    round than can be turned in those that are left, no more is asked: so it ends at each way to be ahead by more than what is left."""
    ways = {(0, 0): 1}
    ended = 0
    for left in range(20, 0, -1):
        after = {}
        for (ahead, _), count in ways.items():
            if abs(ahead) >= left:
                ended += count
                continue
            for step in (-1, 1):
                after[ahead + step, 0] = after.get((ahead + step, 0), 0) + count
        ways = after
    ended += sum(ways.values())
    with pytest.raises(TooLarge, match=f"^the best strategy of 20 rounds ends in {ended} ways"):
        adaptive(liar, rounds=20)
    with pytest.raises(TooLarge, match="400 rounds are too many|400 rounds ends in more than 10.12 ways"):  # as deep as Python may go
        adaptive(liar, rounds=400)
    assert adaptive(below, rounds=1000).vulnerability == 1  # three rounds are enough, and no more are asked


def test_what_cannot_be_played(monkeypatch):
    with pytest.raises(ValueError, match="at least one query"):
        adaptive(below, [], 2)
    with pytest.raises(TypeError, match="adaptive is asked of a model"):
        adaptive(below.program(bound=1))
    with pytest.raises(TypeError):
        adaptive(below, [{"bound": 9}], 1)
    monkeypatch.setattr(strategies, "MOST_POSTERIORS", 5)
    with pytest.raises(TooLarge, match="^6 posteriors were met, and there may be 5"):
        adaptive(below, rounds=3)


@model
def drawn_by_input(low: Public = one_of([0, 1]), x: Secret = lambda low: uniform([low, low + 1])):
    observe(x)


def test_queries_with_different_priors_are_refused():
    with pytest.raises(ValueError, match="low = 1 isn't the one with low = 0"):
        adaptive(drawn_by_input, rounds=1)


# ---- by a plain search

TABLE = [[0, 0, 1, 1], [0, 1, 1, 2], [2, 0, 2, 0]]


@model
def table(x: Secret = choose({0: 1, 1: 2, 2: 2, 3: 1}), row: Public = one_of(range(3)), lies: Public = one_of([0, 1, 2])):
    observe(choose((TABLE[row][x], 3), ((TABLE[row][x] + 1) % 3, lies)))


def columns(row, lies):
    """The probability of each answer to a query, given the secret."""
    found = [[Fraction(0)] * 4 for _ in range(3)]
    for x in range(4):
        found[TABLE[row][x]][x] += Fraction(3, 3 + lies)
        found[(TABLE[row][x] + 1) % 3][x] += Fraction(lies, 3 + lies)
    return found


@settings(max_examples=12)
@given(st.lists(st.tuples(st.integers(0, 2), st.integers(0, 2)), min_size=1, max_size=3, unique=True))
def test_two_rounds_as_all_strategies_have_it(queries):
    """Of each first query and each way to choose the second by what was seen, the sum of the greatest joint probabilities; the best of all."""
    prior = [Fraction(n, 6) for n in (1, 2, 2, 1)]
    best = Fraction(0)
    for first in queries:
        for seconds in product(queries, repeat=3):
            joint = [
                [p * a * b for p, a, b in zip(prior, shown, then)] for shown, second in zip(columns(*first), seconds) for then in columns(*second)
            ]
            best = max(best, sum(map(max, joint)))
    found = adaptive(table, [{"row": row, "lies": lies} for row, lies in queries], 2)
    assert found.vulnerability == best


@model
def mirrored(x: Secret = uniform(range(64)), key: Public = one_of(range(8))):
    """A noisy answer of eight: the sum of the secret's halves under a key."""
    y = (x * (2 * key + 1) + key) % 64
    observe(choose((y // 8, 5), (y % 8, 2), ((y + key) % 8, 1)))


def test_64_secrets_8_queries_and_3_rounds_take_under_a_minute():
    start = time.process_time()
    found = adaptive(mirrored, rounds=3)
    assert time.process_time() - start < 60 and found.confirmed.posterior_vulnerability == found.vulnerability > Fraction(1, 8)
