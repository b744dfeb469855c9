"""Designs: known optima, proofs that are checked and spoilt, what the proved program says of them, and what is refused."""

from __future__ import annotations

import pickle
import random
import sys
from collections.abc import Mapping, Sequence
from dataclasses import replace
from fractions import Fraction
from pathlib import Path

import pytest

from kuifje import Action, GainTable, KuifjeError, OutOfTime, Program, errors
from kuifje.channels import Channel
from kuifje.design import (
    Corner,
    Infeasible,
    MostUseful,
    Optimum,
    check_most_useful,
    check_optimum,
    confirm,
    exponential,
    least_factor,
    least_loss,
    optimal,
    planar_geometric,
    randomised_response,
    remapped,
    rounded,
    tradeoff,
    truncated_geometric,
)
from kuifje.design import optimum, privacy
from kuifje.design.near import Ends, Near, near_least
from kuifje.design.optimum import _corners
from kuifje.design.tableau import Tableau
from kuifje.measures import posterior_vulnerability
from kuifje.channels import hyper
from kuifje.values import Value

Losses = Mapping[tuple[Value, Value], Fraction]
THIRD = Fraction(1, 3)


def uniform(n: int) -> dict[Value, Fraction]:
    return {x: Fraction(1, n) for x in range(n)}


def wrong(x: Value, y: Value) -> int:
    """The loss of 1 where the output isn't the secret."""
    return int(x != y)


def distance(x: Value, y: Value) -> int:
    assert isinstance(x, int) and isinstance(y, int)
    return abs(x - y)


def in_a_row(n: int) -> list[tuple[Value, Value]]:
    return [(i, i + 1) for i in range(n - 1)]


def expected(channel: Channel, prior: Mapping[Value, Fraction], loss: Losses) -> Fraction:
    """The expected loss, worked out here."""
    cells = ((x, label[0], cell) for x, row in channel.rows.items() for label, cell in zip(channel.columns, row))
    return sum((prior[x] * cell * loss[x, y] for x, y, cell in cells), Fraction(0))


def greatest_factor(channel: Channel, pairs: list[tuple[Value, Value]]) -> Fraction:
    both = pairs + [(b, a) for a, b in pairs]
    return max(a / b for x, x2 in both for a, b in zip(channel.rows[x], channel.rows[x2]) if a)


@pytest.mark.parametrize("n", [3, 4, 7, 12])
def test_randomised_response_is_the_least_under_the_loss_of_a_wrong_output(n: int) -> None:
    # One guess is right wherever the output is: a channel of that loss leaks 1 - bound, and no channel leaks less.
    for bound in (Fraction(1, 10), Fraction(1, 4)):
        found = optimal(uniform(n), range(n), wrong, bound)
        assert found.value == 1 - bound and found.loss == bound
        assert check_optimum(found, uniform(n), range(n), wrong)
        assert posterior_vulnerability(hyper(found.channel, uniform(n))) == 1 - bound


@pytest.mark.parametrize("n", [3, 4, 6])
@pytest.mark.parametrize("factor", [Fraction(3, 2), 2, 4])
def test_the_most_useful_of_a_factor(n: int, factor: Fraction) -> None:
    # Of all pairs: randomised response, wrong with (n - 1) / (factor + n - 1). Of neighbouring counts: the geometric mechanism, best remapped.
    found = least_loss(uniform(n), range(n), wrong, factor, "all")
    assert found.loss == Fraction(n - 1) / (factor + n - 1)
    assert check_most_useful(found, uniform(n), range(n), wrong)
    losses = {(x, y): Fraction(distance(x, y)) for x in range(n) for y in range(n)}
    geometric = truncated_geometric(n, factor)
    found = least_loss(uniform(n), range(n), distance, factor, in_a_row(n))
    best = remapped(geometric, uniform(n), range(n), distance)
    assert found.loss == expected(best, uniform(n), losses) <= expected(geometric, uniform(n), losses)
    assert greatest_factor(found.channel, in_a_row(n)) <= factor
    assert check_most_useful(found, uniform(n), range(n), distance)


def ill_scaled(rng: random.Random) -> tuple[dict[Value, Fraction], range, dict[tuple[Value, Value], Fraction]]:
    n, m = rng.randint(3, 7), rng.randint(3, 7)
    weights = [rng.choice([1, 10**9, rng.randint(1, 10**9)]) for _ in range(n)]
    losses = {(x, y): Fraction(rng.randint(0, 10**6), rng.choice([1, 10**6, 7])) for x in range(n) for y in range(m)}
    return {x: Fraction(w, sum(weights)) for x, w in enumerate(weights)}, range(m), losses


def bounds_of(prior: Mapping[Value, Fraction], outputs: range, loss: Losses) -> tuple[Fraction, Fraction]:
    least = sum((p * min(loss[x, y] for y in outputs) for x, p in prior.items()), Fraction(0))
    return least, min(sum((p * loss[x, y] for x, p in prior.items()), Fraction(0)) for y in outputs)


def design_of(rng: random.Random) -> tuple[Optimum, dict[Value, Fraction], range, dict[tuple[Value, Value], Fraction]]:
    prior, outputs, loss = ill_scaled(rng)
    least, most = bounds_of(prior, outputs, loss)
    tiny = Fraction(1, 10**9)
    bound = rng.choice([least, least + tiny, most - tiny, least + (most - least) * Fraction(rng.randint(1, 99), 100)])
    return optimal(prior, outputs, loss, max(bound, least), rng.choice(["bayes", "capacity"])), prior, outputs, loss


@pytest.mark.parametrize("seed", range(30))
def test_ill_scaled_designs_are_proved(seed: int) -> None:
    found, prior, outputs, loss = design_of(random.Random(seed))
    assert check_optimum(found, prior, outputs, loss)
    assert expected(found.channel, prior, loss) == found.loss <= found.bound


@pytest.mark.whole
def test_many_ill_scaled_designs_are_proved() -> None:
    rng = random.Random(150)
    for _ in range(150):
        found, prior, outputs, loss = design_of(rng)
        assert check_optimum(found, prior, outputs, loss)


@pytest.mark.parametrize("n", [20, pytest.param(48, marks=pytest.mark.whole)])
@pytest.mark.parametrize("aim", ["bayes", "capacity"])
def test_many_secrets(n: int, aim: str) -> None:
    """Two outputs for n values in a row, each in the middle of a half: a loss of n/8 on average, and two of n guesses are right.

    That no channel leaks less is what the check says, which knows nothing of the way to it.
    """
    found = optimal(uniform(n), range(n), distance, Fraction(n, 8), aim)  # type: ignore[arg-type]
    assert found.value == (2 if aim == "capacity" else Fraction(2, n)) and check_optimum(found, uniform(n), range(n), distance)


def test_with_scipy_and_without_it_the_values_are_the_same(monkeypatch: pytest.MonkeyPatch) -> None:
    """HiGHS first, HiGHS as a first step alone, a corner of HiGHS that is spoilt, and the exact simplex alone."""
    pytest.importorskip("scipy")
    rng, ways = random.Random(4), []
    prior, outputs, loss = ill_scaled(rng)
    least, most = bounds_of(prior, outputs, loss)
    steps = (lambda near: near, lambda near: Near(near.above, None), lambda near: Near(near.above, _spoilt(near.ends)), lambda near: None)
    for module in (optimum, privacy):
        monkeypatch.setattr(module, "ALONE" if module is optimum else "CONDITIONS", 0)
    for step in steps:
        asked: list[Near | None] = []

        def near(tableau: Tableau, until: float) -> Near | None:
            found = near_least(tableau, until)
            assert found is not None
            asked.append(step(found))  # noqa: B023
            return asked[-1]  # noqa: B023

        for module in (optimum, privacy):
            monkeypatch.setattr(module, "near_least", near)
        found = optimal(prior, outputs, loss, (least + most) / 2)
        useful = least_loss(uniform(4), range(4), distance, 2, in_a_row(4))
        assert check_optimum(found, prior, outputs, loss) and check_most_useful(useful, uniform(4), range(4), distance)
        assert len(asked) == 2
        ways.append((found.value, useful.loss))
    assert len(set(ways)) == 1


def test_without_scipy_nothing_is_near(monkeypatch: pytest.MonkeyPatch) -> None:
    monkeypatch.setitem(sys.modules, "scipy.optimize", None)
    tableau = Tableau({0: 1})
    tableau.add({0: 1}, 1, 0)
    assert near_least(tableau, 1e9) is None


def test_more_outputs_than_a_text_has_room_for_are_named() -> None:
    count = 100_000
    channel = Channel.from_rows({0: [Fraction(1, count)] * count}, columns=[(y,) for y in range(count)])
    with pytest.raises(ValueError, match="the text has [0-9]+ bytes, and may have 1048576"):
        confirm(channel, {0: Fraction(1)}, range(count), wrong)


def _spoilt(ends: Ends | None) -> Ends | None:
    """A corner that has other prices."""
    return None if ends is None else Ends(ends.solution, [price + 1 for price in ends.prices])


@pytest.mark.whole
def test_many_ill_scaled_designs_are_proved_with_highs_first(monkeypatch: pytest.MonkeyPatch) -> None:
    pytest.importorskip("scipy")
    monkeypatch.setattr(optimum, "ALONE", 0)
    rng = random.Random(150)
    for _ in range(150):
        found, prior, outputs, loss = design_of(rng)
        assert check_optimum(found, prior, outputs, loss)


def test_a_spoilt_proof_proves_nothing() -> None:
    prior = {0: Fraction(1, 2), 1: Fraction(1, 3), 2: Fraction(1, 6)}
    found = optimal(prior, range(3), distance, THIRD)
    assert check_optimum(found, prior, range(3), distance)
    moved = Fraction(1, 1000)
    assert not check_optimum(replace(found, price=found.price + moved), prior, range(3), distance)
    assert not check_optimum(replace(found, price=-found.price), prior, range(3), distance)
    assert not check_optimum(replace(found, value=found.value - moved), prior, range(3), distance)
    assert not check_optimum(replace(found, bound=found.bound - moved), prior, range(3), distance)
    assert not check_optimum(replace(found, loss=found.loss - moved), prior, range(3), distance)
    with pytest.raises(ValueError, match="don't prove it"):
        rounded(replace(found, value=found.value - moved), prior, range(3), distance)
    for y, row in found.strategy.items():
        for a in row:
            spoilt = {**found.strategy, y: {**row, a: row[a] + moved}}
            assert not check_optimum(replace(found, strategy=spoilt), prior, range(3), distance)
    other = Channel.from_rows({0: [1, 0, 0], 1: [1, 0, 0], 2: [1, 0, 0]}, columns=[(0,), (1,), (2,)])
    assert not check_optimum(replace(found, channel=other), prior, range(3), distance)


def test_a_channel_with_more_than_it_names_proves_nothing() -> None:
    """0 costs nothing whatever the secret is, so it is always shown, and one guess is right with 1/2.

    A channel that shows 1 in half of the cases where it may leaks more, though what is counted under its outputs leaks and costs as much: with cells
    that have no column, or two columns of one label, a row has probability that no sum over outputs counts.
    """
    prior, half = {0: Fraction(1, 2), 1: Fraction(1, 2)}, Fraction(1, 2)
    loss = {(0, 0): 0, (0, 1): 1, (1, 0): 0, (1, 1): 0}
    found = optimal(prior, range(2), loss, 0)
    assert found.value == half and check_optimum(found, prior, range(2), loss)
    one, none = Fraction(1), Fraction(0)
    longer = Channel(found.channel.target, ((0,), (1,)), {0: (one, none, none), 1: (half, none, half)})
    twice = Channel(found.channel.target, ((0,), (1,), (1,)), {0: (one, none, none), 1: (half, half, none)})
    for channel in (longer, twice):
        assert not check_optimum(replace(found, channel=channel), prior, range(2), loss)
        with pytest.raises(ValueError, match="one label|no distribution"):
            confirm(channel, prior, range(2), loss)


def test_corners_are_corners() -> None:
    """A point that lies between two others on a line is none, and neither is what no longer falls."""
    any_channel = Channel.from_rows({0: [1]})
    points = [Corner(Fraction(a), Fraction(b), any_channel) for a, b in [(0, 9), (1, 6), (2, 3), (3, 2), (5, 0), (6, 0)]]
    assert [(corner.loss, corner.value) for corner in _corners(points)] == [(0, 9), (2, 3), (5, 0)]


def test_a_spoilt_proof_of_privacy_proves_nothing() -> None:
    found = least_loss(uniform(3), range(3), distance, 2, in_a_row(3))
    assert check_most_useful(found, uniform(3), range(3), distance)
    moved = Fraction(1, 1000)
    assert not check_most_useful(replace(found, factor=found.factor - moved), uniform(3), range(3), distance)
    assert not check_most_useful(replace(found, loss=found.loss - moved), uniform(3), range(3), distance)
    assert not check_most_useful(replace(found, pairs=((0, 7),)), uniform(3), range(3), distance)
    key = next(iter(found.weights))
    assert not check_most_useful(replace(found, weights={**found.weights, key: found.weights[key] + moved}), uniform(3), range(3), distance)
    assert not check_most_useful(replace(found, weights={**found.weights, key: -found.weights[key]}), uniform(3), range(3), distance)


@pytest.mark.parametrize("aim", ["bayes", "capacity", GainTable(1, -1, tuple(Action(f"guess_{i}", {i: 2}) for i in range(4)))])
def test_the_proved_program_says_the_same(aim: str | GainTable) -> None:
    prior = {0: Fraction(2, 5), 1: Fraction(3, 10), 2: Fraction(1, 5), 3: Fraction(1, 10)}
    for bound in (Fraction(1, 5), Fraction(1, 2)):
        found = optimal(prior, range(4), distance, bound, aim)  # type: ignore[arg-type]
        said = confirm(found.channel, prior, range(4), distance, aim)  # type: ignore[arg-type]
        assert (said.leaks, said.loss) == (found.value, found.loss) and found.loss <= bound
        assert check_optimum(found, prior, range(4), distance)


def test_bounds_that_cannot_be_met_or_buy_nothing() -> None:
    prior = {0: Fraction(1, 2), 1: Fraction(1, 3), 2: Fraction(1, 6)}
    loss = {(x, y): Fraction(1 + distance(x, y)) for x in range(3) for y in range(3)}
    with pytest.raises(Infeasible, match="the least is 1") as refused:
        optimal(prior, range(3), loss, 1 - Fraction(1, 10**9))
    assert refused.value.least == 1 and isinstance(refused.value, KuifjeError) and isinstance(refused.value, errors.Infeasible)
    # The proof that no channel has less: each secret with the output that costs it least.
    assert isinstance(proof := refused.value.proof, MostUseful) and proof.loss == 1 and check_most_useful(proof, prior, range(3), loss)
    assert not check_most_useful(replace(proof, loss=proof.loss - THIRD), prior, range(3), loss)
    assert pickle.loads(pickle.dumps(refused.value)).least == 1
    least = optimal(prior, range(3), loss, 1)
    assert (least.value, least.loss) == (1, 1) and check_optimum(least, prior, range(3), loss)
    # Always to show 1 costs 1/2 + 1/6 more, always 0 costs 1/3 + 1/3 more.
    silent = optimal(prior, range(3), loss, 5)
    assert (silent.value, silent.loss, silent.price) == (Fraction(1, 2), Fraction(5, 3), 0) and check_optimum(silent, prior, range(3), loss)
    assert len(silent.channel.columns) == 1


def test_a_value_without_probability_is_no_secret() -> None:
    prior = {0: Fraction(1, 2), 1: Fraction(0), 2: Fraction(1, 2)}
    found = optimal(prior, range(3), wrong, Fraction(1, 4))
    assert list(found.channel.rows) == [0, 2] and found.value == Fraction(3, 4)


@pytest.mark.parametrize("seed", range(4))
@pytest.mark.parametrize("aim", ["bayes", "capacity"])
def test_the_curve_is_the_least_at_each_bound(seed: int, aim: str) -> None:
    rng = random.Random(seed)
    weights = [rng.randint(1, 50) for _ in range(4)]
    prior: dict[Value, Fraction] = {x: Fraction(w, sum(weights)) for x, w in enumerate(weights)}
    loss = {(x, y): Fraction(rng.randint(0, 20), rng.randint(1, 5)) for x in range(4) for y in range(4)}
    corners = tradeoff(prior, range(4), loss, aim)  # type: ignore[arg-type]
    slopes = [(left.value - right.value) / (right.loss - left.loss) for left, right in zip(corners, corners[1:])]
    assert slopes == sorted(slopes, reverse=True) and all(slope > 0 for slope in slopes)
    for left, right in zip(corners, corners[1:]):
        for part in (Fraction(0), THIRD, Fraction(1, 2)):
            bound = left.loss + part * (right.loss - left.loss)
            found = optimal(prior, range(4), loss, bound, aim)  # type: ignore[arg-type]
            assert found.value == left.value + part * (right.value - left.value)
    more = optimal(prior, range(4), loss, corners[-1].loss + 1, aim)  # type: ignore[arg-type]
    assert more.value == corners[-1].value


def test_a_least_factor_is_a_bracket_with_both_proofs() -> None:
    found = least_factor(uniform(3), range(3), distance, Fraction(1, 2), in_a_row(3), width=Fraction(1, 100))
    # By hand: with a = 1/k the geometric mechanism loses (2a + 2a/(1 + a))/3. That is 1/2 where 4a^2 + 5a = 3, so k = 8/(73^(1/2) - 5), near 2.2573.
    assert found.above < Fraction(2258, 1000) and found.at_most > Fraction(2256, 1000) and found.at_most - found.above <= Fraction(1, 100)
    assert found.within.loss <= Fraction(1, 2) and check_most_useful(found.within, uniform(3), range(3), distance)
    assert isinstance(found.beyond, MostUseful) and found.beyond.loss > Fraction(1, 2)
    assert found.beyond.factor == found.above and check_most_useful(found.beyond, uniform(3), range(3), distance)
    free = least_factor(uniform(3), range(3), distance, 1, "all")
    assert (free.above, free.at_most, free.beyond) == (1, 1, None)
    with pytest.raises(Infeasible):
        least_factor(uniform(3), range(3), distance, Fraction(-1), "all")
    # Without any loss each secret is shown as it is, which no factor allows: of the greatest one that is tried it is wrong with 2/(2^64 + 2).
    with pytest.raises(Infeasible, match="no channel of a factor up to 18446744073709551616 has a loss of at most 0") as refused:
        least_factor(uniform(3), range(3), wrong, 0, "all")
    assert (refused.value.least, refused.value.factor) == (Fraction(2, 2**64 + 2), 2**64)
    assert isinstance(proof := refused.value.proof, MostUseful) and proof.factor == 2**64 and check_most_useful(proof, uniform(3), range(3), wrong)


def test_rounding_keeps_the_bound() -> None:
    rng = random.Random(12)
    weights = [rng.randint(1, 10**6) for _ in range(9)]
    prior: dict[Value, Fraction] = {x: Fraction(w, sum(weights)) for x, w in enumerate(weights)}
    loss = {(x, y): Fraction(rng.randint(0, 1000)) for x in range(9) for y in range(9)}
    found = optimal(prior, range(9), loss, 150)
    near = rounded(found, prior, range(9), loss, over=1000)
    assert near.loss <= found.loss <= 150 and found.value == near.least <= near.value <= near.least + Fraction(9, 1000)
    said = confirm(near.channel, prior, range(9), loss)
    assert (said.leaks, said.loss) == (near.value, near.loss)


def test_mechanisms_by_hand() -> None:
    assert randomised_response([0, 1], 3).rows[0] == (Fraction(3, 4), Fraction(1, 4))
    # alpha = 1/2: an end has 1/(1 + 1/2), the middle (1 - 1/2)/(1 + 1/2).
    assert truncated_geometric(3, 2).rows[1] == (THIRD, THIRD, THIRD)
    assert truncated_geometric(3, 2).rows[0] == (Fraction(2, 3), Fraction(1, 6), Fraction(1, 6))
    assert exponential([0, 1], [0, 1], lambda x, y: -int(x != y), 2).rows[1] == (THIRD, Fraction(2, 3))
    # Weights 1, 1/2, 1/2, 1/4 over 9/4.
    assert planar_geometric(2, 2, 2).rows[(0, 0)] == (Fraction(4, 9), Fraction(2, 9), Fraction(2, 9), Fraction(1, 9))


@pytest.mark.parametrize(
    "error, words, call",
    [
        (TypeError, r"Fraction\('0.1'\)", lambda: optimal(uniform(3), range(3), wrong, 0.1)),  # type: ignore[arg-type]
        (TypeError, "a probability", lambda: optimal({0: 0.5, 1: 0.5}, range(2), wrong, 1)),  # type: ignore[dict-item]
        (TypeError, "a loss", lambda: optimal(uniform(2), range(2), lambda x, y: 0.5, 1)),  # type: ignore[arg-type, return-value]
        (ValueError, "sum to 2/3", lambda: optimal({0: THIRD, 1: THIRD}, range(2), wrong, 1)),
        (ValueError, "none stands twice", lambda: optimal(uniform(2), [0, 0], wrong, 1)),
        (ValueError, "there is an output", lambda: optimal(uniform(2), [], wrong, 1)),
        (ValueError, "no loss for the secret 1", lambda: optimal(uniform(2), range(2), {(0, 0): 0, (0, 1): 1}, 1)),
        (ValueError, "'bayes', 'capacity' or a GainTable", lambda: optimal(uniform(2), range(2), wrong, 1, "guessing")),  # type: ignore[arg-type]
        (ValueError, "at least 1, and not 1/2", lambda: least_loss(uniform(2), range(2), wrong, Fraction(1, 2), "all")),
        (ValueError, "7 is no secret", lambda: least_loss(uniform(2), range(2), wrong, 2, [(0, 7)])),
        (ValueError, "the width is above 0", lambda: least_factor(uniform(2), range(2), wrong, THIRD, "all", width=0)),
        (OutOfTime, "seconds= allows more", lambda: least_loss(uniform(40), range(40), distance, 2, "all", seconds=0.01)),
        (TimeoutError, "seconds= allows more", lambda: optimal(uniform(40), range(40), distance, 1, seconds=0.01)),
        (ValueError, "at least one value, and none stands twice", lambda: randomised_response([0, 0], 2)),
        (ValueError, "at least one value", lambda: planar_geometric(0, 2, 2)),
        (ValueError, "at least one output", lambda: exponential([0], [], lambda x, y: 0, 2)),
        (ValueError, "no row for 1", lambda: remapped(Channel.from_rows({0: [1]}), uniform(2), range(2), wrong)),
        (TypeError, "a score is a whole number", lambda: exponential([0, 1], [0], lambda x, y: THIRD, 2)),  # type: ignore[arg-type, return-value]
    ],
)
def test_wrong_arguments_are_refused_with_a_word(error: type[Exception], words: str, call: object) -> None:
    assert callable(call)
    with pytest.raises(error, match=words):
        call()


DESIGNS = Path(__file__).resolve().parents[2] / "examples" / "design"
LEVELS: dict[Value, Fraction] = {0: Fraction(1, 2), 1: Fraction(1, 4), 2: Fraction(1, 8), 3: Fraction(1, 8)}
PLACES: list[Value] = [(i, j) for i in range(2) for j in range(2)]


def steps(x: Value, y: Value) -> int:
    assert isinstance(x, tuple) and isinstance(y, tuple)
    return distance(x[0], y[0]) + distance(x[1], y[1])


def of_gallery(name: str, secrets: Sequence[Value], shown: Sequence[Value]) -> Channel:
    """The channel of a program of the gallery, by the proved program, with secrets and outputs in the place of their numbers."""
    found = Program((DESIGNS / name).read_bytes()).channel()
    return Channel(found.target, tuple((shown[int(str(label[0]))],) for label in found.columns), dict(zip(secrets, found.rows.values())))


def test_the_gallery_s_designs_are_the_least_at_their_bounds() -> None:
    """The proof of any least channel proves each other one with as little loss and leakage, so also the one that the gallery has."""
    found = optimal(LEVELS, range(4), distance, Fraction(1, 4), "capacity")
    assert (found.value, found.price) == (Fraction(5, 2), 4)
    assert check_optimum(replace(found, channel=of_gallery("levels.kf", range(4), range(4))), LEVELS, range(4), distance)
    said = confirm(truncated_geometric(4, 2), LEVELS, range(4), distance, "capacity")
    assert (said.leaks, said.loss) == (2, Fraction(65, 96)) and of_gallery("geometric.kf", range(4), range(4)).rows == truncated_geometric(4, 2).rows
    found = optimal(LEVELS, range(4), distance, Fraction(65, 96), "capacity")
    assert check_optimum(replace(found, channel=of_gallery("least.kf", range(4), [0, 1, 3])), LEVELS, range(4), distance)
    everywhere = {x: Fraction(1, 4) for x in PLACES}
    found = optimal(everywhere, PLACES, steps, Fraction(2, 3))
    assert found.value == THIRD and check_optimum(replace(found, channel=of_gallery("grid.kf", PLACES, PLACES)), everywhere, PLACES, steps)
    assert of_gallery("planar.kf", PLACES, PLACES).rows == planar_geometric(2, 2, 2).rows
    kept = Program((DESIGNS / "levels_error.kf").read_bytes()).leak(f"table:{DESIGNS / 'error.json'}")
    assert kept.posterior_vulnerability == Fraction(1, 4)
