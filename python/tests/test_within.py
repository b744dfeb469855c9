"""How much more a program leaks at most: closed forms, both sides multiplied out, and spoilt answers."""

from dataclasses import replace
from fractions import Fraction
from itertools import product
from pathlib import Path
from random import Random

import pytest

from kuifje import Action, GainTable, Hyper, Inner, KuifjeError, Program, refine
from kuifje.refinement import at_most, check_within, distance, ratio
from kuifje.texts import Item, Matrix, Target

NOTHING = Program("var x : 0..7 := uniform 0..7;\nabout old x;\n")
RARE = Program("var x : 0..7 := uniform 0..7;\nabout old x;\nif flip 1/100 { observe x; } else { skip; }\n")
PIN = Program("var x : 0..7 := uniform 0..7;\nabout old x;\nobserve x = 3;\n")


def hyper(columns: list[list[int]]) -> Hyper:
    """The hyper of a joint matrix in whole weights, by its columns."""
    scale = sum(map(sum, columns))
    inners = [Inner(Fraction(sum(c), scale), {x: Fraction(w, sum(c)) for x, w in enumerate(c) if w}) for c in columns if sum(c)]
    return Hyper(target=Target((Item("x", True),)), scale=scale, inners=tuple(inners))


def test_shown_once_in_a_hundred_runs() -> None:
    """Of 8 values one guess is right with 1/8, and with 99/800 + 1/100 where one run in a hundred shows all: 107/100 as much, 7/800 more."""
    more, times = distance(NOTHING, RARE), ratio(NOTHING, RARE)
    assert (more.times, more.plus) == (1, Fraction(7, 800)) and (times.times, times.plus) == (Fraction(107, 100), 0)
    for found in (more, times):
        assert check_within(found, NOTHING.hyper(), RARE.hyper())
        assert RARE.leak(found.table).posterior_vulnerability == found.times * NOTHING.leak(found.table).posterior_vulnerability + found.plus


def test_the_ratio_from_nothing_is_the_capacity() -> None:
    for program in (RARE, PIN, NOTHING):
        assert ratio(NOTHING, program).times == program.capacity()


def test_no_more_exactly_where_it_refines() -> None:
    for a, b in product((NOTHING, RARE, PIN), repeat=2):
        refines = refine(a, b).refines
        assert (distance(a, b).plus == 0) == refines == (ratio(a, b).times == 1) == at_most(a, b).holds


def test_a_value_that_only_b_has() -> None:
    a = Program("var x : 0..3 := uniform 0..2;\nabout old x;\nobserve x;\n")
    b = Program("var x : 0..3 := uniform 0..3;\nabout old x;\n")
    found = ratio(a, b)
    assert found.times is None and found.matrix is None and check_within(found, a.hyper(), b.hyper())
    assert distance(a, b).plus == Fraction(1, 4) and ratio(b, b).times == 1


def wedges(columns: list[list[int]], low: Fraction, high: Fraction) -> Fraction:
    scale = sum(map(sum, columns))
    return sum((max(low * c[0], high * c[1]) for c in columns), Fraction(0)) / scale


def closed_form(a: list[list[int]], b: list[list[int]]) -> tuple[Fraction, Fraction | None]:
    """Distance and ratio for two values, without a linear program: V is a sum of wedges in the two gains of an action, so it is enough to look where
    some inner is indifferent, and for the distance at two such rays that add up to the gains 1 and 1."""
    rays = {(Fraction(1), Fraction(0)), (Fraction(0), Fraction(1))} | {(Fraction(c[1]), Fraction(c[0])) for c in a + b if c[0] + c[1]}
    times: Fraction | None = Fraction(1)
    for low, high in rays:
        before, after = wedges(a, low, high), wedges(b, low, high)
        if after and not before:
            times = None
        elif before and times is not None:
            times = max(times, after / before)

    def more(low: Fraction, high: Fraction) -> Fraction:
        return wedges(b, low, high) - wedges(a, low, high)

    found = max([Fraction(0), more(Fraction(1), Fraction(1)), *(more(*(g / max(ray) for g in ray)) for ray in rays)])
    for (p, q), (r, s) in product(rays, repeat=2):
        if (det := p * s - q * r) != 0:
            first, second = (s - r) / det, (p - q) / det
            if first >= 0 and second >= 0:
                found = max(found, first * more(p, q) + second * more(r, s))
    return found, times


def test_two_values_by_the_closed_form() -> None:
    rng = Random(5)
    for _ in range(60):
        total = rng.randrange(6, 30)
        columns: list[list[list[int]]] = []
        split = rng.randrange(0, total + 1)
        for _side in range(2):
            made = [[0, 0] for _ in range(rng.randrange(1, 4))]
            for w in range(total):
                made[rng.randrange(len(made))][0 if w < split else 1] += 1
            columns.append([c for c in made if sum(c)])
        a, b = columns
        more, times = distance(hyper(a), hyper(b)), ratio(hyper(a), hyper(b))
        assert check_within(more, hyper(a), hyper(b)) and check_within(times, hyper(a), hyper(b))
        assert (more.plus, times.times) == closed_form(a, b), (a, b)


def random_hyper(rng: Random, values: int, inners: int) -> Hyper:
    return hyper([c for c in ([rng.choice([0, 1, 1, 2, 5]) for _ in range(values)] for _ in range(inners)) if sum(c)] or [[1] * values])


def test_random_pairs_with_other_priors_too() -> None:
    """Both sides are multiplied out, so each number is proved; by other factors, too."""
    rng = Random(7)
    for _ in range(40):
        values = rng.randrange(2, 5)
        a, b = (random_hyper(rng, values, rng.randrange(1, 5)) for _ in range(2))
        for found in (distance(a, b), ratio(a, b), *(at_most(a, b, times, Fraction(1, 10)) for times in (Fraction(1, 2), Fraction(11, 10), 2))):
            assert check_within(found, a, b)


def test_a_larger_pair_by_highs_first() -> None:
    pytest.importorskip("scipy")
    rng = Random(9)
    a, b = (hyper([[rng.randrange(1, 9) for _ in range(16)] for _ in range(16)]) for _ in range(2))
    assert check_within(distance(a, b), a, b)


def test_just_at_the_least_and_below_it() -> None:
    assert at_most(NOTHING, RARE, 1, Fraction(7, 800)).holds and not at_most(NOTHING, RARE, 1, Fraction(7, 801)).holds
    assert at_most(NOTHING, RARE, Fraction(107, 100)).holds and not at_most(NOTHING, RARE, Fraction(106, 100)).holds


def test_spoilt_answers() -> None:
    found, a, b = distance(NOTHING, RARE), NOTHING.hyper(), RARE.hyper()
    table = found.table
    wrong = [
        replace(found, plus=found.plus * Fraction(999, 1000)),
        replace(found, plus=found.plus * Fraction(1001, 1000)),
        replace(found, times=Fraction(2)),
        replace(found, times=None),
        replace(found, matrix=None),
        replace(found, matrix=Matrix((tuple(Fraction(1, 8) for _ in range(8)),))),
        replace(found, table=replace(table, rest=table.over + 1)),
        replace(found, table=GainTable(table.over, 0, tuple(Action(it.name, {x: 2 * g for x, g in it.gains.items()}) for it in table.actions))),
        replace(found, table=GainTable(table.over, -1, table.actions)),
    ]
    assert check_within(found, a, b) and not any(check_within(it, a, b) for it in wrong)
    assert not check_within(found, b, a)


def test_arguments() -> None:
    for times, plus in ((0, 0), (1, 2), (1, -1)):
        with pytest.raises(ValueError, match="times is above 0"):
            at_most(NOTHING, PIN, times, plus)
    with pytest.raises(TypeError, match="times is a Fraction"):
        at_most(NOTHING, PIN, 1.05)  # type: ignore[arg-type]
    with pytest.raises(KuifjeError, match="targets differ"):
        distance(NOTHING, Program("var y : 0..7 := uniform 0..7;\nabout old y;\n"))
    with pytest.raises(TypeError, match="a is a Program, a model or a Hyper"):
        ratio("x", PIN)  # type: ignore[arg-type]


def test_the_command(tmp_path: Path) -> None:
    """A guard that tells 3 of eight values doubles what one guess is worth, from 1/8 to 2/8; the other way round nothing is more."""
    testing = pytest.importorskip("click.testing")
    from kuifje.lab import main

    for name, program in (("nothing", NOTHING), ("pin", PIN)):
        (tmp_path / f"{name}.kf").write_bytes(program.text)
    nothing, pin = (str(tmp_path / f"{name}.kf") for name in ("nothing", "pin"))
    found = testing.CliRunner().invoke(main, ["more", nothing, pin])
    assert (found.exit_code, found.output.splitlines()[:2]) == (1, ["times 2", "plus 0"])
    assert "matrix 1 2\n1/2 1/2\n" in found.output and "\nrest 0\nactions 2\n" in found.output
    found = testing.CliRunner().invoke(main, ["more", nothing, pin, "--plus"])
    assert (found.exit_code, found.output.splitlines()[:2]) == (1, ["times 1", "plus 1/8"])
    found = testing.CliRunner().invoke(main, ["more", pin, nothing])
    assert (found.exit_code, found.output.splitlines()[:2]) == (0, ["times 1", "plus 0"])
    assert testing.CliRunner().invoke(main, ["more", pin, str(tmp_path / "none.kf")]).exit_code == 2
