"""The most useful channel under differential privacy, with weights that prove that none is more useful; and the least factor that a bound allows."""

from __future__ import annotations

from collections.abc import Callable, Iterable, Mapping, Sequence
from dataclasses import dataclass
from fractions import Fraction
from itertools import permutations
from time import monotonic
from typing import Literal

from ..channels import Channel, Rational
from ..errors import OutOfTime
from ..values import Value, format_value
from .near import near_least
from .tableau import Tableau
from .tasks import SECONDS, Infeasible, Loss, Task, exact, task

__all__ = ["Bracket", "MostUseful", "Neighbours", "check_most_useful", "least_factor", "least_loss"]

Neighbours = Literal["all"] | Iterable[tuple[Value, Value]]
"""Which secrets an observer must hardly tell apart: all pairs (local differential privacy), or these pairs, in both directions."""

CONDITIONS = 500  # up to which the exact simplex alone takes about a second
Weights = Mapping[tuple[Value, Value, Value], Fraction]


@dataclass(frozen=True)
class MostUseful:
    """A differentially private channel of least expected loss, and the proof.

    No output is more than ``factor`` (e^ε) times as likely under one of two neighbours as under the other. ``weights[x, x2, y]`` says how much the
    condition ``C[x][y] <= factor * C[x2][y]`` counts in the lower bound that ``check_most_useful`` computes for all such channels; it is ``loss``.
    """

    factor: Fraction
    pairs: tuple[tuple[Value, Value], ...]
    loss: Fraction
    channel: Channel
    weights: Weights


@dataclass(frozen=True)
class Bracket:
    """The least factor that a bound on the loss allows lies above ``above`` and is at most ``at_most``; where both are 1 it is 1.

    ``beyond`` proves that no channel of the factor ``above`` keeps the bound, since its least loss is greater (None where the least factor is 1), and
    ``within`` is a channel of the factor ``at_most`` that does.
    """

    above: Fraction
    at_most: Fraction
    beyond: MostUseful | None
    within: MostUseful


def _pairs(about: Task, neighbours: Neighbours) -> tuple[tuple[Value, Value], ...]:
    if neighbours == "all":
        return tuple((a, b) for a, b in permutations(about.secrets, 2))
    if isinstance(neighbours, str):
        raise ValueError(f"neighbours are 'all' or pairs of secrets, and not {neighbours!r}")
    found = {pair: None for a, b in neighbours for pair in ((a, b), (b, a))}
    if unknown := [x for pair in found for x in pair if x not in about.secrets]:
        raise ValueError(f"{format_value(unknown[0])} is no secret of a probability above 0")
    return tuple(found)


def _factor(factor: object) -> Fraction:
    found = exact(factor, "the factor")
    if found < 1:
        raise ValueError(f"the factor is e^ε, at least 1, and not {found}")
    return found


def least_bound(about: Task, factor: Fraction, weights: Weights) -> Fraction:
    """What every channel of this factor loses at least, by weights of its conditions. It needs no linear program.

    Each condition says that a sum of cells isn't above 0, so with any weight it can be added to the loss; the cells of a row are then weights of a
    mean over outputs, no smaller than the least. Raises ``ValueError`` where a weight is below 0.
    """
    if any(w < 0 for w in weights.values()):
        raise ValueError("no weight is below 0")
    places = {x: i for i, x in enumerate(about.secrets)}
    columns = {y: j for j, y in enumerate(about.outputs)}
    worth = [[p * q for q in row] for p, row in zip(about.prior, about.losses)]
    for (x, x2, y), w in weights.items():
        worth[places[x]][columns[y]] += w
        worth[places[x2]][columns[y]] -= factor * w
    return sum((min(row) for row in worth), Fraction(0))


def infeasible(about: Task, bound: Fraction) -> Infeasible:
    """What is raised where no channel has so little loss: with the channel of the least loss, and the proof that there is none with less."""
    cells = [[Fraction(int(y == row.index(min(row)))) for y in range(len(row))] for row in about.losses]
    least = MostUseful(Fraction(1), (), about.least_loss, about.channel(cells), {})
    return Infeasible(bound, about.least_loss, proof=least)


def is_private(about: Task, cells: Sequence[Sequence[Fraction]], factor: Fraction, pairs: Iterable[tuple[Value, Value]]) -> bool:
    """Whether no output is more than a factor times as likely under the first secret of a pair as under the second."""
    places = {x: i for i, x in enumerate(about.secrets)}
    return all(a <= factor * b for x, x2 in pairs for a, b in zip(cells[places[x]], cells[places[x2]]))


def check_most_useful(found: MostUseful, prior: Mapping[Value, Rational], outputs: Sequence[Value], loss: Loss) -> bool:
    """Whether a channel has its factor and its loss, and no channel of that factor loses less, by the weights alone.

    It works out both sides anew, in fractions.
    """
    about = task(prior, outputs, loss)
    try:
        cells = about.cells_of(found.channel)
        least = least_bound(about, found.factor, found.weights)
        private = is_private(about, cells, found.factor, found.pairs)
    except (KeyError, ValueError):
        return False
    pairs = set(found.pairs)
    of_pairs = all((x, x2) in pairs for x, x2, _ in found.weights)
    return of_pairs and private and about.loss_of(cells) == found.loss == least


def _least(about: Task, factor: Fraction, pairs: tuple[tuple[Value, Value], ...], until: float) -> MostUseful:
    n, m = len(about.secrets), len(about.outputs)
    places = {x: i for i, x in enumerate(about.secrets)}
    tableau = Tableau({x * m + y: p * q for x, (p, row) in enumerate(zip(about.prior, about.losses)) for y, q in enumerate(row)})
    rows = [tableau.add({x * m + y: 1 for y in range(m)}, 1) for x in range(n)]
    slack = {(x, x2, y): n * m + i * m + y for i, (x, x2) in enumerate(pairs) for y in range(m)}
    of = {(x, x2, y): tableau.add({places[x] * m + y: 1, places[x2] * m + y: -factor, s: 1}, 0, s) for (x, x2, y), s in slack.items()}

    def found_of(solution: Mapping[int, Fraction], price: Callable[[tuple[Value, Value, int]], Fraction]) -> MostUseful | None:
        cells = [[solution.get(x * m + y, Fraction(0)) for y in range(m)] for x in range(n)]
        if any(cell < 0 for row in cells for cell in row) or any(sum(row) != 1 for row in cells):
            return None
        weights = {(x, x2, about.outputs[y]): w for x, x2, y in slack if (w := price((x, x2, y)))}
        found = MostUseful(factor, pairs, about.loss_of(cells), about.channel(cells), weights)
        proved = all(w > 0 for w in weights.values()) and least_bound(about, factor, weights) == found.loss
        return found if proved and is_private(about, cells, factor, pairs) else None

    near = near_least(tableau, until) if len(slack) > CONDITIONS else None
    if near is not None and near.ends is not None:
        solution, prices = near.ends.solution, near.ends.prices
        if (found := found_of(solution, lambda key: -prices[of[key]])) is not None:
            return found
    for x, row in enumerate(rows):
        tableau.enter(row, x * m + about.silent_output)
    try:
        if near is not None:
            tableau.run(until, near.above)
        tableau.run(until)
    except OutOfTime:
        raise OutOfTime(f"no channel of least loss for {n} secrets and {m} outputs in time; seconds= allows more") from None
    last = found_of(tableau.solution(), lambda key: tableau.reduced_cost(slack[key]))
    assert last is not None, "the weights don't prove the channel"
    return last


def least_loss(
    prior: Mapping[Value, Rational],
    outputs: Sequence[Value],
    loss: Loss,
    factor: Rational,
    neighbours: Neighbours,
    seconds: float = SECONDS,
) -> MostUseful:
    """The channel of least expected loss under differential privacy, with its proof.

    No output is more than ``factor`` (e^ε) times as likely under one of two neighbours as under the other (Dwork, McSherry, Nissim and Smith 2006).

    ``neighbours`` is ``"all"``, or the pairs that count. Secrets of probability 0 are left out. Raises ``ValueError`` where the factor is below 1 or
    a neighbour is no secret, ``TypeError`` for floats, ``OutOfTime`` where it takes longer than ``seconds``.
    """
    about = task(prior, outputs, loss)
    return _least(about, _factor(factor), _pairs(about, neighbours), monotonic() + seconds)


def least_factor(
    prior: Mapping[Value, Rational],
    outputs: Sequence[Value],
    loss: Loss,
    bound: Rational,
    neighbours: Neighbours,
    width: Rational = Fraction(1, 1000),
    seconds: float = SECONDS,
) -> Bracket:
    """The least factor with which a channel keeps this bound on the expected loss, as a bracket no wider than ``width``, each end with its proof.

    The least factor is no fraction as a rule, so no single number is given for it. Raises ``Infeasible`` where no channel has so little loss, or none
    of a factor up to 2^64 has, and else as ``least_loss`` does.
    """
    about, most, until = task(prior, outputs, loss), exact(bound, "the bound"), monotonic() + seconds
    pairs, narrow = _pairs(about, neighbours), exact(width, "the width")
    if narrow <= 0:
        raise ValueError(f"the width is above 0, and not {narrow}")
    if (within := _least(about, Fraction(1), pairs, until)).loss <= most:
        return Bracket(Fraction(1), Fraction(1), None, within)
    if most < about.least_loss:
        raise infeasible(about, most)
    beyond, above = within, Fraction(1)
    at_most = Fraction(2)
    while (within := _least(about, at_most, pairs, until)).loss > most:
        beyond, above, at_most = within, at_most, 2 * at_most
        if at_most > 2**64:
            raise Infeasible(most, beyond.loss, above, beyond)
    while at_most - above > narrow:
        middle = (above + at_most) / 2
        found = _least(about, middle, pairs, until)
        if found.loss > most:
            beyond, above = found, middle
        else:
            within, at_most = found, middle
    return Bracket(above, at_most, beyond, within)
