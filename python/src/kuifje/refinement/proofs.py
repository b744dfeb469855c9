"""What a search has found: a matrix that carries A to B, or a gain table under which B is worth more, as a certificate.

Both are tried here over whole numbers, since a search has to know where its floats were rounded well. What this says of a verdict isn't proved; what
the proved program's ``check`` says is.
"""

from __future__ import annotations

from collections.abc import Collection, Mapping, Sequence
from dataclasses import dataclass
from fractions import Fraction
from math import lcm

from ..program import Certificate
from ..texts import Action, GainTable
from ..values import Value
from .problem import Deadline, Problem, Undecided, in_time

__all__ = ["Entries", "Gains", "Proof", "Undecided", "by_matrix", "by_table"]

Entries = Mapping[tuple[int, int], Fraction]
Gains = dict[Value, int]

GREATEST = 2**127 - 1  # no number that `check` works with may pass this
LENGTH = 1_048_576  # bytes of a certificate, at most
SHORTEST = 9  # bytes that an entry of a table takes at least, with its quotes, brackets and commas: ["0","1"],
FEW = 60  # a table of more actions is left as it is


@dataclass(frozen=True)
class Proof:
    """A certificate that was found for one verdict.

    ``obstacle`` says why ``check`` can't take it, where that is so, and ``final`` that then no other certificate will do either. ``worth`` is what a
    table is worth under A and under B, and ``name`` a name of the way that is plainer than its own.
    """

    certificate: Certificate
    obstacle: str | None = None
    final: bool = False
    worth: tuple[Fraction, Fraction] | None = None
    name: str | None = None


def _too_long(certificate: Certificate) -> str | None:
    length = len(certificate.text)
    return f"the certificate has {length:,} bytes, and may have {LENGTH:,}" if length > LENGTH else None


def _bits(number: int) -> str:
    return f"{number.bit_length()} bits, and may have 127"


def _row_sums(problem: Problem, entries: Entries) -> list[Fraction]:
    rows = [Fraction(0)] * problem.m
    for (i, _), entry in entries.items():
        rows[i] += entry
    return rows


def _carried(problem: Problem, entries: Entries, deadline: Deadline) -> int | None:
    """The least common denominator of a matrix's entries; none where it doesn't carry A to B."""
    if any(entry < 0 for entry in entries.values()) or any(row != 1 for row in _row_sums(problem, entries)):
        return None
    over = lcm(*{entry.denominator for entry in entries.values()})
    reached: list[dict[int, int]] = [{} for _ in range(problem.n)]
    for (i, j), entry in entries.items():
        in_time(deadline)
        times, column = entry.numerator * (over // entry.denominator), reached[j]
        for c, weight in problem.a[i].items():
            column[c] = column.get(c, 0) + weight * times
    wanted = ({c: weight * over for c, weight in inner.items()} for inner in problem.b)
    return over if all(column == inner for column, inner in zip(reached, wanted)) else None


def by_matrix(problem: Problem, entries: Entries, deadline: Deadline, *, only: bool = False) -> Proof | None:
    """The proof of a yes by a matrix, whose entries that aren't named are 0; none where it doesn't carry A to B.

    ``only`` says that no other matrix does. Raises ``Undecided`` where that isn't known in time.
    """
    entries = {place: entry for place, entry in entries.items() if entry}
    over = _carried(problem, entries, deadline)
    if over is None:
        return None
    certificate = Certificate.of_matrix(problem.m, problem.n, entries)
    obstacle = _too_long(certificate)
    if over * problem.scales[0] > GREATEST:
        obstacle = f"A's scale times the matrix's common denominator has {_bits(over * problem.scales[0])}"
    return Proof(certificate, obstacle, only)


def _scores(inners: Sequence[Mapping[Value, int]], actions: Sequence[Gains], deadline: Deadline) -> list[dict[int, int]]:
    """For each inner what each action comes to there, times the scale; an action that isn't named comes to 0."""
    gains: dict[Value, list[tuple[int, int]]] = {}
    for k, action in enumerate(actions):
        for value, gain in action.items():
            gains.setdefault(value, []).append((k, gain))
    found = []
    for inner in inners:
        in_time(deadline)
        scores: dict[int, int] = {}
        for value, weight in inner.items():
            for k, gain in gains.get(value, ()):
                scores[k] = scores.get(k, 0) + weight * gain
        found.append(scores)
    return found


def _worth(scores: Sequence[Mapping[int, int]], chosen: Collection[int]) -> int:
    """What a table of some of the actions is worth, times the scale."""
    total = 0
    for row in scores:
        here = [score for k, score in row.items() if k in chosen]
        total += max(here) if len(here) == len(chosen) else max([0, *here])
    return total


def _needed(of_a: Sequence[Mapping[int, int]], of_b: Sequence[Mapping[int, int]], actions: Sequence[Gains], deadline: Deadline) -> list[int]:
    """Actions that still separate once those are dropped, one by one, that aren't needed: those with most entries first, as long as there is time."""
    kept = set(range(len(actions)))
    for k in sorted(kept, key=lambda k: -len(actions[k])) if 2 < len(actions) <= FEW else ():
        fewer = kept - {k}
        if deadline.passed:
            break
        if fewer and _worth(of_a, fewer) < _worth(of_b, fewer):
            kept = fewer
    return sorted(kept)


def by_table(problem: Problem, actions: Sequence[Gains], deadline: Deadline, name: str | None = None) -> Proof | None:
    """The proof of a no by a gain table, whose actions gain 0 at values that they don't name; none where it doesn't separate.

    Actions that aren't needed are left out, where there are few. Raises ``Undecided`` where there are far too many, or it isn't known in time.
    """
    if (count := sum(map(len, actions))) * SHORTEST > LENGTH:
        raise Undecided(f"a table has {count:,} entries, too many for a certificate")
    of_a, of_b = _scores(problem.joint_a, actions, deadline), _scores(problem.joint_b, actions, deadline)
    every = range(len(actions))
    if _worth(of_a, every) >= _worth(of_b, every):
        return None
    kept = _needed(of_a, of_b, actions, deadline)
    worth = Fraction(_worth(of_a, kept), problem.scale), Fraction(_worth(of_b, kept), problem.scale)
    chosen = [actions[k] for k in kept]
    certificate = Certificate.of_table(GainTable(1, 0, tuple(Action(f"b{k}", gains) for k, gains in enumerate(chosen))))
    scale, greatest = max(problem.scales), max(abs(gain) for gains in chosen for gain in gains.values())
    obstacle = _too_long(certificate)
    if scale * 2 * greatest > GREATEST:
        obstacle = f"the scale times twice the greatest gain has {_bits(scale * 2 * greatest)}"
    return Proof(certificate, obstacle, scale * 2 > GREATEST, worth, name)
