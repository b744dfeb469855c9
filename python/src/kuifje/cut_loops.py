"""Bounds for a loop that chance ends: its program has runs of any length, so that the proved program refuses it, whatever ``--turns``.

The program is cut: where its loop hasn't ended after N turns, it ends there. Let r be the probability of that. Two theorems bound the posterior
vulnerability V of the whole program by what the proved program says of cut ones; both are proved on paper, and not by the gate.

1. *For any target.* In the joint matrix of the runs that have ended, each entry is at most that of the whole program, and all that lacks has
   probability r. So with gains from a to b, V lies between L + a r and L + b r, where L is what the best action at each trace gains by ended runs.
2. *For a target whose items are all old, under any gain function.* What the cut program shows, and whether it was cut, is a function of what the
   whole program shows. An observer who also sees the whole store where it was cut can go on by chance alone. So by the data-processing inequality
   V lies between the vulnerabilities of these two programs, ``low`` and ``high``, and the bounds only close in as N grows.

Where the loop may go on for ever, only the runs that end are meant, and 1 alone holds.
"""

from __future__ import annotations

import re
from dataclasses import dataclass
from fractions import Fraction

from .arguments import whole
from .gains import Gain, gain_of, less_is_worse
from .program import Program
from .source import Source, While, edited, read
from .texts import GainTable, Inner
from .values import Value

__all__ = ["Bounds", "bounds"]

MOST_TURNS = 65_535
GOING, TURN = "going", "turn"
_OPEN = re.compile(r"(?:\s|#[^\n]*)*\{")


@dataclass(frozen=True)
class Bounds:
    """Between which numbers the posterior vulnerability of a program lies, both with it; for ``guessing`` the expected number of guesses.

    ``left`` is the probability that the loop goes on after ``turns`` turns. ``cut``, ``low`` and ``high`` are the programs that were asked; where an
    item of the target isn't ``old``, there are no ``low`` and ``high``.
    """

    turns: int
    lower: Fraction
    upper: Fraction
    left: Fraction
    cut: Program
    low: Program | None
    high: Program | None

    @property
    def width(self) -> Fraction:
        """How far the bounds are apart."""
        return self.upper - self.lower


def bounds(program: Program, turns: int, gain: Gain = "bayes", *, line: int | None = None, timeout: float | None = None) -> Bounds:
    """Bounds of the posterior vulnerability of a program with a top-level loop that chance ends, which is cut after ``turns`` turns.

    ``gain`` is as for ``Program.leak``, but no name of a file. ``line`` is where the loop begins, from 1; it need not be given where the program has
    one top-level loop. ``timeout`` bounds each question. Raises ``ValueError`` where there is no such loop, or the gain is ``guessing`` and an item
    of the target isn't ``old``, and ``Refusal`` where a cut program is refused, as for its scale: each turn multiplies that by the weights of what is
    drawn in it.
    """
    turns = whole("turns", turns, 1, MOST_TURNS)
    source = read(program.text.decode())
    loop = _loop(source, line)
    old = source.target.is_initial
    if isinstance(gain, str) and gain.startswith("table:"):
        raise ValueError("gain is bayes, tries:K, guessing or a GainTable: bounds look at the numbers of a table, and read no file")
    word, _ = gain_of(gain)
    if word == "guessing" and not old:
        raise ValueError("the expected number of guesses is bounded where each item of the target is old alone")
    cut = _cut(program, source, loop, turns, f"{source.target}, {{going}}", "skip;")
    low = _cut(program, source, loop, turns, str(source.target), "skip;") if old else None
    shown = " ".join(f"observe {name};" for name in source.names)
    high = _cut(program, source, loop, turns, str(source.target), shown) if old else None

    inners = cut.hyper(timeout).inners
    left = sum((inner.outer * p for inner in inners for value, p in inner.distribution.items() if _is_cut(value)), Fraction(0))
    lowers, uppers = [], []
    if word != "guessing":
        gained = sum((inner.outer * _gained(inner, gain) for inner in inners), Fraction(0))
        least, most = _extremes(gain)
        lowers.append(gained + least * left)
        uppers.append(gained + most * left)
    if low is not None and high is not None:
        ends = [each.leak(gain, timeout).posterior_vulnerability for each in (low, high)]
        lower, upper = reversed(ends) if less_is_worse(gain) else ends
        lowers.append(lower)
        uppers.append(upper)
    return Bounds(turns, max(lowers), min(uppers), left, cut, low, high)


def _loop(source: Source, line: int | None) -> While:
    """The top-level loop that begins at a line, or the only one there is."""
    loops = [statement for statement in source.statements if isinstance(statement, While)]
    lines = [source.line(loop.at) for loop in loops]
    if line is None:
        if len(loops) != 1:
            raise ValueError(
                f"the program has top-level loops at {_listed(lines)}; say which one by line" if loops else "the program has no top-level loop"
            )
        return loops[0]
    if line not in lines:
        raise ValueError(f"no top-level loop begins at line {line}" + (f"; they begin at {_listed(lines)}" if loops else ""))
    return loops[lines.index(line)]


def _listed(lines: list[int]) -> str:
    return f"line{'s' if len(lines) > 1 else ''} {', '.join(map(str, lines))}"


def _cut(program: Program, source: Source, loop: While, turns: int, target: str, where_cut: str) -> Program:
    """The program whose loop ends after so many turns; what follows it is run where it has ended by itself, and else these statements."""
    text, guard = source.text, source.text[loop.guard.at : loop.guard.end]
    going, turn = _fresh(GOING, source), _fresh(TURN, source)
    opened = _OPEN.match(text, loop.guard.end)
    assert opened is not None  # the reader found it there
    body, rest = text[opened.end() : loop.end - 1], text[loop.end :]
    declared = f"\nvar {going} : bool := false;\nvar {turn} : 0..{turns} := 0;\nabout {target.format(going=going)};\n"
    again = f"{turn} := {turn} + 1;\n{going} := {guard};"
    loops = f"{going} := {guard};\nwhile {going} and {turn} < {turns} {{{body}\n{again}\n}}\nif {going} {{ {where_cut} }} else {{{rest}\nskip;\n}}\n"
    written = edited(text, [(source.declared, source.begin, declared), (loop.at, len(text), loops)])
    return Program(written, name=program.name, turns=max(program.turns, turns), engine=program.engine)


def _fresh(name: str, source: Source) -> str:
    """A name that the program hasn't declared."""
    while name in source.names:
        name += "_"
    return name


def _is_cut(value: Value) -> bool:
    """Whether a value of the target with ``going`` as its last item is one of a run that was cut."""
    assert isinstance(value, tuple)
    return value[-1] is True


def _gained(inner: Inner, gain: Gain) -> Fraction:
    """What the best action gains at an inner by the runs that have ended."""
    ended: dict[Value, Fraction] = {}
    for value, p in inner.distribution.items():
        assert isinstance(value, tuple)
        if not _is_cut(value):
            ended[value[0] if len(value) == 2 else value[:-1]] = p
    if isinstance(gain, GainTable):
        return gain.vulnerability(ended)
    tries = 1 if gain == "bayes" else int(gain.removeprefix("tries:"))
    return sum(sorted(ended.values(), reverse=True)[:tries], Fraction(0))


def _extremes(gain: Gain) -> tuple[Fraction, Fraction]:
    """The least and the greatest that an action gains anywhere."""
    if not isinstance(gain, GainTable):
        return Fraction(0), Fraction(1)
    numbers = [gain.rest, *(number for action in gain.actions for number in action.gains.values())]
    return Fraction(min(numbers), gain.over), Fraction(max(numbers), gain.over)
