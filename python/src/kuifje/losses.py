"""Losses: an adversary who loses, in place of one who gains (the book, chapter 3).

The loss under the best action, the uncertainty, is the negated vulnerability of the gain function with the negated numbers, exactly. So the proved
program answers for losses by ``leak``, and a sign is all that is turned here. Three things don't carry over from gains. Another quotient: a gain of
c less a loss has the same difference and the same order of programs, and for each c another multiplicative leakage. No bound by capacity: it bounds
leakage under gains that aren't below 0, and a loss may leak more. And a number that isn't named: where ``rest`` is 0, an action that names little
loses little.
"""

from __future__ import annotations

import json
from collections.abc import Callable, Mapping, Sequence
from dataclasses import dataclass
from fractions import Fraction
from typing import Any

from .measures import gain_table
from .program import Program
from .texts import Action, GainTable, LossTable
from .values import Value, format_value, parse_value

__all__ = ["LossLeakage", "LossTable", "leak_loss", "loss_json", "loss_table", "read"]

FORMAT = "kuifje-loss-1"


@dataclass(frozen=True)
class LossLeakage:
    """What the best action is expected to lose before and after a run is seen, and how far that falls.

    ``multiplicative_leakage`` is prior over posterior (none where the posterior isn't above 0), ``additive_leakage`` prior less posterior. Both are
    from the adversary's side, as the book has them (chapter 5): the more leaks, the greater they are.
    """

    prior: Fraction
    posterior: Fraction

    @property
    def multiplicative_leakage(self) -> Fraction | None:
        """Prior over posterior; none where the posterior isn't above 0."""
        return self.prior / self.posterior if self.posterior > 0 else None

    @property
    def additive_leakage(self) -> Fraction:
        """Prior less posterior, which is never below 0."""
        return self.prior - self.posterior


def leak_loss(program: Program, table: LossTable, timeout: float | None = None) -> LossLeakage:
    """What an adversary with this loss function loses, before and after a run of the program is seen.

    It is ``leak`` of the proved program under the negated table, with its two numbers negated. Raises as that does, and ``TypeError`` where the table
    is one of gains: read the wrong way round it would answer all the same.
    """
    if not isinstance(table, LossTable):
        raise TypeError(f"table is a LossTable, as GainTable.loss makes one, and a value of type {type(table).__name__} was given")
    found = program.leak(table, timeout)
    return LossLeakage(-found.prior_vulnerability, -found.posterior_vulnerability)


def loss_table(actions: Mapping[str, Callable[[Value], Fraction | int]], values: Sequence[Value]) -> LossTable:
    """The loss function whose actions lose so much at each of these values, as a table; at any other value each loses the most of all of these.

    ``actions`` is as for ``kuifje.measures.gain_table``, and errors are as there.
    """
    table = gain_table(actions, values)
    most = max((number for action in table.actions for number in action.gains.values()), default=0)
    return GainTable.loss(table.over, most, table.actions)


def loss_json(table: LossTable) -> str:
    """The file of a loss table: as that of a gain table (docs/FORMATS.md), with ``losses`` for ``gains`` and ``kuifje-loss-1`` as its format."""
    actions = [{"losses": [[format_value(x), -gain] for x, gain in action.gains.items()], "name": action.name} for action in table.actions]
    return json.dumps({"actions": actions, "format": FORMAT, "over": table.over, "rest": -table.rest}, separators=(",", ":"))


def read(text: str) -> LossTable:
    """The loss table of a file's text. Raises ``ValueError`` where it isn't one; a table of gains is none."""
    try:
        found = json.loads(text)
        if not isinstance(found, dict) or found.get("format") != FORMAT:
            raise ValueError(f"its format isn't {FORMAT}")
        if set(found) != {"actions", "format", "over", "rest"}:
            raise ValueError("it has actions, format, over and rest, and no other key")
        over, rest = _number(found["over"]), _number(found["rest"])
        if over < 1 or not found["actions"]:
            raise ValueError("over is at least 1, and there is at least one action")
        return GainTable.loss(over, rest, [_action(action) for action in found["actions"]])
    except (KeyError, TypeError, RecursionError, ValueError) as error:
        raise ValueError(f"this is no loss table: {error}") from None


def _number(number: Any) -> int:
    if not isinstance(number, int) or isinstance(number, bool):
        raise ValueError(f"{number!r} is no whole number")
    return number


def _action(action: Any) -> Action:
    if not isinstance(action, dict) or set(action) != {"losses", "name"} or not isinstance(action["name"], str):
        raise ValueError("an action has losses and name, and no other key")
    losses = {parse_value(value): _number(number) for value, number in action["losses"]}
    if len(losses) != len(action["losses"]):
        raise ValueError(f"{action['name']} names a value twice")
    return Action(action["name"], losses)
