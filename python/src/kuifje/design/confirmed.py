"""What the proved program says of a design: what its channel leaks, and what it costs; and designs that a text has room for."""

from __future__ import annotations

from collections.abc import Mapping, Sequence
from dataclasses import dataclass
from fractions import Fraction
from math import lcm

from ..channels import Channel, Rational
from ..program import Program
from ..texts import Action, GainTable
from ..values import Value
from .optimum import Optimum, check_optimum, leaks
from .tasks import Aim, Loss, Task, task

__all__ = ["Confirmed", "Rounded", "confirm", "rounded"]


@dataclass(frozen=True)
class Confirmed:
    """What the proved program prints of a channel: what it leaks, the posterior vulnerability or the capacity, and its expected loss.

    ``program`` shows the channel, with secrets and outputs numbered from 0. ``costs`` is the text whose one action gains the loss: it keeps the
    output in a variable in place of showing it.
    """

    leaks: Fraction
    loss: Fraction
    program: Program
    costs: Program


@dataclass(frozen=True)
class Rounded:
    """A channel whose probabilities are whole multiples of ``1 / over``, made of a design so that its loss isn't greater.

    The least leakage under the bound is at least ``least``, which the design proves, and at most ``value``, what this channel leaks.
    """

    over: int
    least: Fraction
    value: Fraction
    loss: Fraction
    channel: Channel


def _numbered(aim: Aim, about: Task) -> str | GainTable:
    """The gain under which the program is asked: secrets are numbered there."""
    if not isinstance(aim, GainTable):
        return "bayes"
    actions = tuple(Action(a.name, {i: a.gains.get(x, aim.rest) for i, x in enumerate(about.secrets)}) for a in aim.actions)
    return GainTable(aim.over, 0, actions)


def _costs(about: Task, text: str, columns: Sequence[int]) -> tuple[Program, GainTable]:
    """The text that keeps its output, and the table of one action that gains the loss of each secret with each output."""
    declared, _, shown = text.partition("about old x;\nobserve ")
    over = lcm(*(q.denominator for row in about.losses for q in row))
    gains: dict[Value, int] = {(i, j): int(row[y] * over) for i, row in enumerate(about.losses) for j, y in enumerate(columns)}
    kept = f"{declared}var y : 0..{len(columns) - 1} := 0;\nabout old x, y;\ny := {shown}"
    return Program(kept), GainTable(over, 0, (Action("loss", gains),))


def confirm(
    channel: Channel, prior: Mapping[Value, Rational], outputs: Sequence[Value], loss: Loss, aim: Aim = "bayes", timeout: float | None = None
) -> Confirmed:
    """Asks the proved program what a channel leaks and what it costs.

    Raises ``ValueError`` where the channel's text would pass a limit of the language (``rounded`` makes one that doesn't), or its secrets or outputs
    aren't those of the task.
    """
    about = task(prior, outputs, loss)
    cells = about.cells_of(channel)
    shown = [y for y in range(len(about.outputs)) if any(row[y] for row in cells)]
    text = about.channel(cells).to_program(dict(zip(about.secrets, about.prior)))
    program = Program(text)
    found = program.capacity(timeout) if aim == "capacity" else program.leak(_numbered(aim, about), timeout).posterior_vulnerability
    costs, table = _costs(about, text, shown)
    return Confirmed(found, costs.leak(table, timeout).posterior_vulnerability, program, costs)


def rounded(found: Optimum, prior: Mapping[Value, Rational], outputs: Sequence[Value], loss: Loss, over: int = 1_000_000) -> Rounded:
    """The design with each probability rounded down to a multiple of ``1 / over``; the rest of a row goes to the output that costs its secret least.

    So the loss isn't greater, and the leakage grows by at most the number of outputs divided by ``over`` under one guess (by that times the number
    of secrets for a capacity). Raises ``ValueError`` where the design isn't proved of this task.
    """
    about = task(prior, outputs, loss)
    if isinstance(over, bool) or not isinstance(over, int) or over < 1:
        raise ValueError(f"the denominator is a whole number above 0, and not {over!r}")
    if not check_optimum(found, prior, outputs, loss):
        raise ValueError("the design is of another task, or its price and strategy don't prove it")
    cells = []
    for row, costs in zip(about.cells_of(found.channel), about.losses):
        down = [Fraction(int(cell * over), over) for cell in row]
        down[costs.index(min(costs))] += 1 - sum(down)
        cells.append(down)
    return Rounded(over, found.value, leaks(about, found.aim, cells), about.loss_of(cells), about.channel(cells))
