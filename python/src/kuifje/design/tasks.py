"""What a channel is to be designed for: the secrets with their prior, what it may show, what that costs, and whom it is to tell little."""

from __future__ import annotations

from collections.abc import Callable, Mapping, Sequence
from dataclasses import dataclass
from fractions import Fraction
from typing import Literal

from ..channels import Channel, Label, Rational
from ..errors import Infeasible
from ..texts import GainTable, Item, Target
from ..values import Value, ascending, format_value

__all__ = ["SECONDS", "Aim", "Infeasible", "Loss", "Task", "task"]

SECONDS = 60.0  # that a search takes at most, where it isn't said

Loss = Callable[[Value, Value], Rational] | Mapping[tuple[Value, Value], Rational]
"""What it costs that an output is shown where the secret has a value: a function of the secret and the output, or a number for each pair."""

Aim = Literal["bayes", "capacity"] | GainTable
"""What is to be least: the posterior Bayes vulnerability, the Bayes capacity, or the posterior vulnerability under a gain function."""


def exact(number: object, name: str) -> Fraction:
    """A rational number as a fraction. Raises ``TypeError`` for a float, which is another number than the one that was written."""
    if isinstance(number, bool) or not isinstance(number, (int, Fraction)):
        written = f" (for {number!r} write Fraction({str(number)!r}))" if isinstance(number, float) else ""
        raise TypeError(f"{name} is a whole number or a Fraction, and not {number!r}{written}")
    return Fraction(number)


@dataclass(frozen=True)
class Task:
    """Secrets with their probabilities above 0, outputs, and the loss of each pair, in the order of ``secrets`` (rows) and ``outputs`` (columns)."""

    secrets: tuple[Value, ...]
    prior: tuple[Fraction, ...]
    outputs: tuple[Value, ...]
    losses: tuple[tuple[Fraction, ...], ...]

    @property
    def least_loss(self) -> Fraction:
        """The least expected loss of any channel: each secret shows the output that costs it least."""
        return sum((p * min(row) for p, row in zip(self.prior, self.losses)), Fraction(0))

    @property
    def silent_loss(self) -> Fraction:
        """The least expected loss of a channel that shows one output whatever the secret is."""
        return min(self._of_one(y) for y in range(len(self.outputs)))

    @property
    def silent_output(self) -> int:
        """The output whose expected loss is least where it is always shown."""
        return min(range(len(self.outputs)), key=self._of_one)

    def _of_one(self, y: int) -> Fraction:
        return sum((p * row[y] for p, row in zip(self.prior, self.losses)), Fraction(0))

    def loss_of(self, cells: Sequence[Sequence[Fraction]]) -> Fraction:
        """The expected loss of a channel that has these rows."""
        return sum((p * c * q for p, row, costs in zip(self.prior, cells, self.losses) for c, q in zip(row, costs)), Fraction(0))

    def channel(self, cells: Sequence[Sequence[Fraction]]) -> Channel:
        """The channel with these rows, without the outputs that it never shows."""
        shown = [y for y in range(len(self.outputs)) if any(row[y] for row in cells)]
        labels: list[Label] = [(self.outputs[y],) for y in shown]
        rows = {x: tuple(row[y] for y in shown) for x, row in zip(self.secrets, cells)}
        return Channel(Target((Item("x", True),)), tuple(labels), rows)

    def cells_of(self, channel: Channel) -> list[list[Fraction]]:
        """The rows of a channel over these secrets and outputs. Raises ``ValueError`` where it has other ones, or a row is no distribution."""
        if len(set(channel.columns)) != len(channel.columns):
            raise ValueError("two columns of the channel have one label")
        places = {label[0]: j for j, label in enumerate(channel.columns) if len(label) == 1}
        known = set(self.outputs)
        if unknown := [label for label in channel.columns if len(label) != 1 or label[0] not in known]:
            raise ValueError(f"{unknown[0]!r} is no output of the task")
        cells = []
        for x in self.secrets:
            if x not in channel.rows:
                raise ValueError(f"the channel has no row for {format_value(x)}")
            row = channel.rows[x]
            if len(row) != len(channel.columns) or any(cell < 0 for cell in row) or sum(row) != 1:
                raise ValueError(f"the row of {format_value(x)} is no distribution")
            cells.append([row[places[y]] if y in places else Fraction(0) for y in self.outputs])
        return cells


def task(prior: Mapping[Value, Rational], outputs: Sequence[Value], loss: Loss) -> Task:
    """The task of secrets at this prior, where one of these outputs is shown at this loss. A secret of probability 0 isn't part of it.

    Raises ``TypeError`` for a float, and ``ValueError`` where the prior is no distribution, there is no output, one stands twice, or a pair has no
    loss.
    """
    weights = {x: exact(p, "a probability") for x, p in prior.items()}
    if any(p < 0 for p in weights.values()) or sum(weights.values()) != 1:
        raise ValueError(f"the probabilities of the prior sum to {sum(weights.values())}, none of them below 0, and have to sum to 1")
    if not outputs or len(set(outputs)) != len(outputs):
        raise ValueError("there is an output, and none stands twice")
    secrets = ascending(x for x, p in weights.items() if p)

    def cost(x: Value, y: Value) -> Fraction:
        if callable(loss):
            return exact(loss(x, y), "a loss")
        if (x, y) not in loss:
            raise ValueError(f"there is no loss for the secret {format_value(x)} with the output {format_value(y)}")
        return exact(loss[x, y], "a loss")

    losses = tuple(tuple(cost(x, y) for y in outputs) for x in secrets)
    return Task(tuple(secrets), tuple(weights[x] for x in secrets), tuple(outputs), losses)
