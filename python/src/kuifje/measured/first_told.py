"""Where a text, or a model in Python, first tells something: its mutual information, split among its lines along the traces.

Beside ``lines``, which takes one statement away at a time: there two lines that show the same lose nothing alone, and here the first has all of it.
The traces are the proved program's; what is split of them is worked out here.
"""

from __future__ import annotations

import html
from collections.abc import Iterator, Mapping, Sequence
from dataclasses import dataclass
from typing import Any

from ..intervals import Interval
from ..model import Model
from ..program import Program
from ..source import Assign, If, Observe, Source, Statement, While, read
from ..texts import Trace, html_table
from ..values import Value
from .told import Ledger, bits

__all__ = ["FirstTold", "ToldLine", "first_told"]


@dataclass(frozen=True)
class ToldLine:
    """What is first told at a line (from 1) of a file: how many bits, and how many traces more."""

    file: str
    line: int
    source: str
    bits: Interval
    traces: int


@dataclass(frozen=True, repr=False)
class FirstTold:
    """The lines at which something is first told, in the order of the text; their bits add up to ``bits``, the mutual information."""

    lines: tuple[ToldLine, ...]
    bits: Interval

    def records(self) -> list[dict[str, object]]:
        """A row for each line: ``file``, ``line``, ``source``, ``bits``, ``traces``."""
        return [{"file": t.file, "line": t.line, "source": t.source, "bits": t.bits, "traces": t.traces} for t in self.lines]

    def __str__(self) -> str:
        rows = [f"{t.file}:{t.line} {t.bits} bits, {t.traces} traces more\n" for t in self.lines]
        return f"mutual information {self.bits} bits\n" + "".join(rows)

    def __repr__(self) -> str:
        return f"<FirstTold>\n{self}".rstrip()

    def _repr_html_(self) -> str:
        return html_table(self.records(), html.escape(f"mutual information {self.bits} bits"))


def _shown(statements: Sequence[Statement], visible: frozenset[str], values: Iterator[Value]) -> Iterator[Statement]:
    """The statements that show the values of a trace, one for each, in their order."""
    for statement in statements:
        match statement:
            case Observe():
                next(values)
                yield statement
            case Assign(name, _) if name in visible:
                next(values)
                yield statement
            case If(_, then, otherwise):
                taken = next(values)
                yield statement
                yield from _shown(then if taken else otherwise, visible, values)
            case While(_, body):
                while True:
                    goes_on = next(values)
                    yield statement
                    if not goes_on:
                        break
                    yield from _shown(body, visible, values)


def _places(source: Source, shown: Sequence[Value]) -> list[int]:
    """For each value of a trace the place of the statement that shows it. Raises ``ValueError`` where the trace isn't one of the text."""
    visible = frozenset(declared.name for declared in source.declarations if declared.visible)
    values = iter(shown)
    found: list[int] = []
    try:
        found += (statement.at for statement in _shown(source.statements, visible, values))
    except (StopIteration, RuntimeError):
        raise ValueError("a trace isn't one of the text") from None
    if len(found) != len(shown):
        raise ValueError("a trace isn't one of the text")
    return found


def _split(source: Source, traces: Sequence[Trace], scale: int) -> Ledger[int]:
    """What is first told at each place of the text."""
    numbers = {value: i for i, value in enumerate({value: None for trace in traces for value in trace.joint})}
    ledger: Ledger[int] = Ledger(scale)
    work: list[tuple[list[Trace], int]] = [(list(traces), 0)]
    while work:
        group, depth = work.pop()
        while len(group) > 1 and all(trace.shown[depth] == group[0].shown[depth] for trace in group):
            depth += 1
        if len(group) < 2:
            continue
        ways: dict[Value, list[Trace]] = {}
        for trace in group:
            ways.setdefault(trace.shown[depth], []).append(trace)
        weights = []
        for some in ways.values():
            way: dict[int, int] = {}
            for trace in some:
                for value, joint in trace.joint.items():
                    way[numbers[value]] = way.get(numbers[value], 0) + int(joint * scale)
            weights.append(way)
        ledger.add(_places(source, group[0].shown)[depth], weights)
        work += [(some, depth + 1) for some in ways.values()]
    return ledger


def _asked(asked: Program | Model, inputs: Mapping[str, Any]) -> Program:
    if isinstance(asked, Model):
        return asked.program(**inputs)
    if inputs:
        raise TypeError("a program has no public inputs")
    return asked


def first_told(asked: Program | Model, inputs: Mapping[str, Any] = {}, *, timeout: float | None = None) -> FirstTold:
    """At which lines of a program, or of a model with these public inputs, something about the secret is first told, and how many bits.

    Raises what a question for all traces raises.
    """
    program = _asked(asked, inputs)
    table = program.traces(timeout)
    text = program.text.decode(errors="replace")
    source = read(text)
    ledger = _split(source, table.traces, table.scale)
    lines = text.split("\n")
    found: dict[tuple[str, int, str], Ledger[int]] = {}
    for place, counts in ledger.sites.items():
        line = source.line(place)
        key = (program.name, line, lines[line - 1].strip())
        if isinstance(asked, Model):
            at = asked.translation(**inputs).place(line)
            key = (at.file, at.line, at.source.strip())
        found.setdefault(key, Ledger(table.scale)).sites[place] = counts
    told = []
    for (file, number, written), part in found.items():
        whole = part.all()
        told.append(ToldLine(file, number, written, bits(whole.counts, table.scale), whole.classes))
    told.sort(key=lambda t: (t.file, t.line))
    return FirstTold(tuple(told), bits(ledger.all().counts, table.scale))
