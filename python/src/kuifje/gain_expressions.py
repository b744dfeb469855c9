"""Gain functions by an expression, which the proved program expands to a table.

A gain expression says which actions there are and what each gains, by the names of the target's items and in the language's own expressions::

    action w : 0..3; gain 3 - abs(w - x); over 3;

Action w gains (3 - abs(w - x)) / 3 where x is the secret. The table is the answer of a program that draws w and the items and shows the gain: types,
operators, faults and values are those of the proved program.
"""

from __future__ import annotations

import re
from collections.abc import Iterator
from dataclasses import dataclass, replace
from itertools import product

from .engine import Engine
from .errors import Refusal
from .program import Program
from .source import Range, SetOf, Truth, Tuple, Type, read
from .texts import Action, GainTable, Target, Trace
from .values import Value, ascending, format_value

__all__ = ["expanded"]

MOST_VALUES = 4_096  # of a type whose values are listed one by one: tuples and sets
MOST_OVER = 10**9
_PARTS = re.compile(
    r"\s*action\s+(?P<name>[^\W\d]\w*)\s*:\s*(?P<type>[^;]*);\s*gain\b(?P<gain>[^;]*);\s*(?:over\s+(?P<over>[0-9]{1,10})\s*;\s*)?", re.DOTALL
)


@dataclass(frozen=True)
class _Written:
    """The text of a gain expression and of the program that expands it, and the parts that stand in both: their bytes there, their first here."""

    text: bytes
    program: bytes
    parts: tuple[tuple[range, int], ...]

    def placed(self, refusal: Refusal) -> Refusal:
        """The same refusal, at its place in the gain expression where it has one there."""
        named = replace(refusal, file="the gain expression", line=None, column=None, source=None)
        if refusal.line is None or refusal.column is None:
            return named
        lines = self.program.split(b"\n")
        fault = sum(len(line) + 1 for line in lines[: refusal.line - 1]) + refusal.column - 1
        for there, here in self.parts:
            if fault in there:
                at = here + fault - there.start
                start = self.text.rfind(b"\n", 0, at) + 1
                source = self.text[start:].split(b"\n", 1)[0].decode()
                return replace(named, line=self.text.count(b"\n", 0, at) + 1, column=at - start + 1, source=source)
        return named


def expanded(text: str, program: Program, timeout: float | None = None) -> GainTable:
    """The gain table of a gain expression, for the target of a program: an action ``w0``, ``w1`` and so on for each value of its variable, ascending.

    The text has ``action NAME : TYPE;``, ``gain EXPRESSION;`` and, where gains are no whole numbers, ``over N;``. The expression names the target's
    items, whether they are ``old`` or not. Gains of 0 aren't listed. Raises ``ValueError`` where text or target isn't of that form, ``Refusal`` where
    the proved program refuses the expression, at its place in the text, and as a question does.
    """
    found = _PARTS.fullmatch(re.sub(r"#[^\n]*", lambda comment: " " * len(comment[0]), text))
    if found is None:
        raise ValueError("a gain expression is: action NAME : TYPE; gain EXPRESSION; and maybe: over N;")
    over = int(found["over"] or 1)
    if not 1 <= over <= MOST_OVER:
        raise ValueError(f"over is from 1 to {MOST_OVER:,}, and {over:,} was given")
    source = read(program.text.decode())
    types = {declared.name: declared.type for declared in source.declarations}
    items = [item.name for item in source.target.items]
    if len(set(items)) < len(items):
        raise ValueError(f"the target asks about {_twice(items)} before and after the statements, and a gain expression has one name for both")
    name = found["name"]
    if name in items:
        raise ValueError(f"the action's variable {name} has the name of an item; give it another one")
    if lacking := [item for item in items if item not in types]:
        raise ValueError(f"the target asks about {lacking[0]}, which isn't declared")
    question = _question(text, found, [(item, types[item]) for item in items], program.engine)
    return _table(question.traces(timeout).traces, over, source.target)


def _twice(items: list[str]) -> str:
    return next(item for item in items if items.count(item) > 1)


def _question(text: str, found: re.Match[str], items: list[tuple[str, Type]], engine: Engine | None) -> Program:
    """The program that draws the action and the items uniformly, and shows the gain; type and gain stand in it as they are written."""
    name, type_text, gain = found["name"], text[slice(*found.span("type"))], text[slice(*found.span("gain"))]
    action_type = read(f"var {name} : {type_text} := 0;").declarations[0].type
    head = f"var {name} : "
    drawn = f" := {_draw(action_type)};\n" + "".join(f"var {item} : {_type_text(type_)} := {_draw(type_)};\n" for item, type_ in items)
    drawn += f"about {', '.join(f'old {item}' for item in [name, *dict(items)])};\nobserve"
    pieces = [piece.encode() for piece in (head, type_text, drawn, gain, ";\n")]
    first = len(pieces[0])
    second = first + len(pieces[1]) + len(pieces[2])
    parts = (
        (range(first, first + len(pieces[1])), len(text[: found.start("type")].encode())),
        (range(second, second + len(pieces[3]) + 1), len(text[: found.start("gain")].encode())),
    )
    written = b"".join(pieces)
    return Program(written, name="gain.kf", engine=engine, expansion=_Written(text.encode(), written, parts))


def _type_text(type_: Type) -> str:
    match type_:
        case Truth():
            return "bool"
        case Range(low, high):
            return f"{low}..{high}"
        case Tuple(parts):
            return f"({', '.join(map(_type_text, parts))})"
        case SetOf(base):
            return f"set of {_type_text(base)}"


def _draw(type_: Type) -> str:
    """A distribution in which each value of a type is as likely as any other."""
    match type_:
        case Truth():
            return "flip 1/2"
        case Range(low, high):
            return f"uniform {low}..{high}"
    listed = []
    for value in _literals(type_):
        listed.append(f"{value} : 1")
        if len(listed) > MOST_VALUES:
            raise ValueError(f"a gain expression lists the values of tuples and sets, and {_type_text(type_)} has more than {MOST_VALUES:,}")
    return f"choose {{ {', '.join(listed)} }}"


def _literals(type_: Type) -> Iterator[str]:
    """Each value of a type, as a text writes it; the empty set, for which there is no literal, as a set less itself."""
    match type_:
        case Truth():
            yield from ("false", "true")
        case Range(low, high):
            yield from map(str, range(low, high + 1))
        case Tuple(parts):
            yield from (f"({', '.join(values)})" for values in product(*map(_literals, parts)))
        case SetOf(base):
            members = list(_literals(base))
            yield f"{{{members[0]}}} less {{{members[0]}}}"
            for chosen in range(1, 1 << len(members)):
                yield f"{{{', '.join(member for i, member in enumerate(members) if chosen >> i & 1)}}}"


def _table(traces: tuple[Trace, ...], over: int, target: Target) -> GainTable:
    """The table of gains that traces show of actions and items."""
    gains: dict[Value, dict[Value, int]] = {}
    for trace in traces:
        (gain,) = trace.shown
        if isinstance(gain, bool) or not isinstance(gain, int):
            raise ValueError(f"a gain is a number, and the expression is {format_value(gain)} somewhere")
        for drawn in trace.joint:
            assert isinstance(drawn, tuple)
            named = gains.setdefault(drawn[0], {})
            if gain:
                named[drawn[1] if len(target.items) == 1 else drawn[1:]] = gain
    actions = (Action(f"w{i}", {x: gains[w][x] for x in ascending(gains[w])}) for i, w in enumerate(ascending(gains)))
    return GainTable(over, 0, tuple(actions))
