"""Variables that nothing reads again, and the lines that would forget them.

A variable that was drawn and is never read again still tells stores apart (docs/COSTS.md, "Variables that are no longer used"). A line ``x := 0;``
after its last use changes no answer about a target that doesn't have ``x`` as it is left: what ``old x`` was, every store keeps by itself. Which
variables these are is worked out from the text alone: a statement reads a variable where one of its expressions has its name, whatever its value.
"""

from __future__ import annotations

from collections.abc import Iterator
from dataclasses import dataclass

from .source import Assign, If, Observe, Range, SetOf, Source, Statement, Sure, Truth, Tuple, Type, While, assigned_in, edited, names_in

__all__ = ["Forgotten", "first_value", "forgotten", "with_lines"]

Names = frozenset[str]


@dataclass(frozen=True)
class Forgotten:
    """A variable that nothing reads again after a place, which is the end of a statement, and the line that would forget it there.

    ``statement`` is the number, from 0, of the top-level statement that it is or stands in; -1 where that is before the first one.
    """

    name: str
    place: int
    line: str
    statement: int


def first_value(type_: Type) -> str:
    """A value of a type, as a text: 0 where that is one of its numbers, else its first one; of sets one that has a value, as all literals do."""
    match type_:
        case Truth():
            return "false"
        case Range(low, high):
            return "0" if low <= 0 <= high else str(low)
        case Tuple(parts):
            return f"({', '.join(map(first_value, parts))})"
        case SetOf(base):
            return f"{{{first_value(base)}}}"


def needed_before(statements: tuple[Statement, ...], after: Names) -> Names:
    """The variables that may be read from before some statements on, where these are those from after them on."""
    for statement in reversed(statements):
        after = _before(statement, after)
    return after


def _before(statement: Statement, after: Names) -> Names:
    match statement:
        case Assign(name, value):
            return after - {name} | names_in(value)
        case Observe(value):
            return after | names_in(value)
        case If(guard, then, otherwise):
            return names_in(guard) | needed_before(then, after) | needed_before(otherwise, after)
        case While(guard, body):
            return _at_guard(names_in(guard) | after, body)
    return after


def _at_guard(found: Names, body: tuple[Statement, ...]) -> Names:
    """The variables that may be read from before a loop's guard on: those of the guard and after the loop, and what any turn needs."""
    while (more := found | needed_before(body, found)) != found:
        found = more
    return found


def forgotten(source: Source) -> list[Forgotten]:
    """The variables that nothing reads again, each after the statement that has it last, in the order of the text.

    After the last statement, and where the variable is already a constant, there is nothing to forget.
    """
    types = {declared.name: declared.type for declared in source.declarations}
    at_end = frozenset(item.name for item in source.target.items if not item.old)
    found = []
    if source.statements:
        unread = frozenset(types) - needed_before(source.statements, at_end)
        constant = {declared.name for declared in source.declarations if isinstance(declared.value, Sure) and not names_in(declared.value)}
        found += [(name, source.begin, -1) for name in unread - constant]
    found += _in_block(source.statements, at_end, None)
    last = source.statements[-1].end if source.statements else 0
    lines = [Forgotten(name, place, f"{name} := {first_value(types[name])};", number) for name, place, number in found if place != last]
    return sorted(lines, key=lambda line: (line.place, source.names.index(line.name)))


def _in_block(statements: tuple[Statement, ...], after: Names, number: int | None) -> Iterator[tuple[str, int, int]]:
    """The variables of a block that nothing reads again, each with the end of its last statement and the number of the top-level one."""
    constants: set[str] = set()  # that the statements from here on set first, before they do anything else
    for index in reversed(range(len(statements))):
        statement, own = statements[index], index if number is None else number
        before = _before(statement, after)
        gone = (before | assigned_in((statement,))) - after
        if isinstance(statement, While):
            within = list(_in_block(statement.body, before, own))
            yield from within
            gone -= {name for name, _, _ in within}
        constant = {forgets} if (forgets := _forgets(statement)) else set()
        for name in gone - constant - constants:
            yield name, statement.end, own
        constants = constants | constant if constant else set()
        after = before


def _forgets(statement: Statement) -> str | None:
    """The variable to which a statement gives a constant."""
    match statement:
        case Assign(name, Sure(value)) if not names_in(value):
            return name
    return None


def with_lines(source: Source, lines: list[Forgotten]) -> str:
    """The text with these lines in it, each after its statement."""
    return edited(source.text, [(line.place, line.place, f" {line.line}") for line in lines])
