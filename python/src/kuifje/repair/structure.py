"""Programs whose branches and loops are taken whatever their guards say: assignments under a guard become assignments by ``cond``.

A conditional that is made even has no guard left. A loop takes as many turns as it ever does, under a flag that says whether it still goes on. What
was observed in it is kept in a variable, and shown whether or not it would have been. A visible variable shows its value whether or not it changed.
Where both branches show something, one value is shown in the place of either.
"""

from __future__ import annotations

from collections.abc import Iterable, Iterator, Mapping, Sequence
from dataclasses import dataclass, field
from textwrap import indent
from typing import Literal

from ..source import Assign, Choose, Distribution, Flip, If, Observe, Skip, Statement, Sure, Type, Uniform, While, every
from .kinds import NoType, first_value, joined, type_of, type_text
from .purposes import Marked, Shown, declared_text, fresh

__all__ = ["Change", "Even", "Instead", "Moved", "Uncovered", "compounds", "parents"]

MOST_TURNS = 64  # that a loop is given


class Uncovered(Exception):
    """Why a statement isn't changed."""


Instead = Literal["first", "carried", "own"]


@dataclass(frozen=True)
class Change:
    """What of a program is changed: conditionals and loops that are made even, and observations that are dropped, by the places where they begin.

    ``instead`` says what is shown where a branch would have shown nothing: the first value of the type, what was shown there last (``"carried"``), or
    what the observation shows of the values that there are (``"own"``). ``hidden`` are the visible variables that no longer are.
    """

    even: frozenset[int] = frozenset()
    dropped: frozenset[int] = frozenset()
    hidden: frozenset[str] = frozenset()
    instead: Instead = "first"

    @property
    def kinds(self) -> tuple[str, ...]:
        """The kinds of changes, by their names."""
        found = (("structure", self.even), ("drop", self.dropped), ("hide", self.hidden))
        return tuple(name for name, part in found if part)


def compounds(statements: Iterable[Statement]) -> Iterator[If | While]:
    """Each conditional and loop, those in it after it."""
    for statement in statements:
        match statement:
            case If(_, then, otherwise):
                yield statement
                yield from compounds(then + otherwise)
            case While(_, body):
                yield statement
                yield from compounds(body)


def parents(statements: Iterable[Statement]) -> dict[int, frozenset[int]]:
    """For each conditional and loop the places of those that stand in it, itself among them."""
    found: dict[int, frozenset[int]] = {}
    for statement in compounds(statements):
        inner = statement.then + statement.otherwise if isinstance(statement, If) else statement.body
        found[statement.at] = frozenset([statement.at, *(one.at for one in compounds(inner))])
    return found


@dataclass(frozen=True)
class Moved:
    """How what is kept is shown where its observations stand in what is made even: after the last of these, or after ``each``; and whether it is
    shown, too, how many values there are (``met``).
    """

    each: bool = False
    met: bool = False


@dataclass(frozen=True)
class _Root:
    """What stands in the place of a conditional or a loop that is made even and stands in none that is, and what is kept of observations in it."""

    statement: If | While
    lines: tuple[str, ...]
    kept: tuple[Shown, ...]


@dataclass
class Even:
    """A program's text with a change made. ``turns`` has the greatest number of turns of each loop, by its place."""

    about: Marked
    change: Change
    turns: Mapping[int, int]
    declared: list[str] = field(default_factory=list)
    names: list[str] = field(default_factory=list)
    moved: list[Shown] = field(default_factory=list)
    roots: list[_Root] = field(default_factory=list)

    def __post_init__(self) -> None:
        self.source = self.about.source
        self.types: dict[str, Type] = {one.name: one.type for one in self.source.declarations}
        self.visible = {one.name for one in self.source.declarations if one.visible} - self.change.hidden
        self.keeps = {one.at: shown for shown in self.about.keeps for one in shown.statements}

    # ---- texts

    def text_of(self, part: Distribution) -> str:
        return self.source.text[part.at : part.end]

    def fresh(self, wanted: str, kind: str, first: str) -> str:
        """A new variable, declared with its first value."""
        name = fresh(self.source, wanted, [*self.names, *self.about.names])
        self.names.append(name)
        self.declared.append(f"var {name} : {kind} := {first};")
        return name

    def text(self, with_marks: bool, how: Moved = Moved()) -> str:
        """The changed text. ``with_marks`` keeps what it is for in variables.

        Raises ``Uncovered`` where the change can't be made.
        """
        self._roots(self.source.statements)
        edits = [*self._written(how), *self._hidden()]
        for statement in self._outside(self.source.statements):
            if statement.at in self.change.dropped:
                edits.append((statement.at, statement.end, "skip;"))
            elif statement.at in self.keeps and (with_marks or self.keeps[statement.at] in self.moved):
                edits.append(self.about.kept(self.keeps[statement.at], statement))
        return declared_text(self.source, edits, self.about.keeps if with_marks else tuple(self.moved), self.declared)

    def _hidden(self) -> list[tuple[int, int, str]]:
        return [(one.at, one.at + len("vis"), "var") for one in self.source.declarations if one.name in self.change.hidden]

    def _outside(self, statements: Iterable[Statement]) -> Iterator[Observe]:
        """The observations that stand in nothing that is made even."""
        for statement in statements:
            if isinstance(statement, Observe):
                yield statement
            elif isinstance(statement, (If, While)) and statement.at not in self.change.even:
                yield from self._outside(statement.then + statement.otherwise if isinstance(statement, If) else statement.body)

    def _roots(self, statements: Iterable[Statement]) -> None:
        """Writes each conditional and loop that is made even and stands in none that is."""
        for statement in statements:
            if not isinstance(statement, (If, While)):
                continue
            inner = statement.then + statement.otherwise if isinstance(statement, If) else statement.body
            if statement.at not in self.change.even:
                self._roots(inner)
                continue
            lines = self.even(statement, None)
            kept = [self.keeps[one.at] for one in every(inner) if one.at in self.keeps and self.keeps[one.at] in self.moved]
            self.roots.append(_Root(statement, tuple(lines), tuple({shown.value: shown for shown in kept}.values())))

    def _written(self, how: Moved) -> list[tuple[int, int, str]]:
        """The edits that put these in their places, and show what was kept in them."""
        last = {shown.value: i for i, root in enumerate(self.roots) for shown in root.kept}
        edits = []
        for i, root in enumerate(self.roots):
            shown = [one for one in root.kept if how.each or last[one.value] == i]
            lines = [*root.lines, *(line for one in shown for line in self._show(one, how.met))]
            at, end = root.statement.at, root.statement.end
            column = at - (self.source.text.rfind("\n", 0, at) + 1)
            edits.append((at, end, indent("\n".join(lines or ["skip;"]), " " * column).lstrip(" ")))
        return edits

    @staticmethod
    def _show(shown: Shown, with_met: bool) -> list[str]:
        first, *more = [name for name, _ in shown.seen] or [shown.value]
        return [f"observe ({shown.met}, {first});" if with_met else f"observe {first};", *(f"observe {name};" for name in more)]

    # ---- statements under a guard

    def even(self, statement: Statement, guard: str | None) -> list[str]:
        """The statement where a guard holds, and nothing that can be noticed where it doesn't."""
        match statement:
            case Skip():
                return []
            case Assign(name, value):
                return [self.assign(name, value, guard)]
            case Observe():
                return self._observe(statement, guard)
            case If(asked, then, otherwise):
                return self._branches(asked, then, otherwise, guard)
            case While(asked, body):
                return self._loop(statement, asked, body, guard)

    def assign(self, name: str, value: Distribution, guard: str | None, instead: str | None = None) -> str:
        """An assignment where a guard holds; where it doesn't the variable takes another value, or keeps its own."""
        if guard is None:
            return f"{name} := {self.text_of(value)};"
        other = name if instead is None else instead
        match value:
            case Sure():
                return f"{name} := cond({guard}, {self.text_of(value)}, {other});"
            case Flip(over, under):
                return f"{name} := choose {{ cond({guard}, true, {other}) : {over}, cond({guard}, false, {other}) : {under - over} }};"
            case Uniform(low, None):
                return f"{name} := uniform cond({guard}, {self.source.text[low.at : low.end]}, {{{other}}});"
            case Uniform(low, high):
                assert high is not None
                ends = (f"cond({guard}, {self.source.text[end.at : end.end]}, {other})" for end in (low, high))
                return f"{name} := uniform {'..'.join(ends)};"
            case Choose(cases):
                parts = (f"cond({guard}, {case.value_text}, {other}) : cond({guard}, {case.weight_text}, 1)" for case in cases)
                return f"{name} := choose {{ {', '.join(parts)} }};"

    def _guard(self, asked: Distribution, guard: str | None, name: str) -> list[str]:
        """Keeps what a guard says in a variable, false where the one around it is false."""
        if isinstance(asked, Sure):
            return [f"{name} := {self.text_of(asked)};" if guard is None else f"{name} := {guard} and ({self.text_of(asked)});"]
        return [self.assign(name, asked, guard, "false")]

    def _branches(self, asked: Distribution, then: tuple[Statement, ...], otherwise: tuple[Statement, ...], guard: str | None) -> list[str]:
        name = self.fresh("yes", "bool", "false")
        lines = self._guard(asked, guard, name)
        other = [statement for statement in otherwise if not isinstance(statement, Skip)]
        if not other:
            return lines + self._under(then, name)
        no = self.fresh("no", "bool", "false")
        lines.append(f"{no} := not {name};" if guard is None else f"{no} := {guard} and not {name};")
        at = [0, 0]
        for i, j in self._pairs(then, other):
            lines += self._under(then[at[0] : i], name) + self._under(other[at[1] : j], no)
            lines += self._merged(then[i], other[j], name, no, guard)
            at = [i + 1, j + 1]
        return lines + self._under(then[at[0] :], name) + self._under(other[at[1] :], no)

    def _under(self, statements: Sequence[Statement], guard: str) -> list[str]:
        return [line for statement in statements for line in self.even(statement, guard)]

    def _pairs(self, then: Sequence[Statement], other: Sequence[Statement]) -> list[tuple[int, int]]:
        """What both branches show, as pairs of the numbers of their statements; none where they don't show as much, of one kind, in one order."""
        shows = [[i for i, one in enumerate(side) if self._is_shown(one)] for side in (then, other)]
        pairs = list(zip(shows[0], shows[1]))
        alike = len(shows[0]) == len(shows[1]) and all(self._are_alike(then[i], other[j]) for i, j in pairs)
        return pairs if alike and self.change.instead != "own" else []

    def _is_shown(self, one: Statement) -> bool:
        """Whether a statement itself shows something that isn't kept."""
        if isinstance(one, Observe):
            return one.at not in self.keeps and one.at not in self.change.dropped
        return isinstance(one, Assign) and one.name in self.visible

    def _are_alike(self, a: Statement, b: Statement) -> bool:
        """Whether two statements that show something can be one that shows one value or the other."""
        match a, b:
            case (Assign(name, Sure()), Assign(other, Sure())):
                return name == other
            case (Observe(Sure() as value), Observe(Sure() as other_value)):
                try:
                    joined(type_of(value, self.types), type_of(other_value, self.types))
                except NoType:
                    return False
                return True
        return False

    def _merged(self, a: Statement, b: Statement, yes: str, no: str, guard: str | None) -> list[str]:
        """One statement that shows what either branch does."""
        assert isinstance(a, (Assign, Observe)) and isinstance(b, (Assign, Observe))
        first, second = self.text_of(a.value), self.text_of(b.value)
        both = f"cond({yes}, {first}, {second})"
        if isinstance(a, Assign):
            return [f"{a.name} := {both if guard is None else f'cond({yes}, {first}, cond({no}, {second}, {a.name}))'};"]
        if guard is None:
            return [f"observe {both};"]
        kind = joined(type_of(a.value, self.types), type_of(b.value, self.types))
        name = self.fresh("shown", type_text(kind), first_value(kind))
        instead = name if self.change.instead == "carried" else f"({first_value(kind)})"
        return [f"{name} := cond({yes}, {first}, cond({no}, {second}, {instead}));", f"observe {name};"]

    def _loop(self, statement: While, asked: Distribution, body: tuple[Statement, ...], guard: str | None) -> list[str]:
        most = self.turns[statement.at]
        if most > MOST_TURNS:
            raise Uncovered(f"the loop takes up to {most} turns, and {MOST_TURNS} are tried")
        if most == 0:
            return []
        on, turn = self.fresh("on", "bool", "false"), self.fresh("turn", f"0..{most}", "0")
        lines = [f"{on} := {guard or 'true'};", f"{turn} := 0;", f"while {turn} < {most} {{"]
        lines += [f"  {line}" for line in self._guard(asked, on, on)]
        for inner in body:
            lines += [f"  {line}" for line in self.even(inner, on)]
        return [*lines, f"  {turn} := {turn} + 1;", "}"]

    def _observe(self, statement: Observe, guard: str | None) -> list[str]:
        if statement.at in self.change.dropped:
            return []
        if statement.at in self.keeps:
            shown = self.keeps[statement.at]
            if shown not in self.moved:
                self.moved.append(shown)
            return [self.assign(shown.value, statement.value, guard), *shown.counted(guard)]
        if guard is None or self.change.instead == "own":
            return [f"observe {self.text_of(statement.value)};"]
        try:
            kind = type_of(statement.value, self.types)
        except NoType as cause:
            raise Uncovered(f"the observation in line {self.about.place(statement.at)[0]} can't be kept: {cause}") from cause
        name = self.fresh("shown", type_text(kind), first_value(kind))
        instead = None if self.change.instead == "carried" else f"({first_value(kind)})"
        return [self.assign(name, statement.value, guard, instead), f"observe {name};"]
