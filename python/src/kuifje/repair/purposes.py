"""What a program is for, the floor: the least that any program may leak that still shows it, and what has to stay as it is."""

from __future__ import annotations

import re
import warnings
from collections.abc import Iterable, Iterator, Mapping, Sequence
from contextlib import contextmanager
from dataclasses import dataclass, field, replace
from fractions import Fraction
from functools import cached_property

from ..arguments import seconds
from ..channels import hyper_of_columns
from ..deadlines import NEVER, Deadline
from ..errors import OutOfTime, Refusal
from ..model.write import Translation
from ..program import Program, Writable, program_of
from ..questions import AsItIsLeft
from ..source import Observe, Source, Statement, Type, While, edited, every, read
from ..texts import Hyper, Item, Target
from ..values import Value
from .kinds import VALUES, NoType, first_value, joined, size_of, type_of, type_text

__all__ = ["BadPurpose", "Floor", "Keep", "Marked", "Place", "floor", "marked"]

MOST_COUNTED = 65_535  # the greatest number of turns that a loop may take
MOST_VARIABLES = 32  # of a program
MOST_PARTS = 64  # of a tuple that holds values one after the other, so that its assignment has no more than 1,000 nodes

Place = int | tuple[int, int]
"""An observation: its line, from 1, or its line and column in bytes, as ``lines`` prints them, where several stand in one line."""

Keep = Place | list[Place] | None
"""The observation that a program is for, or several in a list; none where it has one at the top level, and that is meant."""


class BadPurpose(ValueError):
    """What a program is said to be for isn't something that it shows, or it can't be asked about."""


@dataclass(frozen=True)
class Shown:
    """What is kept of a place: its observations, of which a loop over constants has one for each turn, and the type of their values.

    A run shows there ``most`` values at most. The variable ``value`` holds the one shown last, and ``met`` whether one was. Where there may be
    several, ``met`` counts them, and ``seen`` are the variables that hold all of them in their order: the first variable so many, and so on.
    """

    statements: tuple[Observe, ...]
    kind: Type
    most: int
    value: str
    met: str
    seen: tuple[tuple[str, int], ...] = ()

    @property
    def names(self) -> tuple[str, ...]:
        """All of its variables."""
        return (self.value, self.met, *(name for name, _ in self.seen))

    @property
    def marks(self) -> tuple[str, ...]:
        """The variables that say what was shown, and how often."""
        return (*(name for name, _ in self.seen), self.met) if self.seen else (self.value, self.met)

    def declarations(self) -> list[str]:
        """The lines that declare its variables."""
        one, first = type_text(self.kind), first_value(self.kind)
        lines = [f"var {self.value} : {one} := {first};", f"var {self.met} : {f'0..{self.most} := 0' if self.seen else 'bool := false'};"]
        return lines + [f"var {name} : {_several_of(one, count)} := {_several_of(first, count)};" for name, count in self.seen]

    def counted(self, guard: str | None = None) -> list[str]:
        """The statements that come after the value is kept in its variable, where a guard holds."""
        if not self.seen:
            return [f"{self.met} := {'true' if guard is None else f'{self.met} or {guard}'};"]
        lines, at = [], 0
        for name, count in self.seen:
            numbers = range(at, at + count)
            now = [f"{self.met} = {i}" if guard is None else f"{guard} and {self.met} = {i}" for i in numbers]
            before = [name] if count == 1 else [f"{name}.{j}" for j in range(count)]
            parts = [f"cond({test}, {self.value}, {old})" for test, old in zip(now, before)]
            lines.append(f"{name} := {parts[0] if count == 1 else '(' + ', '.join(parts) + ')'};")
            at += count
        return [*lines, f"{self.met} := {self.met} + {'1' if guard is None else f'cond({guard}, 1, 0)'};"]


def _several_of(one: str, count: int) -> str:
    """So many times the text of a type or a value, as a tuple's."""
    return one if count == 1 else f"({', '.join([one] * count)})"


@dataclass(frozen=True)
class Marked:
    """A program with what it is for. ``keeps`` are the observations that stay, and ``finals`` the variables that have to end as they do.

    All questions about it have to end by ``until``.
    """

    program: Program
    source: Source
    keeps: tuple[Shown, ...]
    finals: tuple[str, ...]
    until: Deadline = NEVER

    @cached_property
    def distributed(self) -> Mapping[tuple[Value, ...], Fraction]:
        """How secret, final values and what is kept are distributed. Raises ``BadPurpose`` where that can't be asked."""
        with asked_in_variables():
            return self.joint(self.with_marks())

    @property
    def secrets(self) -> tuple[str, ...]:
        """The variables whose first values are the secret."""
        return tuple(item.name for item in self.source.target.items)

    @property
    def marks(self) -> tuple[str, ...]:
        """The variables that hold what the program is for, as far as it was shown."""
        return tuple(name for shown in self.keeps for name in shown.marks)

    @property
    def kept_places(self) -> tuple[int, ...]:
        """Where the observations that are kept begin."""
        return tuple(one.at for shown in self.keeps for one in shown.statements)

    @property
    def names(self) -> tuple[str, ...]:
        """All variables that hold what the program is for."""
        return tuple(name for shown in self.keeps for name in shown.names)

    def place(self, at: int) -> tuple[int, int]:
        """The line and the column of a place, both from 1, in what the text was made of: a model's Python, or a template."""
        return place_of(self.program, self.source, at)

    def like(self, text: str) -> Program:
        """Another text, asked as the program is."""
        return Program(text, name=self.program.name, turns=self.program.turns, engine=self.program.engine)

    def with_marks(self) -> str:
        """The text, with each value that it is for kept in variables before it is shown."""
        return declared_text(self.source, [self.kept(shown, one) for shown in self.keeps for one in shown.statements], self.keeps)

    def kept(self, shown: Shown, statement: Observe) -> tuple[int, int, str]:
        """The edit that keeps a value where it is shown."""
        value = statement.value
        lines = [f"{shown.value} := {self.source.text[value.at : value.end]};", *shown.counted(), f"observe {shown.value};"]
        return statement.at, statement.end, " ".join(lines)

    @property
    def left(self) -> float:
        """The seconds that are left. Raises ``OutOfTime`` where none are."""
        if self.until.passed:
            raise OutOfTime(f"it took longer than it may: {self.until.seconds:g} seconds")
        return self.until.left

    def asked(self, text: str, items: Sequence[str]) -> Hyper:
        """What is known of these items before a text's first statement shows anything: their distribution after a run."""
        program, count = self.like(about(text, items)), len(read(text).statements)
        return program.quiet(0, count, self.left) if count else program.hyper(self.left)

    def joint(self, text: str) -> dict[tuple[Value, ...], Fraction]:
        """The distribution of the secret, the final values and what the program is for, whatever is shown."""
        items = [f"old {name}" for name in self.secrets] + list(self.finals) + list(self.marks)
        (inner,) = self.asked(text, items).inners
        return {(x,) if len(items) == 1 else as_tuple(x): p for x, p in inner.distribution.items()}

    def most(self, counted: str, edits: Iterable[tuple[int, int, str]]) -> int:
        """The greatest value that a new variable takes, from 0 on, where these edits count by it."""
        text = declared_text(self.source, edits, (), [f"var {name} : 0..{MOST_COUNTED} := 0;" for name in self.counters])
        (inner,) = self.asked(text, [counted]).inners
        return max(int(value) for value in inner.distribution if isinstance(value, int))

    @property
    def counters(self) -> tuple[str, str]:
        """The names of two variables that the program doesn't have: what counts, and the greatest count."""
        first = fresh(self.source, "turn")
        return first, fresh(self.source, "most", [first])

    def times(self, statements: Sequence[Observe]) -> int:
        """How many values a run shows at these observations, at most."""
        loops = [other for other in every(self.source.statements) if isinstance(other, While)]
        if len(statements) == 1 and not any(_within(statements[0], loop) for loop in loops):
            return 1
        count = self.counters[0]
        return self.most(count, [(one.at, one.at, f"{count} := min({count} + 1, {MOST_COUNTED}); ") for one in statements])

    def is_told(self, text: str) -> bool:
        """Whether whoever observes a run knows what the program is for, and whether it was shown."""
        if not self.marks:
            return True
        return all(len(inner.distribution) == 1 for inner in self.like(about(text, self.marks)).hyper(self.left).inners)


@dataclass(frozen=True)
class Floor:
    """What the program leaks, and the floor: the hyper-distribution of a program that shows what it is for and nothing else.

    Each program that still shows it, and leaves the joint distribution of the secret and of what it is for as it is, leaks at least as much as the
    floor under every gain function: what it is for is a function of what is seen, so the floor's columns are sums of that program's.

    ``repeated`` has the lines of what is kept where a run may show several values, with their greatest number: all of them are kept, in their order.
    """

    hyper: Hyper
    floor: Hyper
    repeated: Mapping[int, int] = field(default_factory=dict)

    @property
    def is_reached(self) -> bool:
        """Whether the program leaks no more than what it is for: then there is nothing to repair."""
        return same(self.hyper, self.floor)


@contextmanager
def quietly() -> Iterator[None]:
    """Asks about values as they are left without a warning: these questions mean them."""
    with warnings.catch_warnings():
        warnings.simplefilter("ignore", AsItIsLeft)
        yield


@contextmanager
def asked_in_variables() -> Iterator[None]:
    """Asks about what is kept. Raises ``BadPurpose`` where the program is refused with its variables."""
    try:
        yield
    except Refusal as cause:
        raise BadPurpose(f"what is kept can't be asked about, since it is held in variables of its own: {cause.kind}") from cause


def _within(inner: Statement, outer: Statement) -> bool:
    return outer.at <= inner.at and inner.end <= outer.end


def as_tuple(value: Value) -> tuple[Value, ...]:
    assert isinstance(value, tuple)
    return value


def same(a: Hyper, b: Hyper) -> bool:
    """Whether two hypers are the same distribution of posteriors, whatever their scales."""
    return {(inner.outer, frozenset(inner.distribution.items())) for inner in a.inners} == {
        (inner.outer, frozenset(inner.distribution.items())) for inner in b.inners
    }


def about(text: str, items: Sequence[str]) -> str:
    """The text asked about these items."""
    source = read(text)
    return edited(text, [(source.declared, source.begin, f"\nabout {', '.join(items)};")])


def declared_text(source: Source, edits: Iterable[tuple[int, int, str]], keeps: Iterable[Shown], more: Iterable[str] = ()) -> str:
    """An edited text, with the variables of what is kept, and more, declared after the others."""
    lines = [line for shown in keeps for line in shown.declarations()]
    place, end = _line_end(source)
    new = "".join(f"{end}{line}" for line in "\n".join([*lines, *more]).split("\n") if line)
    edits = [(at, to, text.replace("\r\n", "\n").replace("\n", end)) for at, to, text in edits]
    return edited(source.text, [*edits, *([(place, place, new)] if new else [])])


def _line_end(source: Source) -> tuple[int, str]:
    """Where declarations may be added, which is after the last one and the comment in its line, and how the text ends its lines."""
    end = "\r\n" if "\r\n" in source.text else "\n"
    rest = re.compile(r"[ \t]*(?:#[^\r\n]*)?(?=\r?\n)").match(source.text, source.declared)
    return (source.declared if rest is None else rest.end()), end


def fresh(source: Source, wanted: str, taken: Iterable[str] = ()) -> str:
    """A name that no variable has."""
    used, name, count = {*source.names, *taken}, wanted, 1
    while name in used:
        count += 1
        name = f"{wanted}_{count}"
    return name


def _place(place: object) -> tuple[int, int | None]:
    match place:
        case bool():
            pass
        case int():
            return place, None
        case (int(line), int(column)):
            return line, column
    raise TypeError(f"keep has lines, or pairs of a line and a column, and not {place!r}")


def _places(keep: Keep) -> list[tuple[int, int | None]] | None:
    """The lines and columns of what is kept. Raises ``TypeError`` where that isn't what it may be."""
    if keep is None:
        return None
    if isinstance(keep, (int, tuple)):
        return [_place(keep)]
    return [_place(place) for place in keep]


def place_of(program: Program, source: Source, at: int) -> tuple[int, int]:
    """The line and the column of a place of a text, both from 1, in what it was made of; in the text itself where it wasn't made of anything."""
    line, column = source.place(at)
    if program.expansion is None:
        return line, column
    placed = program.expansion.placed(Refusal(0, "", program.name, line, column))
    return placed.line or line, placed.column or column


Group = tuple[Observe, ...]
"""The observations of one place: several where the text was made of something that has a loop over constants there."""


def _observations(program: Program, source: Source, keep: Keep) -> list[Group]:
    """The observations that are kept, those of one place together."""
    found = [statement for statement in every(source.statements) if isinstance(statement, Observe)]
    groups: dict[tuple[int, int], Group] = {}
    for one in found:
        place = place_of(program, source, one.at)
        groups[place] = (*groups.get(place, ()), one)
    places = _places(keep)
    if places is None:
        return _of_top(source, groups)
    chosen: dict[tuple[int, int], Group] = {}
    for line, column in places:
        here = [place for place in groups if place[0] == line and column in (None, place[1])]
        if not here:
            raise BadPurpose(f"no observation begins in line {line}{'' if column is None else f', column {column}'}")
        if len(here) > 1:
            columns = ", ".join(str(place[1]) for place in here)
            raise BadPurpose(f"line {line} has several observations, in columns {columns}: say which is kept by the line and the column")
        chosen[here[0]] = groups[here[0]]
    return list(chosen.values())


def _of_top(source: Source, groups: Mapping[tuple[int, int], Group]) -> list[Group]:
    """The observations of the one place that has some at the top level, or of the one place that there is."""
    at_top = {one.at for one in source.statements if isinstance(one, Observe)}
    top = [place for place, group in groups.items() if any(one.at in at_top for one in group)]
    if len(top) > 1:
        raise BadPurpose(f"several observations stand at the top level, in lines {_lines(top)}: say by keep= which of them the program is for")
    if not top and len(groups) > 1:
        raise BadPurpose(f"observations stand in lines {_lines(groups)}, none of them at the top level: say by keep= which the program is for")
    return [groups[top[0]]] if top else list(groups.values())


def _lines(places: Iterable[tuple[int, int]]) -> str:
    """The lines of places, with their columns where two stand in one line."""
    listed = list(places)
    several = len({line for line, _ in listed}) < len(listed)
    return ", ".join(f"{line}:{column}" if several else str(line) for line, column in listed)


def marked(program: Program, keep: Keep = None, finals: Sequence[str] | None = None, until: Deadline = NEVER) -> Marked:
    """A program with what it is for: the observations at ``keep``, or its one observation at the top level.

    ``finals`` are the variables that have to end as they do; where none are named all, and of a model none. Raises ``BadPurpose`` where the target
    isn't what the secrets were (``about old``), no single observation stands at a place, or what is shown can't be kept in a variable; ``OutOfTime``
    where it isn't known by ``until``.
    """
    program.hyper(until.left)
    source = read(program.text.decode())
    if source.about is None or not all(item.old for item in source.about):
        raise BadPurpose("the target isn't what the secrets were: write about old")
    if isinstance(finals, str):
        raise TypeError(f"finals is a list of names, and {finals!r} was given")
    if finals is None:
        finals = () if isinstance(program.expansion, Translation) else source.names
    chosen = tuple(dict.fromkeys(finals))
    if unknown := [name for name in chosen if name not in source.names]:
        raise BadPurpose(f"there is no variable {unknown[0]}")
    bare = Marked(program, source, (), chosen, until)
    found = replace(bare, keeps=_shown(bare, _observations(program, source, keep)))
    with asked_in_variables():
        is_told = found.is_told(found.with_marks())
    if not is_told:
        raise BadPurpose("an observer can't tell what is kept, or whether it was shown, so it isn't what the program is for")
    return found


def _shown(about_it: Marked, groups: Sequence[Group]) -> tuple[Shown, ...]:
    """What is kept, with the names of its variables. Raises ``BadPurpose`` where its values have no type, or there may be too many of them."""
    source = about_it.source
    types = {declared.name: declared.type for declared in source.declarations}
    keeps: list[Shown] = []
    for group in groups:
        line, most = about_it.place(group[0].at)[0], about_it.times(group)
        try:
            kind = type_of(group[0].value, types)
            for other in group[1:]:
                kind = joined(kind, type_of(other.value, types))
        except NoType as cause:
            raise BadPurpose(f"line {line}: {cause}") from cause
        taken = [name for shown in keeps for name in shown.names]
        value = fresh(source, "kept", taken)
        met = fresh(source, "met", [*taken, value])
        seen: list[tuple[str, int]] = []
        for count in _packed(kind, most) if most > 1 else ():
            seen.append((fresh(source, "seen", [*taken, *(name for name, _ in seen)]), count))
        if len(seen) > MOST_VARIABLES:
            raise BadPurpose(f"line {line} shows up to {most:,} values in a run, and no {MOST_VARIABLES} variables hold so many")
        keeps.append(Shown(group, kind, most, value, met, tuple(seen)))
    return tuple(keeps)


def _packed(kind: Type, most: int) -> Iterator[int]:
    """How many of so many values each of several variables holds, whose types have at most 65,536 values."""
    each = MOST_PARTS
    while each > 1 and size_of(kind) ** each > VALUES:
        each -= 1
    for at in range(0, most, each):
        yield min(each, most - at)


def floor(program: Program | Writable, keep: Keep = None, timeout: float | None = None) -> Floor:
    """How far a program leaks beyond what it is for: its hyper, and the least that a program leaks which still shows that.

    What it is for are the values that are shown at each place of ``keep``, in their order. Raises ``BadPurpose`` where an observer doesn't know them,
    a ``Refusal`` where the program has no answer, and ``OutOfTime`` where it isn't known after ``timeout`` seconds.
    """
    with quietly():
        return floor_of(marked(program_of("program", program), keep, (), Deadline(seconds("timeout", timeout))))


def floor_of(about_it: Marked) -> Floor:
    """The floor of a program with what it is for."""
    secrets = len(about_it.secrets)
    columns: dict[tuple[Value, ...], dict[Value, Fraction]] = {}
    marks = len(about_it.marks)
    for values, p in replace(about_it, finals=()).distributed.items():
        secret = values[0] if secrets == 1 else values[:secrets]
        column = columns.setdefault(values[len(values) - marks :] if marks else (), {})
        column[secret] = column.get(secret, Fraction(0)) + p
    target = Target(tuple(Item(name, True) for name in about_it.secrets))
    repeated = {about_it.place(shown.statements[0].at)[0]: shown.most for shown in about_it.keeps if shown.most > 1}
    return Floor(about_it.program.hyper(about_it.left), hyper_of_columns(target, columns.values()), repeated)
