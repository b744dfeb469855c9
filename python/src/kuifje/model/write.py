"""Trees as texts of the language: declarations, the target, and statements, each line with the place that it comes from."""

from __future__ import annotations

from collections.abc import Mapping, Sequence
from dataclasses import dataclass, field, replace
from math import prod
from typing import Any

from ..channels import LENGTH, NODES
from ..errors import Refusal
from .errors import Place
from .evaluate import bad
from .ranges import Range, Ranges, Truth, Whole, count, join, least
from .texts import Expressions, Text, cond, distribution_text, infix, literal, type_text, whole
from .tree import Assign, Choose, Expr, Fixed, Flip, If, Lookup, Node, Observe, Statement, Store, Uniform, UniformRange, Variable, While, variables
from .assign import FEWER, RESERVED
from .parameters import VARIABLES, Unfolded

__all__ = ["Translation", "write"]

BRACKETS = 64  # open at once
STORES = 1 << 63  # of all variables together


@dataclass(frozen=True)
class Translation:
    """The text of a model in the language, and where each of its lines comes from.

    ``lines`` has a place for each line of the text, and ``statements`` one for each top-level statement, as ``blame`` and ``quiet`` count them.
    Of a program's translation ``call`` is the model with its public inputs, ``early(tries=3)``, and its name alone where it has none; ``model`` is
    the model, and ``inputs`` are the public inputs.
    """

    text: str
    lines: tuple[Place, ...]
    statements: tuple[Place, ...]
    call: str = ""
    model: object = None
    inputs: Mapping[str, Any] = field(default_factory=dict)

    def place(self, line: int) -> Place:
        """Where a line of the text comes from, counted from 1. Raises ``IndexError`` where there is no such line."""
        if line < 1:
            raise IndexError(line)
        return self.lines[line - 1]

    def placed(self, refusal: Refusal) -> Refusal:
        """The same refusal, placed in the Python source; one without a place in the text stays as it is."""
        if refusal.line is None or not self.lines:
            return refusal
        place = self.lines[min(refusal.line, len(self.lines)) - 1]
        return replace(refusal, file=place.file, line=place.line, column=place.column, source=place.source)


@dataclass(frozen=True)
class _Line:
    text: str
    place: Place
    depth: int


class _Writer:
    """Writes a model."""

    def __init__(self, model: Unfolded, ranges: Ranges) -> None:
        self.model, self.ranges = model, ranges
        self.expressions = Expressions(ranges, self.keep)
        self.types: dict[str, Range] = dict(ranges.types)
        self.places = dict(ranges.places)
        self.declared: dict[str, tuple[str, Place]] = {}
        self.lines: list[_Line] = []
        self.before: list[tuple[str, Place]] = []
        self.kept: dict[tuple[str, object, int], str] = {}
        self.statements: list[Place] = []
        self.depth = 0

    # Variables of the writer's own

    def keep(self, assignment: str, found: Range, place: Place) -> Text:
        """A variable that is assigned before the statement. The next statement may take the same one, but for the test of hidden branches."""
        hint, _, value = assignment.partition(" := ")
        number = sum(text.startswith(hint) for text, _ in self.before)
        key = hint, place if hint == "hidden" else type(found), number
        if key not in self.kept:
            taken, i = {*self.types, *self.kept.values(), *RESERVED}, 1
            while f"{hint}_{i}" in taken:
                i += 1
            self.kept[key] = f"{hint}_{i}"
        name = self.kept[key]
        self.types[name] = join(self.types.get(name, found), found)
        self.places.setdefault(name, place)
        self.before.append((f"{name} := {value}", place))
        return Text(name, 8, 1)

    def taken(self) -> list[tuple[str, Place]]:
        """The assignments before the statement, which are written now."""
        before, self.before = self.before, []
        return before

    # Draws and expressions that stand alone

    def node(self, node: Node, found: Range | None = None) -> str:
        """The text of an expression or a draw that stands directly in a statement."""
        match node:
            case Fixed(distribution=distribution):
                value = found or self.ranges.at(node)
                assert value is not None
                return distribution_text(distribution, value)
            case Flip(numerator=n, denominator=d):
                return f"flip {n}/{d}"
            case UniformRange(first=first, last=last):
                return f"uniform {self.alone(first)} .. {self.alone(last)}"
            case Uniform(values=values):
                return f"uniform {self.alone(values)}"
            case Choose(cases=cases):
                found = found or self.ranges.at(node)
                texts = [f"{self.alone(value, found)} : {self.weight(weight)}" for value, weight in cases]
                return f"choose {{ {', '.join(texts)} }}"
            case Lookup():
                return self.short(self.expressions.lookup(node, alone=True), node.place).text
        assert isinstance(node, Expr)
        return self.alone(node, found).text

    def alone(self, node: Expr, found: Range | None = None) -> Text:
        """The text of an expression, which may have 1,000 nodes."""
        text = self.expressions.write(node) if found is None else self.expressions.of_range(node, found)
        if isinstance(found, Whole):
            text = self.expressions.as_number(text, node)
        return self.short(text, node.place)

    def weight(self, node: Expr) -> Text:
        """The text of a weight."""
        return self.short(self.expressions.number(node), node.place)

    def short(self, text: Text, place: Place) -> Text:
        """A text that may stand in a program. Refuses one with more than 1,000 nodes."""
        if text.nodes > NODES:
            bad(f"this takes an expression of {text.nodes} nodes, and {NODES} are allowed", "keep a part of it in a variable: x = ..", place)
        return text

    # Statements

    def line(self, text: str, place: Place) -> None:
        """Adds a line."""
        self.lines.append(_Line(text, place, self.depth))
        if self.depth == 0 and text != "}" and not text.startswith("} else"):
            self.statements.append(place)

    def first(self) -> None:
        """Adds the assignments that a statement needs before it."""
        for text, place in self.taken():
            self.line(text, place)

    def block(self, statements: Sequence[Statement], place: Place) -> None:
        """Adds the statements of a block, one at least."""
        self.depth += 1
        before = len(self.lines)
        self.run(statements)
        if len(self.lines) == before:
            self.line("skip;", place)
        self.depth -= 1

    def run(self, statements: Sequence[Statement]) -> None:
        """Adds statements, up to the first one that no run gets to."""
        for statement in statements:
            if not self.reached(statement):
                return
            self.statement(statement)

    def reached(self, statement: Statement) -> bool:
        """Whether a run may get to a statement."""
        match statement:
            case If(test=node) | While(test=node) | Assign(value=node) | Observe(value=node) | Store(value=node):
                return self.ranges.at(node) is not None

    def statement(self, statement: Statement) -> None:
        """Adds a statement."""
        match statement:
            case Assign(place=place, name=name, value=value):
                text = self.node(value, self.types[name])
                self.first()
                self.line(f"{name} := {text};", place)
            case Observe(place=place, value=value):
                text = self.node(value)
                self.first()
                self.line(f"observe {text};", place)
            case Store():
                self.store(statement, None)
            case If(hidden=True):
                self.hidden(statement, None)
            case If(place=place, test=test, then=then, orelse=orelse):
                text = self.node(test)
                self.first()
                self.line(f"if {text} {{", place)
                self.block(then, place)
                self.line("} else {", place)
                self.block(orelse, place)
                self.line("}", place)
            case While():
                self.loop(statement)

    def loop(self, statement: While) -> None:
        """Adds a loop; what its guard needs is assigned before it, and again at the end of each turn."""
        text = self.node(statement.test)
        needed = self.taken()
        for before, place in needed:
            self.line(before, place)
        self.line(f"while {text} {{", statement.place)
        self.block(statement.body, statement.place)
        self.depth += 1
        for before, place in needed:
            self.line(before, place)
        self.depth -= 1
        self.line("}", statement.place)

    # Branches that aren't seen

    def hidden(self, statement: If, guard: Text | None) -> None:
        """Adds the assignments of both branches, each under the test."""
        assert isinstance(statement.test, Expr)
        test = self.expressions.write(statement.test) if guard is None else self.expressions.lazy(statement.test)
        if self.joint(statement, test, guard):
            return
        names = _assigned(statement)
        tests = [test, _negated(test)] if guard is None else [infix(guard, "and", side, 2) for side in (test, _negated(test))]
        if test.nodes > 12 or any(variable.name in names for variable in variables(statement.test)) or guard is not None:
            tests = [self.keep(f"hidden := {side};", Truth(), statement.place) for side in tests]
        self.first()
        for branch, under in zip((statement.then, statement.orelse), tests):
            for part in branch:
                if self.reached(part):
                    self.guarded(part, under)

    def joint(self, statement: If, test: Text, guard: Text | None) -> bool:
        """Adds one assignment where both branches assign one variable once, or one does and the other nothing."""
        then, orelse = ([part for part in branch if self.reached(part)] for branch in (statement.then, statement.orelse))
        parts = [*then, *orelse]
        if guard is not None or len(then) > 1 or len(orelse) > 1 or not parts:
            return False
        if not all(isinstance(part, Assign) for part in parts) or len({part.name for part in parts if isinstance(part, Assign)}) > 1:
            return False
        (name,) = {part.name for part in parts if isinstance(part, Assign)}
        sides = [self.lazy(branch[0], name) if branch else Text(name, 8, 1) for branch in (then, orelse)]
        text = self.short(cond(test, sides[0], sides[1]), statement.place)
        self.first()
        self.line(f"{name} := {text};", statement.place)
        return True

    def lazy(self, part: Statement, name: str) -> Text:
        """The value that an assignment in a hidden branch gives."""
        assert isinstance(part, Assign) and isinstance(part.value, Expr)
        text = self.expressions.of_range(part.value, self.types[name], self.expressions.lazy)
        return self.expressions.as_number(text, part.value) if isinstance(self.types[name], Whole) else text

    def guarded(self, part: Statement, test: Text) -> None:
        """Adds a statement of a hidden branch, under its test."""
        match part:
            case Assign(name=name, place=place):
                text = self.short(cond(test, self.lazy(part, name), Text(name, 8, 1)), place)
                self.first()
                self.line(f"{name} := {text};", place)
            case Store():
                self.store(part, test)
            case If():
                self.hidden(part, test)

    def store(self, statement: Store, test: Text | None) -> None:
        """Adds an assignment to each entry that the index may say."""
        lazy = test is not None
        found = self.ranges.at(statement.index)
        bounds = found if isinstance(found, Whole) else Whole(0, 1)
        self.expressions.strict = not lazy
        index = self.own(statement.index, statement.names, "index")
        self.expressions.strict = True
        value = self.expressions.lazy(statement.value) if lazy else self.expressions.write(statement.value)
        if any(variable.name in statement.names for variable in variables(statement.value)) or value.nodes > 6:
            stored = self.ranges.at(statement.value)
            assert stored is not None
            kept = value if test is None else cond(test, value, literal(least(stored), stored))
            value = self.keep(f"stored := {kept};", stored, statement.place)
        self.first()
        for i in range(bounds.low, bounds.high + 1):
            here = infix(index, "=", whole(i), 4)
            text = cond(here if test is None else infix(test, "and", here, 2), value, Text(statement.names[i], 8, 1))
            self.line(f"{statement.names[i]} := {self.short(text, statement.place)};", statement.place)

    def own(self, index: Expr, names: Sequence[str], hint: str) -> Text:
        """An index that doesn't change while entries are assigned."""
        if isinstance(index, Variable) and index.name in names:
            found = self.ranges.at(index)
            assert found is not None
            return self.keep(f"{hint} := {index.name};", found, index.place)
        return self.expressions.atom(index, hint)

    # Declarations

    def declare(self, name: str, text: str, place: Place) -> None:
        """Adds a declaration."""
        self.declared[name] = f"var {name} : {type_text(self.types[name])} := {text};", place

    def declarations(self) -> None:
        """Declares the parameters."""
        for variable in self.model.declared:
            text = self.node(variable.value, self.types[variable.name])
            for before, place in self.taken():
                name, _, value = before.removesuffix(";").partition(" := ")
                self.declare(name, value, place)
            self.declare(variable.name, text, variable.place)

    def beginnings(self) -> Sequence[Statement]:
        """Declares variables that the first statements assign, and gives the statements after these."""
        for i, part in enumerate(self.model.body):
            if not isinstance(part, Assign) or part.name in self.declared or not self.reached(part):
                return self.model.body[i:]
            text = self.node(part.value, self.types[part.name])
            if self.before or any(variable.name == part.name for variable in variables(part.value)):
                self.taken()
                return self.model.body[i:]
            self.declare(part.name, text, part.place)
        return ()

    def translation(self, title: str, first: Place) -> Translation:
        """The whole text."""
        self.declarations()
        rest = self.beginnings()
        self.run(rest)
        for name, found in self.types.items():
            if name not in self.declared:
                self.declare(name, literal(least(found), found).text, self.places[name])
        secrets = [variable.name for variable in self.model.declared if variable.secret]
        self.limits(secrets)
        head = [_Line(f"# {line}", first, 0) for line in title.split("\n")]
        target = _Line(f"about {', '.join(f'old {name}' for name in secrets)};", first, 0)
        lines = [*head, *(_Line(text, place, 0) for text, place in self.declared.values()), target, *self.lines]
        checked(lines)
        return Translation("".join(map(_shown, lines)), tuple(line.place for line in lines), tuple(self.statements))

    def limits(self, secrets: Sequence[str]) -> None:
        """Refuses more variables than the language has, or more stores."""
        names = list(self.declared)
        if len(names) + len(secrets) > VARIABLES:
            name = names[max(VARIABLES - len(secrets), 0)]
            reason = f"{name} is one variable too many: {len(names)}, and {len(secrets)} secrets once more, where {VARIABLES} are allowed"
            bad(reason, FEWER, self.declared[name][1])
        if prod(count(self.types[name]) for name in [*names, *secrets]) > STORES:
            bad("all variables together have more than 2^63 values", "give them smaller ranges, as x: range(6) = 0", self.declared[names[-1]][1])


def _assigned(statement: If) -> set[str]:
    """The variables that both branches assign."""
    found: set[str] = set()
    for part in (*statement.then, *statement.orelse):
        match part:
            case Assign(name=name):
                found.add(name)
            case Store(names=names):
                found |= set(names)
            case If():
                found |= _assigned(part)
    return found


def _negated(test: Text) -> Text:
    return Text(f"not {test:4}", 3, test.nodes + 1)


def _shown(line: _Line) -> str:
    comment = "" if line.text.startswith("#") or line.text in ("}", "} else {", "skip;") else f"  # {line.place.line}"
    return f"{'  ' * line.depth}{line.text}{comment}\n"


def checked(lines: Sequence[_Line]) -> None:
    """Refuses more open brackets than the language has, and a text that is too long."""
    depth, length = 0, 0
    for line in lines:
        length += len(_shown(line).encode())
        if length > LENGTH:
            bad(f"the text passes {LENGTH} bytes", "write a loop by while, or a smaller table", line.place)
        for character in "" if line.text.startswith("#") else line.text:
            depth += (character in "({") - (character in ")}")
            if depth > BRACKETS:
                form = "write a loop by while, or keep a part of an expression in a variable"
                bad(f"more than {BRACKETS} brackets would stand open, of branches and of expressions", form, line.place)


def write(model: Unfolded, turns: int, title: str, first: Place) -> Translation:
    """The text of a model. Raises ``BadModel`` where it passes a limit of the language."""
    return _Writer(model, Ranges(model, turns)).translation(title, first)
