"""A program's text as a tree, for what asks about its lines (docs/LANGUAGE.md, "Grammar").

A text is taken to be a program that the proved program accepts; of another one the reader says ``ValueError``, or reads it in some way. Each part of
the tree has its place in the text: ``at`` is where it begins and ``end`` is the place after it, both counted in characters from 0.
"""

from __future__ import annotations

import re
from bisect import bisect_left
from collections.abc import Callable, Iterable, Iterator
from dataclasses import dataclass, field
from functools import cached_property
from typing import TypeAlias, TypeVar, Union

from .texts import Item, Target
from .vocabulary import CALLS, LEVELS, SIGNS

__all__ = [
    "Assign",
    "Call",
    "Case",
    "Choose",
    "Declaration",
    "Distribution",
    "Expression",
    "Flip",
    "If",
    "Literal",
    "Name",
    "Observe",
    "Part",
    "Range",
    "Skip",
    "Source",
    "Statement",
    "Sure",
    "Truth",
    "Tuple",
    "Type",
    "Uniform",
    "While",
    "edited",
    "read",
]

BINARY = {operator: level for level, operators in enumerate(LEVELS) for operator in operators if operator != "not"}
NOT = next(level for level, operators in enumerate(LEVELS) if "not" in operators)
TOKEN = re.compile(rf"(?:[ \t\r\n]|#[^\n]*)*({'|'.join(map(re.escape, SIGNS))}|[0-9]+|(?:\w|[^\x00-\x7f])+|$)")
T = TypeVar("T")


@dataclass(frozen=True, kw_only=True)
class Placed:
    """A part of a text: where it begins, and the place after it. Two parts are equal where they say the same, wherever they stand."""

    at: int = field(compare=False)
    end: int = field(compare=False)


# ---- types


@dataclass(frozen=True)
class Truth:
    """The type ``bool``."""


@dataclass(frozen=True)
class Range:
    """The whole numbers from ``low`` to ``high``."""

    low: int
    high: int


@dataclass(frozen=True)
class Tuple:
    """Tuples with parts of these types."""

    parts: tuple[Type, ...]


@dataclass(frozen=True)
class SetOf:
    """The sets of values of a type."""

    base: Type


Type: TypeAlias = Union[Truth, Range, Tuple, SetOf]


# ---- expressions


@dataclass(frozen=True)
class Literal(Placed):
    """A number or a truth value."""

    value: bool | int


@dataclass(frozen=True)
class Name(Placed):
    """A variable."""

    name: str


@dataclass(frozen=True)
class Part(Placed):
    """A part of a tuple, by its number from 0."""

    whole: Expression
    number: int


@dataclass(frozen=True)
class Call(Placed):
    """An operator with its arguments; ``tuple`` and ``set`` are the operators of what is written in brackets."""

    operator: str
    arguments: tuple[Expression, ...]


Expression: TypeAlias = Union[Literal, Name, Part, Call]


# ---- distributions


@dataclass(frozen=True)
class Sure(Placed):
    """The value of an expression."""

    value: Expression


@dataclass(frozen=True)
class Uniform(Placed):
    """Each element of a set, where there is no ``high``; else each number from ``low`` to ``high``."""

    low: Expression
    high: Expression | None


@dataclass(frozen=True)
class Flip(Placed):
    """True in ``over`` of ``under`` cases."""

    over: int
    under: int


@dataclass(frozen=True)
class Case:
    """A case of ``choose``: a value and its weight, each also as it is written."""

    value: Expression
    weight: Expression
    value_text: str
    weight_text: str


@dataclass(frozen=True)
class Choose(Placed):
    """One of several values, by their weights."""

    cases: tuple[Case, ...]


Distribution: TypeAlias = Union[Sure, Uniform, Flip, Choose]


# ---- statements


@dataclass(frozen=True)
class Skip(Placed):
    """A statement that does nothing."""


@dataclass(frozen=True)
class Assign(Placed):
    """A variable takes a value."""

    name: str
    value: Distribution


@dataclass(frozen=True)
class Observe(Placed):
    """A value is shown."""

    value: Distribution


@dataclass(frozen=True)
class If(Placed):
    """A guard with the statements of both branches."""

    guard: Distribution
    then: tuple[Statement, ...]
    otherwise: tuple[Statement, ...]


@dataclass(frozen=True)
class While(Placed):
    """A guard with the statements of a turn."""

    guard: Distribution
    body: tuple[Statement, ...]


Statement: TypeAlias = Union[Skip, Assign, Observe, If, While]


@dataclass(frozen=True)
class Declaration(Placed):
    """A variable with its type and what is first drawn for it; each value that is assigned to a ``visible`` one is shown."""

    visible: bool
    name: str
    type: Type
    value: Distribution


@dataclass(frozen=True)
class Source:
    """A program: its text, its declarations, the items of its line ``about`` (none where it has no such line), and its top-level statements.

    ``declared`` is the place after the declarations, and ``begin`` the one after the line ``about``, where there is one.
    """

    text: str
    declarations: tuple[Declaration, ...]
    about: tuple[Item, ...] | None
    statements: tuple[Statement, ...]
    declared: int
    begin: int

    @property
    def names(self) -> tuple[str, ...]:
        """The declared variables, in their order."""
        return tuple(declared.name for declared in self.declarations)

    @property
    def target(self) -> Target:
        """What is asked about: the items of ``about``, or all variables as they are left."""
        return Target(self.about if self.about is not None else tuple(Item(name, False) for name in self.names))

    @cached_property
    def _line_ends(self) -> list[int]:
        return [found.start() for found in re.finditer("\n", self.text)]

    def line(self, place: int) -> int:
        """The line of a place, from 1."""
        return bisect_left(self._line_ends, place) + 1

    def place(self, at: int) -> tuple[int, int]:
        """The line and the column, in bytes, of a place, both from 1, as the program prints them."""
        begins = self.text.rfind("\n", 0, at) + 1
        return self.line(at), len(self.text[begins:at].encode()) + 1


# ---- what a part reads and changes


def names_in(part: Expression | Distribution | Case | None) -> frozenset[str]:
    """The variables that an expression or a distribution reads."""
    match part:
        case Name(name):
            return frozenset((name,))
        case Part(whole, _) | Sure(whole):
            return names_in(whole)
        case Call(_, parts) | Choose(parts):
            return frozenset().union(*map(names_in, parts))
        case Uniform(first, second) | Case(first, second, _, _):
            return names_in(first) | names_in(second)
    return frozenset()


def every(statements: Iterable[Statement]) -> Iterator[Statement]:
    """Each statement, and each of those in it after it."""
    for statement in statements:
        yield statement
        match statement:
            case If(_, then, otherwise):
                yield from every(then + otherwise)
            case While(_, body):
                yield from every(body)


def assigned_in(statements: Iterable[Statement]) -> frozenset[str]:
    """The variables to which these statements assign, or those in them."""
    return frozenset(statement.name for statement in every(statements) if isinstance(statement, Assign))


def distributions_in(source: Source) -> Iterator[Distribution]:
    """Each distribution of a program, in the order of the text."""
    for declared in source.declarations:
        yield declared.value
    for statement in every(source.statements):
        match statement:
            case Assign(_, value) | Observe(value):
                yield value
            case If(guard, _, _) | While(guard, _):
                yield guard


def edited(text: str, edits: Iterable[tuple[int, int, str]]) -> str:
    """The text in which other texts stand in the place of some parts: of those from a place up to another one, which don't overlap."""
    for at, end, new in sorted(edits, reverse=True):
        text = text[:at] + new + text[end:]
    return text


# ---- the reader


def read(text: str) -> Source:
    """The tree of a program's text. Raises ``ValueError`` where it can't be read."""
    try:
        return _Reader(text).source()
    except RecursionError:
        raise ValueError("its brackets nest deeper than those of a program") from None


class _Reader:
    """Reads a text by its grammar, one token after the other; the last token is the empty one at its end."""

    def __init__(self, text: str) -> None:
        self.text = text
        self.tokens: list[re.Match[str]] = []
        end = 0
        while not self.tokens or self.tokens[-1][1]:
            if (found := TOKEN.match(text, end)) is None:
                raise ValueError(f"line {text.count(chr(10), 0, end) + 1}: no token can be read")
            self.tokens.append(found)
            end = found.end()
        self.next = 0

    @property
    def at(self) -> int:
        """Where the next token begins."""
        return self.tokens[self.next].start(1)

    @property
    def end(self) -> int:
        """The place after the last token that was taken."""
        return self.tokens[self.next - 1].end() if self.next else 0

    def peek(self) -> str:
        return self.tokens[self.next][1]

    def take(self, wanted: str | None = None) -> str:
        """Takes the next token, which has to be the one that is wanted."""
        token = self.peek()
        if token == "" or wanted not in (None, token):
            raise ValueError(f"line {self.text.count(chr(10), 0, self.at) + 1}: {wanted or 'more'!r} is missing")
        self.next += 1
        return token

    def took(self, word: str) -> bool:
        """Takes the next token where it is this one."""
        if self.peek() != word:
            return False
        self.next += 1
        return True

    def listed(self, one: Callable[[], T], close: str) -> tuple[T, ...]:
        """Parts between commas, up to a closing token."""
        found = [one()]
        while self.took(","):
            found.append(one())
        self.take(close)
        return tuple(found)

    def number(self) -> int:
        """A number, with a sign where one stands there."""
        sign = -1 if self.took("-") else 1
        return sign * int(self.take())

    def source(self) -> Source:
        declarations = []
        while self.peek() in ("var", "vis"):
            declarations.append(self.declaration())
        declared = self.end
        about = self.listed(self.item, ";") if self.took("about") else None
        begin = self.end
        statements = []
        while self.peek() != "":
            statements.append(self.statement())
        return Source(self.text, tuple(declarations), about, tuple(statements), declared, begin)

    def declaration(self) -> Declaration:
        at, visible, name = self.at, self.take() == "vis", self.take()
        self.take(":")
        type_ = self.type()
        self.take(":=")
        value = self.distribution()
        self.take(";")
        return Declaration(visible, name, type_, value, at=at, end=self.end)

    def item(self) -> Item:
        old = self.took("old")
        return Item(self.take(), old)

    def type(self) -> Type:
        if self.took("bool"):
            return Truth()
        if self.took("set"):
            self.take("of")
            return SetOf(self.type())
        if self.took("("):
            return Tuple(self.listed(self.type, ")"))
        low = self.number()
        self.take("..")
        return Range(low, self.number())

    def block(self) -> tuple[Statement, ...]:
        self.take("{")
        found = []
        while not self.took("}"):
            found.append(self.statement())
        return tuple(found)

    def statement(self) -> Statement:
        at, word = self.at, self.take()
        if word == "if":
            guard, then = self.distribution(), self.block()
            self.take("else")
            otherwise = self.block()
            return If(guard, then, otherwise, at=at, end=self.end)
        if word == "while":
            guard, body = self.distribution(), self.block()
            return While(guard, body, at=at, end=self.end)
        if word == "skip":
            self.take(";")
            return Skip(at=at, end=self.end)
        if word != "observe":
            self.take(":=")
        value = self.distribution()
        self.take(";")
        return Observe(value, at=at, end=self.end) if word == "observe" else Assign(word, value, at=at, end=self.end)

    def distribution(self) -> Distribution:
        at = self.at
        if self.took("flip"):
            over = self.number()
            self.take("/")
            under = self.number()
            return Flip(over, under, at=at, end=self.end)
        if self.took("choose"):
            self.take("{")
            cases = self.listed(self.case, "}")
            return Choose(cases, at=at, end=self.end)
        if self.took("uniform"):
            low = self.expression()
            high = self.expression() if self.took("..") else None
            return Uniform(low, high, at=at, end=self.end)
        value = self.expression()
        return Sure(value, at=at, end=self.end)

    def case(self) -> Case:
        at, value = self.at, self.expression()
        value_text = self.text[at : self.end]
        self.take(":")
        at, weight = self.at, self.expression()
        return Case(value, weight, value_text, self.text[at : self.end])

    def expression(self, lowest: int = 0) -> Expression:
        """An expression whose operators have at least this level, as far as they are outside of brackets; of one level the left ones bind first."""
        at, found = self.at, self.prefixed()
        while (level := BINARY.get(self.peek(), -1)) >= lowest:
            operator = self.take()
            right = self.expression(level + 1)
            found = Call(operator, (found, right), at=at, end=self.end)
        return found

    def prefixed(self) -> Expression:
        at = self.at
        if self.took("not"):
            argument = self.expression(NOT + 1)
            return Call("not", (argument,), at=at, end=self.end)
        if self.took("-"):
            argument = self.parts()
            return Call("-", (argument,), at=at, end=self.end)
        return self.parts()

    def parts(self) -> Expression:
        at, found = self.at, self.operand()
        while self.took("."):
            number = int(self.take())
            found = Part(found, number, at=at, end=self.end)
        return found

    def operand(self) -> Expression:
        at, token = self.at, self.take()
        if token in ("(", "{") or token in CALLS:
            if token in CALLS:
                self.take("(")
            parts = self.listed(self.expression, "}" if token == "{" else ")")
            if token == "(" and len(parts) == 1:
                return parts[0]
            return Call({"(": "tuple", "{": "set"}.get(token, token), parts, at=at, end=self.end)
        if token in ("true", "false"):
            return Literal(token == "true", at=at, end=self.end)
        return Literal(int(token), at=at, end=self.end) if token.isdigit() else Name(token, at=at, end=self.end)
