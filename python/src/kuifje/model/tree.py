"""A model between Python and the language: calls are inlined and loops over constants unrolled; arrays are variables, one for each entry.

Operators are still Python's, kinds and ranges aren't known yet. A node stands for one evaluation: two that look alike are different nodes.
"""

from __future__ import annotations

from collections.abc import Iterator
from dataclasses import dataclass
from typing import TypeAlias

from ..values import Value
from .declare import Distribution
from .errors import Place

__all__ = [
    "Assign",
    "Choose",
    "Draw",
    "Expr",
    "Fixed",
    "Flip",
    "If",
    "Literal",
    "Lookup",
    "Node",
    "Observe",
    "Operation",
    "Part",
    "SetOf",
    "Statement",
    "Store",
    "TupleOf",
    "Uniform",
    "UniformRange",
    "Variable",
    "While",
    "children",
    "variables",
]


@dataclass(frozen=True, eq=False)
class Expr:
    """An expression, and where it stands."""

    place: Place


@dataclass(frozen=True, eq=False)
class Literal(Expr):
    """A constant."""

    value: Value


@dataclass(frozen=True, eq=False)
class Variable(Expr):
    """A variable, and how often it had been assigned when it was read."""

    name: str
    version: int


@dataclass(frozen=True, eq=False)
class Operation(Expr):
    """An operator, as Python writes it, or ``cond``, ``truth`` (of a test), ``number`` (of ``int``), ``changed`` (of ``|=`` and
    the like), ``min``, ``max``, ``abs``, ``size``, ``neg``, ``set``."""

    operator: str
    arguments: tuple[Expr, ...]


@dataclass(frozen=True, eq=False)
class TupleOf(Expr):
    """A tuple of these parts."""

    parts: tuple[Expr, ...]


@dataclass(frozen=True, eq=False)
class SetOf(Expr):
    """A set of these members; without members it is the empty set."""

    members: tuple[Expr, ...]


@dataclass(frozen=True, eq=False)
class Part(Expr):
    """A part of a tuple, by its number from 0."""

    whole: Expr
    number: int


@dataclass(frozen=True, eq=False)
class Lookup(Expr):
    """The entry that an index says, from 0; the index is never outside."""

    entries: tuple[Expr, ...]
    index: Expr


@dataclass(frozen=True, eq=False)
class Draw:
    """A random choice."""

    place: Place


@dataclass(frozen=True, eq=False)
class Uniform(Draw):
    """Each element of a set."""

    values: Expr


@dataclass(frozen=True, eq=False)
class UniformRange(Draw):
    """Each number from the first to the last."""

    first: Expr
    last: Expr


@dataclass(frozen=True, eq=False)
class Choose(Draw):
    """Values with weights."""

    cases: tuple[tuple[Expr, Expr], ...]


@dataclass(frozen=True, eq=False)
class Flip(Draw):
    """True with this probability."""

    numerator: int
    denominator: int


@dataclass(frozen=True, eq=False)
class Fixed(Draw):
    """A draw from constants."""

    distribution: Distribution


Node: TypeAlias = Expr | Draw


@dataclass(frozen=True, eq=False)
class Assign:
    """An assignment to a variable."""

    place: Place
    name: str
    value: Node


@dataclass(frozen=True, eq=False)
class Store:
    """An assignment to the entry that an index says; each entry is a variable."""

    place: Place
    names: tuple[str, ...]
    index: Expr
    value: Expr


@dataclass(frozen=True, eq=False)
class Observe:
    """An observation."""

    place: Place
    value: Node


@dataclass(frozen=True, eq=False)
class If:
    """Two branches, of which it is seen which one is taken; where they are ``hidden`` it isn't."""

    place: Place
    test: Node
    then: tuple[Statement, ...]
    orelse: tuple[Statement, ...]
    hidden: bool = False


@dataclass(frozen=True, eq=False)
class While:
    """A loop, whose guard is seen each time."""

    place: Place
    test: Node
    body: tuple[Statement, ...]


Statement: TypeAlias = Assign | Store | Observe | If | While


def children(node: Node) -> tuple[Expr, ...]:
    """The expressions that a node is made of."""
    match node:
        case Operation(arguments=found) | TupleOf(parts=found) | SetOf(members=found):
            return found
        case Part(whole=one) | Uniform(values=one):
            return (one,)
        case Lookup(entries=entries, index=index):
            return (*entries, index)
        case UniformRange(first=first, last=last):
            return (first, last)
        case Choose(cases=cases):
            return tuple(part for case in cases for part in case)
    return ()


def variables(node: Node) -> Iterator[Variable]:
    """The variables that a node reads, each time that it does."""
    if isinstance(node, Variable):
        yield node
    for child in children(node):
        yield from variables(child)
