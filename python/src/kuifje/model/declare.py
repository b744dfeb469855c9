"""What a model is written with: the roles of parameters, distributions, and the functions that may stand in its body."""

from __future__ import annotations

from collections.abc import Iterable, Iterator, Mapping, Set
from contextvars import ContextVar
from dataclasses import dataclass
from enum import Enum
from fractions import Fraction
from functools import cached_property
from math import gcd
from numbers import Integral
from typing import Annotated, Any, Protocol, TypeAlias

from ..values import Value, ascending
from .errors import BadModel, calling
from .sizes import CASES, VALUES, TooMany, length

__all__ = ["Domain", "Distribution", "Noise", "Parameter", "Public", "Role", "Secret", "choose", "flip", "hide", "observe", "one_of", "uniform"]


FEWER = "take fewer values, or several variables that have fewer each"


class Role(Enum):
    """What a parameter is: a secret is asked about, as it was; noise is hidden and isn't asked about; a public input is known."""

    SECRET = "secret"
    NOISE = "noise"
    PUBLIC = "public"


# Annotations of parameters. To a type checker each is ``Any``, so that a parameter may be used as the value that it has in a run.
Secret: TypeAlias = Annotated[Any, Role.SECRET]
Noise: TypeAlias = Annotated[Any, Role.NOISE]
Public: TypeAlias = Annotated[Any, Role.PUBLIC]


@dataclass(frozen=True)
class Distribution:
    """Values of one kind with whole weights above 0 without a common factor, in the language's order."""

    weights: Mapping[Value, int]

    @cached_property
    def cases(self) -> tuple[tuple[Value, int], ...]:
        """The values with their weights."""
        return tuple(self.weights.items())

    @cached_property
    def scale(self) -> int:
        """The sum of the weights."""
        return sum(self.weights.values())

    @classmethod
    def of(cls, cases: Iterable[tuple[Any, Any]]) -> Distribution:
        """The distribution of these cases; equal values are added up.

        Raises ``TypeError`` where a value is none of the language, a weight isn't whole, or kinds differ, and ``ValueError`` where a weight is
        below 0, or all are 0: ``TooMany`` where there are more values than a type may have.
        """
        found: dict[Value, int] = {}
        kinds = set()
        for number, (given, weight) in enumerate(cases):
            if number == CASES:
                raise TooMany(f"there are more than {CASES} values with weights, and {VALUES} different ones are allowed")
            if not isinstance(weight, Integral):
                raise TypeError(f"a weight is a whole number, and {weight!r} isn't")
            if weight < 0:
                raise ValueError(f"a weight is {weight}, and may not be below 0")
            if weight:
                value = value_of(given)
                kinds.add(type(value))
                found[value] = found.get(value, 0) + int(weight)
                if len(found) > VALUES:
                    raise TooMany(f"there are more than {VALUES} values, and {VALUES} are allowed")
        if not found:
            raise ValueError("there is no value with a weight above 0")
        if len(kinds) > 1:
            raise TypeError("truths, numbers, tuples and sets can't stand in one distribution")
        common = gcd(*found.values())
        if sum(found.values()) // common >= 1 << 127:
            raise ValueError("the weights sum to more than 2^127 - 1")
        return cls({value: found[value] // common for value in ascending(found)})


@dataclass(frozen=True)
class Domain:
    """The values that a public input may take, in the language's order."""

    values: tuple[Value, ...]


@dataclass(frozen=True)
class Parameter:
    """A parameter of a model.

    ``prior`` is what a secret or noise is drawn by: a ``Distribution``, a list of them for an array, or a function of earlier parameters.
    ``domain`` has the values of a public input that was declared by ``one_of`` (a list of domains for an array), and ``default`` the value of one
    that was declared by a value.
    """

    name: str
    role: Role
    prior: Any = None
    domain: Any = None
    default: Any = None


class Running(Protocol):
    """A run in Python: it draws, and keeps what is shown."""

    def draw(self, distribution: Distribution) -> Value:
        """A value of the distribution."""

    def show(self, value: Any) -> None:
        """Keeps an observed value."""


RUNNING: ContextVar[Running | None] = ContextVar("RUNNING", default=None)


class NotInAModel(RuntimeError):
    """A function that only means something in a run of a model was called outside of one."""


def value_of(value: Any) -> Value:
    """A Python value as one of the language: a list becomes a tuple, a set a ``frozenset``, and what numpy has the same of Python.

    Raises ``TypeError`` where it is none, and ``TooMany`` where it has more parts than a type has values.
    """
    if isinstance(value, int):
        return value if type(value) in (int, bool) else int(value)
    if hasattr(value, "dtype") and hasattr(value, "tolist"):
        value = value.tolist() if getattr(value, "size", 0) <= VALUES else range(value.size)
    if isinstance(value, (int, list, tuple, set, frozenset, range)) and (length(value) or 0) > VALUES:
        raise TooMany(f"a value has {length(value)} parts, and {VALUES} are allowed")
    if isinstance(value, int):
        return value
    if isinstance(value, (list, tuple)):
        if len(value) < 2:
            raise TypeError(f"a tuple has two or more parts, and {value!r} hasn't")
        return tuple(map(value_of, value))
    if isinstance(value, (set, frozenset)):
        return frozenset(map(value_of, value))
    raise TypeError(f"{value!r} is no truth, whole number, tuple or set")


def drawn(distribution: Distribution) -> Any:
    """A value of the distribution in a run, and the distribution itself outside of all."""
    run = RUNNING.get()
    return distribution if run is None else run.draw(distribution)


def evenly(values: Iterable[Any]) -> Iterator[tuple[Any, int]]:
    """Each of the values with the weight 1. Raises ``TooMany`` where it is known beforehand that there are more than a type has."""
    if isinstance(values, (range, Set, Mapping)) and (length(values) or 0) > VALUES:
        raise TooMany(f"there are {length(values)} values, and {VALUES} are allowed")
    return ((value, 1) for value in values)


def _distribution(word: str, given: Iterable[Any], weighted: bool = False) -> Distribution:
    """The distribution of a call. Refuses one with too many values at the place of the call."""
    try:
        return Distribution.of(given if weighted else evenly(given))
    except TooMany as cause:
        raise BadModel(f"{word}: {cause}", FEWER, calling()) from None


def uniform(values: Iterable[Any]) -> Any:
    """Each of the values with the same probability: as a parameter's default, or as a draw in the body.

    A value that stands twice in a list counts twice. Raises ``ValueError`` where there is none, and ``BadModel`` where there are more than 65,536.
    """
    return drawn(_distribution("uniform", values))


def choose(*cases: Any) -> Any:
    """Values by whole weights: pairs of a value and its weight, ``choose((bit, 3), (1 - bit, 1))``, or a dictionary, ``choose({0: 9, 1: 1})``.

    Raises ``BadModel`` where more than 65,536 values have a weight.
    """
    pairs = cases[0].items() if len(cases) == 1 and isinstance(cases[0], Mapping) else cases
    return drawn(_distribution("choose", pairs, True))


def flip(numerator: int | Fraction, denominator: int = 1) -> Any:
    """True with this probability: ``flip(1, 5)``, or ``flip(Fraction(1, 5))``. Raises ``ValueError`` where it is none."""
    probability = Fraction(numerator, denominator)
    if not 0 <= probability <= 1:
        raise ValueError(f"{probability} is no probability")
    yes, whole = probability.numerator, probability.denominator
    return drawn(Distribution.of([(False, whole - yes), (True, yes)]))


def one_of(values: Iterable[Any]) -> Any:
    """The values that a public input may take; each question is asked with one of them. Raises ``BadModel`` where there are more than 65,536."""
    return Domain(tuple(_distribution("one_of", values).weights))


def observe(value: Any) -> None:
    """Shows a value to the observer."""
    run = RUNNING.get()
    if run is None:
        raise NotInAModel("observe shows a value in a run of a model, and there is none")
    run.show(value)


def hide(test: Any) -> Any:
    """The test of an ``if`` whose branches aren't seen; they may only assign."""
    if RUNNING.get() is None:
        raise NotInAModel("hide is the test of an if in a model")
    return test
