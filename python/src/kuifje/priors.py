"""Priors: how programs draw their targets, and for which priors on the secret a verdict of refinement holds (docs/REFINEMENT.md).

The distributions are the proved program's answers; what is said of other priors follows from the laws that the page names.
"""

from __future__ import annotations

from collections.abc import Iterator, Mapping
from fractions import Fraction
from itertools import chain, combinations, islice, product

from .program import Program
from .source import Range, SetOf, Source, Truth, Type, read
from .values import Value, ascending, format_value

__all__ = ["Prior", "declarations", "difference", "impossible", "obstacle", "prior_of", "scope"]

Prior = Mapping[Value, Fraction]


def declarations(program: Program) -> Program | None:
    """A program's declarations and its line ``about`` alone; none where an item of the target isn't ``old``, so that its statements matter, too."""
    source = _source(program)
    if source is None or not source.target.is_initial:
        return None
    text = source.text[: source.begin]
    return Program(text, name=program.name, turns=program.turns, engine=program.engine, expansion=program.expansion)


def prior_of(program: Program, timeout: float | None = None) -> Prior:
    """The distribution of a program's target before anything is seen; of a target that is ``old`` its declarations are asked alone."""
    return (declarations(program) or program).hyper(timeout).prior


def difference(first: Prior, second: Prior, places: tuple[str, str]) -> str | None:
    """The smallest value to which two priors give different probabilities, with both, in words; none where the priors are one.

    ``places`` say where each of them is: ``0 has the probability 1/4 in a.kf, and 1/8 here``.
    """
    one, other = ({format_value(value): p for value, p in prior.items()} for prior in (first, second))  # of a dict false and 0 are one key
    values = {format_value(value): value for prior in (first, second) for value in prior}
    name = next((name for name in map(format_value, ascending(values.values())) if one.get(name, 0) != other.get(name, 0)), None)
    return None if name is None else f"{name} has the probability {one.get(name, 0)} {places[0]}, and {other.get(name, 0)} {places[1]}"


def _source(program: Program) -> Source | None:
    """The program's text as a tree; none where it can't be read."""
    try:
        return read(program.text.decode())
    except ValueError:
        return None


def _values(kind: Type, most: int) -> Iterator[Value]:
    """The values of a type, so many at most."""
    if isinstance(kind, Truth):
        found: Iterator[Value] = iter((False, True))
    elif isinstance(kind, Range):
        found = iter(range(kind.low, kind.high + 1))
    elif isinstance(kind, SetOf):
        base = list(_values(kind.base, most))
        found = map(frozenset, chain.from_iterable(combinations(base, count) for count in range(len(base) + 1)))
    else:
        found = product(*(list(_values(part, most)) for part in kind.parts))
    return islice(found, most)


def _types(source: Source) -> list[tuple[str, Type]]:
    """The target's variables with their types."""
    declared = {declared.name: declared.type for declared in source.declarations}
    return [(item.name, declared[item.name]) for item in source.target.items]


def impossible(program: Program, prior: Prior) -> Value | None:
    """A value of the target's type that has no probability in the prior; none where there is none, or where the text can't be read."""
    source = _source(program)
    if source is None:
        return None
    most = len(prior) + 1
    kinds = [list(_values(kind, most)) for _, kind in _types(source)]
    values: Iterator[Value] = iter(kinds[0]) if len(kinds) == 1 else islice(product(*kinds), most)
    return next((value for value in values if not prior.get(value)), None)


def _places(a: Program, b: Program) -> tuple[str, str]:
    return (f"in {a.name}", f"in {b.name}") if a.name != b.name else ("in the first program", "in the second")


def _later(program: Program) -> str | None:
    """Why a program's prior isn't its declarations' alone; none where it is."""
    source = _source(program)
    if source is None:
        return f"the text of {program.name} can't be read here"
    later = [item.name for item in source.target.items if not item.old]
    return f"{later[0]} isn't old in the target of {program.name}, so how it is distributed depends on the statements" if later else None


def obstacle(a: Program, b: Program, first: Prior, second: Prior) -> str | None:
    """Why a yes of ``refine`` isn't one for every prior on the secret; none where it is.

    It is one where the target consists of ``old`` items, both programs draw it alike, and each of its values is possible: then the verdict depends on
    the channel matrices alone. ``first`` and ``second`` are the priors of ``a`` and ``b``, which have one target, with one type.
    """
    if (cause := _later(b) or _later(a)) is not None:
        return cause
    if (apart := difference(first, second, _places(a, b))) is not None:
        return f"the priors differ: {apart}"
    value = impossible(a, first)
    return None if value is None else f"{format_value(value)} is a value of the secret, and has the probability 0"


def scope(a: Program, b: Program, first: Prior, second: Prior, refines: bool) -> str:
    """A sentence that says for which priors a verdict of refinement holds; ``first`` and ``second`` are the priors of ``a`` and ``b``, as above."""
    if (apart := difference(first, second, _places(a, b))) is not None:
        return f"The priors differ: {apart}. So it says nothing of which program leaks more."
    if (cause := _later(b) or _later(a)) is not None:
        return f"It holds for the prior that the programs have, and says nothing of others: {cause}."
    if (value := impossible(a, first)) is None:
        yes, no = "on the secret, since each of its values is possible", "under which each value of the secret is possible"
        return f"It holds for every prior {yes if refines else no}."
    if refines:
        return f"It holds for every prior on the secret's values that are possible here; {format_value(value)} isn't."
    return f"It holds for every prior under which the same values are possible as here; {format_value(value)} isn't."
