"""What a Python expression stands for while a model is unfolded: a constant, an expression, a draw, or a row of these."""

from __future__ import annotations

from dataclasses import dataclass
from typing import Any, TypeAlias, Union

from ..values import Value
from .tree import Choose, Draw, Expr, Fixed, Part, TupleOf

__all__ = ["Known", "Row", "Scalar", "Shape", "Slots", "Symbol", "is_shared", "parts_of", "same_shape", "shape_of", "value_shape"]


@dataclass(frozen=True)
class Shape:
    """The shape of a tuple: that of each part, and none of a part that is no tuple."""

    parts: tuple[Shape | None, ...]


@dataclass(frozen=True, eq=False)
class Known:
    """A constant: any Python value."""

    value: Any


@dataclass(frozen=True, eq=False)
class Slots:
    """The variables of an array, one for each entry; an entry may be an array."""

    entries: tuple[Union[str, "Slots"], ...]


@dataclass(frozen=True, eq=False)
class Row:
    """A list or a tuple of known length. ``whole`` is the expression of a tuple, and ``slots`` are the variables of an array.

    A list is ``chosen`` where it is one of several arrays, and it isn't known which.
    """

    items: tuple[Symbol, ...]
    is_list: bool
    whole: Expr | None = None
    slots: Slots | None = None
    chosen: bool = False


@dataclass(frozen=True, eq=False)
class Scalar:
    """A local name that is a variable of the language."""

    name: str
    shape: Shape | None


Symbol: TypeAlias = Union[Known, Expr, Draw, Row]


def value_shape(value: Value) -> Shape | None:
    """The shape of a value."""
    return Shape(tuple(map(value_shape, value))) if isinstance(value, tuple) else None


def shape_of(symbol: Symbol) -> Shape | None:
    """The shape of a symbol, as far as it is known."""
    match symbol:
        case Row(items=items, is_list=False):
            return Shape(tuple(map(shape_of, items)))
        case Known(value=tuple() as value):
            return Shape(tuple(shape_of(Known(part)) for part in value))
        case TupleOf(parts=parts):
            return Shape(tuple(map(shape_of, parts)))
        case Fixed(distribution=distribution):
            return value_shape(next(iter(distribution.weights)))
        case Choose(cases=cases):
            return shape_of(cases[0][0])
    return None


def same_shape(a: Slots, row: tuple[Symbol, ...]) -> bool:
    """Whether the entries of a row fit these variables."""
    return len(a.entries) == len(row) and all(
        isinstance(slot, str) or isinstance(item, Row) and same_shape(slot, item.items) for slot, item in zip(a.entries, row)
    )


def is_shared(symbol: Symbol) -> bool:
    """Whether a symbol is an array that another name stands for, or has such an array in it."""
    return isinstance(symbol, Row) and (symbol.slots is not None or symbol.chosen or any(map(is_shared, symbol.items)))


def parts_of(whole: Expr, shape: Shape | None) -> Symbol:
    """An expression as a row, where it is a tuple."""
    if shape is None:
        return whole
    return Row(tuple(parts_of(Part(whole.place, whole, i), part) for i, part in enumerate(shape.parts)), False, whole)
