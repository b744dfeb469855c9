"""Calls of Python's own functions and of draws, as symbols."""

from __future__ import annotations

import ast
import builtins
from abc import abstractmethod
from collections.abc import Callable, Mapping, Sequence
from fractions import Fraction
from functools import reduce
from types import FunctionType

from . import declare
from .declare import Distribution
from .errors import Place
from .evaluate import NEITHER, PRIMITIVES, SMALLER, Evaluator, few, folded
from .sizes import TooMany, length
from .source import MISSING
from .symbols import Known, Row, Symbol
from .tree import Choose, Draw, Expr, Fixed, Flip, Literal, Uniform, UniformRange

__all__ = ["Calls"]


class Calls(Evaluator):
    """What evaluates calls."""

    @abstractmethod
    def call(self, function: FunctionType, node: ast.Call, arguments: Sequence[Symbol], named: Mapping[str, Symbol]) -> Symbol:
        """The value of a call of a function that is written in Python."""

    def _call(self, node: ast.Call) -> Symbol:
        function = self.scope.source.called(node.func)
        if function in (declare.uniform, declare.choose, declare.flip):
            return self._draw(function, node)
        if function in PRIMITIVES:
            self.bad(f"{function.__name__} can't stand in an expression", "observe(..) is a statement, and hide(..) the test of an if", node)
        if isinstance(node.func, ast.Attribute) and node.func.attr == "copy" and not node.args:
            row = self.row(self.value(node.func.value))
            if isinstance(row, Row):
                return Row(row.items, row.is_list, row.whole)
        if function is MISSING and isinstance(node.func, ast.Attribute) and node.func.attr in dir(int):
            form = "of a number, write what it does: bit_length as sum([x >= 2 ** i for i in range(20)]) where x is at least 0"
            self.bad(f"{node.func.attr} is a method, and values have none here", form, node)
        if function is MISSING:
            self.bad("this function isn't known", "call functions by their names; arrays and sets have no methods: write s = s | {x}", node)
        arguments = self.arguments(node.args)
        if not isinstance(function, FunctionType) and not node.keywords and (known := self._folded(function, arguments, node)) is not None:
            return known
        named = self.named(node)
        if isinstance(function, FunctionType):
            return self.call(function, node, arguments, named)
        name = getattr(function, "__name__", "")
        found: Callable[[ast.Call, list[Symbol]], Symbol] | None = getattr(self, f"_of_{name}", None)
        if found is None or named or getattr(builtins, name, None) is not function:
            self.bad("this call can't be translated", "what may be called is listed in python/README.md", node)
        return found(node, arguments)

    def _folded(self, function: object, arguments: list[Symbol], node: ast.Call) -> Known | None:
        """What Python makes of constants. Refuses what would go over too many."""
        try:
            if function not in (range, len):
                for symbol in arguments:
                    few(length(symbol.value) or 0 if isinstance(symbol, Known) else 0)
            return folded(function, *arguments)
        except TooMany as cause:
            self.bad(str(cause), SMALLER, node)

    def named(self, node: ast.Call) -> dict[str, Symbol]:
        """The arguments of a call that are given by name."""
        if any(keyword.arg is None for keyword in node.keywords):
            self.bad("arguments can't be given by a dictionary", "write each by its name: f(x=1)", node)
        return {keyword.arg: self.value(keyword.value) for keyword in node.keywords if keyword.arg}

    def _draw(self, function: object, node: ast.Call) -> Symbol:
        place = self.scope.place(node)
        if node.keywords:
            self.bad("a draw has no arguments by name", "write flip(1, 5), uniform(range(4)), or choose((0, 3), (1, 1))", node)
        try:
            if function is declare.flip:
                return self._flip(node, place)
            return self._uniform(node, place) if function is declare.uniform else self._choose(node, place)
        except TooMany as cause:
            self.bad(f"{getattr(function, '__name__')}: {cause}", declare.FEWER, node)
        except (TypeError, ValueError, ZeroDivisionError) as cause:
            self.bad(str(cause), "write flip(1, 5), uniform(range(4)), or choose((0, 3), (1, 1))", node)

    def _flip(self, node: ast.Call, place: Place) -> Draw:
        symbols = self.arguments(node.args)
        numbers = [symbol.value for symbol in symbols if isinstance(symbol, Known)]
        if len(numbers) != len(symbols) or not 1 <= len(numbers) <= 2:
            self.bad("the probability of flip is a constant", "choose((True, weight), (False, other)) has weights that vary", node)
        probability = Fraction(*numbers)
        if not 0 <= probability <= 1:
            raise ValueError(f"{probability} is no probability")
        return Flip(place, probability.numerator, probability.denominator)

    def _uniform(self, node: ast.Call, place: Place) -> Draw:
        if len(node.args) != 1:
            raise TypeError("uniform has one argument, the values")
        argument = node.args[0]
        if isinstance(argument, ast.Call) and self.scope.source.called(argument.func) is range and self.constant(argument) is NEITHER:
            bounds = [self.expr(bound) for bound in argument.args]
            first = bounds[0] if len(bounds) > 1 else Literal(place, 0)
            if len(bounds) > 2:
                self.bad("this range has a step", "write uniform([..]) with its values", node)
            return UniformRange(place, first, self.operation("-", argument, bounds[len(bounds) > 1], Literal(place, 1)))
        values = self.value(argument)
        if isinstance(values, Known):
            return Fixed(place, Distribution.of(declare.evenly(values.value)))
        if isinstance(row := self.row(values), Row):
            return Choose(place, tuple((self.as_expr(item, argument), Literal(place, 1)) for item in row.items))
        return Uniform(place, self.as_expr(values, argument))

    def _choose(self, node: ast.Call, place: Place) -> Draw:
        if len(node.args) == 1 and not isinstance(node.args[0], (ast.Dict, ast.Starred)):
            weights = self.value(node.args[0])
            if isinstance(weights, Known) and isinstance(weights.value, dict):
                return Fixed(place, Distribution.of(weights.value.items()))
        cases = [self.items(case, node) for case in self._pairs(node)]
        if not cases or any(len(case) != 2 for case in cases):
            self.bad("a case of choose is a value and its weight", "write choose((value, weight), (other, weight))", node)
        if all(isinstance(part, Known) for case in cases for part in case):
            return Fixed(place, Distribution.of((v.value, w.value) for v, w in cases if isinstance(v, Known) and isinstance(w, Known)))
        return Choose(place, tuple((self.as_expr(value, node), self.as_expr(weight, node)) for value, weight in cases))

    def _pairs(self, node: ast.Call) -> list[Symbol]:
        """The cases of a choice: pairs, or those of one dictionary, whose keys are different constants."""
        if len(node.args) != 1 or isinstance(node.args[0], ast.Starred):
            return self.arguments(node.args)
        given = node.args[0]
        if isinstance(given, ast.Dict):
            keys = [self.evaluate(key) if key is not None else None for key in given.keys]
            values = [key.value for key in keys if isinstance(key, Known)]
            if len(values) < len(keys) or len(set(values)) < len(keys):
                self.bad("a dictionary keeps one weight of equal keys", "write pairs: choose((value, weight), (other, weight))", node)
            return [Row((Known(key), self.value(weight)), False) for key, weight in zip(values, given.values)]
        return [self.value(given)]

    def _of_range(self, node: ast.Call, arguments: list[Symbol]) -> Symbol:
        self.bad("how many numbers these are isn't a constant", "write while, or for over the longest range with an if", node)

    def _of_len(self, node: ast.Call, arguments: list[Symbol]) -> Symbol:
        (symbol,) = arguments
        row = self.row(symbol)
        return Known(len(row.items)) if isinstance(row, Row) else self.operation("size", node, self.as_expr(symbol, node))

    def _of_abs(self, node: ast.Call, arguments: list[Symbol]) -> Symbol:
        return self.operation("abs", node, self.as_expr(arguments[0], node))

    def _of_bool(self, node: ast.Call, arguments: list[Symbol]) -> Symbol:
        return self.truth(arguments[0], node)

    def _of_int(self, node: ast.Call, arguments: list[Symbol]) -> Symbol:
        return self.operation("number", node, self.as_expr(arguments[0], node))

    def _extreme(self, word: str, node: ast.Call, arguments: list[Symbol]) -> Symbol:
        entries = arguments if len(arguments) > 1 else self.items(arguments[0], node)
        if not entries:
            self.bad(f"{word} of nothing", "an array has at least one entry", node)
        return reduce(lambda a, b: self.operation(word, node, a, b), [self.as_expr(entry, node) for entry in entries])

    def _of_min(self, node: ast.Call, arguments: list[Symbol]) -> Symbol:
        return self._extreme("min", node, arguments)

    def _of_max(self, node: ast.Call, arguments: list[Symbol]) -> Symbol:
        return self._extreme("max", node, arguments)

    def _of_sum(self, node: ast.Call, arguments: list[Symbol]) -> Symbol:
        entries = [self.operation("number", node, self.as_expr(entry, node)) for entry in self.items(arguments[0], node)]
        return reduce(lambda a, b: self.operation("+", node, a, b), entries or [Literal(self.scope.place(node), 0)])

    def _of_all(self, node: ast.Call, arguments: list[Symbol]) -> Symbol:
        return self.all_of([self.truth(entry, node) for entry in self.items(arguments[0], node)], node, "and")

    def _of_any(self, node: ast.Call, arguments: list[Symbol]) -> Symbol:
        return self.all_of([self.truth(entry, node) for entry in self.items(arguments[0], node)], node, "or")

    def _of_list(self, node: ast.Call, arguments: list[Symbol]) -> Symbol:
        return Row(tuple(self.items(arguments[0], node)) if arguments else (), True)

    def _of_tuple(self, node: ast.Call, arguments: list[Symbol]) -> Symbol:
        return Row(tuple(self.items(arguments[0], node)) if arguments else (), False)

    def _of_set(self, node: ast.Call, arguments: list[Symbol]) -> Symbol:
        if arguments and isinstance(arguments[0], Expr):
            return self.operation("set", node, arguments[0])
        return self._members(self.items(arguments[0], node) if arguments else [], node)

    _of_frozenset = _of_set

    def _of_reversed(self, node: ast.Call, arguments: list[Symbol]) -> Symbol:
        return Row(tuple(reversed(self.items(arguments[0], node))), True)

    def _of_enumerate(self, node: ast.Call, arguments: list[Symbol]) -> Symbol:
        return Row(tuple(Row((Known(i), item), False) for i, item in enumerate(self.items(arguments[0], node))), True)

    def _of_zip(self, node: ast.Call, arguments: list[Symbol]) -> Symbol:
        return Row(tuple(Row(pair, False) for pair in zip(*(self.items(argument, node) for argument in arguments))), True)
