"""Expressions of Python as symbols: constants are worked out by Python, what is left becomes a tree."""

from __future__ import annotations

import ast
import operator as operators
from abc import ABC, abstractmethod
from collections.abc import Callable, Iterator, Mapping, Sequence
from contextlib import contextmanager
from dataclasses import replace
from functools import reduce
from math import prod
from typing import Any, NoReturn

from . import declare
from .declare import Distribution, value_of
from .errors import BadModel, Place
from .sizes import BITS, ENTRIES, TURNS, TooMany, length, listed
from .source import MISSING, Source
from .symbols import Known, Row, Scalar, Slots, Symbol, is_shared, parts_of
from .tree import Draw, Expr, Literal, Lookup, Operation, SetOf, TupleOf, Variable

__all__ = ["Binding", "Evaluator", "NEITHER", "PRIMITIVES", "Scope", "bad", "folded"]

Binding = Known | Expr | Row | Scalar | Slots
PRIMITIVES = (declare.uniform, declare.choose, declare.flip, declare.observe, declare.hide, declare.one_of)
OPERATORS: dict[type[ast.AST], str] = {
    ast.Add: "+",
    ast.Sub: "-",
    ast.Mult: "*",
    ast.FloorDiv: "//",
    ast.Mod: "%",
    ast.BitAnd: "&",
    ast.BitOr: "|",
    ast.BitXor: "^",
    ast.LShift: "<<",
    ast.RShift: ">>",
    ast.Eq: "==",
    ast.NotEq: "!=",
    ast.Lt: "<",
    ast.LtE: "<=",
    ast.Gt: ">",
    ast.GtE: ">=",
}
FOLDED: dict[type[ast.AST], Callable[..., Any]] = {
    ast.Add: operators.add,
    ast.Sub: operators.sub,
    ast.Mult: operators.mul,
    ast.FloorDiv: operators.floordiv,
    ast.Mod: operators.mod,
    ast.Pow: operators.pow,
    ast.BitAnd: operators.and_,
    ast.BitOr: operators.or_,
    ast.BitXor: operators.xor,
    ast.LShift: operators.lshift,
    ast.RShift: operators.rshift,
    ast.Eq: operators.eq,
    ast.NotEq: operators.ne,
    ast.Lt: operators.lt,
    ast.LtE: operators.le,
    ast.Gt: operators.gt,
    ast.GtE: operators.ge,
    ast.USub: operators.neg,
    ast.UAdd: operators.pos,
    ast.Invert: operators.invert,
    ast.Not: operators.not_,
}
NEITHER = object()
SMALLER = "go over fewer; a while loop isn't unrolled"


def bad(reason: str, form: str, place: Place) -> NoReturn:
    """Refuses a model."""
    raise BadModel(reason, form, place)


class Scope:
    """The names of a function while it is unfolded: what they stand for, and how its variables are called."""

    def __init__(self, source: Source, prefix: str, caller: Place | None) -> None:
        self.source, self.prefix, self.caller = source, prefix, caller
        self.names: dict[str, Binding] = {}
        self.places: dict[tuple[int, int], Place] = {}
        stores = [node for node in ast.walk(source.tree) if isinstance(node, (ast.Name, ast.Subscript)) and isinstance(node.ctx, ast.Store)]
        stored = [node.id for node in stores if isinstance(node, ast.Name)]
        self.entries = frozenset(_base(node) for node in stores if isinstance(node, ast.Subscript))
        self.stores = {name: stored.count(name) for name in stored}

    def place(self, node: ast.AST) -> Place:
        """Where a node stands, and what called the function."""
        at = getattr(node, "lineno", 0), getattr(node, "col_offset", 0)
        if at not in self.places:
            self.places[at] = self.source.place(node).called_from(self.caller)
        return self.places[at]

    def once(self, name: str) -> bool:
        """Whether a name is assigned at one place at most, and no entry of it is."""
        return self.stores.get(name, 0) <= 1 and name not in self.entries


def _base(node: ast.expr) -> str:
    while isinstance(node, ast.Subscript):
        node = node.value
    return node.id if isinstance(node, ast.Name) else ""


class Evaluator(ABC):
    """What evaluates expressions. ``strict`` is false in a part of an expression that isn't always evaluated: nothing can be drawn there."""

    def __init__(self) -> None:
        self.versions: dict[str, int] = {}
        self.strict = True
        self.scope: Scope
        self.current: ast.AST = ast.Pass()
        self.turns = 0

    @abstractmethod
    def draw(self, draw: Draw, node: ast.AST, at: tuple[int, ...] = ()) -> Symbol:
        """The value of a draw inside an expression, by a variable of its own; ``at`` is which one of the node's it is."""

    def bad(self, reason: str, form: str, node: ast.AST) -> NoReturn:
        """Refuses a node."""
        bad(reason, form, self.scope.place(node))

    def turn(self, node: ast.AST) -> None:
        """Counts a turn of a loop that is unrolled. Refuses too many of all loops together."""
        self.turns += 1
        if self.turns > TURNS:
            self.bad(f"loops are unrolled over more than {TURNS} turns", SMALLER, node)

    # Names and constants

    def read(self, binding: Binding, node: ast.AST) -> Symbol:
        """What a name stands for now."""
        match binding:
            case Scalar(name=name, shape=shape):
                return parts_of(self.variable(name, node), shape)
            case Slots(entries=entries):
                return Row(tuple(self.read(e if isinstance(e, Slots) else Scalar(e, None), node) for e in entries), True, None, binding)
        return binding

    def variable(self, name: str, node: ast.AST) -> Variable:
        """A variable as it is now."""
        return Variable(self.scope.place(node), name, self.versions.get(name, 0))

    def constant(self, node: ast.expr) -> Any:
        """The value of an expression in which only constants stand, by Python; ``NEITHER`` of any other. Refuses one that takes Python too long."""
        names = self._names_of(node)
        if names is None:
            return NEITHER
        try:
            self._small(node)
            value = self._by_python(node, names)
            return listed(value) if isinstance(value, Iterator) else value
        except TooMany as cause:
            self.bad(str(cause), SMALLER, node)

    def _names_of(self, node: ast.expr) -> dict[str, Any] | None:
        """The values of the local names in an expression, where all are constants and nothing is drawn."""
        scope, names = self.scope, dict[str, Any]()
        for part in ast.walk(node):
            if isinstance(part, ast.Name) and isinstance(part.ctx, ast.Load) and (part.id in scope.names or part.id in scope.source.locals):
                binding = scope.names.get(part.id)
                if not isinstance(binding, Known):
                    return None
                names[part.id] = binding.value
            elif isinstance(part, ast.Call) and scope.source.called(part.func) in PRIMITIVES:
                return None
        return names

    def _by_python(self, node: ast.expr, names: Mapping[str, Any]) -> Any:
        """What Python makes of an expression; ``NEITHER`` where it raises."""
        source = self.scope.source
        free = {name: source.meaning(name) for name in source.function.__code__.co_freevars}
        mark = declare.RUNNING.set(_Folding())
        try:
            code = compile(ast.Expression(node), source.file, "eval")
            return eval(code, dict(source.function.__globals__) | free | dict(names))
        except Exception:
            return NEITHER
        finally:
            declare.RUNNING.reset(mark)

    def _small(self, node: ast.expr) -> None:
        """Raises ``TooMany`` where an expression takes Python too long: loops over huge ranges, or huge numbers, lists and texts.

        What stands inside comes first, so that no huge part is worked out for what is around it.
        """
        parts = list(ast.walk(node))
        bound = {name.id for part in parts if isinstance(part, ast.comprehension) for name in ast.walk(part.target) if isinstance(name, ast.Name)}
        for part in reversed(parts):
            match part:
                case ast.BinOp(op=ast.Mult() | ast.Pow() | ast.LShift()):
                    fits(type(part.op), self._part(part.left, bound), self._part(part.right, bound))
                case ast.ListComp() | ast.SetComp() | ast.GeneratorExp() | ast.DictComp():
                    few(prod(length(self._part(generator.iter, bound)) or 1 for generator in part.generators))
                case ast.Call(args=[_, *_]) if self.scope.source.called(part.func) not in (range, len):
                    for given in part.args:
                        if isinstance(given, (ast.Call, ast.Name)):
                            few(length(self._part(given, bound)) or 0)

    def _part(self, node: ast.expr, bound: set[str]) -> Any:
        """The value of a part of a constant, where it stands for itself."""
        if isinstance(node, ast.Constant):
            return node.value
        names = self._names_of(node)
        if names is None or any(isinstance(part, ast.Name) and part.id in bound for part in ast.walk(node)):
            return NEITHER
        return self._by_python(node, names)

    def evaluate(self, node: ast.expr) -> Symbol:
        """What an expression stands for. Statements that it needs are emitted first."""
        if isinstance(node, ast.Name):
            return self._name(node)
        if (value := self.constant(node)) is not NEITHER:
            return Known(value)
        found: Callable[[Any], Symbol] | None = getattr(self, f"_{type(node).__name__.lower()}", None)
        if found is None:
            self.bad(f"{_noun(node)} can't be translated", "what may stand in a model is listed in python/README.md", node)
        return found(node)

    def _name(self, node: ast.Name) -> Symbol:
        if node.id in self.scope.names:
            return self.read(self.scope.names[node.id], node)
        if node.id in self.scope.source.locals:
            self.bad(f"{node.id} may have no value here, or one of several", f"assign it before: {node.id} = 0", node)
        if (value := self.scope.source.meaning(node.id)) is MISSING:
            self.bad(f"{node.id} isn't defined", "a name is a parameter, a local variable or a constant of the module", node)
        return Known(value)

    def expr(self, node: ast.expr) -> Expr:
        """An expression as one of the language."""
        return self.as_expr(self.value(node), node)

    def value(self, node: ast.expr) -> Symbol:
        """What an expression stands for; a draw becomes a variable."""
        return self.settle(self.evaluate(node), node)

    def settle(self, symbol: Symbol, node: ast.AST, at: tuple[int, ...] = ()) -> Symbol:
        """A symbol whose draws are drawn: it may be read more than once."""
        if isinstance(symbol, Draw):
            return self.draw(symbol, node, at)
        if isinstance(symbol, Row) and symbol.whole is None and symbol.slots is None:
            return replace(symbol, items=tuple(self.settle(item, node, (*at, i)) for i, item in enumerate(symbol.items)))
        return symbol

    def as_expr(self, symbol: Symbol, node: ast.AST) -> Expr:
        """A symbol as an expression of the language: a row as a tuple."""
        match symbol:
            case Row(whole=Expr() as whole):
                return whole
            case Row(items=items):
                if len(items) < 2:
                    self.bad(f"a tuple has two or more parts, and there are {len(items)}", "write the value itself, or a set", node)
                settled = [self.settle(item, node, (i,)) for i, item in enumerate(items)]
                return TupleOf(self.scope.place(node), tuple(self.as_expr(item, node) for item in settled))
            case Known(value=value):
                try:
                    return Literal(self.scope.place(node), value_of(value))
                except TypeError as cause:
                    self.bad(str(cause), "values are truths, whole numbers, tuples and sets", node)
            case Draw():
                return self.as_expr(self.draw(symbol, node), node)
        return symbol

    # Operators

    def operation(self, operator: str, node: ast.AST, *arguments: Expr) -> Expr:
        """An operator between expressions."""
        return Operation(self.scope.place(node), operator, arguments)

    def _binop(self, node: ast.BinOp) -> Symbol:
        operator = OPERATORS.get(type(node.op))
        left, right = self.value(node.left), self.value(node.right)
        if isinstance(left, Known) and isinstance(right, Known):
            try:
                fits(type(node.op), left.value, right.value)
            except TooMany as cause:
                self.bad(str(cause), SMALLER, node)
        if (known := folded(FOLDED.get(type(node.op)), left, right)) is not None:
            return known
        try:
            if operator == "*" and (repeated := _repeated(self.row(left), right) or _repeated(self.row(right), left)):
                return repeated
        except TooMany as cause:
            self.bad(str(cause), SMALLER, node)
        if operator == "+" and isinstance(a := self.row(left), Row) and isinstance(b := self.row(right), Row) and a.is_list == b.is_list:
            return Row(a.items + b.items, a.is_list)
        if operator is None:
            wanted = "a // b" if isinstance(node.op, ast.Div) else "a constant power, x * x, or 1 << x"
            self.bad("numbers are whole, and this operator isn't one of the language's", f"write {wanted}", node)
        for side, symbol in ((node.left, left), (node.right, right)):
            if isinstance(symbol, Row) and symbol.is_list:
                self.bad("an array has no such operator", "write it entry by entry: [x + 1 for x in array]", side)
        return self.operation(operator, node, self.as_expr(left, node.left), self.as_expr(right, node.right))

    def _unaryop(self, node: ast.UnaryOp) -> Symbol:
        if isinstance(node.op, ast.Not):
            return self.operation("not", node, self.test(node.operand))
        word = {ast.USub: "neg", ast.Invert: "~"}.get(type(node.op))
        symbol = self.value(node.operand)
        if (known := folded(FOLDED[type(node.op)], symbol)) is not None:
            return known
        found = self.as_expr(symbol, node.operand)
        return self.operation(word or "number", node, found)

    def _boolop(self, node: ast.BoolOp) -> Symbol:
        return self.junction(node, lambda part: self.expr(part))

    def junction(self, node: ast.BoolOp, part: Callable[[ast.expr], Expr]) -> Expr:
        """``and`` or ``or`` of its parts, of which all but the first may not be evaluated."""
        word = "and" if isinstance(node.op, ast.And) else "or"
        found = [part(node.values[0])]
        with self.lax():
            found += [part(value) for value in node.values[1:]]
        neutral = word == "and"
        rest = [f for f in found if not (isinstance(f, Literal) and f.value is neutral)]
        if not rest:
            return Literal(self.scope.place(node), neutral)
        return reduce(lambda a, b: self.operation(word, node, a, b), rest)

    @contextmanager
    def lax(self) -> Iterator[None]:
        """A part of an expression that isn't always evaluated."""
        before, self.strict = self.strict, False
        try:
            yield
        finally:
            self.strict = before

    def test(self, node: ast.expr) -> Expr:
        """A truth: of a number whether it isn't 0, of a set whether it isn't empty."""
        if isinstance(node, ast.BoolOp) and self.constant(node) is NEITHER:
            return self.junction(node, self.test)
        return self.truth(self.value(node), node)

    def truth(self, symbol: Symbol, node: ast.AST) -> Expr:
        """The truth of a symbol."""
        match symbol:
            case Known(value=value):
                return Literal(self.scope.place(node), bool(value))
            case Row(items=items):
                return Literal(self.scope.place(node), bool(items))
        found = self.as_expr(symbol, node)
        return self.operation("truth", node, found)

    def _compare(self, node: ast.Compare) -> Symbol:
        left, right = self.value(node.left), self.value(node.comparators[0])
        if len(node.ops) == 1 and (known := folded(FOLDED.get(type(node.ops[0])), left, right)) is not None:
            return known
        before, found = self.strict, list[Expr]()
        for i, (operator, side) in enumerate(zip(node.ops, node.comparators)):
            self.strict = before and i == 0
            right = self.value(side) if i else right
            found.append(self.compared(operator, left, right, node))
            left = right
        self.strict = before
        return reduce(lambda a, b: self.operation("and", node, a, b), found)

    def compared(self, operator: ast.cmpop, left: Symbol, right: Symbol, node: ast.Compare) -> Expr:
        """A comparison of two symbols."""
        if isinstance(operator, (ast.In, ast.NotIn)):
            found = self.member(left, right, node)
            return self.operation("not", node, found) if isinstance(operator, ast.NotIn) else found
        word = OPERATORS.get(type(operator))
        if word is None:
            self.bad("whether two names are one object isn't in the language", "write == or !=", node)
        if word in ("==", "!=") and isinstance(a := self.row(left), Row) and isinstance(b := self.row(right), Row) and not (a.whole and b.whole):
            found = self.equal(a, b, node)
            return found if word == "==" else self.operation("not", node, found)
        return self.operation(word, node, self.as_expr(left, node), self.as_expr(right, node))

    def equal(self, a: Symbol, b: Symbol, node: ast.AST) -> Expr:
        """Whether two symbols are equal; arrays are, where all their entries are."""
        a, b = self.row(a), self.row(b)
        if not (isinstance(a, Row) and isinstance(b, Row)):
            return self.operation("==", node, self.as_expr(a, node), self.as_expr(b, node))
        if a.is_list != b.is_list:
            self.bad("a list never equals a tuple", "compare two lists, or two tuples", node)
        if len(a.items) != len(b.items):
            return Literal(self.scope.place(node), False)
        return self.all_of([self.equal(x, y, node) for x, y in zip(a.items, b.items)], node, "and")

    def all_of(self, tests: Sequence[Expr], node: ast.AST, word: str) -> Expr:
        """``and`` or ``or`` of tests."""
        if not tests:
            return Literal(self.scope.place(node), word == "and")
        return reduce(lambda a, b: self.operation(word, node, a, b), tests)

    def member(self, left: Symbol, right: Symbol, node: ast.AST) -> Expr:
        """Whether one symbol is in another: a range, an array, a tuple or a set."""
        if isinstance(right, Known) and isinstance(right.value, range) and right.value.step == 1 and right.value:
            x, place = self.as_expr(left, node), self.scope.place(node)
            ends = Literal(place, right.value[0]), Literal(place, right.value[-1])
            return self.operation("and", node, self.operation("<=", node, ends[0], x), self.operation("<=", node, x, ends[1]))
        if isinstance(right, Known) and not isinstance(right.value, (set, frozenset)):
            right = Known([entry.value for entry in self.items(right, node) if isinstance(entry, Known)])
        if isinstance(entries := self.row(right), Row):
            return self.all_of([self.equal(left, entry, node) for entry in entries.items], node, "or")
        return self.operation("in", node, self.as_expr(left, node), self.as_expr(right, node))

    def _ifexp(self, node: ast.IfExp) -> Symbol:
        test = self.test(node.test)
        if isinstance(test, Literal):
            return self.evaluate(node.body if test.value else node.orelse)
        with self.lax():
            return self.either(test, self.value(node.body), self.value(node.orelse), node)

    def either(self, test: Expr, a: Symbol, b: Symbol, node: ast.AST) -> Symbol:
        """One symbol or the other; arrays and tuples part by part."""
        rows = self.row(a), self.row(b)
        match rows:
            case (Row() as x, Row() as y):
                if x.is_list != y.is_list or len(x.items) != len(y.items):
                    self.bad("both values of a conditional expression have one length", "give both the same number of entries", node)
                items = tuple(self.either(test, p, q, node) for p, q in zip(x.items, y.items))
                whole = None if x.is_list else self.operation("cond", node, test, self.as_expr(x, node), self.as_expr(y, node))
                return Row(items, x.is_list, whole, chosen=x.is_list and (is_shared(x) or is_shared(y)))
        return self.operation("cond", node, test, self.as_expr(a, node), self.as_expr(b, node))

    # Tuples, arrays and sets

    def row(self, symbol: Symbol) -> Symbol:
        """A constant list or tuple as a row."""
        if isinstance(symbol, Known) and isinstance(symbol.value, (list, tuple)):
            if len(symbol.value) > ENTRIES:
                self.bad(f"there are {len(symbol.value)} entries, and {ENTRIES} are allowed", SMALLER, self.current)
            return Row(tuple(map(Known, symbol.value)), isinstance(symbol.value, list))
        return symbol

    def _elements(self, nodes: Sequence[ast.expr]) -> list[Symbol]:
        found: list[Symbol] = []
        for node in nodes:
            if isinstance(node, ast.Starred):
                found += self.items(self.value(node.value), node)
            else:
                found.append(self.evaluate(node))
        return found

    def arguments(self, nodes: Sequence[ast.expr]) -> list[Symbol]:
        """The arguments of a call."""
        return [self.settle(symbol, nodes[0], (i,)) for i, symbol in enumerate(self._elements(nodes))]

    def _members(self, symbols: Sequence[Symbol], node: ast.AST) -> Expr:
        settled = [self.settle(symbol, node, (i,)) for i, symbol in enumerate(symbols)]
        return SetOf(self.scope.place(node), tuple(self.as_expr(symbol, node) for symbol in settled))

    def _tuple(self, node: ast.Tuple) -> Symbol:
        return Row(tuple(self._elements(node.elts)), False)

    def _list(self, node: ast.List) -> Symbol:
        return Row(tuple(self._elements(node.elts)), True)

    def _set(self, node: ast.Set) -> Symbol:
        return self._members(self._elements(node.elts), node)

    def items(self, symbol: Symbol, node: ast.AST) -> list[Symbol]:
        """The entries of what a loop or a sum goes over."""
        match self.row(symbol):
            case Row(items=items):
                return list(items)
            case Known(value=value) if hasattr(value, "__iter__"):
                try:
                    return [Known(entry) for entry in listed(value)]
                except TooMany as cause:
                    self.bad(str(cause), SMALLER, node)
        self.bad("how many entries there are isn't a constant", "go over range(..) of a constant, an array or a constant list", node)

    def _comprehended(self, node: ast.ListComp | ast.SetComp | ast.GeneratorExp) -> list[Symbol]:
        found: list[Symbol] = []

        def loop(rest: Sequence[ast.comprehension]) -> None:
            if not rest:
                found.append(self.evaluate(node.elt))
                return
            for item in self.items(self.value(rest[0].iter), rest[0].iter):
                self.turn(node)
                self.bind(rest[0].target, item)
                tests = [self.test(test) for test in rest[0].ifs]
                if any(not isinstance(test, Literal) for test in tests):
                    self.bad("which entries there are isn't a constant", "write a conditional expression for each entry", node)
                if all(isinstance(test, Literal) and test.value for test in tests):
                    loop(rest[1:])

        before = dict(self.scope.names)
        loop(node.generators)
        self.scope.names = before
        return found

    def bind(self, target: ast.expr, symbol: Symbol) -> None:
        """Lets the names of a loop stand for an entry."""
        if isinstance(target, ast.Name):
            settled = self.settle(symbol, target)
            assert not isinstance(settled, Draw)
            self.scope.names[target.id] = settled.slots if isinstance(settled, Row) and settled.slots is not None else settled
        elif isinstance(target, (ast.Tuple, ast.List)):
            parts = self.items(symbol, target)
            if len(parts) != len(target.elts):
                self.bad(f"{len(parts)} values for {len(target.elts)} names", "give each name a value", target)
            for name, part in zip(target.elts, parts):
                self.bind(name, part)
        else:
            self.bad("a loop assigns to names alone", "write for x in ..", target)

    def _listcomp(self, node: ast.ListComp) -> Symbol:
        return Row(tuple(self._comprehended(node)), True)

    def _generatorexp(self, node: ast.GeneratorExp) -> Symbol:
        return Row(tuple(self._comprehended(node)), True)

    def _setcomp(self, node: ast.SetComp) -> Symbol:
        return self._members(self._comprehended(node), node)

    def _subscript(self, node: ast.Subscript) -> Symbol:
        base = self.value(node.value)
        if isinstance(node.slice, ast.Slice):
            return self._slice(base, node.slice, node)
        index = self.value(node.slice)
        if isinstance(base, Known) and isinstance(base.value, dict):
            if sorted(base.value) != list(range(len(base.value))):
                self.bad("the keys of a table are 0, 1, 2 and so on", "write the table as a list", node)
            base = Known([base.value[i] for i in range(len(base.value))])
        row = self.row(base)
        if not isinstance(row, Row):
            self.bad("only arrays, tuples and constant tables have an index", "declare a list of distributions, or a constant list", node)
        return self.at(row, index, node)

    def at(self, row: Row, index: Symbol, node: ast.AST) -> Symbol:
        """The entry of a row at an index."""
        if isinstance(index, Known):
            try:
                found: Symbol = row.items[index.value]
                return found
            except (IndexError, TypeError):
                self.bad(f"there are {len(row.items)} entries, and none at {index.value!r}", f"indices go from 0 to {len(row.items) - 1}", node)
        return self.looked_up(row.items, self.as_expr(index, node), node)

    def looked_up(self, items: Sequence[Symbol], index: Expr, node: ast.AST) -> Symbol:
        """The entry at an index that isn't a constant; of rows part by part."""
        if not items:
            self.bad("there are no entries", "an array has at least one", node)
        rows = [row for item in items if isinstance(row := self.row(item), Row)]
        if rows and any(len(row.items) != len(rows[0].items) for row in rows) or len(rows) not in (0, len(items)):
            self.bad("the entries have different lengths", "give all the same number of parts", node)
        if rows:
            parts = tuple(self.looked_up([row.items[i] for row in rows], index, node) for i in range(len(rows[0].items)))
            return Row(parts, rows[0].is_list, chosen=rows[0].is_list and any(map(is_shared, rows)))
        return Lookup(self.scope.place(node), tuple(self.as_expr(item, node) for item in items), index)

    def _slice(self, base: Symbol, part: ast.Slice, node: ast.AST) -> Symbol:
        bounds = [None if bound is None else self.evaluate(bound) for bound in (part.lower, part.upper, part.step)]
        row = self.row(base)
        if not isinstance(row, Row) or any(bound is not None and not isinstance(bound, Known) for bound in bounds):
            self.bad("a part of an array has constant bounds", "write [array[i + k] for k in range(2)]", node)
        return Row(row.items[slice(*(bound.value if isinstance(bound, Known) else None for bound in bounds))], row.is_list)


class _Folding:
    """Stands for a run while Python works out constants: nothing is drawn or shown there."""

    def draw(self, distribution: Distribution) -> Any:
        """Refuses a draw."""
        raise declare.NotInAModel("a draw isn't a constant")

    def show(self, value: Any) -> None:
        """Refuses an observation."""
        raise declare.NotInAModel("an observation isn't a constant")


def few(number: int) -> None:
    """Raises ``TooMany`` where so many entries are more than loops may go over."""
    if number > TURNS:
        raise TooMany(f"there are {number} entries, and {TURNS} are allowed")


def fits(operator: type[ast.AST], left: Any, right: Any) -> None:
    """Raises ``TooMany`` where the value of an operator would be huge: a number of more than 65,536 bits, or a list or text as long."""
    for several, times in ((left, right), (right, left)):
        if operator is ast.Mult and isinstance(several, (list, tuple, str, bytes)) and isinstance(times, int) and len(several) * times > ENTRIES:
            raise TooMany(f"there are {len(several) * times} entries, and {ENTRIES} are allowed")
    if not (isinstance(left, int) and isinstance(right, int)):
        return
    bits: dict[type[ast.AST], int] = {
        ast.Mult: left.bit_length() + right.bit_length(),
        ast.Pow: left.bit_length() * abs(right),
        ast.LShift: left.bit_length() + right,
    }
    if bits.get(operator, 0) > BITS and (left not in (0, 1, -1) or operator is ast.LShift and left):
        raise TooMany(f"the number has more than {BITS} bits")


def folded(work: Any, *symbols: Symbol) -> Known | None:
    """What Python makes of constants; none where one isn't constant, or Python refuses them."""
    if not callable(work) or not all(isinstance(symbol, Known) for symbol in symbols):
        return None
    try:
        value = work(*(symbol.value for symbol in symbols if isinstance(symbol, Known)))
        return Known(listed(value) if isinstance(value, Iterator) else value)
    except TooMany:
        raise
    except Exception:
        return None


def _noun(node: ast.AST) -> str:
    return {"Dict": "a dictionary", "Lambda": "a lambda", "JoinedStr": "a text", "NamedExpr": "an assignment in an expression"}.get(
        type(node).__name__, "this expression"
    )


def _repeated(row: Symbol, count: Symbol) -> Row | None:
    """A list or tuple that is repeated by a constant. Raises ``TooMany`` where it would be huge."""
    if isinstance(row, Row) and isinstance(count, Known) and isinstance(count.value, int):
        fits(ast.Mult, row.items, count.value)
        return Row(row.items * count.value, row.is_list)
    return None
