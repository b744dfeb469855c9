"""Functions of Python as trees: statements, loops over constants, and calls."""

from __future__ import annotations

import ast
import inspect
from collections.abc import Callable, Mapping, Sequence
from dataclasses import dataclass
from functools import partial
from types import FunctionType
from typing import Annotated, Any, get_args, get_origin

from . import declare
from .assign import Assigner, flat
from .errors import BadModel
from .evaluate import NEITHER, Binding, Scope
from .source import LAMBDA, Source
from .symbols import Known, Row, Scalar, Slots, Symbol, shape_of
from .tree import Assign, Draw, Expr, If, Literal, Node, Observe, Statement, While

__all__ = ["Unfolder", "body_of"]


@dataclass(frozen=True)
class _Loop:
    """What ``break`` and ``continue`` do: unfold what comes next, or are refused."""

    on_break: Callable[[], None] | None
    on_continue: Callable[[], None] | None


Return = Callable[[Symbol, ast.AST], None]


def _escapes(statements: Sequence[ast.stmt]) -> set[type[ast.stmt]]:
    """Which of ``break``, ``continue`` and ``return`` may leave these statements."""
    found: set[type[ast.stmt]] = set()
    for statement in statements:
        match statement:
            case ast.Break() | ast.Continue() | ast.Return():
                found.add(type(statement))
            case ast.If(body=body, orelse=orelse):
                found |= _escapes(body) | _escapes(orelse)
            case ast.For(body=body, orelse=orelse) | ast.While(body=body, orelse=orelse):
                found |= (_escapes(body) - {ast.Break, ast.Continue}) | _escapes(orelse)
    return found


def _stored(statements: Sequence[ast.stmt]) -> set[str]:
    """The names that are assigned somewhere in statements."""
    return {part.id for statement in statements for part in ast.walk(statement) if isinstance(part, ast.Name) and isinstance(part.ctx, ast.Store)}


class Unfolder(Assigner):
    """Unfolds statements. What comes after a branch that ``break``, ``continue`` or ``return`` leaves goes into the other branch."""

    def __init__(self) -> None:
        super().__init__()
        self.loop: _Loop | None = None
        self.on_return: Return | None = None
        self.active: list[FunctionType] = []

    # Statements of Python

    def run(self, statements: Sequence[ast.stmt], then: Callable[[], None]) -> None:
        """Unfolds statements, and then what comes after them."""
        for i, statement in enumerate(statements):
            rest = statements[i + 1 :]
            if isinstance(statement, (ast.If, ast.For)) and _escapes([statement]):
                leave = lambda: self.run(rest, then)  # noqa: E731
                return self._if(statement, leave) if isinstance(statement, ast.If) else self._for(statement, leave)
            match statement:
                case ast.Return():
                    return self._return(statement)
                case ast.Break() | ast.Continue():
                    return self._leave(statement)
            self._statement(statement)
        then()

    def _statement(self, node: ast.stmt) -> None:
        self.current = node
        match node:
            case ast.Pass():
                pass
            case ast.If():
                self._if(node, None)
            case ast.For():
                self._for(node, lambda: None)
            case ast.While():
                self._while(node)
            case ast.Assign(targets=targets, value=value):
                self._assign(targets, value, node)
            case ast.AugAssign():
                self._augmented(node)
            case ast.AnnAssign():
                self._annotated(node)
            case ast.Expr(value=ast.Constant()):
                pass
            case ast.Expr(value=ast.Call() as call):
                self._called(call)
            case _:
                word = type(node).__name__.lower()
                self.bad(f"a statement of this kind ({word}) can't be translated", "a model has assignments, if, while, for and observe", node)

    def _called(self, node: ast.Call) -> None:
        """A call as a statement: an observation, or a function for what it shows."""
        function = self.scope.source.called(node.func)
        if function is declare.observe:
            if len(node.args) != 1 or node.keywords:
                self.bad("observe has one argument", "observe((a, b)) shows two values at once", node)
            self._direct(node.args[0], lambda symbol, at: self._observe(symbol, node))
        elif isinstance(function, FunctionType) and not _is_own(function):
            self.inline(function, node, *self._given(node), lambda symbol, at: None)
        else:
            self.bad("this call does nothing", "arrays have one length, and sets no methods: write s = s | {x}", node)

    def _observe(self, symbol: Symbol, node: ast.Call) -> None:
        self.emit(Observe(self.place(node), self.as_node(symbol, node.args[0])))

    def _given(self, node: ast.Call) -> tuple[list[Symbol], dict[str, Symbol]]:
        """The arguments of a call, by position and by name."""
        return self.arguments(node.args), self.named(node)

    def _direct(self, node: ast.expr, consume: Return) -> None:
        """Evaluates an expression, and does something with it; where it is a call, at each return of the function."""
        function = self.scope.source.called(node.func) if isinstance(node, ast.Call) else None
        if not isinstance(node, ast.Call) or not isinstance(function, FunctionType) or _is_own(function) or self.constant(node) is not NEITHER:
            return consume(self.evaluate(node), node)
        source = self.source_of(function, node)
        if (last := _only_return(source)) is not None:
            return consume(self._returned(source, node, *self._given(node), partial(self.evaluate, last)), node)
        scope = self.scope

        def consumed(symbol: Symbol, at: ast.AST) -> None:
            inner, self.scope, before, self.several = self.scope, scope, self.several, True
            consume(symbol, at)
            self.scope, self.several = inner, before

        self.inline(function, node, *self._given(node), consumed)

    def _returned(
        self, source: Source, node: ast.Call, arguments: Sequence[Symbol], named: Mapping[str, Symbol], last: Callable[[], Symbol]
    ) -> Symbol:
        """The value of a function that returns at its end alone."""

        def whole() -> Symbol:
            self.run(body_of(source)[:-1], lambda: None)
            return last()

        found: Symbol = self._inside(source, node, arguments, named, whole)
        return _without_slots(found, {name for key, name in self.names.items() if key[0] is source.function})

    # Branches

    def _if(self, node: ast.If, then: Callable[[], None] | None) -> None:
        """An ``if``; with ``then``, what comes after it is unfolded in each branch that isn't left."""
        hidden = isinstance(node.test, ast.Call) and self.scope.source.called(node.test.func) is declare.hide
        test = self._guard(node.test.args[0] if hidden and isinstance(node.test, ast.Call) else node.test)
        after = then or (lambda: None)
        if isinstance(test, Literal):
            return self.run(node.body if test.value else node.orelse, after)
        if hidden and isinstance(test, Draw):
            test = self.truth(self.draw(test, node.test), node.test)
        if self.hidden and not hidden:
            self.bad("an if in a hidden branch would be seen", "write if hide(..) there, too", node)
        self.fresh(test)
        place, names, versions, hides = self.place(node), dict(self.scope.names), dict(self.versions), self.hidden
        self.hidden = hidden or hides
        branches: list[tuple[Statement, ...]] = []
        left: list[dict[str, Binding]] = []
        ends: list[dict[str, int]] = []
        for body in (node.body, node.orelse):
            self.scope.names, self.versions = dict(names), dict(versions)
            with self.captured() as found:
                self.run(body, after)
            branches.append(tuple(found))
            left.append(self.scope.names)
            ends.append(self.versions)
        self.hidden = hides
        self.changed(sorted(name for name in ends[0].keys() | ends[1].keys() if not ends[0].get(name) == ends[1].get(name) == versions.get(name)))
        self.scope.names = {name: binding for name, binding in left[0].items() if self._agrees(binding, left[1].get(name), name)}
        for name, binding in left[1].items():
            if name not in left[0] and self._has_variables(binding, name):
                self.scope.names[name] = binding
        self.emit(If(place, test, branches[0], branches[1], hidden))

    def _agrees(self, a: Binding, b: Binding | None, name: str) -> bool:
        """Whether a name stands for the same after both branches; variables do, and whether they have a value is seen later."""
        match (a, b):
            case (Scalar(name=x), Scalar(name=y)):
                return x == y
            case (_, None):
                return self._has_variables(a, name)
            case (Slots(entries=x), Slots(entries=y)):
                return x == y
        return a is b

    def _guard(self, node: ast.expr) -> Node:
        """A test that may be a draw."""
        if isinstance(node, ast.Call) and self.scope.source.called(node.func) in (declare.flip, declare.choose, declare.uniform):
            found = self.evaluate(node)
            assert isinstance(found, Draw)
            return found
        return self.test(node)

    def _while(self, node: ast.While) -> None:
        if node.orelse or _escapes(node.body):
            word = "break" if _escapes(node.body) else "else"
            self.bad(f"a while loop has no {word}", "put it into the guard: while tries < 3 and not done", node)
        if self.hidden:
            self.bad("a hidden branch only assigns", "a loop's guard is seen: write for over a constant range", node)
        stored = _stored([node])
        before = {n: b for n, b in self.scope.names.items() if n not in stored or self._has_variables(b, n)}
        versions, assigned, place, length = dict(self.versions), self.assigned, self.place(node), self.length
        self.assigned = set()
        self.scope.names = dict(before)
        with self.captured():
            self.run(node.body, lambda: None)
        changed, self.versions, self.length = self.assigned, versions, length
        self.assigned = assigned | changed
        self.changed(sorted(changed))
        ends = {n: b for n, b in self.scope.names.items() if n in stored and self._has_variables(b, n)}
        before = {n: b for n, b in before.items() if n not in stored or n in ends}
        self.scope.names = dict(before)
        with self.lax():
            test = self._guard(node.test)
        self.fresh(test)
        with self.captured() as body:
            self.run(node.body, lambda: None)
        self.scope.names = before | ends
        self.emit(While(place, test, tuple(body)))

    # Loops over constants

    def _for(self, node: ast.For, then: Callable[[], None]) -> None:
        """A ``for``, unrolled. What ``break`` and ``continue`` leave goes into the branches that don't leave."""
        items = self.items(self.value(node.iter), node.iter)
        leaves, outer = _escapes(node.body), self.loop
        if ast.Return in leaves or _escapes(node.orelse):
            self._turns(node, items, 0, then, outer)
        elif ast.Break in leaves:
            self._turns(node, items, 0, lambda: None, outer)
            then()
        else:
            for item in items:
                self.turn(node)
                self.bind(node.target, item)
                self._turn(node.body, _Loop(None, lambda: None), lambda: None)
            self.run(node.orelse, then)

    def _turn(self, body: Sequence[ast.stmt], loop: _Loop, then: Callable[[], None]) -> None:
        outer, self.loop = self.loop, loop
        self.run(body, self._outside(outer, then))
        self.loop = outer

    def _outside(self, loop: _Loop | None, then: Callable[[], None]) -> Callable[[], None]:
        """What comes after a turn, in the loop around it."""

        def outside() -> None:
            inner, self.loop = self.loop, loop
            then()
            self.loop = inner

        return outside

    def _turns(self, node: ast.For, items: Sequence[Symbol], i: int, then: Callable[[], None], outer: _Loop | None) -> None:
        """The turns from one on, each in the branches of the one before that don't leave the loop."""
        if i == len(items):
            return self.run(node.orelse, then)
        self.turn(node)
        self.bind(node.target, items[i])
        following = self._outside(outer, lambda: self._turns(node, items, i + 1, then, outer))
        self._turn(node.body, _Loop(self._outside(outer, then), following), following)

    def _leave(self, node: ast.Break | ast.Continue) -> None:
        leave = None if self.loop is None else self.loop.on_break if isinstance(node, ast.Break) else self.loop.on_continue
        if leave is None:
            self.bad("this leaves a while loop", "put it into the guard: while tries < 3 and not done", node)
        leave()

    # Assignments

    def _assign(self, targets: Sequence[ast.expr], value: ast.expr, node: ast.stmt) -> None:
        if len(targets) == 1 and isinstance(targets[0], ast.Name):
            target = targets[0]
            return self._direct(value, lambda symbol, at: self.assign_name(target.id, symbol, node))
        symbol = self.evaluate(value)
        if len(targets) > 1:
            symbol = self.settle(symbol, value)
            if isinstance(self.row_of(symbol), Row) and not isinstance(symbol, Row) or isinstance(symbol, Row) and symbol.is_list:
                self.bad("two names would stand for one array", "assign each its own: a, b = [0] * 3, [0] * 3", node)
        for each in targets:
            self._assign_to(each, symbol, node)

    def _augmented(self, node: ast.AugAssign) -> None:
        load: ast.expr = ast.copy_location(
            ast.Name(node.target.id, ast.Load())
            if isinstance(node.target, ast.Name)
            else ast.Subscript(node.target.value, node.target.slice, ast.Load())
            if isinstance(node.target, ast.Subscript)
            else node.target,
            node.target,
        )
        value = ast.copy_location(ast.BinOp(load, node.op, node.value), node)
        symbol = self.evaluate(value)
        if isinstance(node.op, (ast.BitOr, ast.BitAnd, ast.BitXor, ast.Sub)) and isinstance(symbol, Expr):
            symbol = self.operation("changed", node, symbol)
        self._assign_to(node.target, symbol, node)

    def _annotated(self, node: ast.AnnAssign) -> None:
        """An assignment with a range: ``n: range(6) = 0``, or ``n: Annotated[int, range(6)] = 0``."""
        if not isinstance(node.target, ast.Name) or node.value is None:
            self.bad("an annotation stands at an assignment to a name", "write n: range(6) = 0", node)
        found = self.constant(node.annotation)
        given = [part for part in get_args(found) if isinstance(part, range)] if get_origin(found) is Annotated else [found]
        name = self.variable_of(node.target.id)
        if given and isinstance(given[0], range):
            if given[0].step != 1 or not given[0]:
                self.bad("a range of values has no step, and isn't empty", "write n: range(6) = 0", node)
            self.ranges[name] = given[0], self.place(node)
        symbol = self.evaluate(node.value)
        self.emit(Assign(self.place(node), name, self.as_node(symbol, node.value)))
        self.scope.names[node.target.id] = Scalar(name, shape_of(symbol))

    # Calls

    def _return(self, node: ast.Return) -> None:
        if self.on_return is None:
            if node.value is not None:
                self.bad("a model gives nothing back", "show a value by observe(..)", node)
            return
        consume = self.on_return
        if node.value is None:
            return consume(Known(None), node)
        self._direct(node.value, consume)

    def call(self, function: FunctionType, node: ast.Call, arguments: Sequence[Symbol], named: Mapping[str, Symbol]) -> Symbol:
        """The value of a call inside an expression: of a function that only returns, its expression; else a variable that each return assigns."""
        source = self.source_of(function, node)
        last = _only_return(source)
        if last is not None and len(body_of(source)) == 1:
            return self._returned(source, node, arguments, named, partial(self.evaluate, last))
        if not self.strict:
            self.bad(f"{function.__name__} has statements, and this part of an expression isn't always evaluated", "call it before: x = f(..)", node)
        if last is not None:
            return self._settled(self._returned(source, node, arguments, named, partial(self.value, last)), node)
        results: list[tuple[Symbol, ast.AST]] = []
        name = self.allocate(("result", function), f"{function.__name__}_result")
        scope = self.scope

        def consume(symbol: Symbol, at: ast.AST) -> None:
            if isinstance(symbol, Known) and symbol.value is None or isinstance(symbol, Row) and symbol.is_list:
                self.bad(f"{function.__name__} doesn't give back one value", "return a value at each end; return an array at the last line only", at)
            results.append((symbol, at))
            inner, self.scope = self.scope, scope
            self.emit(Assign(self.place(node), name, self.as_node(symbol, node)))
            self.scope = inner

        self.inline(function, node, arguments, named, consume)
        return self._settled(self.read(Scalar(name, shape_of(results[0][0]) if results else None), node), node)

    def _settled(self, symbol: Symbol, node: ast.AST, at: tuple[int, ...] = ()) -> Symbol:
        """A result inside an expression, in a variable of its own, since another call may change the function's variables."""
        if isinstance(symbol, Row) and symbol.is_list:
            return Row(tuple(self._settled(item, node, (*at, i)) for i, item in enumerate(symbol.items)), True)
        if isinstance(symbol, Known):
            return symbol
        return self.kept(self.as_node(symbol, node), node, "result", at)

    def inline(self, function: FunctionType, node: ast.Call, arguments: Sequence[Symbol], named: Mapping[str, Symbol], consume: Return) -> None:
        """A call, whose value is consumed at each return."""
        source = self.source_of(function, node)

        def whole() -> None:
            before, loop = self.on_return, self.loop
            self.on_return, self.loop = self._around(consume, before, loop), None
            self.run(body_of(source), lambda: self._end(source))
            self.on_return, self.loop = before, loop

        self._inside(source, node, arguments, named, whole)

    def source_of(self, function: FunctionType, node: ast.AST) -> Source:
        """The source of a function that is called there. Refuses a lambda, and what has none."""
        if function.__name__ == LAMBDA:
            self.bad("a lambda can't be called here", "write it by def", node)
        try:
            return Source(function)
        except BadModel as cause:
            raise type(cause)(cause.reason, cause.form, cause.place.called_from(self.place(node))) from None

    def _end(self, source: Source) -> None:
        assert self.on_return is not None
        self.on_return(Known(None), source.tree)

    def _around(self, consume: Return, on_return: Return | None, loop: _Loop | None) -> Return:
        """What a return does, in the function that called."""

        def around(symbol: Symbol, at: ast.AST) -> None:
            inner = self.on_return, self.loop
            self.on_return, self.loop = on_return, loop
            consume(symbol, at)
            self.on_return, self.loop = inner

        return around

    def _inside(self, source: Source, node: ast.Call, arguments: Sequence[Symbol], named: Mapping[str, Symbol], work: Callable[[], Any]) -> Any:
        """Does something in the scope of a function that is called."""
        if source.function in self.active:
            self.bad(f"{source.name} calls itself", "write a loop", node)
        try:
            bound = inspect.signature(source.function).bind(*arguments, **named)
        except TypeError as cause:
            self.bad(f"{source.name}: {cause}", "give each parameter a value", node)
        bound.apply_defaults()
        outer = self.scope
        inner = Scope(source, f"{source.name}_", self.place(node))
        arrays = {name for s in bound.arguments.values() if isinstance(s, Row) and s.slots is not None for name in flat(s.slots)}
        for name, symbol in bound.arguments.items():
            if isinstance(symbol, (tuple, dict)) and not isinstance(symbol, (Known, Row, Expr)):
                self.bad(f"{source.name} has *{name}", "write each parameter by its name", node)
            self._parameter(inner, name, symbol if isinstance(symbol, (Known, Row, Expr)) else Known(symbol), arrays, node)
        self.active.append(source.function)
        self.scope = inner
        try:
            return work()
        finally:
            self.scope = outer
            self.active.pop()

    def _parameter(self, inner: Scope, name: str, symbol: Symbol, arrays: set[str], node: ast.AST) -> None:
        """Lets a parameter stand for its argument; one that the function assigns, or that reads an array that it may change, becomes a variable."""
        assert not isinstance(symbol, Draw)
        if inner.stores.get(name, 0) or isinstance(symbol, Expr) and self.strict and self.reads(symbol, arrays):
            if isinstance(symbol, Row) and symbol.is_list:
                self.bad(f"{name} is an array, and {inner.source.name} assigns it as a whole", "assign another name there", node)
            value = self.as_expr(symbol, node)
            variable = self.allocate((inner.source.function, name), inner.prefix + name)
            self.emit(Assign(self.place(node), variable, value))
            inner.names[name] = Scalar(variable, shape_of(symbol))
        else:
            inner.names[name] = symbol.slots if isinstance(symbol, Row) and symbol.slots is not None else symbol


def _is_own(function: FunctionType) -> bool:
    """Whether a function is one of this package."""
    return function.__module__.startswith("kuifje.")


def _only_return(source: Source) -> ast.expr | None:
    """What a function returns, where it does so at its end alone."""
    body = body_of(source)
    last = body[-1]
    return last.value if isinstance(last, ast.Return) and not _escapes(body[:-1]) else None


def _without_slots(symbol: Symbol, names: set[str]) -> Symbol:
    """An array as a value: its variables, which are those of a function that has ended, are no longer its own."""
    if isinstance(symbol, Row) and symbol.slots is not None and set(flat(symbol.slots)) <= names:
        return Row(tuple(_without_slots(item, names) for item in symbol.items), True)
    return symbol


def body_of(source: Source) -> list[ast.stmt]:
    """The statements of a function without its docstring."""
    body = source.tree.body
    return body[1:] if isinstance(body[0], ast.Expr) and isinstance(body[0].value, ast.Constant) and len(body) > 1 else body
