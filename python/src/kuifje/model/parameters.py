"""Parameters of a model as variables, and whole models as trees."""

from __future__ import annotations

import ast
from collections.abc import Mapping, Sequence
from dataclasses import dataclass
from types import FunctionType
from typing import Any

from .assign import FEWER
from .declare import Distribution, Parameter, Role
from .errors import Place
from .evaluate import Scope
from .source import LAMBDA, Source
from .symbols import Known, Scalar, Slots, Symbol, shape_of
from .tree import Fixed, Node, Statement
from .unfold import Unfolder, body_of

__all__ = ["VARIABLES", "Declared", "Unfolded", "unfold"]

VARIABLES = 32  # of a program, with the secrets once more, since they are asked about as they were


@dataclass(frozen=True)
class Declared:
    """A variable that a parameter is: its name, what it is drawn by, and whether it is asked about."""

    name: str
    value: Node
    secret: bool
    place: Place


@dataclass(frozen=True)
class Unfolded:
    """A model as a tree: its parameters, its statements, and the ranges that annotations give variables, with their places."""

    declared: tuple[Declared, ...]
    body: tuple[Statement, ...]
    ranges: Mapping[str, tuple[range, Place]]


class _Parameters(Unfolder):
    """Declares the parameters of a model."""

    def __init__(self, source: Source, defaults: Mapping[str, ast.expr]) -> None:
        super().__init__()
        self.scope, self.defaults = Scope(source, "", None), defaults
        self.declared: list[Declared] = []

    def declare(self, parameter: Parameter, public: Mapping[str, Any]) -> None:
        """A parameter: a public input is a constant, any other one has a variable, or one for each entry."""
        node = self.defaults.get(parameter.name, self.scope.source.tree)
        if parameter.role is Role.PUBLIC:
            self._public(parameter.name, public[parameter.name], node)
            return
        secret = parameter.role is Role.SECRET
        self.scope.names[parameter.name] = self._drawn(parameter.name, parameter.prior, secret, node, ())

    def _public(self, name: str, value: Any, node: ast.AST) -> None:
        self.scope.names[name] = Known(value)
        if self.scope.stores.get(name, 0) or name in self.scope.entries:
            del self.scope.names[name]
            self.assign_name(name, Known(value), node)

    def _drawn(self, name: str, prior: Any, secret: bool, node: ast.AST, at: tuple[int, ...]) -> Scalar | Slots:
        if isinstance(prior, list):
            found = tuple(self._drawn(name, entry, secret, node, (*at, i)) for i, entry in enumerate(prior))
            return Slots(tuple(entry.name if isinstance(entry, Scalar) else entry for entry in found))
        variable = self.variable_of(name, *at)
        if len(self.declared) == VARIABLES:
            self.bad(f"{variable} is one variable too many: {VARIABLES} are allowed", FEWER, node)
        value = Fixed(self.place(node), prior) if isinstance(prior, Distribution) else self._dependent(prior, node)
        self.declared.append(Declared(variable, value, secret, self.place(node)))
        return Scalar(variable, shape_of(value))

    def _dependent(self, prior: FunctionType, node: ast.AST) -> Node:
        """What a function of earlier parameters draws by."""
        source = Source(prior)
        body = body_of(source)
        if len(body) != 1 or not isinstance(body[0], ast.Return) or body[0].value is None:
            self.bad(f"{source.name} has statements, and draws a parameter", "a function that draws a parameter only returns", node)
        value, earlier = body[0].value, prior.__code__.co_varnames[: prior.__code__.co_argcount]
        self.strict = False
        if source.name == LAMBDA:
            symbol = self._of_lambda(source, value, earlier)
        else:
            given = [self.read(self.scope.names[name], node) for name in earlier]
            symbol = self._inside(source, ast.copy_location(ast.Call(node, [], []), node), given, {}, lambda: self.evaluate(value))
        self.strict = True
        return self.as_node(symbol, node)

    def _of_lambda(self, source: Source, value: ast.expr, earlier: Sequence[str]) -> Symbol:
        """What a lambda gives for the parameters that it names, where its other names mean what they mean there."""
        outer, self.scope = self.scope, Scope(source, "", None)
        self.scope.names = {name: outer.names[name] for name in earlier}
        try:
            return self.evaluate(value)
        finally:
            self.scope = outer


def unfold(source: Source, parameters: Sequence[Parameter], public: Mapping[str, Any]) -> Unfolded:
    """A model as a tree, with these public inputs. Raises ``BadModel`` where there is none."""
    arguments = [*source.tree.args.posonlyargs, *source.tree.args.args]
    defaults = dict(zip([a.arg for a in reversed(arguments)], reversed(source.tree.args.defaults)))
    defaults |= {a.arg: d for a, d in zip(source.tree.args.kwonlyargs, source.tree.args.kw_defaults) if d is not None}
    unfolder = _Parameters(source, defaults)
    for parameter in parameters:
        unfolder.declare(parameter, public)
    unfolder.run(body_of(source), lambda: None)
    return Unfolded(tuple(unfolder.declared), tuple(unfolder.out), unfolder.ranges)
