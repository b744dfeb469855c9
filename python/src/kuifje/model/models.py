"""A model: a Python function, its translation and its runs."""

from __future__ import annotations

import ast
import copy
import inspect
import sys
from collections.abc import Callable, Iterator, Mapping, Sequence, Sized
from contextlib import contextmanager
from dataclasses import replace
from fractions import Fraction
from functools import update_wrapper
from itertools import islice
from pathlib import Path
from types import FunctionType
from typing import Annotated, Any, get_args, get_origin, get_type_hints, overload

from .. import channels
from ..engine import Engine
from ..program import Gain, Program
from ..texts import BlameLine, Hyper, Item, Silent, Target
from ..values import Value
from . import interpret
from .assign import FEWER
from .declare import Distribution, Domain, Parameter, Role, value_of
from .errors import BadModel, Place
from .interpret import Run
from .sizes import ENTRIES
from .source import Source, changed
from .parameters import Unfolded, unfold
from .write import Translation, write

__all__ = ["Model", "model"]

DEPTH = 20_000  # of calls in each other, while a model is translated
LONGEST = 10_000  # characters of a public input in the first line of a text


class Model:
    """A model: a function under ``@model``. Its public inputs are given by name to each question; those with a default may be left out.

    ``turns`` is how many turns a loop may take, ``engine`` what answers (the default engine where none is given). Each method that takes public
    inputs raises ``BadModel`` where the function can't be translated with them, and ``TypeError`` where one lacks, isn't one of the model's, or has
    a value that its ``one_of`` doesn't have. Making a model raises ``BadModel`` where a parameter isn't declared, or none is a secret.

    A model is about the function that is loaded. Where its source, or that of a function that it calls, was changed since, each question raises
    ``BadModel`` until it is loaded again. Called, a model is its function; its name and its docstring are the function's.
    """

    def __init__(self, function: Callable[..., Any], *, turns: int = 1024, engine: Engine | None = None) -> None:
        if not isinstance(function, FunctionType):
            raise TypeError(f"{function!r} is no function of Python")
        update_wrapper(self, function, updated=())
        self.function, self.turns, self.engine = function, turns, engine
        self._first = self._source = Source(function)
        self._loaded = _loaded(function)
        self._parameters = tuple(self._parameter(p) for p in inspect.signature(function).parameters.values())
        if not any(p.role is Role.SECRET for p in self._parameters):
            self._bad("a model has a secret: what is asked about, as it was", f"def {self.name}(pin: Secret = uniform(range(10)))", self.name)

    def __call__(self, *arguments: Any, **named: Any) -> Any:
        """What the function does in Python; it observes only in the runs of a model."""
        return self.function(*arguments, **named)

    def __repr__(self) -> str:
        return f"<Model {self.name}({', '.join(p.name for p in self._parameters)})>"

    @property
    def name(self) -> str:
        """The function's name."""
        return self.function.__name__

    @property
    def parameters(self) -> tuple[Parameter, ...]:
        """The parameters, in their order."""
        return self._parameters

    def inputs(self) -> Iterator[dict[str, Any]]:
        """All that the public inputs may be together: each value of each ``one_of``, and the defaults. ``TypeError`` where one has neither."""
        public = [p for p in self._parameters if p.role is Role.PUBLIC]
        for p in public:
            if p.domain is None and p.default is None:
                raise TypeError(f"{self.name}: the public input {p.name} has no values to go through: write {p.name}: Public = one_of(..)")
        for values in _each([p.domain if p.domain is not None else Domain((p.default,)) for p in public]):
            yield {p.name: value for p, value in zip(public, values)}

    def translation(self, **public: Any) -> Translation:
        """The text in the language, with these public inputs as constants, and where its lines come from."""
        given = self._given(public)
        unfolded, file = self._unfolded(given), Path(self._source.file).name
        with_inputs = "".join(f", with {name} = {_shown(value)}" for name, value in given.items())
        title = f"The model {self.name} of {file}{with_inputs}.\nAfter # stand lines of {file}."
        with self._deep():
            return write(unfolded, self.turns, title, self._source.place(self._source.tree))

    def text(self, **public: Any) -> str:
        """The text in the language, with these public inputs as constants."""
        return self.translation(**public).text

    def program(self, **public: Any) -> Program:
        """The program to ask, with these public inputs as constants; its refusals speak of Python lines."""
        given = self._given(public)
        inputs = ", ".join(f"{name}={value!r}" for name, value in given.items())
        found = replace(self.translation(**public), call=f"{self.name}({inputs})" if inputs else self.name, model=self, inputs=given)
        return Program(found.text, name=f"{self.name}.kf", turns=self.turns, engine=self.engine, expansion=found)

    def blame(self, **public: Any) -> list[tuple[Place, BlameLine]]:
        """For each top-level statement of the text, the Python line that it comes from, and what is left where it shows nothing.

        ``program(..).blame().all`` has what all of it leaks.
        """
        found = self.translation(**public)
        return list(zip(found.statements, self.program(**public).blame().without))

    def lines(self, gain: Gain = "bayes", /, **public: Any) -> list[tuple[Place, Silent]]:
        """For each statement of the text that may show something, the Python line that it comes from, and what is left where it alone shows nothing.

        ``program(..).lines(gain).all`` has what all of it leaks.
        """
        found = self.translation(**public)
        return [(found.place(silent.line), silent) for silent in self.program(**public).lines(gain).without]

    def quiet(self, first: int, last: int, **public: Any) -> Hyper:
        """The hyper-distribution where the lines of the function from ``first`` to ``last`` show nothing.

        Both are numbers of lines in the Python file. What is made quiet is one block of top-level statements: all from the first one that begins on
        these lines to the last one. Raises ``ValueError`` where none does.
        """
        found = self.translation(**public)
        inside = [i for i, place in enumerate(found.statements) if first <= self._own_line(place) <= last]
        if not inside:
            raise ValueError(f"no statement of the model begins on the lines {first} to {last}")
        return self.program(**public).quiet(inside[0], inside[-1] + 1)

    def runs(self, **public: Any) -> Iterator[Run]:
        """All runs, by Python itself: the function runs once for each way through its random choices. Nothing is asked of the proved program.

        An exception of the function, as of a division by 0, comes as it is. Raises ``EndlessLoop`` where a loop takes more turns than it may.
        """
        self._read()
        return interpret.runs(self.function, self._parameters, self._given(public), self.turns)

    def hyper_of_runs(self, **public: Any) -> Hyper:
        """The hyper-distribution that the runs leave, worked out in Python: what ``program(..).hyper()`` has to print."""
        columns: dict[tuple[Any, ...], dict[Value, Fraction]] = {}
        scales = set()
        for run in self.runs(**public):
            shown = tuple((seen.guard, type(seen.value), seen.value) for seen in run.trace)
            column = columns.setdefault(shown, {})
            column[run.secret] = column.get(run.secret, Fraction(0)) + run.probability
            scales.add(run.scale)
        return channels.hyper_of_columns(self.target(**public), columns.values(), scales)

    def target(self, **public: Any) -> Target:
        """The items that questions are about: a secret, or each entry of one that is an array."""
        names = [variable.name for variable in self._unfolded(self._given(public)).declared if variable.secret]
        return Target(tuple(Item(name, True) for name in names))

    # Inside

    def _read(self) -> None:
        """Reads the source. Raises ``BadModel`` where it isn't that which the model was made of: its defaults and annotations, too."""
        source = Source(self.function)
        loaded = all(now is then for now, then in zip(_loaded(self.function), self._loaded))
        if not loaded or ast.dump(source.tree) != ast.dump(self._first.tree):
            raise changed(self.function)
        self._source = source

    def _unfolded(self, given: Mapping[str, Any]) -> Unfolded:
        self._read()
        with self._deep():
            return unfold(self._source, self._parameters, given)

    @contextmanager
    def _deep(self) -> Iterator[None]:
        """Lets Python go deep enough for expressions of 1,000 nodes, one in the other. Refuses what is deeper."""
        before = sys.getrecursionlimit()
        sys.setrecursionlimit(max(before, DEPTH))
        try:
            yield
        except RecursionError:
            form = "write a loop by while, or leave it by its guard"
            raise BadModel("branches and expressions stand too deep in each other", form, self._source.place(self._source.tree)) from None
        finally:
            sys.setrecursionlimit(before)

    def _own_line(self, place: Place) -> int:
        """The line of the model's own function that a place is in, or that calls it."""
        while place.caller is not None:
            place = place.caller
        return place.line

    def _bad(self, reason: str, form: str, name: str) -> None:
        """Refuses a parameter, at its place."""
        tree = self._source.tree
        arguments = [*tree.args.posonlyargs, *tree.args.args, *tree.args.kwonlyargs]
        node = next((argument for argument in arguments if argument.arg == name), tree)
        raise BadModel(reason, form, self._source.place(node))

    def _parameter(self, parameter: inspect.Parameter) -> Parameter:
        name, default = parameter.name, parameter.default
        role = _role(get_type_hints(self.function, include_extras=True).get(name))
        if sum(1 for _ in islice(_leaves(default), ENTRIES + 1)) > ENTRIES:
            self._bad(f"{name} has more than {ENTRIES} entries", FEWER, name)
        if role is None or parameter.kind in (parameter.VAR_POSITIONAL, parameter.VAR_KEYWORD):
            self._bad(f"{name} isn't declared", f"write {name}: Secret = .., {name}: Noise = .., or {name}: Public = ..", name)
        if role is Role.PUBLIC:
            if default is parameter.empty:
                return Parameter(name, role)
            return Parameter(name, role, domain=default) if _are(default, Domain) else Parameter(name, role, default=default)
        assert role is not None
        if not (_are(default, Distribution) or isinstance(default, FunctionType)):
            form = f"write {name}: {role.name.title()} = uniform(range(10)), a list of distributions, or a function of earlier parameters"
            self._bad(f"{name} has no distribution", form, name)
        if isinstance(default, FunctionType):
            code = default.__code__
            earlier = list(inspect.signature(self.function).parameters)
            for used in code.co_varnames[: code.co_argcount]:
                if used not in earlier[: earlier.index(name)]:
                    self._bad(f"{name} is drawn by a function of {used}, which is no earlier parameter", "name parameters that stand before it", name)
        return Parameter(name, role, prior=default)

    def _given(self, public: Mapping[str, Any]) -> dict[str, Any]:
        """The public inputs of a question, with the defaults."""
        found: dict[str, Any] = {}
        wanted = {p.name: p for p in self._parameters if p.role is Role.PUBLIC}
        if more := public.keys() - wanted.keys():
            raise TypeError(f"{self.name} has no public input {sorted(more)[0]}")
        for name, p in wanted.items():
            if name not in public and p.default is None:
                raise TypeError(f"{self.name} needs the public input {name}")
            value = public.get(name, p.default)
            if p.domain is not None and not _in_domain(value, p.domain):
                raise TypeError(f"{self.name}: {value!r} isn't one of the values of {name}")
            found[name] = value
        return found


def _loaded(function: FunctionType) -> tuple[object, ...]:
    """The code and the defaults that a function has."""
    return function.__code__, function.__defaults__, function.__kwdefaults__


def _shown(value: Any) -> str:
    """A public input as a text; a huge one by its kind alone."""
    try:
        text = repr(value) if isinstance(value, range) or not isinstance(value, Sized) or len(value) <= ENTRIES else ""
    except ValueError:  # of numbers with very many digits
        text = ""
    return text if 0 < len(text) <= LONGEST else f"a {type(value).__name__}"


def _role(hint: Any) -> Role | None:
    """The role that an annotation gives."""
    if get_origin(hint) is Annotated:
        for part in get_args(hint):
            if isinstance(part, Role):
                return part
    return None


def _leaves(value: Any) -> Iterator[Any]:
    """The entries of an array, and of those in it; of any other value the value."""
    if isinstance(value, list):
        for entry in value:
            yield from _leaves(entry)
    else:
        yield value


def _are(value: Any, kind: type) -> bool:
    """Whether a value is of a kind, or an array of such."""
    return bool(value) and all(_are(entry, kind) for entry in value) if isinstance(value, list) else isinstance(value, kind)


def _domain_values(domain: Any) -> Iterator[Any]:
    """All values of a domain, or of an array of domains."""
    if isinstance(domain, Domain):
        yield from domain.values
    else:
        yield from _each(domain)


def _each(domains: Sequence[Any]) -> Iterator[list[Any]]:
    """All rows with a value of each domain, the last one's first; none of them is kept."""
    if not domains:
        yield []
        return
    for first in _domain_values(domains[0]):
        for rest in _each(domains[1:]):
            yield [copy.copy(first), *rest]


def _in_domain(value: Any, domain: Any) -> bool:
    if isinstance(domain, Domain):
        try:
            found = value_of(value)
        except TypeError:
            return False
        return any(type(x) is type(found) and x == found for x in domain.values)
    return isinstance(value, (list, tuple)) and len(value) == len(domain) and all(map(_in_domain, value, domain))


@overload
def model(function: Callable[..., Any], /) -> Model:
    ...


@overload
def model(*, turns: int = ..., engine: Engine | None = ...) -> Callable[[Callable[..., Any]], Model]:
    ...


def model(function: Callable[..., Any] | None = None, /, *, turns: int = 1024, engine: Engine | None = None) -> Any:
    """Makes a function a model: ``@model`` above it, or ``@model(turns=2000)``."""
    if function is None:
        return lambda found: Model(found, turns=turns, engine=engine)
    return Model(function, turns=turns, engine=engine)
