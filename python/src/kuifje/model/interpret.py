"""The runs of a model, by Python itself: its functions run once for each way through their random choices.

The functions are compiled anew with two changes: a guard of ``if`` and ``while`` also keeps its truth, and ``observe`` its place. All else means what
it means in Python. Each run is made a second time by the function that is loaded, as it is: what it draws and shows has to be the same.
"""

from __future__ import annotations

import ast
import copy
from collections.abc import Callable, Iterator, Mapping, Sequence
from dataclasses import dataclass, field
from fractions import Fraction
from types import FunctionType
from typing import Any, NoReturn

from ..errors import KuifjeError
from ..values import Value
from .declare import RUNNING, Distribution, Parameter, Role, hide, observe, value_of
from .errors import BadModel, Place
from .source import LAMBDA, Changed, Source

__all__ = ["EndlessLoop", "Run", "Seen", "runs"]


@dataclass(frozen=True)
class Seen:
    """What a run shows at one place: an observed value, or the truth of a guard of ``if`` or ``while``.

    A guard in which only constants, public inputs and counters of ``for`` stand isn't seen, since it is known.
    """

    place: Place
    value: Value
    guard: bool


@dataclass(frozen=True)
class Run:
    """A run of the function in Python: the secret's value, as a hyper has it (of several items, or of an array, the tuple of their values in the
    order of the target), what was shown, in its order, and the probability. The probabilities of a model's runs sum to 1.

    ``scale`` is the product of the scales of its choices.
    """

    secret: Value
    trace: tuple[Seen, ...]
    probability: Fraction
    scale: int = field(compare=False)


class EndlessLoop(KuifjeError):
    """A run in which a loop begins more turns than it may, as the language's ``LoopBound``."""


class _Running:
    """One run: it takes the choices of a script, and the first one after its end."""

    def __init__(self, script: Sequence[int], turns: int) -> None:
        self.script, self.turns = script, turns
        self.taken: list[tuple[int, int]] = []
        self.trace: list[Seen] = []
        self.weight, self.scale = 1, 1

    def draw(self, distribution: Distribution) -> Value:
        """The value that the script says, or the first one."""
        at = len(self.taken)
        number = self.script[at] if at < len(self.script) else 0
        cases = distribution.cases
        self.taken.append((number, len(cases)))
        value, weight = cases[number]
        self.weight *= weight
        self.scale *= distribution.scale
        return value

    def show(self, value: Any) -> None:
        """An observation without a place: one that isn't called by its name."""
        raise TypeError(f"observe is called by its name, and {value!r} was observed otherwise")

    def guard(self, test: Any, place: Place) -> bool:
        """Keeps the truth of a guard."""
        truth = bool(test)
        self.trace.append(Seen(place, truth, True))
        return truth

    def observe(self, value: Any, place: Place) -> None:
        """Keeps an observed value."""
        self.trace.append(Seen(place, value_of(value), False))

    def next_script(self) -> list[int] | None:
        """The script of the next run; none after the last one."""
        while self.taken and self.taken[-1][0] + 1 == self.taken[-1][1]:
            self.taken.pop()
        script = [number for number, _ in self.taken]
        if not script:
            return None
        script[-1] += 1
        return script


def _guard(test: Any, place: Place) -> bool:
    run = RUNNING.get()
    assert isinstance(run, _Running)
    return run.guard(test, place)


def _turns(turn: int, place: Place) -> Callable[[], bool]:
    """Counts the turns of a loop. Raises ``EndlessLoop`` where it begins more than it may."""

    def another() -> bool:
        nonlocal turn
        turn += 1
        run = RUNNING.get()
        assert isinstance(run, _Running)
        if turn > run.turns:
            raise EndlessLoop(f"{place}: the loop begins more than {run.turns} turns")
        return True

    return another


def _observe(value: Any, place: Place) -> None:
    run = RUNNING.get()
    assert isinstance(run, _Running)
    run.observe(value, place)


class _Instrument(ast.NodeTransformer):
    """Puts guards and observations into calls that keep them."""

    def __init__(self, source: Source, public: frozenset[str]) -> None:
        self.source, self.places = source, list[Place]()
        self.known = _known_names(source, public)
        self.functions: dict[FunctionType, str] = {}
        self.loops = 0

    def _kept(self, word: str, value: ast.expr, node: ast.AST) -> ast.Call:
        self.places.append(self.source.place(node))
        place = ast.Subscript(ast.Name("__places__", ast.Load()), ast.Constant(len(self.places) - 1), ast.Load())
        return ast.Call(ast.Name(word, ast.Load()), [value, place], [])

    def _test(self, test: ast.expr) -> ast.expr:
        if isinstance(test, ast.Call) and self.source.called(test.func) is hide or is_known(test, self.source, self.known):
            return test
        return ast.copy_location(self._kept("__guard__", test, test), test)

    def visit_If(self, node: ast.If) -> ast.If:
        """A guard of an ``if``, unless it is hidden or known."""
        node.test = self._test(node.test)
        self.generic_visit(node)
        return node

    def visit_While(self, node: ast.While) -> list[ast.stmt]:
        """A guard of a ``while``, whose turns are counted each time that it is entered."""
        self.loops += 1
        counter, place = f"__turns_{self.loops}__", node.test
        node.test = self._test(node.test)
        self.generic_visit(node)
        begin = ast.Assign([ast.Name(counter, ast.Store())], self._kept("__turns__", ast.Constant(0), place))
        turn = ast.Call(ast.Name(counter, ast.Load()), [], [])
        node.test = ast.copy_location(ast.BoolOp(ast.And(), [node.test, turn]), place)
        return [ast.copy_location(begin, node), node]

    def visit_Call(self, node: ast.Call) -> ast.Call:
        """An observation, or a call of a function that is compiled anew, too."""
        self.generic_visit(node)
        called = self.source.called(node.func)
        if called is observe and len(node.args) == 1 and not node.keywords:
            return ast.copy_location(self._kept("__observe__", node.args[0], node), node)
        if isinstance(called, FunctionType) and not called.__module__.startswith("kuifje."):
            name = self.functions.setdefault(called, f"__function_{len(self.functions)}__")
            node.func = ast.copy_location(ast.Name(name, ast.Load()), node.func)
        return node


def _assigned(node: ast.AST) -> Iterator[str]:
    """The names that a tree stores to, each time that it does."""
    for part in ast.walk(node):
        if isinstance(part, ast.Name) and isinstance(part.ctx, ast.Store):
            yield part.id


def is_known(node: ast.AST, source: Source, known: frozenset[str]) -> bool:
    """Whether only constants, names that aren't local, and known ones stand in a tree, and no call of a function that isn't Python's own."""
    for part in ast.walk(node):
        if isinstance(part, ast.Name) and part.id in source.locals and part.id not in known:
            return False
        if isinstance(part, ast.Call) and isinstance(source.called(part.func), FunctionType):
            return False
    return True


def _known_names(source: Source, public: frozenset[str]) -> frozenset[str]:
    """Public inputs that are never assigned, and counters of ``for`` over what is known."""
    stores = list(_assigned(source.tree))
    known = frozenset(name for name in public if name not in stores)
    loops = [node for node in ast.walk(source.tree) if isinstance(node, (ast.For, ast.comprehension))]
    while True:
        counted = [set(_assigned(loop.target)) for loop in loops if is_known(loop.iter, source, known)]
        more = known | {name for names in counted for name in names if stores.count(name) == sum(name in others for others in counted)}
        if more == known:
            return known
        known = frozenset(more)


def instrumented(function: FunctionType, public: frozenset[str] = frozenset(), made: dict[Any, Any] | None = None) -> Callable[..., Any]:
    """The function, compiled so that guards and observations are kept; so are the functions that it calls. Raises ``BadModel`` without a source."""
    made = {} if made is None else made
    if function in made:
        found: Callable[..., Any] = made[function]
        return found
    source = Source(function)
    tree = copy.deepcopy(source.tree)
    tree.decorator_list, tree.returns = [], None
    tree.args.defaults, tree.args.kw_defaults = [], [None] * len(tree.args.kwonlyargs)
    for argument in [*tree.args.args, *tree.args.posonlyargs, *tree.args.kwonlyargs]:
        argument.annotation = None
    marks = _Instrument(source, public)
    module = ast.fix_missing_locations(ast.Module([marks.visit(tree)], []))
    names = dict(function.__globals__) | {name: source.meaning(name) for name in function.__code__.co_freevars}
    names |= {"__guard__": _guard, "__turns__": _turns, "__observe__": _observe, "__places__": marks.places}
    exec(compile(module, source.file, "exec"), names)
    result: Any = names[source.name]
    result.__defaults__, result.__kwdefaults__ = function.__defaults__, function.__kwdefaults__
    made[function] = result
    for called, name in marks.functions.items():
        names[name] = _kept_too(called, made)
    return result  # type: ignore[no-any-return]


def _kept_too(function: FunctionType, made: dict[Any, Any]) -> Callable[..., Any]:
    """A function that is called, compiled anew; one without a source, which a model only calls with constants, is itself."""
    if function.__name__ == LAMBDA:
        return function
    try:
        return instrumented(function, made=made)
    except Changed:
        raise
    except BadModel:
        return function


def _array(value: Any) -> Any:
    """A fresh copy of an array; any other value is itself."""
    return [_array(entry) for entry in value] if isinstance(value, list) else value


def _drawn(prior: Any, earlier: Mapping[str, Any], run: _Running) -> Any:
    """The value of a parameter: drawn by its distribution, entry by entry of an array, or by a function of earlier parameters."""
    if isinstance(prior, Distribution):
        return run.draw(prior)
    if isinstance(prior, list):
        return [_drawn(entry, earlier, run) for entry in prior]
    code = prior.__code__
    return prior(*(_array(earlier[name]) for name in code.co_varnames[: code.co_argcount]))


def flat(value: Any) -> Iterator[Value]:
    """The values of a parameter, entry by entry of an array."""
    if isinstance(value, list):
        for entry in value:
            yield from flat(entry)
    else:
        yield value_of(value)


def _made(run: _Running, body: Callable[..., Any], parameters: Sequence[Parameter], public: Mapping[str, Any]) -> list[Value]:
    """Makes a run of a function, and gives the values of its secrets."""
    mark = RUNNING.set(run)
    try:
        given: dict[str, Any] = {}
        for p in parameters:
            given[p.name] = _array(public[p.name]) if p.role is Role.PUBLIC else _drawn(p.prior, given, run)
        run.trace.clear()
        secret = [value for p in parameters if p.role is Role.SECRET for value in flat(given[p.name])]
        body(**given)
    finally:
        RUNNING.reset(mark)
    return secret


class _Loaded(_Running):
    """A run of the function that is loaded, as it is, beside one that was made: it keeps what is observed, and no guards."""

    def __init__(self, place: Place, like: _Running) -> None:
        super().__init__([number for number, _ in like.taken], like.turns)
        self.place, self.like = place, like
        self.wanted = [seen.value for seen in like.trace if not seen.guard]

    def draw(self, distribution: Distribution) -> Value:
        """The same choice as in the run beside it."""
        if len(self.taken) == len(self.like.taken):
            self.differs()
        return super().draw(distribution)

    def show(self, value: Any) -> None:
        """Keeps an observed value."""
        self.trace.append(Seen(self.place, value_of(value), False))
        if len(self.trace) > len(self.wanted):
            self.differs()

    def differs(self) -> NoReturn:
        """Refuses a function that isn't what was compiled of its source."""
        form = "a model draws and shows by its parameters alone; where its file was changed, load it again"
        raise BadModel(f"{self.place.function} doesn't draw and show the same, run once more", form, self.place)

    def compare(self) -> None:
        """Refuses what was drawn or observed differently from the run beside it."""
        shown = [seen.value for seen in self.trace]
        if (self.taken, self.weight, self.scale) != (self.like.taken, self.like.weight, self.like.scale) or _typed(shown) != _typed(self.wanted):
            self.differs()


def _typed(values: Any) -> Any:
    """Values with their types: 1 isn't true."""
    return [(type(value), _typed(value) if isinstance(value, tuple) else value) for value in values]


def runs(function: FunctionType, parameters: Sequence[Parameter], public: Mapping[str, Any], turns: int = 1024) -> Iterator[Run]:
    """All runs of a model with these public inputs; an exception of the function comes as it is, and a loop has so many turns at most.

    Each run is also made by the function that is loaded. Raises ``BadModel`` where that draws or shows anything else.
    """
    body, source = instrumented(function, frozenset(public)), Source(function)
    script: list[int] | None = []
    while script is not None:
        run = _Running(script, turns)
        secret = _made(run, body, parameters, public)
        loaded = _Loaded(source.place(source.tree), run)
        _made(loaded, function, parameters, public)
        loaded.compare()
        yield Run(secret[0] if len(secret) == 1 else tuple(secret), tuple(run.trace), Fraction(run.weight, run.scale), run.scale)
        script = run.next_script()
