"""A change of a model's text, written in the model's own Python.

A branch stands under ``if hide(..)``, and a ``while`` becomes a ``for`` of as many turns as it ever takes, under a flag that says whether it still
goes on. The function that is made so isn't run, and nothing is believed of it: it is translated as any model, and its text judged as any other.
"""

from __future__ import annotations

import ast
import linecache
from collections.abc import Iterable, Iterator, Mapping
from difflib import unified_diff
from itertools import count
from pathlib import Path
from types import CodeType, FunctionType

from ..errors import KuifjeError
from ..model import declare
from ..model.models import Model
from ..model.source import FUTURES, MISSING, Source
from ..model.write import Translation
from ..program import Program
from ..source import If, Observe, While, every, read
from .structure import Change

__all__ = ["Rewritten", "rewritten"]

Place = tuple[int, int]


class _Unwritten(Exception):
    """The change has no form in Python here."""


class Rewritten:
    """A model with a change made in its source: the model, and its lines beside those that it had."""

    def __init__(self, before: Source, model: Model, lines: Mapping[int, list[str]]) -> None:
        self.model = model
        self._before, self._lines = before, lines

    @property
    def diff(self) -> str:
        """The change of the source, as a unified diff."""
        name = Path(self._before.file).name
        return "".join(unified_diff(self._before.lines, _joined(self._lines), name, f"{name} (repaired)"))

    def place(self, before: int | Place) -> Place:
        """Where a place is now that stands in nothing that is changed."""
        line, column = before if isinstance(before, tuple) else (before, 1)
        return 1 + sum(len(lines) for at, lines in self._lines.items() if at < line), column


def rewritten(program: Program, change: Change, turns: Mapping[int, int]) -> Rewritten | None:
    """The model of a program with a change made, where the change can be written in its function. ``turns`` has those of each loop, by its place.

    None where the program is no model's, or what is changed stands in a function that it calls, or has no such form.
    """
    translation = program.expansion
    if not isinstance(translation, Translation) or not isinstance(translation.model, Model) or change.hidden:
        return None
    model = translation.model
    try:
        source = Source(model.function)
        lines = _Writer(source, program, translation, change, turns).lines()
        return Rewritten(source, Model(_loaded(source, lines), turns=model.turns, engine=model.engine), lines)
    except (_Unwritten, KuifjeError, SyntaxError):
        return None


class _Writer:
    """Makes a change line by line: each line of the source has the lines that stand in its place."""

    def __init__(self, source: Source, program: Program, translation: Translation, change: Change, turns: Mapping[int, int]) -> None:
        self.source, self.translation = source, translation
        self.now = {i: [line] for i, line in enumerate(source.lines, 1)}
        self.text = read(program.text.decode())
        nodes = {(node.lineno, node.col_offset + 1): node for node in ast.walk(source.tree) if isinstance(node, (ast.If, ast.While))}
        calls = {(node.value.lineno, node.value.col_offset + 1): node for node in ast.walk(source.tree) if isinstance(node, ast.Expr)}
        self.taken = {node.id for node in ast.walk(source.tree) if isinstance(node, ast.Name)} | set(source.locals)
        self.turns: dict[Place, int] = {}
        self.even: dict[Place, ast.If | ast.While] = {}
        self.dropped: dict[Place, ast.stmt] = {}
        for statement in every(self.text.statements):
            if isinstance(statement, (If, While)) and statement.at in change.even:
                place = self._place(statement.at, nodes)
                self.even[place] = nodes[place]
                self.turns[place] = max(self.turns.get(place, 0), turns.get(statement.at, 0))
            elif isinstance(statement, Observe) and statement.at in change.dropped:
                place = self._place(statement.at, calls)
                self.dropped[place] = calls[place]
        self.hide = self._name_of_hide()

    def _place(self, at: int, among: Mapping[Place, ast.stmt]) -> Place:
        """Where a statement of the text stands in the function, which must be the model's own, as one of these statements."""
        found = self.translation.place(self.text.line(at))
        if found.caller is not None or found.file != self.source.file or (place := (found.line, found.column)) not in among:
            raise _Unwritten
        return place

    def _name_of_hide(self) -> str:
        """What the function calls ``hide``: by its name, or as a part of a module that it uses; else by a name that is imported."""
        for node in ast.walk(self.source.tree):
            if isinstance(node, ast.Attribute) and self.source.called(node) in (declare.observe, declare.hide):
                return f"{ast.unparse(node.value)}.hide"
        if self.source.meaning("hide") is not declare.hide:
            if self.source.meaning("hide") is not MISSING or "hide" in self.taken:
                raise _Unwritten
            self._import()
        return "hide"

    def _import(self) -> None:
        """Imports ``hide`` after what is imported of models, or else before the function."""
        tree = ast.parse("".join(self.source.lines))
        found = [node for node in tree.body if isinstance(node, ast.ImportFrom) and node.module == "kuifje.model" and node.end_lineno]
        if found:
            line = found[-1].end_lineno or found[-1].lineno
            self.now[line] = [*self.now[line], "from kuifje.model import hide\n"]
        else:
            first = _first(self.source)
            if self.source.tree.col_offset:
                raise _Unwritten
            self.now[first] = ["from kuifje.model import hide\n", *self.now[first]]

    def lines(self) -> dict[int, list[str]]:
        """The lines of the changed source, by those in whose places they stand; what stands in something is changed before it."""
        inner = {(n.lineno, n.col_offset + 1): n for one in self.even.values() for n in ast.walk(one) if isinstance(n, (ast.If, ast.While))}
        for place, node in sorted({**self.dropped, **inner, **self.even}.items(), reverse=True):
            match node:
                case ast.If():
                    self._hidden(node)
                case ast.While():
                    if place not in self.turns:
                        raise _Unwritten
                    self._unrolled(node, self.turns[place])
                case _:
                    self._passed(node)
        return self.now

    def _insert(self, line: int, column: int, text: str) -> None:
        """Writes something before a column, in bytes from 0, of a line that is one still."""
        if len(self.now[line]) != 1:
            raise _Unwritten
        whole = self.now[line][0].encode()
        self.now[line] = [(whole[:column] + text.encode() + whole[column:]).decode()]

    def _hidden(self, node: ast.If) -> None:
        """Hides which branch is taken, unless that is known before a run."""
        test = node.test
        if isinstance(test, ast.Constant) or isinstance(test, ast.Call) and self.source.called(test.func) is declare.hide:
            return
        assert test.end_lineno is not None and test.end_col_offset is not None
        self._insert(test.end_lineno, test.end_col_offset, ")")
        self._insert(test.lineno, test.col_offset, f"{self.hide}(")

    def _unrolled(self, node: ast.While, most: int) -> None:
        """Writes a loop as one of so many turns, each of which does something while the guard held in all before."""
        assert node.test.end_lineno is not None and node.test.end_col_offset is not None
        first, last = node.body[0].lineno, node.body[-1].end_lineno or 0
        if first <= node.test.end_lineno or len(self.now[node.lineno]) != 1:
            raise _Unwritten
        asked = ast.get_source_segment("".join(self.source.lines), node.test) or ""
        rest = self.source.lines[node.test.end_lineno - 1].encode()[node.test.end_col_offset :].decode().partition(":")[2].rstrip("\r\n")
        on, turn, indent = self._fresh("on"), self._fresh("_"), self.source.lines[node.lineno - 1][: node.col_offset]
        head = [f"{on} = True", f"for {turn} in range({most}):", f"    {on} = {on} and ({asked})", f"    if {self.hide}({on}):{rest}"]
        self.now[node.lineno] = [f"{indent}{line}\n" for line in head]
        for line in range(node.lineno + 1, node.test.end_lineno + 1):
            self.now[line] = []
        for line in range(node.test.end_lineno + 1, last + 1):
            self.now[line] = [f"    {text}" if text.strip() else text for text in self.now[line]]

    def _passed(self, node: ast.stmt) -> None:
        """Leaves an observation out."""
        if node.end_lineno != node.lineno or len(self.now[node.lineno]) != 1 or node.end_col_offset is None:
            raise _Unwritten
        whole = self.now[node.lineno][0].encode()
        self.now[node.lineno] = [(whole[: node.col_offset] + b"pass" + whole[node.end_col_offset :]).decode()]

    def _fresh(self, wanted: str) -> str:
        found = next(name for name in _names(wanted) if name not in self.taken and self.source.meaning(name) is MISSING)
        self.taken.add(found)
        return found


def _names(wanted: str) -> Iterator[str]:
    """A name, and others like it."""
    yield wanted
    for i in count(2):
        yield f"{'turn' if wanted == '_' else wanted}_{i}"


def _joined(lines: Mapping[int, list[str]]) -> list[str]:
    return [text for _, texts in sorted(lines.items()) for text in texts]


def _first(source: Source) -> int:
    """The line in which a function begins, with what stands above ``def``."""
    return min([source.tree.lineno, *(one.lineno for one in source.tree.decorator_list)])


_COUNT = count(1)


def _codes(code: CodeType) -> Iterator[CodeType]:
    for constant in code.co_consts:
        if isinstance(constant, CodeType):
            yield constant
            yield from _codes(constant)


def _loaded(source: Source, lines: Mapping[int, list[str]]) -> FunctionType:
    """The function of a changed source: it is compiled, and nothing of it is run; names mean what they meant before."""
    text, before = _joined(lines), source.function.__code__
    file = f"{Path(source.file).name} (repaired {next(_COUNT)})"
    try:
        whole = compile("".join(text), file, "exec", before.co_flags & FUTURES | ast.PyCF_ALLOW_TOP_LEVEL_AWAIT, dont_inherit=True)
    except ValueError:
        raise _Unwritten from None
    first = _first(source)
    now = 1 + sum(len(texts) for at, texts in lines.items() if at < first) + len(lines[first]) - 1
    found: Iterable[CodeType] = (one for one in _codes(whole) if one.co_name == before.co_name and one.co_firstlineno == now)
    code = next(iter(found), None)
    if code is None or code.co_freevars != before.co_freevars:
        raise _Unwritten
    old = source.function
    names = {"hide": declare.hide} | old.__globals__
    function = FunctionType(code, names, old.__name__, old.__defaults__, old.__closure__)
    function.__kwdefaults__, function.__annotations__, function.__doc__ = old.__kwdefaults__, old.__annotations__, old.__doc__
    function.__module__, function.__qualname__ = old.__module__, old.__qualname__
    linecache.cache[file] = (len("".join(text)), None, text, file)
    return function
