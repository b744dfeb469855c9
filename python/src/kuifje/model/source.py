"""Functions as their sources have them: trees, places, and what names mean.

A source may be edited after it was loaded. So it is compiled, and compared with the code that is loaded: only where both are the same is the tree
that of the function. Where it moved to other lines, the places are those that it has now.
"""

from __future__ import annotations

import __future__ as futures
import ast
import builtins
import inspect
import linecache
import warnings
from collections.abc import Iterator
from dataclasses import dataclass
from functools import lru_cache, reduce
from operator import or_
from types import CodeType, FunctionType, ModuleType
from typing import Any
from weakref import WeakKeyDictionary

from .errors import BadModel, Place

__all__ = ["LAMBDA", "MISSING", "Changed", "Source", "changed"]

MISSING = object()
FUTURES: int = reduce(or_, (getattr(futures, name).compiler_flag for name in futures.all_feature_names)) & ~inspect.CO_NESTED
LAMBDA = "<lambda>"
UNREADABLE = (SyntaxError, ValueError, RecursionError, MemoryError)  # of texts that Python can't compile
# All that a code object is made of but for its file and its lines.
PARTS = (
    "co_name co_qualname co_flags co_argcount co_posonlyargcount co_kwonlyargcount co_nlocals co_stacksize co_code co_exceptiontable co_names "
    "co_varnames co_freevars co_cellvars"
).split()


@dataclass(frozen=True)
class _Written:
    """A function as a text has it: its tree, what its code is, and whether it stands in a class."""

    tree: ast.FunctionDef
    code: CodeType
    meaning: object
    in_class: bool


def _meaning(constant: object) -> object:
    """What tells a constant from all others: of code all but its file and its lines."""
    match constant:
        case CodeType():
            return (*(getattr(constant, part) for part in PARTS), tuple(map(_meaning, constant.co_consts)))
        case tuple() | frozenset():
            return type(constant), type(constant)(map(_meaning, constant))
        case float() | complex():
            return type(constant), repr(constant)
    return type(constant), constant


def _codes(code: CodeType) -> Iterator[CodeType]:
    """The code of all functions in a code, however deep."""
    for constant in code.co_consts:
        if isinstance(constant, CodeType):
            yield constant
            yield from _codes(constant)


def _has(node: ast.expr, code: CodeType) -> bool:
    """Whether an expression has all places of a code; some instructions have none."""
    first, last = (node.lineno, node.col_offset), (node.end_lineno or 0, node.end_col_offset or 0)
    spans = [((line, column or 0), (end or 0, until)) for line, end, column, until in code.co_positions() if line and until]
    return bool(spans) and all(first <= start and stop <= last for start, stop in spans)


def _lambda_of(code: CodeType, lambdas: list[ast.Lambda]) -> ast.FunctionDef | None:
    """The lambda of a code, as a function that returns; none where it can't be told from others on its line."""
    near = [node for node in lambdas if node.lineno == code.co_firstlineno]
    found = near if len(near) == 1 else [node for node in near if _has(node.body, code)]
    if not found:
        return None
    inner = found[-1]  # of lambdas in each other the innermost one, which a walk comes to last
    tree = ast.FunctionDef(name="lambda_", args=inner.args, body=[ast.copy_location(ast.Return(inner.body), inner)], decorator_list=[], lineno=0)
    return ast.copy_location(tree, inner)


@lru_cache(maxsize=64)
def _written(text: str, flags: int) -> tuple[_Written, ...]:
    """The functions and lambdas of a text. Raises ``SyntaxError`` or ``ValueError`` where it is no text of Python."""
    with warnings.catch_warnings():
        warnings.simplefilter("ignore")
        whole = compile(text, "<source>", "exec", flags | ast.PyCF_ALLOW_TOP_LEVEL_AWAIT, dont_inherit=True)
        tree = compile(text, "<source>", "exec", flags | ast.PyCF_ONLY_AST, dont_inherit=True)
    nodes = list(ast.walk(tree))
    in_classes = {id(node) for part in nodes if isinstance(part, ast.ClassDef) for node in ast.walk(part)}
    named = {(n.name, min([n.lineno, *(d.lineno for d in n.decorator_list)])): n for n in nodes if isinstance(n, ast.FunctionDef)}
    lambdas = [node for node in nodes if isinstance(node, ast.Lambda)]
    found = []
    for code in _codes(whole):
        node = _lambda_of(code, lambdas) if code.co_name == LAMBDA else named.get((code.co_name, code.co_firstlineno))
        if node is not None:
            found.append(_Written(node, code, _meaning(code), id(node) in in_classes))
    return tuple(found)


def _found(lines: list[str], code: CodeType) -> _Written | None:
    """The function that has this code, by its line where it still stands there; none where it is another one, or can't be told from others."""
    try:
        written = [w for w in _written("".join(lines), code.co_flags & FUTURES) if w.code.co_name == code.co_name and w.meaning == _meaning(code)]
    except UNREADABLE:
        return None
    there = [w for w in written if w.code.co_firstlineno == code.co_firstlineno]
    there = [w for w in there if list(w.code.co_positions()) == list(code.co_positions())] or there
    if there:
        return there[0]
    return written[0] if len(written) == 1 else None


def _texts(function: FunctionType) -> Iterator[list[str]]:
    """The lines of a function's file: as they are now, and read once more where only a clock too coarse says that they are. Of a file that is
    gone those that were read from it before."""
    file = function.__code__.co_filename
    before: Any = linecache.cache.get(file)  # the size, the time, the lines and the name, or a way to load the lines
    linecache.checkcache(file)
    lines = linecache.getlines(file, function.__globals__)
    if not lines:
        yield before[2] if before is not None and len(before) == 4 else []
        return
    yield lines
    entry: Any = linecache.cache.get(file)
    if entry is not None and len(entry) == 4 and entry[1] is not None:
        del linecache.cache[file]
        yield linecache.getlines(file, function.__globals__)


_KNOWN: WeakKeyDictionary[FunctionType, tuple[CodeType, list[str], _Written]] = WeakKeyDictionary()


class Changed(BadModel):
    """A function whose source isn't that of its code."""


def changed(function: FunctionType) -> Changed:
    """The refusal of a function whose source isn't that of its code."""
    form = "load it again, as by importlib.reload, %run, or its cell (what a tool rewrites while it is loaded can't be translated)"
    return Changed(f"the source of {function.__name__} was changed after it was loaded", form, _first_line(function))


class Source:
    """The source of a function.

    Raises ``BadModel`` where there is none, as of what was typed at a prompt, and ``Changed`` where it isn't that of the function that is loaded.
    """

    def __init__(self, function: FunctionType) -> None:
        self.function, self.name = function, function.__name__
        code = function.__code__
        self.file = code.co_filename
        if vars(function).keys() & {"__wrapped__", "__signature__"}:
            original = inspect.unwrap(function)
            place = _first_line(original if isinstance(original, FunctionType) else function)
            form = "write @model right above def, and leave out decorators that wrap a function, as by functools.wraps"
            raise BadModel(f"{self.name} is wrapped by a decorator, and what that does can't be translated", form, place)
        if code.co_flags & (inspect.CO_COROUTINE | inspect.CO_ASYNC_GENERATOR):
            raise BadModel(f"{self.name} is async", "write it by def alone", _first_line(function))
        self.lines, found = self._read(code)
        self.tree = found.tree
        self.locals = frozenset(code.co_varnames) | frozenset(code.co_cellvars)
        if found.in_class and any(name.startswith("__") and not name.endswith("__") for name in _names(found.tree)):
            raise BadModel("a name with __ before it is another one in a class", "use another name", self.place(self.tree))

    def _read(self, code: CodeType) -> tuple[list[str], _Written]:
        """The lines of the file, and the function in them."""
        known = _KNOWN.get(self.function)
        for lines in _texts(self.function):
            if known is not None and known[0] is code and (not lines or known[1] == lines):
                return known[1], known[2]
            if lines and (found := _found(lines, code)) is not None:
                _KNOWN[self.function] = code, lines, found
                return lines, found
        if not lines:
            form = "a function is written by def, in a file or a cell"
            raise BadModel(f"the source of {self.name} isn't there", form, _first_line(self.function))
        raise changed(self.function)

    def place(self, node: ast.AST) -> Place:
        """Where a node of the function stands."""
        line, column = getattr(node, "lineno", self.tree.lineno), getattr(node, "col_offset", 0) + 1
        return Place(self.file, line, column, self.lines[line - 1].rstrip("\r\n"), self.name)

    def meaning(self, name: str) -> Any:
        """What a name means that isn't local: that of an enclosing function, of the module, or of Python; ``MISSING`` where it means nothing."""
        free = self.function.__code__.co_freevars
        if name in free:
            try:
                return (self.function.__closure__ or ())[free.index(name)].cell_contents
            except ValueError:
                return MISSING
        return self.function.__globals__.get(name, getattr(builtins, name, MISSING))

    def called(self, node: ast.expr) -> Any:
        """What a call's function is, where it is a name that isn't local or a part of a module; else ``MISSING``."""
        if isinstance(node, ast.Name):
            return MISSING if node.id in self.locals else self.meaning(node.id)
        if isinstance(node, ast.Attribute):
            base = self.called(node.value)
            return getattr(base, node.attr, MISSING) if isinstance(base, ModuleType) else MISSING
        return MISSING


def _names(tree: ast.AST) -> Iterator[str]:
    """The names and parameters in a tree."""
    for node in ast.walk(tree):
        if isinstance(node, ast.Name):
            yield node.id
        elif isinstance(node, ast.arg):
            yield node.arg


def _first_line(function: FunctionType) -> Place:
    """Where the function of that name stands now that is the nearest to where a function was loaded from; else the line that it was loaded from."""
    code = function.__code__
    lines = linecache.getlines(code.co_filename, function.__globals__)
    try:
        trees = [written.tree for written in _written("".join(lines), code.co_flags & FUTURES) if written.code.co_name == code.co_name]
    except UNREADABLE:
        trees = []
    line, column = code.co_firstlineno, 1
    if trees:
        nearest = min(trees, key=lambda tree: abs(tree.lineno - line))
        line, column = nearest.lineno, nearest.col_offset + 1
    text = lines[line - 1].rstrip("\r\n") if line <= len(lines) else ""
    return Place(code.co_filename, line, column, text, function.__name__)
