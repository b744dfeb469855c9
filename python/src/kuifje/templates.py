"""Texts made of templates, by jinja2: constants, repeated lines and tables, with refusals placed in the template.

A template's file ends with ``.kf.j2``. Blocks (``{% .. %}``) that stand alone on a line leave no line in the text, and a value prints its text in the
language: ``{{ tries }}``, ``{{ true }}``, ``{{ (1, 2) }}``. Two filters write what the language has no short form for::

    {{ [3, 1, 2] | lookup("x") }}              cond(x < 1, 3, cond(x < 2, 1, 2)): a table, by a variable
    {{ {0: 3, 1: 1} | choose }}                choose { 0 : 3, 1 : 1 }
"""

from __future__ import annotations

import os
import re
from bisect import bisect_right
from collections.abc import Iterable, Iterator, Mapping
from dataclasses import dataclass, replace
from pathlib import Path
from traceback import extract_tb
from typing import Any

from jinja2 import FileSystemLoader, StrictUndefined, TemplateError, TemplateSyntaxError, meta
from jinja2.ext import Extension
from jinja2.lexer import Token
from jinja2.sandbox import ImmutableSandboxedEnvironment

from .channels import LENGTH
from .engine import Engine
from .errors import KuifjeError, Refusal
from .expressions import choose, lookup
from .program import Program
from .values import format_value

__all__ = ["BadTemplate", "Expansion", "Template"]

LONGEST = 16 * LENGTH  # characters of an expansion, with its marks

# A mark stands in a marked expansion before each piece of text and before each value: which source it is from, and where in that it stands.
_MARK = re.compile("\0([0-9]+):([0-9]+):([01])\0")


class BadTemplate(KuifjeError):
    """A template that can't be expanded: it isn't one, or asks for a value that isn't given. ``file`` and ``line`` say where, where it is known."""

    def __init__(self, message: str, file: str | None = None, line: int | None = None) -> None:
        super().__init__(f"{file}:{line}: {message}" if line is not None else f"{file}: {message}" if file else message)
        self.file, self.line = file, line


@dataclass(frozen=True)
class _Source:
    """A text that jinja2 has read: a template, or one that it includes."""

    name: str
    text: str

    def place(self, offset: int) -> tuple[int, int, str]:
        """The line and the column (in bytes) of a place, both from 1, and that line."""
        start = self.text.rfind("\n", 0, offset) + 1
        line = self.text[start:].split("\n", 1)[0]
        return self.text.count("\n", 0, offset) + 1, len(self.text[start:offset].encode()) + 1, line


@dataclass(frozen=True)
class _Piece:
    """A piece of an expansion: from where in it, from where in which source, and whether it stands there letter by letter."""

    start: int
    source: _Source
    offset: int
    literal: bool


@dataclass(frozen=True)
class Expansion:
    """The text of a template with its values; it knows where each of its places comes from."""

    text: str
    _pieces: tuple[_Piece, ...]

    def placed(self, refusal: Refusal) -> Refusal:
        """The same refusal, placed in the template: where the text is the template's, at its letter, and in a value at the braces that write it.

        A refusal without a place, and one of a text whose places aren't known, stays as it is.
        """
        if refusal.line is None or refusal.column is None or not self._pieces:
            return refusal
        lines = self.text.encode().split(b"\n")
        before = b"\n".join([*lines[: refusal.line - 1], lines[refusal.line - 1][: refusal.column - 1]])
        at = len(before.decode(errors="replace"))
        piece = self._pieces[max(0, bisect_right(self._pieces, at, key=lambda p: p.start) - 1)]
        line, column, source = piece.source.place(piece.offset + (at - piece.start if piece.literal else 0))
        return replace(refusal, file=piece.source.name, line=line, column=column, source=source)


class _Marks(Extension):
    """Puts a mark before each piece of text and each value of what is parsed, where the environment's ``marked`` says so."""

    def preprocess(self, source: str, name: str | None, filename: str | None = None) -> str:
        """Keeps a source that jinja2 reads, with LF at the end of each line."""
        environment: Any = self.environment
        lines = re.split(r"\r\n|\r|\n", source)
        text = "\n".join(lines)
        environment.sources.append(_Source(name or environment.main, text))
        self._offsets = self._found(text, name, filename)
        return text

    def _found(self, text: str, name: str | None, filename: str | None) -> Iterator[int]:
        """Where each piece of text and each value begins."""
        at = 0
        for _, kind, value in self.environment.lexer.tokeniter(text, name, filename):
            at = text.index(value, at)
            if kind in ("data", "variable_begin"):
                yield at
            at += len(value)

    def filter_stream(self, stream: Any) -> Any:
        """The tokens of the source that was kept last, with marks."""
        environment: Any = self.environment
        number = len(environment.sources) - 1
        for token in stream:
            if environment.marked and token.type in ("data", "variable_begin"):
                literal = token.type == "data"
                mark = f"\0{number}:{next(self._offsets)}:{int(literal)}\0"
                yield Token(token.lineno, "data", mark + token.value if literal else mark)
                if literal:
                    continue
            yield token


class _Undefined(StrictUndefined):
    """A value that isn't given: whatever asks for it says so, ``range`` too."""

    __index__ = StrictUndefined.__int__


class _Environment(ImmutableSandboxedEnvironment):
    """How templates are read: nothing of Python is in their reach, and a value that isn't given is a fault."""

    def __init__(self, folder: Path | None, main: str, marked: bool) -> None:
        self.sources: list[_Source] = []
        self.main, self.marked = main, marked
        super().__init__(
            loader=None if folder is None else FileSystemLoader(folder),
            extensions=[_Marks],
            undefined=_Undefined,
            finalize=_text,
            trim_blocks=True,
            lstrip_blocks=True,
            keep_trailing_newline=True,
            cache_size=0,
        )
        self.filters |= {"lookup": lambda numbers, name: lookup(name, list(numbers)), "choose": choose}


def _text(value: object) -> object:
    """What a value prints: its text in the language, where it is a value of it."""
    return format_value(value) if isinstance(value, (bool, tuple, frozenset)) else value


@dataclass(frozen=True)
class Template:
    """A template: its text, the name that refusals have for it, and the folder of the files that it includes (none: it can't include any)."""

    text: str
    name: str = "template.kf.j2"
    folder: Path | None = None

    @classmethod
    def from_file(cls, path: str | os.PathLike[str]) -> Template:
        """The template in a file; it may include those in the same folder."""
        return cls(Path(path).read_text(encoding="utf-8"), Path(path).name, Path(path).resolve().parent)

    def names(self) -> frozenset[str] | None:
        """The values that the template asks for, and those that it includes do; none where it includes what only its values name, or isn't one."""
        environment = _Environment(self.folder, self.name, False)
        found: set[str] = set()
        known, waiting = {self.name}, [self.text]
        try:
            while waiting:
                tree = environment.parse(waiting.pop())
                found |= meta.find_undeclared_variables(tree)
                for name in meta.find_referenced_templates(tree):
                    if name is None or environment.loader is None:
                        return None
                    if name not in known:
                        known.add(name)
                        waiting.append(environment.loader.get_source(environment, name)[0])
        except (TemplateError, OSError):
            return None
        return frozenset(found) - environment.globals.keys()

    def check_names(self, names: Iterable[str]) -> None:
        """Raises ``ValueError`` where there is a name that the template doesn't ask for: most likely it is mistyped."""
        asked = self.names()
        if asked is not None and (unknown := set(names) - asked):
            raise ValueError(f"{self.name} doesn't ask for {min(unknown)!r}: it asks for {', '.join(sorted(asked)) or 'nothing'}")

    def expand(self, /, **values: object) -> Expansion:
        """The text with these values. Raises ``BadTemplate`` where there is none."""
        text, _ = self._rendered(values, marked=False)
        marked, sources = self._rendered(values, marked=True)
        pieces, marks = [], 0
        for mark in _MARK.finditer(marked):
            pieces.append(_Piece(mark.start() - marks, sources[int(mark[1])], int(mark[2]), mark[3] == "1"))
            marks += len(mark[0])
        # A filter that looks at what a block or a macro wrote sees the marks: where that changes the text, its places aren't known.
        return Expansion(text, tuple(pieces) if _MARK.sub("", marked) == text else ())

    def program(self, values: Mapping[str, object] = {}, *, turns: int = 1024, engine: Engine | None = None) -> Program:
        """The program with these values; its refusals are placed in the template. Raises ``BadTemplate`` where there is none."""
        expansion = self.expand(**values)
        return Program(expansion.text, name=self.name.removesuffix(".j2"), turns=turns, engine=engine, expansion=expansion)

    def _rendered(self, values: dict[str, object], marked: bool) -> tuple[str, list[_Source]]:
        environment = _Environment(self.folder, self.name, marked)
        try:
            pieces, length = [], 0
            for piece in environment.from_string(self.text).generate(values):
                pieces.append(piece)
                length += len(piece)
                if length > LONGEST:
                    raise BadTemplate(f"the text passes {LENGTH} bytes", self.name)
            return "".join(pieces), environment.sources
        except TemplateSyntaxError as cause:
            raise BadTemplate(cause.message or "no template", cause.name or self.name, cause.lineno) from None
        except (TemplateError, ArithmeticError, TypeError, ValueError, LookupError) as cause:
            frames = [frame for frame in extract_tb(cause.__traceback__) if frame.filename == "<template>"]
            raise BadTemplate(str(cause), self.name, frames[-1].lineno if frames else None) from cause
