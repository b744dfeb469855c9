"""Where something is written: a part of a file between two lines, a table of a page, or a whole file."""

from __future__ import annotations

import json
from collections.abc import Iterable, Iterator
from dataclasses import dataclass

from .tables_rows import Fault

WRITTEN = "written by .ci/tables"
MOST = 100  # characters of a line in a message


@dataclass(frozen=True)
class Block:
    """Lines of a file: those after the line ``begin``, and before the next line ``end``. Without ``begin`` they are the whole file."""

    name: str
    lines: tuple[str, ...]
    begin: str = ""
    end: str = ""

    @property
    def place(self) -> str:
        """What it is called where it differs."""
        return f"{self.name}, after {self.begin.strip()!r}" if self.begin else self.name

    def bounds(self, lines: list[str]) -> tuple[int, int]:
        """The places in a file's lines between which these stand. Raises ``Fault`` where there is no such part, or more than one."""
        if not self.begin:
            return 0, len(lines)
        if lines.count(self.begin) != 1:
            raise Fault(f"{self.name}: the line {self.begin.strip()!r} stands there {lines.count(self.begin)} times, and not once")
        first = lines.index(self.begin) + 1
        if self.end not in lines[first:]:
            raise Fault(f"{self.place}: below it no line is {self.end.strip()!r}")
        return first, lines.index(self.end, first)

    def into(self, text: str) -> str:
        """The file's text with these lines in it."""
        if not self.begin:
            return "\n".join(self.lines) + "\n"
        lines = text.split("\n")
        first, last = self.bounds(lines)
        return "\n".join([*lines[:first], *self.lines, *lines[last:]])

    def differences(self, text: str) -> Iterator[str]:
        """What the file's text has in the place of these lines, where it isn't these."""
        if self.into(text) == text:
            return
        lines = text.split("\n")
        found = lines[slice(*self.bounds(lines))]
        yield f"{self.place}: it isn't what the tables say, which .ci/tables --write writes"
        yield from (f"{self.place}: it lacks {shortened(line)}" for line in self.lines if line not in found)
        yield from (f"{self.place}: it has {shortened(line)}" for line in found if line and line not in self.lines)


def shortened(line: str) -> str:
    """A line as a message names it."""
    return repr(line.strip() if len(line.strip()) <= MOST else line.strip()[:MOST] + " ..")


def marked(name: str, sign: str, title: str, lines: Iterable[str], indent: str = "") -> Block:
    """A part of a file between two comments, which begin with this sign."""
    return Block(name, tuple(indent + line for line in lines), f"{indent}{sign} {title}: {WRITTEN}", f"{indent}{sign} to here")


def table(name: str, header: str, rows: Iterable[Iterable[str]]) -> Block:
    """A table of a page: it is found by its header, and ends where a line is empty."""
    columns = header.count("|") - 1
    lines = [f"| {' | '.join(row)} |".replace("|  |", "| |") for row in rows]
    for line in lines:
        if line.count("|") != columns + 1 or "\n" in line:
            raise Fault(f"{name}: a row of a table can't have an upright stroke or a line's end: {line!r}")
    return Block(name, ("|---" * columns + "|", *lines), header)


def code(words: Iterable[str], between: str = ", ") -> str:
    """Words as pages write code."""
    return between.join(f"`{word}`" for word in words)


def quoted(words: Iterable[str]) -> str:
    """Words as Python and JavaScript write them."""
    return ", ".join(json.dumps(word) for word in words)
