"""The tables: commands, operators, reserved words, signs, statuses and refusals, each read where it stands once."""

from __future__ import annotations

import re
import tomllib
from collections.abc import Iterable, Iterator
from dataclasses import dataclass
from functools import cached_property
from pathlib import Path
from typing import Any, TypeVar

COMMANDS, KEYWORDS, REFUSALS = "share/commands.toml", "share/keywords.toml", "share/refusals.toml"
OPERATORS, LEXER = "crates/kf_ops/src/table.rt", "crates/kf_lex/src/words.rt"
CALL = 8  # the level of operators that are written before brackets
USAGE = "usage line"  # what docs/REFUSALS.md calls that line
MINUS = 7  # and of the minus before a number, whose word in the code is ~
KINDS = "declaration", "target", "type", "statement", "conditional", "repeat", "distribution", "truth"  # of reserved words
Row = TypeVar("Row")


class Fault(Exception):
    """A table that can't be read, with the words that say where."""


@dataclass(frozen=True)
class Command:
    """A row of share/commands.toml, which says what each part is."""

    word: str
    files: tuple[str, ...]
    statuses: tuple[int, ...]
    section: str
    help: str
    question: str
    about: str
    prints: str
    value: str = ""
    gain: str = "no"
    json: bool = False
    turns: bool = True

    @property
    def values(self) -> tuple[str, ...]:
        """What stands after the word."""
        return (*self.files, self.value) if self.value else self.files

    @property
    def certificates(self) -> int:
        """How many of its files, the first ones, are no programs."""
        return self.files.count("CERT")

    @property
    def usage(self) -> str:
        """How it is typed; ``--turns``, which stands with each, isn't said."""
        gain = {"no": "", "may": " [--gain G]", "needs": " --gain G"}[self.gain]
        return " ".join((self.word, *self.values)) + gain + " [--json]" * self.json


@dataclass(frozen=True)
class Operator:
    """A row of kf_ops: what it takes and gives are kinds, as ``Int`` or ``SetOfAny``."""

    word: str
    level: int
    code: str
    args: tuple[str, ...]
    result: str
    div_zero: bool
    wide: bool

    @property
    def text(self) -> str:
        """How it is written in a program."""
        return "-" if self.word == "~" else self.word


@dataclass(frozen=True)
class Case:
    """A case in which a run ends with a status, as share/refusals.toml has it."""

    where: str
    commands: tuple[str, ...] = ()
    out: str = "nothing"
    line: str = ""
    note: str = ""
    section: str = ""
    words: tuple[tuple[str, tuple[str, ...]], ...] = ()

    @property
    def endings(self) -> tuple[tuple[str, tuple[str, ...]], ...]:
        """How its line may end, by the heading of docs/REFUSALS.md that explains it."""
        ending = USAGE if "usage" in self.line else re.sub("^kuifje: (NAME: )?", "", self.line)
        return self.words or (((self.section, (ending,)),) if self.section else ())


@dataclass(frozen=True)
class Status:
    """A status with its cases."""

    number: int
    name: str
    case: tuple[Case, ...] = ()


def frozen(value: Any) -> Any:
    """A value of a table with tuples in the place of lists, and pairs in that of tables."""
    if isinstance(value, dict):
        return tuple((key, frozen(part)) for key, part in value.items())
    return tuple(map(frozen, value)) if isinstance(value, list) else value


def row_of(kind: type[Row], values: dict[str, Any], place: str) -> Row:
    """A row with these values."""
    try:
        return kind(**{key: value if key == "case" else frozen(value) for key, value in values.items()})
    except TypeError as error:
        raise Fault(f"{place}: a row has other parts than it should: {error}") from None


def part(text: str, begin: str, end: str, place: str) -> str:
    """What stands between two texts, of which the first one stands once."""
    if text.count(begin) != 1:
        raise Fault(f"{place}: {begin!r} stands there {text.count(begin)} times, and not once")
    return text.split(begin)[1].split(end, 1)[0]


def one_each(found: Iterable[str], place: str) -> list[str]:
    """These words, of which none stands twice."""
    words = list(found)
    for word in {word for word in words if words.count(word) > 1}:
        raise Fault(f"{place}: {word} stands there twice")
    return words


class Tables:
    """All tables of a repository."""

    def __init__(self, top: Path) -> None:
        self.top = top
        commands = self.table(COMMANDS, "options", "gains", "values", "command")
        self.options: list[str] = commands["options"]
        self.gains: list[str] = commands["gains"]
        self.values: dict[str, str] = commands["values"]
        self.commands = [row_of(Command, row, f"{COMMANDS}: {row.get('word')}") for row in commands["command"]]
        self.keywords: dict[str, list[str]] = self.table(KEYWORDS, *KINDS)
        self.statuses = list(self._statuses())
        self.operators = list(self._operators())
        self.signs = one_each(re.findall(r'"([^"]+)"', part(self.text(LEXER), "        match self {\n", "}\n", LEXER)), LEXER)
        one_each((row.word for row in self.commands), COMMANDS)
        one_each((word for words in self.keywords.values() for word in words), KEYWORDS)
        for row in self.commands:
            if row.gain not in ("no", "may", "needs") or row.value not in ("", *self.values):
                raise Fault(f"{COMMANDS}: {row.word}: there is no gain {row.gain!r} or no value {row.value!r}")
            if re.search(r"[':\\]", row.help):
                raise Fault(f"{COMMANDS}: {row.word}: shells read quotation marks, colons and backslashes in {row.help!r} as their own")

    def text(self, name: str) -> str:
        """A file's text."""
        try:
            return (self.top / name).read_text(encoding="utf-8")
        except FileNotFoundError:
            raise Fault(f"{name}: there is no such file") from None

    def table(self, name: str, *parts: str) -> dict[str, Any]:
        """What a table of share/ has: just these parts, where some are named."""
        try:
            found = tomllib.loads(self.text(name))
        except tomllib.TOMLDecodeError as error:
            raise Fault(f"{name}: {error}") from None
        if parts and set(found) != set(parts):
            raise Fault(f"{name}: its parts are {', '.join(found)}, and not {', '.join(parts)}")
        return found

    def texts(self, *patterns: str) -> str:
        """The text of all files with such names."""
        return "\n".join(path.read_text(encoding="utf-8") for pattern in patterns for path in sorted(self.top.glob(pattern)))

    @cached_property
    def words(self) -> list[str]:
        """The words of commands."""
        return [row.word for row in self.commands]

    @cached_property
    def own_words(self) -> list[str]:
        """The reserved words that are no operators."""
        return [word for words in self.keywords.values() for word in words]

    @cached_property
    def calls(self) -> list[str]:
        """The operators that are written before brackets."""
        return [row.word for row in self.operators if row.level == CALL]

    @cached_property
    def infix(self) -> list[str]:
        """The other operators that are written with letters."""
        return [row.word for row in self.operators if row.level != CALL and row.word.isalpha()]

    @cached_property
    def by_length(self) -> list[str]:
        """The signs, a longer one before a shorter one: so a reader that tries them in turn takes the longest."""
        return sorted(self.signs, key=lambda sign: -len(sign))

    @cached_property
    def endings(self) -> dict[tuple[int, str], list[str]]:
        """How lines on standard error may end, by their status and the heading of docs/REFUSALS.md that explains them."""
        found: dict[tuple[int, str], list[str]] = {}
        for status in self.statuses:
            for case in status.case:
                for section, words in case.endings:
                    known = found.setdefault((status.number, section), [])
                    known += [word for word in words if word not in known]
        return found

    def _statuses(self) -> Iterator[Status]:
        for row in self.table(REFUSALS, "status")["status"]:
            place = f"{REFUSALS}: {row.get('number')}"
            yield row_of(Status, {**row, "case": tuple(row_of(Case, case, place) for case in row.get("case", ()))}, place)

    def _operators(self) -> Iterator[Operator]:
        """The rows of kf_ops. Each begins with the name of its type, has these fields and no others, and all are as many as are declared."""
        table = part(self.text(OPERATORS), "pub const OPS: [OpRow; ", "\n];", OPERATORS)
        rows = [dict(re.findall(r"(\w+): (.+?),\n", row)) for row in table.split("OpRow {\n")[1:]]
        if not int(table.split("]")[0]) == len(rows) == table.count('"') // 2:
            raise Fault(f"{OPERATORS}: {table.split(']')[0]} rows are declared, {len(rows)} can be read, and {table.count(chr(34)) // 2} have a word")
        one_each((row["word"].strip('"') for row in rows if "word" in row), OPERATORS)
        for row in rows:
            if sorted(row) != sorted(("word", "level", "arity", "args", "result", "code", "div_zero", "wide")):
                raise Fault(f"{OPERATORS}: a row has other fields than it should: {row}")
            args = tuple(re.findall(r"Pat::(\w+)", row["args"]))[: int(row["arity"])]
            faults = row["div_zero"] == "true", row["wide"] == "true"
            word, code, result = row["word"].strip('"'), row["code"].removeprefix("Op::"), row["result"].removeprefix("Pat::")
            yield Operator(word, int(row["level"]), code, args, result, *faults)
