"""Texts of the tables in the language of manual pages, mdoc."""

from __future__ import annotations

import re
import textwrap
from collections.abc import Iterator

from .tables_rows import Case, Command, Fault, Tables

LINKS = re.compile(r" \(\[[^]]+\]\([^)]+\)(?:, \[[^]]+\]\([^)]+\))*\)")
SENTENCE = re.compile(r"(?<=\.) (?=[A-Z])|(?<=:) (?=[A-Z][a-z])")
NAMED = re.compile(r"(`[^`]+`[,.;:]*|(?<![\w./^-])(?!^A )(?:FILE|CERT|NAME|N/D|[ABNGCP])(?![\w/'])[,.;:]*)(?: |$)")


def mdoc(text: str, commands: list[str]) -> Iterator[str]:
    """A text of a page, without links: a macro for each name, and each sentence on a new line. An A that begins one is the article."""
    for sentence in SENTENCE.split(LINKS.sub("", text)):
        for number, piece in enumerate(NAMED.split(sentence)):
            if number % 2:
                name = piece.rstrip(",.;:")
                macro = "Ar" if not name.startswith("`") else "Cm" if name.strip("`") in commands else "Ql"
                yield " ".join([f".{macro} {name.strip('`')}", *piece[len(name) :]])
                continue
            for line in textwrap.wrap(piece, 79, break_long_words=False, break_on_hyphens=False):
                if line[0] in ".'" or line[-1] == "(" or "`" in line or "](" in line:
                    raise Fault(f"the manual page can't have {line!r}, of {text!r}")
                yield line


def synopsis(row: Command) -> Iterator[str]:
    """A command with all that stands after it."""
    yield from (".Nm", f".Cm {row.word}", *(f".Ar {value}" for value in row.values))
    if row.gain != "no":
        yield ".Fl Fl gain Ar G" if row.gain == "needs" else ".Op Fl Fl gain Ar G"
    yield from [".Op Fl Fl json"] * row.json + [".Op Fl Fl turns Ar N"] * row.turns


def described(row: Command, commands: list[str]) -> Iterator[str]:
    """What a command prints."""
    yield f".It Cm {row.word}"
    yield from mdoc(f"Prints {row.prints}.", commands)


def listed(words: list[str]) -> Iterator[str]:
    """Words one after the other, with commas and an and."""
    for word in words[:-2]:
        yield f".Ql {word} ,"
    if len(words) > 1:
        yield from (f".Ql {words[-2]}", "and")
    yield f".Ql {words[-1]} ."


def ended(case: Case, tables: Tables) -> Iterator[str]:
    """A case of a status: what has happened, the line, and what its last word may be."""
    about = ", ".join(f"`{word}`" for word in case.commands)
    text = f"{about}: {case.where}." if about else f"{case.where[0].upper()}{case.where[1:]}."
    yield from mdoc(text, tables.words)
    if case.line:
        yield f".Dl {case.line}"
    words = [word for _, some in case.words for word in some]
    if words:
        yield f"{case.line.split()[-1]} is one of"
        yield from listed(words)


def statuses(tables: Tables) -> Iterator[str]:
    """All statuses of the program."""
    for status in tables.statuses:
        if status.case:
            yield f".It {status.number}"
        for number, case in enumerate(status.case):
            yield from [".Pp"] * (number > 0)
            yield from ended(case, tables)
