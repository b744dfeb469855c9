"""What is written to the pages, to the manual page, and to what the Python package knows of refusals."""

from __future__ import annotations

import json
import re
from collections.abc import Iterator
from itertools import groupby

from . import tables_manual as manual
from .tables_blocks import Block, code, marked, table
from .tables_rows import MINUS, USAGE, Case, Fault, Operator, Tables

EXPLAINED = "docs/REFUSALS.md"
NAME = re.compile(r"(?=\*\*`?[A-Z][A-Za-z0-9]*`?\*\*|\*\*`[^`]*`\*\*|\*\*The usage line)")  # where that of a refusal begins there
TAKES = {  # what an operator takes, by the kinds of its arguments
    ("Bool",): "truth value",
    ("Bool", "Bool"): "two truth values",
    ("Bool", "Any", "Any"): "truth value, two values of one kind",
    ("Int",): "number",
    ("Int", "Int"): "two numbers",
    ("SetOfAny",): "set",
    ("SetOfAny", "SetOfAny"): "two sets of one kind",
    ("Any", "Any"): "two values of one kind",
    ("Any", "SetOfAny"): "a value, a set of its kind",
}
GIVES = {"Bool": "truth value", "Int": "number", "SetOfAny": "set", "Any": "that kind"}


def commands(tables: Tables) -> Iterator[Block]:
    """The tables of commands."""
    gains = {"no": "no", "may": "may", "needs": "G"}
    yield table(
        "README.md", "| Command | The question | Asks about |", ([f"`kuifje {row.usage}`", row.question, row.about] for row in tables.commands)
    )
    yield table(
        "docs/COMMANDS.md",
        "| Command | Files | `--gain` | `--json` | Prints, of the programs in the files | Texts |",
        (
            [
                f"`{row.word}`",
                " ".join(row.values) if row.files else f"no file, but {row.value}",
                gains[row.gain],
                "may" if row.json else "no",
                row.prints,
                f"[{row.section}](FORMATS.md#{anchor(row.section)})",
            ]
            for row in tables.commands
        ),
    )
    yield table("docs/GLOSSARY.md", "| Command | What it answers |", ([f"`{row.word}`", row.help] for row in tables.commands))
    alike: dict[tuple[int, ...], list[str]] = {}
    for row in tables.commands:
        alike.setdefault(row.statuses, []).append(row.word)
    yield table("docs/TRUST.md", "| Command | Statuses |", ([code(words), ", ".join(map(str, numbers))] for numbers, words in alike.items()))


def manual_page(tables: Tables) -> Iterator[Block]:
    """Three parts of the manual page."""
    parts = {
        "SYNOPSIS": (line for row in tables.commands for line in manual.synopsis(row)),
        "COMMANDS": (line for row in tables.commands for line in manual.described(row, tables.words)),
        "EXIT STATUS": manual.statuses(tables),
    }
    for title, lines in parts.items():
        yield marked("share/man/kuifje.1", '.\\"', title, lines)


def cells(row: Operator) -> tuple[str, ...]:
    """What stands after an operator in its table."""
    if row.args not in TAKES or row.result not in GIVES:
        raise Fault(f"tools/gate/tables_pages.py: no words for what {row.word} takes and gives: {', '.join(row.args)}, {row.result}")
    faults = ["the divisor is 0"] * row.div_zero + ["it isn't an i64"] * row.wide
    return str(row.level), TAKES[row.args], GIVES[row.result], ", or ".join(faults)


def operators(tables: Tables) -> Iterator[list[str]]:
    """By levels; those of one level that take and give the same share a row, where the first of them stands."""
    first = {cells(row): number for number, row in reversed(list(enumerate(tables.operators)))}
    ordered = sorted(tables.operators, key=lambda row: (row.level, first[cells(row)]))
    for after, rows in groupby(ordered, cells):
        yield [" ".join(f"`{row.text}`" + " before a number" * (row.level == MINUS) for row in rows), *after]


def language(tables: Tables) -> Iterator[Block]:
    """The tables of operators and of tokens."""
    page, words = "docs/LANGUAGE.md", {"signs": tables.signs, "reserved words": tables.own_words, "words of operators": tables.infix + tables.calls}
    yield table(page, "| Operator | Level | Takes | Gives | No value where |", operators(tables))
    yield table(page, "| Tokens | How they are written |", ([name, code(some, " ")] for name, some in words.items()))


# ---- statuses and refusals


def case_cells(number: int, case: Case) -> list[str]:
    """A row of the table of statuses."""
    where = f"{code(case.commands)}: {case.where}" if case.commands else case.where
    line = f"`{case.line}`" if case.line else "none"
    return [str(number), where, case.out, f"{line}, {case.note}" if case.note else line]


def anchor(heading: str) -> str:
    """A heading as links name it."""
    return re.sub(r"[^\w -]", "", heading.lower()).replace(" ", "-")


def paragraphs(page: str, heading: str) -> list[str]:
    """The paragraphs below a heading of the page on refusals, without its blocks."""
    parts = re.sub(r"^```.*?^```$", "", page, flags=re.DOTALL | re.MULTILINE).split(f"\n## {heading}\n")
    if len(parts) != 2:
        raise Fault(f"{EXPLAINED}: the heading {heading!r} stands there {len(parts) - 1} times, and not once")
    found = [" ".join(paragraph.split()) for paragraph in parts[1].split("\n## ")[0].split("\n\n")]
    return [paragraph for paragraph in found if paragraph]


def explanation(ending: str, below: list[str]) -> str:
    """What stands from a refusal's name in bold letters up to the next name, or to the paragraph's end; else the first paragraph. Without marks."""
    pieces = [piece for paragraph in below for piece in NAME.split(paragraph)]
    named = [piece for piece in pieces if (bold := re.match(r"\*\*(?:The )?`?(.*?)`?\*\*", piece)) and bold[1] == ending]
    text = (named or below)[0]
    text = re.sub(r"\[([^]]*)\]\([^)]*\)", r"\1", text).replace("**", "").replace("`", "").strip()
    return re.sub(r":$", ".", text)


def ending_cell(words: list[str]) -> str:
    """How lines end; the usage line, which isn't quoted on the page, by that name."""
    return "the usage line" if words == [USAGE] else code(words)


def refusals(tables: Tables) -> Iterator[Block]:
    """The tables of statuses and refusals, and the explanations for the Python package."""
    page, found = tables.text(EXPLAINED), tables.endings
    cases = (case_cells(status.number, case) for status in tables.statuses for case in status.case)
    yield table("docs/COMMANDS.md", "| Status | Comes where | `out` | Line on `err` |", cases)
    rows = ([ending_cell(words), str(number), f"[{section}](#{anchor(section)})"] for (number, section), words in found.items())
    yield table(EXPLAINED, "| Ends with | Status | See |", rows)
    explained = {
        f"{number} {word}": {"section": anchor(section), "text": explanation(word, paragraphs(page, section))}
        for (number, section), words in found.items()
        for word in words
    }
    yield Block("python/src/kuifje/refusals.json", tuple(json.dumps(explained, indent=1, ensure_ascii=False).split("\n")))
