"""Writes what is derived from the tables of commands, operators, reserved words and refusals, and compares what isn't.

    .ci/tables            ends with 1 where a file has something else than the tables say, and says where
    .ci/tables --write    writes what is derived first

The tables are share/commands.toml, share/keywords.toml and share/refusals.toml, the rows of crates/kf_ops, and for explanations of refusals the
page docs/REFUSALS.md (`tables_rows`). What is derived stands between two lines of a file, or is a whole file (`tables_blocks`): tables of pages and
parts of the manual page (`tables_pages`, `tables_manual`), completions, syntax files and the words of the Python package and of the page
(`tables_words`). A part that isn't found is a fault. The code's own rows, and what else names commands, operators and refusals, are compared row by
row (`tables_places`).
"""

from __future__ import annotations

import sys
from collections.abc import Iterator
from pathlib import Path

from . import tables_pages as pages
from .tables_blocks import Block
from .tables_places import faults_of_places
from .tables_rows import Fault, Tables
from .tables_words import words

TOP = Path(__file__).resolve().parents[2]


def written(tables: Tables) -> list[Block]:
    """All that is written, file by file."""
    return [*pages.commands(tables), *pages.manual_page(tables), *pages.language(tables), *pages.refusals(tables), *words(tables)]


def write(tables: Tables) -> Iterator[str]:
    """Writes it, all of it or nothing, and names the files that change."""
    texts: dict[str, str] = {}
    for block in written(tables):
        path = tables.top / block.name
        texts[block.name] = block.into(texts.get(block.name) or (tables.text(block.name) if path.exists() else ""))
    for name, text in texts.items():
        path = tables.top / name
        if not path.exists() or tables.text(name) != text:
            path.write_text(text, encoding="utf-8")
            yield name


def faults_of_blocks(tables: Tables) -> Iterator[str]:
    """Where something else stands than what is written."""
    for block in written(tables):
        try:
            yield from block.differences(tables.text(block.name))
        except Fault as error:
            yield str(error)


def run(top: Path, writes: bool) -> tuple[list[str], list[str]]:
    """The files that were written, and where a file differs from the tables."""
    try:
        tables = Tables(top)
        names = list(write(tables)) if writes else []
        return names, [*faults_of_blocks(tables), *faults_of_places(tables)]
    except Fault as error:
        return [], [str(error)]


def main(given: list[str]) -> int:
    """Compares, or writes and compares. Returns the status to end with."""
    if given not in ([], ["--write"]):
        print("tables: it takes no word but --write", file=sys.stderr)
        return 2
    names, faults = run(TOP, bool(given))
    for name in names:
        print(f"tables: {name} is written")
    for fault in faults:
        print(f"tables: {fault}", file=sys.stderr)
    return 1 if faults else 0


if __name__ == "__main__":
    sys.exit(main(sys.argv[1:]))
