"""Counts what one has to believe of the definitions: lines, without blank ones and comments, and tokens, which no way of writing makes fewer. Fails
where a file has more than it may; there is room for some operators and rules more, and README.md has the numbers as they are."""

from __future__ import annotations

import re
import sys

from .confirm import AUDIT

MOST = {"Hypers.v": (110, 2000), "Language.v": (400, 9000), "Leaks.v": (40, 700)}  # lines and tokens
TOKEN = re.compile(r"""\"(?:[^"]|"")*"|\w[\w']*(?:\.\w[\w']*)*|[-:=<>/\\+*&|~?]+|\S""")


def without_comments(text: str) -> str:
    """The text of a file of Coq without its comments, which may stand in one another."""
    while True:
        shorter = re.sub(r"\(\*(?:(?!\(\*|\*\)).)*\*\)", "", text, flags=re.DOTALL)
        if shorter == text:
            return text
        text = shorter


def main() -> None:
    """Counts, and compares with what may be and with what the page says."""
    files = sorted((AUDIT / "definitions").glob("*.v"))
    fault = {path.name for path in files} != set(MOST)
    readme = " ".join((AUDIT / "README.md").read_text().split())
    for path in files:
        text = without_comments(path.read_text())
        lines, tokens = sum(bool(line.strip()) for line in text.splitlines()), len(TOKEN.findall(text))
        most = MOST.get(path.name, (0, 0))
        print(f"{path.name}: {lines} lines to believe, of at most {most[0]}, and {tokens:,} tokens, of at most {most[1]:,}")
        fault = fault or lines > most[0] or tokens > most[1]
        if f"{lines} lines and {tokens:,} tokens" not in readme:
            print(f"{path.name}: README.md doesn't say that it has {lines} lines and {tokens:,} tokens")
            fault = True
    sys.exit(1 if fault else 0)


if __name__ == "__main__":
    main()
