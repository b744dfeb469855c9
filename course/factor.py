#!/usr/bin/env python3
"""The factor of differential privacy of what `kuifje channel` prints, as an exact fraction.

    kuifje channel FILE | python3 course/factor.py [neighbours]

For each column the greatest cell over the least one of two rows that are compared; the factor is the greatest of these quotients. All pairs of rows
are compared; with the word `neighbours`, each row and the next. Ends with 2 where the text is no channel.
"""

from __future__ import annotations

import sys
from fractions import Fraction
from itertools import combinations, pairwise

Row = list[Fraction]


def rows_of(text: str) -> list[Row]:
    """The rows of the matrix, each with its cells."""
    rows: list[Row] = []
    for line in text.splitlines():
        if line.startswith("row "):
            rows.append([])
        elif line.startswith("  "):
            rows[-1].append(Fraction(line))
    if not rows or any(sum(row) != 1 for row in rows):
        raise ValueError("no channel")
    return rows


def factor(rows: list[Row], only_neighbours: bool) -> Fraction | None:
    """The greatest quotient of two cells of a column, in rows that are compared. None where a cell above 0 is compared with 0."""
    greatest = Fraction(1)
    for one, other in pairwise(rows) if only_neighbours else combinations(rows, 2):
        for high, low in (sorted(cells, reverse=True) for cells in zip(one, other)):
            if high and not low:
                return None
            greatest = max(greatest, high / low if low else greatest)
    return greatest


def main() -> None:
    words = sys.argv[1:]
    if words not in ([], ["neighbours"]):
        print("factor.py: its one word is neighbours", file=sys.stderr)
        sys.exit(2)
    try:
        found = factor(rows_of(sys.stdin.read()), bool(words))
    except (ValueError, IndexError, ZeroDivisionError):
        print("factor.py: standard input isn't what kuifje channel prints", file=sys.stderr)
        sys.exit(2)
    print("factor", "infinite" if found is None else found)


if __name__ == "__main__":
    main()
