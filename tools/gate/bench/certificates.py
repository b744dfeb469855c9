"""Checks certificates that are as large as one may be, and measures what that takes.

    tools/run bench.certificates [--program PATH] [--runs 3]

PATH is bin/kuifje where none is named. Each row has two programs, a certificate, the answer that is worked out here, and how many seconds
and megabytes it may take. Ends with 1 where another answer comes, or a run takes more."""

from __future__ import annotations

import argparse
import json
import sys
import tempfile
from dataclasses import dataclass
from pathlib import Path
from typing import Any

from ..program import program_at
from ..repository import BUILT
from .measured import measured

LARGEST = 1_048_576  # bytes that a certificate may have


def number(size: int, *statements: str) -> str:
    """A program about a number below `size`, all equally likely."""
    return "".join(f"{line}\n" for line in (f"var x : 0..{size - 1} := uniform 0..{size - 1};", *statements))


def neighbours(size: int) -> list[tuple[list[int], int]]:
    """The inners of `either_of`: what is left once y is seen, in the order of their values, with y."""
    return sorted((sorted((y, (y - 1) % size)), y) for y in range(size))


def either_of(size: int) -> str:
    """A number is seen, or the next one, each with 1/2."""
    return number(size, f"observe choose {{ x : 1, (x + 1) mod {size} : 1 }};")


def spread(size: int, last: str = "1/2") -> dict[str, Any]:
    """From each number half to each of the two inners that have it: two entries a row, of which the very last is `last`."""
    column = {y: j for j, (_, y) in enumerate(neighbours(size))}
    places = [(x, j) for x in range(size) for j in sorted((column[x], column[(x + 1) % size]))]
    entries = [[str(i), str(j), "1/2"] for i, j in places]
    entries[-1][2] = last
    return {"columns": str(size), "entries": entries, "format": "kuifje-cert-2", "rows": str(size), "verdict": "yes"}


def table(actions: list[dict[str, Any]]) -> dict[str, Any]:
    """The certificate of a no with these actions."""
    return {"actions": actions, "format": "kuifje-cert-2", "over": "1", "rest": "0", "verdict": "no"}


def guesses(count: int) -> dict[str, Any]:
    """As many guesses at one value, each an action."""
    return table([{"gains": [[str(k), "1"]], "name": "g"} for k in range(count)])


def idle(count: int) -> dict[str, Any]:
    """One guess, and actions that name no value."""
    return table([{"gains": [["0", "1"]], "name": "g"}] + [{"gains": [], "name": "g"}] * (count - 1))


def every(count: int) -> dict[str, Any]:
    """One action that names many values, and one that names none."""
    return table([{"gains": [[str(k), str(k % 3)] for k in range(count)], "name": "g"}, {"gains": [], "name": "h"}])


SHOWN, HIDDEN = number(50_000, "observe x;"), number(50_000, "skip;")
TEN_THOUSAND = number(10_000, "observe x;")


@dataclass(frozen=True)
class Row:
    """Two programs, a certificate, the answer, and how many seconds and megabytes it may take."""

    name: str
    first: str
    second: str
    certificate: dict[str, Any]
    answer: str
    seconds: float
    megabytes: float = 200


ROWS = [
    Row("yes, 20,000 entries", TEN_THOUSAND, either_of(10_000), spread(10_000), "accepted\n", 2),
    Row("the last entry too small", TEN_THOUSAND, either_of(10_000), spread(10_000, "1/3"), "rejected sum\n", 2),
    Row("no, 27,000 guesses", HIDDEN, SHOWN, guesses(27_000), "accepted\n", 10),
    Row("no, 43,000 actions, most of them idle", HIDDEN, SHOWN, idle(43_000), "rejected order\n", 10),
    Row("no, 43,000 values of one action", SHOWN, SHOWN, every(43_000), "rejected order\n", 10),
]


def is_passed(row: Row, program: Path, runs: int, folder: Path) -> bool:
    """Prints what the least of so many runs of a row takes, and whether it is what it has to be."""
    first, second, cert, out = (folder / name for name in ("first.kf", "second.kf", "cert.json", "out"))
    text = json.dumps(row.certificate, separators=(",", ":")) + "\n"
    assert len(text) <= LARGEST, row.name
    first.write_text(row.first)
    second.write_text(row.second)
    cert.write_text(text)
    found = []
    right = True
    for _ in range(runs):
        found.append(measured([program, "check", cert, first, second], out))
        right = right and out.read_text() == row.answer
    took, most = min(run.seconds for run in found), max(run.megabytes for run in found)
    within = took <= row.seconds and most <= row.megabytes
    verdict = "another answer" if not right else "" if within else f"more than {row.seconds} s or {row.megabytes} MB"
    print(f"{row.name}: {took:.2f} s, {most:.0f} MB  {verdict}".rstrip(), flush=True)
    return right and within


def main() -> None:
    """Measures all rows."""
    words = argparse.ArgumentParser(description=__doc__, formatter_class=argparse.RawDescriptionHelpFormatter)
    words.add_argument("--program", default=BUILT, type=Path)
    words.add_argument("--runs", type=int, default=3)
    asked = words.parse_args()
    with tempfile.TemporaryDirectory() as folder:
        passed = [is_passed(row, program_at(asked.program).path, asked.runs, Path(folder)) for row in ROWS]
    sys.exit(0 if all(passed) else 1)


if __name__ == "__main__":
    main()
