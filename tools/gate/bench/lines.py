"""Compares what `lines` takes with what `hyper` takes, on the programs of examples/ and those of programs.py.

    tools/run bench.lines [--program PATH] [--runs 3] [--only NAME,..]     processor seconds and megabytes at their peak of the built program
    tools/run bench.lines --steps [--only NAME,..]                         steps and columns, counted by a plain program; no built one is needed

The built program is bin/kuifje where none is named; each cell is the least of so many runs. A line is the time of `lines` over the number
of rows that it prints: the whole program and each line are pushed once. A time below 5 ms is mostly the start of a process, and memory
below some 11 MB is Python's, which starts it: neither is judged.

The plain program is steps.py, which says what a step is.

Ends with 1 where a line takes more than 1.6 times what `hyper` takes, or more columns at once, or `lines` more than three times its
memory."""

from __future__ import annotations

import argparse
import os
import sys
import tempfile
from collections.abc import Sequence
from dataclasses import dataclass
from pathlib import Path

from ..program import Word, program_at
from ..repository import BUILT, EXAMPLES, TOP
from .measured import machine, measured
from .programs import ROWS

MOST_TIME, MOST_MEMORY = 1.6, 3
SHORTEST, LEAST_MEMORY = 0.005, 12  # seconds and megabytes below which nothing is judged
MEGABYTES = 4000  # of address space that a run may have
Programs = Sequence[tuple[str, str]]  # names and texts


# ---- steps and columns


def count(programs: Programs) -> bool:
    """Prints the table of steps. Gives whether all is as it has to be."""
    from .steps import MOST_STEPS, TooMany, counted  # what measures loads little

    print("| program | lines | steps of `hyper` | steps of the worst line | times | columns of `hyper` | of a line, at most |")
    print("| --- | --- | --- | --- | --- | --- | --- |")
    worst, right, ran = 0.0, True, 0
    left_out: list[str] = []
    for name, text in programs:
        try:
            steps, columns, most_steps, most_columns, answers = counted(text)
        except TooMany:
            left_out.append(name)
            continue
        ran += 1
        times = most_steps / max(steps, 1)
        worst, right = max(worst, times), right and times <= MOST_TIME and most_columns <= columns
        print(f"| {name} | {len(answers) - 1} | {steps} | {most_steps} | {times:.2f} | {columns} | {most_columns} |", flush=True)
    print(f"\n{ran} programs: a line takes at most {worst:.2f} times the steps of `hyper`")
    print(f"left out, with more than {MOST_STEPS} steps: {', '.join(left_out) or 'none'}")
    return right


# ---- seconds and megabytes


@dataclass(frozen=True)
class Least:
    """The least processor seconds and the least megabytes of some runs, with the last status."""

    seconds: float
    megabytes: float
    status: int

    def __str__(self) -> str:
        return f"status {self.status}" if self.status else f"{self.seconds:.3f} / {self.megabytes:.0f}"


def least(runs: int, words: Sequence[Word], out: Path) -> Least:
    """The least of so many runs."""
    found = [measured(words, out, megabytes=MEGABYTES) for _ in range(runs)]
    return Least(min(run.processor for run in found), min(run.megabytes for run in found), found[-1].status)


@dataclass(frozen=True)
class Row:
    """A program's row, where it is long or large enough for one, and whether it is as it has to be."""

    text: str | None
    right: bool


def row(name: str, hyper: Least, lines: Least, rows: int) -> Row:
    """What `lines`, which printed so many rows, takes beside `hyper`."""
    if hyper.status or lines.status:
        return Row(f"| {name} | | {hyper} | {lines} | | |", hyper.status != 0)
    is_long, is_large = min(lines.seconds, hyper.seconds) >= SHORTEST, lines.megabytes >= LEAST_MEMORY
    times, memory = lines.seconds / rows / hyper.seconds if is_long else 0, lines.megabytes / hyper.megabytes
    right = times <= MOST_TIME and not (is_large and memory > MOST_MEMORY)
    if not is_long and not is_large:
        return Row(None, right)
    told = f"{times:.2f}" if is_long else "short"
    return Row(f"| {name} | {rows - 1} | {hyper} | {lines} | {told} | {memory:.2f} |", right)


def measure(programs: Programs, program: Path, runs: int) -> bool:
    """Prints the table of seconds and megabytes. Gives whether all is as it has to be."""
    print(f"{machine()}, load {os.getloadavg()[0]:.1f}\n")
    print("| program | lines | `hyper` s / MB | `lines` s / MB | a line, times `hyper` | memory, times `hyper` |")
    print("| --- | --- | --- | --- | --- | --- |")
    right, short = True, 0
    with tempfile.TemporaryDirectory() as folder:
        path, out = Path(folder) / "p.kf", Path(folder) / "out"
        for name, text in programs:
            path.write_text(text)
            hyper, lines = (least(runs, [program, command, path], out) for command in ("hyper", "lines"))
            found = row(name, hyper, lines, out.read_bytes().count(b"\n"))
            right, short = right and found.right, short + (found.text is None)
            if found.text is not None:
                print(found.text, flush=True)
    print(f"\nof {short} more programs `hyper` or `lines` takes less than {SHORTEST} s, and both less than {LEAST_MEMORY} MB")
    return right


def main() -> None:
    """Measures or counts."""
    words = argparse.ArgumentParser(description=__doc__, formatter_class=argparse.RawDescriptionHelpFormatter)
    words.add_argument("--program", default=BUILT, type=Path)
    words.add_argument("--runs", type=int, default=3)
    words.add_argument("--steps", action="store_true")
    words.add_argument("--only", default="")
    asked = words.parse_args()
    made = [(f"{maker.__name__} {size}", maker(size)) for maker, sizes in ROWS for size in sizes]
    stored = [(str(path.relative_to(TOP)), path.read_text()) for path in sorted(EXAMPLES.rglob("*.kf"))]
    programs = [(name, text) for name, text in stored + made if not asked.only or any(part in name for part in asked.only.split(","))]
    sys.exit(0 if (count(programs) if asked.steps else measure(programs, program_at(asked.program).path, asked.runs)) else 1)


if __name__ == "__main__":
    main()
