"""Measures the built program on programs that grow: seconds and megabytes at their peak, for each program and command.

    tools/run bench.run [--program PATH] [--beside PATH] [--only NAME,..] [--commands hyper,leak] [--runs 3]

PATH is bin/kuifje where none is named. Beside another program, as one that was built before a change, it shows both with their ratios, and
ends with 1 where the two print different bytes. A cell is the least of so many runs. Memory is told from some 11 MB on, which Python takes
itself where it starts a program. Nothing else should be at work on the machine."""

from __future__ import annotations

import argparse
import math
import sys
import tempfile
from collections.abc import Iterator, Sequence
from dataclasses import dataclass, field
from pathlib import Path

from ..program import Word, program_at
from ..repository import BUILT
from .measured import Measured, measured
from .programs import ROWS

MORE_WORDS = {"leak": ["--gain", "bayes"]}


def cell(run: Measured) -> str:
    """What a run took."""
    if run.status != 0:
        return "too long" if run.status < 0 else f"status {run.status}"
    return f"{run.seconds:.3f} / {run.megabytes:.0f}"


def least(runs: int, words: Sequence[Word], out: Path) -> Measured:
    """The quickest of so many runs."""
    return min((measured(words, out) for _ in range(runs)), key=lambda run: run.seconds)


def mean(ratios: Sequence[float]) -> float:
    """The geometric mean."""
    return math.exp(sum(map(math.log, ratios)) / len(ratios))


@dataclass
class Rows:
    """The rows of the table, and what was found beside another program: ratios of time and of memory, and whether it prints other bytes."""

    folder: Path
    runs: int
    times: list[float] = field(default_factory=list)
    memories: list[float] = field(default_factory=list)
    differ: bool = False

    def row(self, head: str, words: Sequence[Word], program: Path, beside: Path | None) -> str:
        """The row of a question."""
        out, other_out = self.folder / "out", self.folder / "other"
        ours = least(self.runs, [program, *words], out)
        line = f"{head} {cell(ours)} |"
        if beside is None:
            return line
        other = least(self.runs, [beside, *words], other_out)
        line += f" {cell(other)} |"
        if ours.status == other.status == 0:
            self.times.append(ours.seconds / other.seconds)
            self.memories.append(ours.megabytes / other.megabytes)
            line += f" {self.times[-1]:.2f} | {self.memories[-1]:.2f} |"
            if out.read_bytes() != other_out.read_bytes():
                self.differ, line = True, f"{line} different bytes"
        return line


def questions(only: Sequence[str], commands: Sequence[str], file: Path) -> Iterator[tuple[str, list[Word]]]:
    """The head of each row, and its words; the program is left in the file."""
    for made, sizes in ROWS:
        for size in sizes if made.__name__ in only else ():
            file.write_text(made(size))
            for command in commands:
                yield f"| {made.__name__} | {size} | {command} |", [command, file, *MORE_WORDS.get(command, [])]


def main() -> None:
    """Prints the table."""
    words = argparse.ArgumentParser(description=__doc__, formatter_class=argparse.RawDescriptionHelpFormatter)
    words.add_argument("--program", default=BUILT, type=Path)
    words.add_argument("--beside", type=Path)
    words.add_argument("--only", default=",".join(made.__name__ for made, _ in ROWS))
    words.add_argument("--commands", default="hyper,leak")
    words.add_argument("--runs", type=int, default=3)
    asked = words.parse_args()
    program, beside = program_at(asked.program).path, program_at(asked.beside).path if asked.beside else None
    print("| program | size | command | s / MB |" + (" beside | time | memory |" if asked.beside else ""))
    print("| --- " * (7 if asked.beside else 4) + "|")
    with tempfile.TemporaryDirectory() as folder:
        rows = Rows(Path(folder), asked.runs)
        for head, question in questions(asked.only.split(","), asked.commands.split(","), rows.folder / "p.kf"):
            print(rows.row(head, question, program, beside), flush=True)
    if rows.times:
        print(f"\ngeometric mean: {mean(rows.times):.2f} of the time and {mean(rows.memories):.2f} of the memory")
    sys.exit(rows.differ)


if __name__ == "__main__":
    main()
