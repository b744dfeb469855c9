"""Throws bad texts, bad files and little memory at the built program, and says what it saw.

    tools/run hostile.run [--program bin/kuifje] [--runs 100000] [--seed 1]

Ends with 1 where the program ended with a status that docs/COMMANDS.md doesn't have, said on standard error what isn't there, wrote
to standard output beside a refusal, took more than a minute, or answered something else than a case is to be answered."""

from __future__ import annotations

import argparse
import sys
import tempfile
from collections.abc import Callable
from pathlib import Path

from ..program import program_at
from ..repository import BUILT, EXAMPLES
from .files import try_files
from .memory import try_memory
from .report import Report
from .texts import try_texts


def main() -> None:
    """Tries all, and says what was seen."""
    arguments = argparse.ArgumentParser(description=__doc__, formatter_class=argparse.RawDescriptionHelpFormatter)
    arguments.add_argument("--program", default=BUILT, type=Path)
    arguments.add_argument("--runs", type=int, default=100_000)
    arguments.add_argument("--seed", type=int, default=1)
    asked = arguments.parse_args()
    program, faults = program_at(asked.program), 0
    with tempfile.TemporaryDirectory() as scratch:
        folder = Path(scratch)

        def tried_texts(report: Report) -> str:
            return try_texts(program, report, EXAMPLES, folder / "texts", asked.runs, asked.seed)

        tries: dict[str, Callable[[Report], str]] = {
            "files": lambda report: try_files(program, report, folder / "files"),
            "memory": lambda report: try_memory(program, report, folder / "memory"),
            "texts": tried_texts,
        }
        for name, trial in tries.items():
            report = Report()
            report.tell(name, trial(report))
            faults += report.faults
    print("nothing that isn't documented" if faults == 0 else f"{faults} faults")
    sys.exit(1 if faults else 0)


if __name__ == "__main__":
    main()
