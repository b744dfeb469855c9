"""Runs of kuifje-confirm, and of coqc on files that export.py writes."""

from __future__ import annotations

import re
import resource
from collections.abc import Iterator
from pathlib import Path

from ..program import Outcome, Program, Word, run
from ..repository import TOP

AUDIT = TOP / "audit" / "coq"
CONFIRM = AUDIT / "confirm" / "kuifje-confirm"
SECONDS, BYTES = 60, 2 * 2**30

# The first digit of a value's probability in a hyper.
PROBABILITY = r"\n  .* (\d)"


def limits() -> None:
    """As much stack as may be had, 2 GB in all, and 60 seconds of a processor, however much else it does."""
    hard = resource.getrlimit(resource.RLIMIT_STACK)[1]
    resource.setrlimit(resource.RLIMIT_STACK, (BYTES if hard == resource.RLIM_INFINITY else hard, hard))
    resource.setrlimit(resource.RLIMIT_AS, (BYTES, BYTES))
    resource.setrlimit(resource.RLIMIT_CPU, (SECONDS, SECONDS))


def confirm(*words: Word) -> tuple[int, bytes]:
    """The status of kuifje-confirm, and its answer, or its message where it has no answer, with the status 2."""
    done = run([CONFIRM, *words], seconds=None, before=limits)
    if done.status is None or done.status < 0:
        return 2, f"ended by signal {-(done.status or 0)}".encode()
    return done.status, (done.out if done.status < 2 else done.err) or b""


def printed(program: Program, *words: Word) -> bytes:
    """What the program prints."""
    return program.run(*words).out or b""


def with_a_digit_changed(text: str, pattern: str) -> str:
    """The text with the digit that the pattern's group finds first made the next one. Raises ``ValueError`` where there is none."""
    found = re.search(pattern, text)
    if found is None:
        raise ValueError(f"nowhere {pattern}")
    at = found.start(1)
    return text[:at] + str((int(text[at]) + 1) % 10) + text[at + 1 :]


def coqc(path: Path) -> Outcome:
    """Has Coq check a file."""
    return run(["coqc", "-q", "-R", ".", "Kuifje", path], folder=AUDIT, seconds=None)


def faults_by_coqc(path: Path, what: str, text: bytes) -> Iterator[str]:
    """The file's theorem is proved, and isn't with one digit changed."""
    path.write_bytes(text)
    done = coqc(path)
    if done.status != 0 or "Closed under the global context" not in done.answer:
        yield f"{what}: coqc says {done.answer + done.message}"
    path.write_bytes(with_a_digit_changed(text.decode("latin-1"), PROBABILITY).encode("latin-1"))
    if coqc(path).status == 0:
        yield f"{what}: coqc takes a file with a digit changed"


def told(what: str, faults: list[str]) -> int:
    """Prints faults and how many these are, below what was tried. The status of that: 1 where there are some."""
    print(*faults, sep="\n", end="\n" if faults else "")
    print(f"{what}faults: {len(faults)}")
    return 1 if faults else 0
