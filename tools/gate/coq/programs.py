"""Compares the hypers that kuifje prints with those of the second implementation, which is extracted from Coq's proofs.

    tools/run coq.programs PROGRAM          ten programs, with their leaks and wrong hypers of each, two verdicts on texts, and one theorem by coqc
    tools/run coq.programs PROGRAM --all    every program of the examples, the course and the cases

PROGRAM is kuifje. `kuifje-confirm hyper FILE` has to print the bytes of `kuifje hyper FILE`, and `kuifje-confirm leak FILE GAIN` those of
`kuifje leak FILE --gain GAIN`, for the gains of guesses. Of each program of the examples and the course three wrong hypers have to be rejected as
well: with another digit in a probability, in the scale, and in an outer probability. Each answer may take 60 seconds of a processor and 2 GB.
Where kuifje refuses a text, kuifje-confirm has to have no answer, or the refusal is for one of the bounds below, which are no part of a program's
meaning."""

from __future__ import annotations

import re
import resource
import sys
import tempfile
from collections import Counter
from collections.abc import Iterator, Sequence
from pathlib import Path

from ..case_files import every_case
from ..program import Program, named
from ..repository import COURSE, EXAMPLES
from .confirm import PROBABILITY, confirm, faults_by_coqc, printed, told, with_a_digit_changed
from .export import exported

Answered = tuple[int, bytes]
Count = Counter[str]
TEN = [
    "first.kf",
    "pin.kf",
    "doors.kf",
    "dinner.kf",
    "auction.kf",
    "receipt_last.kf",
    "erased_old.kf",
    "crowds/four.kf",
    "tally/winner.kf",
    "one_time_pad/twice.kf",
]
# A text with a digit changed in it, for the first hyper above.
CHANGED = ("observe x mod 2;", "observe x mod 3;")
TEXTS = [("pin.kf", "pin_whole.kf", "yes"), ("pin_whole.kf", "pin.kf", "no")]
GAINS = ["bayes", "tries:2", "guessing"]
SCALE, OUTER = r"\nscale (\d)", r"(?s:.*)\ninner \d+ outer (\d)"
BOUNDS = ("TypeTooLarge", "BadRange", "TooManyVariables", "StoreTooWide", "Long", "Deep", "Utf8", "Char")


def faults_of_wrong(folder: Path, path: Path, text: str) -> Iterator[str]:
    """Three wrong hypers of a program are rejected."""
    for name, pattern in (("probability", PROBABILITY), ("scale", SCALE), ("outer", OUTER)):
        wrong = folder / "wrong.txt"
        wrong.write_text(with_a_digit_changed(text, pattern))
        answer = confirm("hyper", path, wrong)
        if answer != (1, b"rejected\n"):
            yield f"{path}: {answer!r} of a hyper with another {name}"


def faults_of_leaks(program: Program, path: Path, count: Count) -> Iterator[str]:
    """The reports under the gains of guesses are the same bytes."""
    for gain in GAINS:
        theirs = printed(program, "leak", path, "--gain", gain)
        answer = confirm("leak", path, gain)
        count["leaks"] += 1
        if answer != (0, theirs):
            yield f"{path}: {answer} for --gain {gain}"


def refusal_is_known(theirs: str, ours: Answered) -> bool:
    """Where kuifje refuses a text: is there no answer here, or did a bound refuse it?"""
    return ours[0] == 2 or theirs.rsplit(" ", 1)[-1].strip() in BOUNDS or "passes 2^127 - 1" in theirs


def compare(program: Program, path: Path, count: Count) -> tuple[str | None, str | None]:
    """The printed hyper where both have it, and what is wrong."""
    theirs, ours = program.run("hyper", path), confirm("hyper", path)
    if theirs.status == 0 and ours == (0, theirs.out):
        count["same"] += 1
        return theirs.answer, None
    if theirs.status == 0 and ours[0] == 2:
        count["given up"] += 1
        return None, f"{path}: {ours[1].decode(errors='replace').strip()}"
    if theirs.status != 0 and refusal_is_known(theirs.message, ours):
        count["refused"] += 1
        return None, None
    return None, f"{path}: another answer: {ours[1][:200]!r}"


def ten(program: Program, folder: Path) -> tuple[Count, list[str]]:
    """Compares ten programs, two verdicts on texts, and has coqc check a theorem."""
    count: Count = Counter()
    faults: list[str] = []
    for name in TEN:
        path = EXAMPLES / name
        text, fault = compare(program, path, count)
        faults += [fault or f"{path}: refused"] if text is None else [*faults_of_wrong(folder, path, text), *faults_of_leaks(program, path, count)]
    hyper, changed = folder / "first.txt", folder / "changed.kf"
    first = EXAMPLES / TEN[0]
    hyper.write_bytes(printed(program, "hyper", first))
    changed.write_text(first.read_text().replace(*CHANGED))
    if confirm("hyper", changed, hyper) != (1, b"rejected\n"):
        faults.append("a hyper is accepted for a program with a digit changed")
    for a, b, verdict in TEXTS:
        files = [EXAMPLES / name for name in (a, b)]
        cert = folder / "cert.json"
        cert.write_bytes(printed(program, "refine", *files, "--json"))
        answer = confirm("texts", cert, *files)
        if answer != (0, f"accepted {verdict}\n".encode()):
            faults.append(f"{a} {b}: {answer!r}")
    faults += faults_by_coqc(folder / "program.v", str(first), exported([first, hyper]))
    return count, faults


# ---- all of them


def case_texts() -> Iterator[bytes]:
    """The files of the cases that may be programs, each once."""
    seen: set[bytes] = set()
    for _, case in every_case():
        for _, text in case.files:
            if re.search(rb"\b(var|vis)\b", text) and len(text) <= 2**20 and text not in seen:
                seen.add(text)
                yield text


def processor_seconds() -> float:
    """What all processes that were started have taken."""
    return resource.getrusage(resource.RUSAGE_CHILDREN).ru_utime


def every(program: Program, folder: Path) -> tuple[Count, list[str]]:
    """Compares all programs of the examples, the course and the cases."""
    count: Count = Counter()
    faults: list[str] = []
    slowest = (0.0, "none")
    for path in sorted(EXAMPLES.rglob("*.kf")) + sorted(COURSE.rglob("*.kf")):
        before = processor_seconds()
        text, fault = compare(program, path, count)
        slowest = max(slowest, (processor_seconds() - before, path.name))
        if fault is not None:
            faults.append(fault)
        elif text is not None:
            faults += [*faults_of_wrong(folder, path, text), *faults_of_leaks(program, path, count)]
    print("examples and course:", dict(count), f"slowest {slowest[1]} {slowest[0]:.1f} s", flush=True)
    cases: Count = Counter()
    for text_of_case in case_texts():
        path = folder / "case.kf"
        path.write_bytes(text_of_case)
        fault = compare(program, path, cases)[1]
        if fault is not None:
            faults.append(f"{fault} ({text_of_case[:80]!r})")
    print("cases:", dict(cases), flush=True)
    return count + cases, faults


def main(words: Sequence[str]) -> None:
    """Compares ten programs, or all."""
    if len(words) not in (1, 2) or words[1:] not in ([], ["--all"]):
        sys.exit(__doc__)
    program = named(words)
    with tempfile.TemporaryDirectory() as folder:
        count, faults = (every if words[1:] else ten)(program, Path(folder))
    sys.exit(told(f"programs: {dict(count)}, ", faults))


if __name__ == "__main__":
    main(sys.argv[1:])
