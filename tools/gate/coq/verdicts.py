"""Confirms a dozen verdicts of the built program on examples, and sees that spoilt ones are refused.

    tools/run coq.verdicts PROGRAM

What each verdict is stands below. For each pair the certificate has to be accepted, as that. Then one digit is changed in each hyper, which
then has to be refused as no printed hyper; and the certificate is spoilt, by a digit of its matrix or by all gains of its table, and has to be
rejected. Of a yes and of a no coqc checks a file as well, and has to refuse the same file with one digit changed."""

from __future__ import annotations

import re
import sys
import tempfile
from collections.abc import Iterator, Sequence
from pathlib import Path

from ..program import Program, named
from ..repository import EXAMPLES
from .confirm import PROBABILITY, confirm, faults_by_coqc, printed, told, with_a_digit_changed
from .export import exported

VERDICTS = [
    ("pin.kf", "pin_whole.kf", "yes"),
    ("pin_whole.kf", "pin.kf", "no"),
    ("receipt_last.kf", "receipt_first.kf", "no"),
    ("receipt_first.kf", "receipt_last.kf", "no"),
    ("binary_search/halving.kf", "binary_search/equality.kf", "yes"),
    ("binary_search/equality.kf", "binary_search/halving.kf", "no"),
    ("monty_hall/forgetful.kf", "doors.kf", "yes"),
    ("doors.kf", "monty_hall/forgetful.kf", "no"),
    ("dining_cryptographers/unfair.kf", "dinner.kf", "yes"),
    ("geometric/one.kf", "geometric/strong.kf", "yes"),
    ("lottery/generator.kf", "lottery/fresh.kf", "yes"),
    ("tally/one.kf", "tally/winner.kf", "yes"),
]
BY_COQC = ("pin.kf", "pin_whole.kf"), ("receipt_last.kf", "receipt_first.kf")


# The first digit of an entry of a matrix.
ENTRY = r'"entries":\[\["\d+","\d+","(\d)'


def spoilt_certificate(text: str, verdict: str) -> str:
    """With another digit in one entry its row doesn't sum to 1; with gains of 0 alone neither hyper gains more than the other."""
    if verdict == "yes":
        return with_a_digit_changed(text, ENTRY)
    return re.sub(r'\["([^"]*)","-?\d+"\]', r'["\1","0"]', re.sub(r'"rest":"-?\d+"', '"rest":"0"', text))


def answer_of(*files: Path) -> str:
    """What kuifje-confirm says of these files."""
    return confirm(*files)[1].decode(errors="replace").strip()


def faults_of_pair(program: Program, folder: Path, a: str, b: str, verdict: str) -> Iterator[str]:
    """What is wrong with the verdict on two examples, and with refusals of what is spoilt."""
    hypers = [folder / "a.txt", folder / "b.txt"]
    for path, source in zip(hypers, (a, b)):
        path.write_bytes(printed(program, "hyper", EXAMPLES / source))
    cert = folder / "cert.json"
    text = printed(program, "refine", EXAMPLES / a, EXAMPLES / b, "--json").decode()
    cert.write_text(text)
    answer = answer_of(cert, *hypers)
    if answer != f"accepted {verdict}":
        yield f"{a} {b}: {answer}, where it is a {verdict}"
    if (a, b) in BY_COQC:
        yield from faults_by_coqc(folder / "verdict.v", f"{a} {b}", exported([cert, *hypers]))
    for path in hypers:
        whole = path.read_text()
        path.write_text(with_a_digit_changed(whole, PROBABILITY))
        answer = answer_of(cert, *hypers)
        if not answer.endswith("not a printed hyper"):
            yield f"{a} {b}: {answer}, with a digit changed in {path.name}"
        path.write_text(whole)
    cert.write_text(spoilt_certificate(text, verdict))
    answer = answer_of(cert, *hypers)
    if not answer.startswith("rejected "):
        yield f"{a} {b}: {answer}, with a spoilt certificate"


def main(words: Sequence[str]) -> None:
    """Tries all pairs."""
    if len(words) != 1:
        sys.exit(__doc__)
    program = named(words)
    with tempfile.TemporaryDirectory() as folder:
        faults = [fault for pair in VERDICTS for fault in faults_of_pair(program, Path(folder), *pair)]
    sys.exit(told(f"verdicts: {len(VERDICTS)}, ", faults))


if __name__ == "__main__":
    main(sys.argv[1:])
