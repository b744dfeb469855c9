"""Tries the words of kuifje-confirm, files that are too long, and answers that can't be written.

    tools/run coq.words PROGRAM

Each number is one that `kuifje` takes, as a number of tries and of turns, or both refuse it. Of a program's text as many bytes are read as `kuifje`
reads, and of other files so many that a file without an end is refused. An answer that can't be written ends with 2 and `write failed`, whether
the device is full or the stream closed."""

from __future__ import annotations

import subprocess
import sys
import tempfile
from collections.abc import Iterator, Sequence
from pathlib import Path

from ..program import Program, Word, named, run
from ..repository import EXAMPLES
from .confirm import CONFIRM, printed, told

FILE = EXAMPLES / "first.kf"
TAKEN = ["1", "2", "01", "00016", "65535"]
REFUSED = [
    "0",
    "00000",
    "65536",
    "99999",
    "000001",
    "100000",
    "0x2",
    "0b11",
    "0o7",
    "0u3",
    "1_0",
    "1_",
    "_1",
    "+1",
    "-1",
    " 1",
    "1 ",
    "1.0",
    "1e1",
    "",
    "two",
    "\u0661",
    "\uff11",
    "1\n",
]
USAGE = "kuifje-confirm: usage: "
LONGEST, MORE = 1_048_576, 67_108_864
LONG = 120  # seconds that a run may take
Ended = tuple[int | None, str]  # status, and what stood on standard error


def ended(words: Sequence[Word], ends: str = "") -> Ended:
    """The status and what is on standard error, with as much stack as may be had; the streams end where a shell's words say so."""
    command = f'ulimit -s "$(ulimit -H -s)"; exec "$@" {ends}'
    done = run(["bash", "-c", command, "bash", *words], seconds=LONG)
    return done.status, done.message


def asked(words: Sequence[Word], ends: str = "") -> Ended:
    """The same of kuifje-confirm."""
    return ended([CONFIRM, *words], ends)


def line(words: Sequence[Word]) -> str:
    """Words as a line."""
    return " ".join(map(str, words))


def faults_of_numbers(program: Program) -> Iterator[str]:
    """Numbers of tries and of turns are taken where `kuifje` takes them, and refused where it refuses them."""
    for number in [*TAKEN, *REFUSED]:
        tries: list[list[Word]] = [["leak", FILE, f"tries:{number}"], ["leak", FILE, "--gain", f"tries:{number}"]]
        turns: list[list[Word]] = [["--turns", number, "hyper", FILE], ["hyper", FILE, f"--turns={number}"]]
        for ours, theirs in (tries, turns):
            status, said = asked(ours)
            wanted = 0 if number in TAKEN else 2
            if status != wanted or said.startswith(USAGE) != (wanted == 2) or ended([program.path, *theirs])[0] != wanted:
                yield f"{line(ours)}: status {status}, {said}"


def faults_of_words() -> Iterator[str]:
    """Other words are refused with the usage line."""
    wrong: list[list[Word]] = [
        [],
        ["hyper"],
        ["hyper", FILE, FILE, FILE],
        ["leak", FILE],
        ["leak", FILE, "bayes:1"],
        ["leak", FILE, "table:a.json"],
        ["texts", FILE, FILE, FILE, FILE],
        ["--turns", "5"],
        ["--turns"],
        ["covers", FILE],
    ]
    for words in wrong:
        status, said = asked(words)
        if status != 2 or not said.startswith(USAGE):
            yield f"{line(words)}: status {status}, {said}"


def faults_of_long_files(program: Program, folder: Path) -> Iterator[str]:
    """A program may be as long as `kuifje` takes it, and a file without an end is refused."""
    text = FILE.read_text()
    for length in (LONGEST, LONGEST + 1):
        path = folder / f"{length}.kf"
        path.write_text(text + "\n" * (length - len(text)))
        told, reason = (0, "") if length == LONGEST else (2, f"kuifje-confirm: {path}: longer than {LONGEST} bytes\n")
        if asked(["hyper", path]) != (told, reason) or (ended([program.path, "hyper", path])[0] == 0) != (told == 0):
            yield f"a program of {length} bytes: {asked(['hyper', path])}"
    endless: list[tuple[int, list[Word]]] = [
        (LONGEST, ["hyper", "/dev/zero"]),
        (LONGEST, ["leak", "/dev/zero", "bayes"]),
        (MORE, ["hyper", FILE, "/dev/zero"]),
        (MORE, ["/dev/zero", FILE, FILE]),
        (MORE, [FILE, "/dev/zero", FILE]),
        (LONGEST, ["texts", FILE, "/dev/zero", FILE]),
    ]
    for most, words in endless:
        if asked(words) != (2, f"kuifje-confirm: /dev/zero: longer than {most} bytes\n"):
            yield f"{line(words)}: {asked(words)}"


def faults_of_writes(program: Program, folder: Path) -> Iterator[str]:
    """A hyper, a long one of some pages, a report, a rejection and a verdict, each on a full device, on a closed stream and on a pipe that nobody
    reads."""
    long, hyper, wrong, cert = folder / "long.kf", folder / "printed.txt", folder / "wrong.txt", folder / "cert.json"
    long.write_text("var x : 0..9999 := uniform 0..9999;\nobserve x;\n")
    hyper.write_bytes(printed(program, "hyper", FILE))
    cert.write_bytes(printed(program, "refine", FILE, FILE, "--json"))
    wrong.write_text(f"{hyper.read_text()}\n")
    questions: list[tuple[int, list[Word]]] = [
        (0, ["hyper", FILE]),
        (0, ["hyper", long]),
        (0, ["leak", FILE, "bayes"]),
        (0, ["hyper", FILE, hyper]),
        (1, ["hyper", FILE, wrong]),
        (0, [cert, hyper, hyper]),
        (0, ["texts", cert, FILE, FILE]),
    ]
    for wanted, words in questions:
        if asked(words, ">/dev/null") != (wanted, ""):
            yield f"{line(words)}: {asked(words)}"
        for ends in (">/dev/full", ">&-", None):
            answer = asked(words, ends) if ends else after_a_reader(words)
            if answer != (2, "kuifje-confirm: write failed\n"):
                yield f"{line(words)} {ends or 'to a reader that is gone'}: {answer}"
        for ends in (">/dev/full 2>/dev/full", ">&- 2>&-"):
            if asked(words, ends) != (2, ""):
                yield f"{line(words)} {ends}: {asked(words, ends)}"


def after_a_reader(words: Sequence[Word]) -> Ended:
    """The status and standard error where the reader of a pipe is gone before anything is written."""
    with subprocess.Popen(["true"], stdin=subprocess.PIPE) as reader:
        reader.wait()
        done = run([CONFIRM, *words], seconds=LONG, stdout=reader.stdin)
        assert reader.stdin is not None
        reader.stdin.close()
    return done.status, done.message


def main(words: Sequence[str]) -> None:
    """Tries all."""
    if len(words) != 1:
        sys.exit(__doc__)
    program = named(words)
    with tempfile.TemporaryDirectory() as scratch:
        folder = Path(scratch)
        faults = [*faults_of_numbers(program), *faults_of_words(), *faults_of_long_files(program, folder), *faults_of_writes(program, folder)]
    sys.exit(told("words: ", faults))


if __name__ == "__main__":
    main(sys.argv[1:])
