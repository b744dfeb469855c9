"""Files: what is no file, what can't be read or written, and what ends early."""

from __future__ import annotations

import os
import threading
from collections.abc import Callable, Iterator, Sequence
from pathlib import Path

from ..program import Outcome, Program
from .report import Report

Words = Sequence[str]

CERTIFICATE = (
    b'{"columns":"2","entries":[["0","0","1"],["1","1","1"],["2","0","1"],["3","1","1"]],' b'"format":"kuifje-cert-2","rows":"4","verdict":"yes"}\n'
)
SHOWN = b"var x : 0..3 := uniform 0..3;\nobserve x;\n"
PARITY = b"var x : 0..3 := uniform 0..3;\nobserve x mod 2;\n"
READ_FAILED, WRITE_FAILED = 3, 4


def made(folder: Path) -> Path:
    """The files of the cases."""
    folder.mkdir()
    (folder / "p.kf").write_bytes(SHOWN)
    (folder / "q.kf").write_bytes(PARITY)
    (folder / "c.json").write_bytes(CERTIFICATE)
    (folder / "empty").write_bytes(b"")
    (folder / "long").write_bytes(b" " * 1_048_577)
    (folder / "folder").mkdir()
    (folder / "closed").write_bytes(SHOWN)
    (folder / "closed").chmod(0)
    (folder / "circle").symlink_to("circle")
    (folder / "a\nb").write_bytes(SHOWN)
    os.mkfifo(folder / "fifo")
    return folder


def reads(folder: Path) -> Iterator[tuple[list[str], set[int]]]:
    """Words, and the statuses that they may end with."""
    yield ["hyper", "folder"], {READ_FAILED}
    yield ["hyper", "missing"], {READ_FAILED}
    yield ["hyper", "missing/p.kf"], {READ_FAILED}
    yield ["hyper", "p.kf/q.kf"], {READ_FAILED}
    yield ["hyper", ""], {READ_FAILED}
    yield ["hyper", "circle"], {READ_FAILED}
    yield ["hyper", "n" * 5_000], {READ_FAILED}
    yield ["hyper", "closed"], {0} if os.access(folder / "closed", os.R_OK) else {READ_FAILED}
    yield ["hyper", "a\nb"], {0}
    yield ["hyper", "empty"], {5}
    yield ["hyper", "/dev/null"], {5}
    yield ["hyper", "/dev/zero"], {11}
    yield ["hyper", "long"], {11}
    yield ["leak", "p.kf", "--gain", "table:folder"], {READ_FAILED}
    yield ["leak", "p.kf", "--gain", "table:long"], {11}
    yield ["refine", "p.kf", "folder"], {READ_FAILED}
    yield ["check", "folder", "p.kf", "q.kf"], {READ_FAILED}
    yield ["check", "/dev/zero", "p.kf", "q.kf"], {11}
    yield ["check", "c.json", "p.kf", "q.kf"], {0}
    yield ["hyper", os.fsdecode(b"\xff")], {2}
    yield [], {2}


def writes() -> Iterator[list[str]]:
    """Words of commands that answer."""
    yield ["hyper", "p.kf"]
    yield ["refine", "p.kf", "q.kf"]
    yield ["refine", "p.kf", "q.kf", "--json"]
    yield ["check", "c.json", "p.kf", "q.kf"]
    yield ["make", "3"]


def closing(number: int) -> Callable[[], None]:
    """Closes one of the three streams before the program begins."""
    return lambda: os.close(number)


def to_nobody(program: Program, words: Words, folder: Path) -> Outcome:
    """The reader of the answer is gone before it is written."""
    reader, writer = os.pipe()
    os.close(reader)
    with os.fdopen(writer, "wb", buffering=0) as out:
        outcome = program.run(*words, folder=folder, stdout=out)
    return outcome


def through_fifo(program: Program, words: Words, folder: Path, text: bytes) -> Outcome:
    """A fifo, which somebody else writes in two pieces."""

    def write() -> None:
        with open(folder / "fifo", "wb", buffering=0) as fifo:
            fifo.write(text[:20])
            fifo.write(text[20:])

    writer = threading.Thread(target=write, daemon=True)
    writer.start()
    outcome = program.run(*words, folder=folder)
    writer.join(5)
    return outcome


def try_files(program: Program, report: Report, folder: Path) -> str:
    """Tries files that can't be read or written, and says how many cases these are."""
    made(folder)
    cases = 0

    def seen(outcome: Outcome, case: str, wanted: set[int]) -> None:
        nonlocal cases
        cases += 1
        report.add(outcome, case, None, wanted)

    for words, wanted in reads(folder):
        seen(program.run(*words, folder=folder), f"words {words!r:.80}", wanted)
    for words in writes():
        with open("/dev/full", "wb", buffering=0) as full:
            seen(program.run(*words, folder=folder, stdout=full), f"{words} to a full device", {WRITE_FAILED})
            seen(program.run(*words, folder=folder, stderr=full), f"{words} with a full device for errors", {0, 1})
        seen(program.run(*words, folder=folder, stdout=None, before=closing(1)), f"{words}, nothing to write on", {WRITE_FAILED})
        seen(program.run(*words, folder=folder, stderr=None, before=closing(2)), f"{words}, no errors to write on", {0, 1})
        seen(program.run(*words, folder=folder, stdin=None, before=closing(0)), f"{words}, nothing to read from", {0, 1})
        seen(to_nobody(program, words, folder), f"{words} to nobody", {WRITE_FAILED})
    with open("/dev/full", "wb", buffering=0) as full:
        seen(program.run("hyper", "empty", folder=folder, stderr=full), "a fault that can't be told", {5})
    seen(through_fifo(program, ["hyper", "fifo"], folder, SHOWN), "a program from a fifo", {0})
    seen(through_fifo(program, ["hyper", "fifo"], folder, b""), "an empty fifo", {5})
    seen(through_fifo(program, ["check", "fifo", "p.kf", "q.kf"], folder, CERTIFICATE), "a certificate from a fifo", {0})
    seen(through_fifo(program, ["check", "fifo", "p.kf", "q.kf"], folder, CERTIFICATE[:30]), "half a certificate from a fifo", {9})
    return f"{cases} cases"
