"""Texts: programs and texts that try the program's stack and its limits, cut, and with bytes changed, dropped and doubled."""

from __future__ import annotations

import random
from collections.abc import Sequence
from concurrent.futures import ThreadPoolExecutor
from os import cpu_count
from pathlib import Path

from ..program import Program
from .report import Report

LONG = 1_000_000  # bytes of a long text, which is just below the limit of a file
CUTS = 1_000  # of a long text
PARTS = 64  # into which the changed programs are parted


def filled(front: str, piece: str, back: str = "") -> str:
    """The piece so often that the text is about as long as a file may be."""
    return front + piece * ((LONG - len(front) - len(back)) // len(piece)) + back


def deep_type() -> str:
    """A type as deep as one can be: one bracket more a level, and before it as many sets as leave room for it."""
    opened = "".join("set of " * (63 - level) + "(" for level in range(64))
    return "var x : " + opened + "bool" + ", bool)" * 64 + " := 0;"


def long_texts() -> dict[str, str]:
    """Texts that are deep or as long as a text may be, by what they are."""
    some = "var x : 0..3 := uniform 0..3;\n"
    return {
        "64 brackets": some + "observe " + "(" * 64 + "x" + ")" * 64 + ";",
        "65 brackets": some + "observe " + "(" * 65 + "x" + ")" * 65 + ";",
        "2,000 nested types": deep_type(),
        "500,000 nodes": filled("var x : 0..3 := 0", "+0", ";"),
        "a thousand nodes": "var x : 0..3 := 0" + "+0" * 499 + ";",
        "parts of parts": filled("var x : 0..3 := x", ".0", ";"),
        "a long set": filled(some + "observe {0", ",0", "};"),
        "a long choice": filled(some + "x := choose {0:1", ",1:1", "};"),
        "ifs one in the other": filled(some, "if x=1{"),
        "ifs one after the other": filled(some, "if x=1{}else{}"),
        "64 whiles one in the other": some + "while x>0{" * 63 + "x:=x-1;" + "}" * 63,
        "whiles one after the other": filled(some, "while x<0{}"),
        "minus signs": filled(some + "observe ", "-"),
        "nots": filled(some + "observe ", "not "),
        "declarations": filled("", "var x:bool:=true;"),
        "names": "".join(f"vis v{n}:0..1:=0;" for n in range(50_000)),
        "one name": filled("var ", "a", ":bool:=true;"),
        "opening brackets": filled(some + "observe ", "("),
        "closing brackets": filled(some, ")"),
        "braces": filled(some, "{"),
        "digits": filled(some + "observe ", "0", ";"),
        "a comment": filled(some + "#", "a"),
        "blanks": filled(some, " "),
        "observations": filled(some, "observe x;"),
        "assignments": filled(some + "vis y:0..3:=0;", "y:=x;"),
        "nothing": filled("", "skip;"),
        "letters of two bytes": filled(some + "#", "\N{LATIN SMALL LETTER E WITH ACUTE}")[: LONG // 2],
    }


def changed(whole: bytes, chance: random.Random) -> bytes:
    """The text with one to four bytes, or pieces, changed, dropped or doubled."""
    text = bytearray(whole)
    for _ in range(chance.randint(1, 4)):
        at = chance.randrange(len(text) + 1)
        end = min(len(text), at + chance.choice((1, 1, 1, 2, 5, 20)))
        kind = chance.randrange(4)
        if kind == 0:
            text[at:end] = bytes(chance.choice(b";:=.,(){}+-*/<>! 019xyifvarbool#\n\xff\x00") for _ in range(end - at))
        elif kind == 1:
            del text[at:end]
        elif kind == 2:
            text[at:at] = text[at:end]
        else:
            start = chance.randrange(len(text) + 1)
            text[at:end] = text[start : start + 20]
    return bytes(text)


def words_for(number: int) -> list[str]:
    """The commands in turn, each on the one file."""
    commands = (
        ["hyper", "p.kf"],
        ["traces", "p.kf", "--turns", "5"],
        ["channel", "p.kf", "--turns", "5"],
        ["trail", "p.kf"],
        ["leak", "p.kf", "--gain", "bayes"],
        ["leak", "p.kf", "--gain", "table:p.kf"],
        ["refine", "p.kf", "p.kf", "--turns", "20"],
        ["check", "p.kf", "p.kf", "p.kf"],
        ["capacity", "p.kf", "--turns", "5"],
        ["cascade", "p.kf", "p.kf", "--turns", "5"],
        ["parallel", "p.kf", "p.kf", "--turns", "5"],
        ["choice", "p.kf", "p.kf", "1/3", "--turns", "5"],
        ["attack", "p.kf", "--gain", "guessing"],
        ["reach", "p.kf", "1/2"],
        ["covers", "p.kf", "p.kf", "--turns", "20"],
        ["quiet", "p.kf", "0..1"],
        ["blame", "p.kf"],
    )
    return commands[number % len(commands)]


def cuts(text: bytes) -> list[Sequence[int]]:
    """Lists of places that fall: every place of a short text in one, and a thousand of a long one in ten, which several workers share."""
    if len(text) <= CUTS:
        return [range(len(text), -1, -1)]
    places = [len(text) * k // CUTS for k in range(CUTS, -1, -1)]
    share = len(places) // 10 + 1
    return [places[start : start + share] for start in range(0, len(places), share)]


class Tries:
    """Runs over files that one worker has to itself."""

    def __init__(self, program: Program, report: Report, folder: Path) -> None:
        self.program, self.report, self.folder = program, report, folder
        folder.mkdir()
        self.file = folder / "p.kf"

    def run(self, words: Sequence[str], case: str, bytes_: bytes) -> None:
        """A run of the file, which has these bytes."""
        outcome = self.program.run(*words, folder=self.folder)
        self.report.add(outcome, case, bytes_)

    def cut(self, name: str, text: bytes, places: Sequence[int]) -> None:
        """The text cut at these places, which fall, so that it is written once."""
        self.file.write_bytes(text)
        for number, place in enumerate(places):
            with self.file.open("r+b") as file:
                file.truncate(place)
            self.run(words_for(number) if len(text) <= CUTS else ["hyper", "p.kf"], f"{name}, cut at {place}", text[:place])

    def change(self, programs: Sequence[tuple[str, bytes]], seed: str, count: int) -> None:
        """Runs so many changed programs."""
        chance = random.Random(seed)
        for number in range(count):
            name, text = chance.choice(programs)
            text = changed(text, chance)
            self.file.write_bytes(text)
            self.run(words_for(number), f"{name}, changed", text)


def try_texts(program: Program, report: Report, examples: Path, folder: Path, runs: int, seed: int) -> str:
    """Cuts the texts, and changes the programs of the examples until there were so many runs."""
    programs = [(path.name, path.read_bytes()) for path in sorted(examples.glob("*.kf"))]
    texts = programs + [(name, text.encode()) for name, text in long_texts().items()]
    folder.mkdir()
    with ThreadPoolExecutor(cpu_count()) as pool:
        shares = [(name, text, places) for name, text in texts for places in cuts(text)]
        for done in [pool.submit(Tries(program, report, folder / f"cut{number}").cut, *share) for number, share in enumerate(shares)]:
            done.result()
        left = max(0, runs - report.runs) // PARTS + 1
        makers = [Tries(program, report, folder / f"changed{part}") for part in range(PARTS)]
        for done in [pool.submit(maker.change, programs, f"{seed} {part}", left) for part, maker in enumerate(makers)]:
            done.result()
    return f"{len(texts)} texts"
