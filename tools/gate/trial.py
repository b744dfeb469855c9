"""Small programs that are made from numbers which are always the same, and what the program prints of them beside what it has to print."""

from __future__ import annotations

import random
from collections.abc import Sequence
from dataclasses import dataclass
from pathlib import Path
from typing import NoReturn, TypeVar

from kuifje.texts import Printed

from .program import Outcome, Program, Word

Answer = TypeVar("Answer", bound=Printed)


@dataclass(frozen=True)
class Trial:
    """A folder with the programs of a trial, the program that is asked about them, and the numbers that make them."""

    program: Program
    folder: Path
    numbers: random.Random

    def write(self, name: str, text: str) -> str:
        """Leaves a text in the folder, and gives it back."""
        (self.folder / name).write_text(text)
        return text

    def ask(self, *words: Word) -> Outcome:
        """What the program makes of these words."""
        return self.program.run(*words, folder=self.folder)

    def answer(self, *words: Word) -> str:
        """What the program prints; a no has the status 1, and all else 0. Ends with 1 where there is no answer, or another status."""
        outcome = self.ask(*words)
        if outcome.status not in (0, 1):
            self.wrong(f"{said(words)}: status {outcome.status}, {outcome.message}")
        if (outcome.status == 1) != is_no(outcome.answer):
            self.wrong(f"{said(words)}: status {outcome.status} with {outcome.answer}")
        return outcome.answer

    def read(self, kind: type[Answer], *words: Word) -> Answer:
        """What the program prints, as an answer of this kind. Ends with 1 where it isn't one."""
        text = self.answer(*words)
        try:
            return kind.parse(text)
        except ValueError as fault:
            self.wrong(f"{said(words)}: {fault}")

    def compare(self, words: Sequence[Word], wanted: Sequence[str]) -> None:
        """The lines of an answer are these. Ends with 1 where they aren't."""
        told = self.answer(*words).splitlines()
        if told != list(wanted):
            self.wrong(f"{said(words)}: {told}, and {wanted} by the plain program")

    def wrong(self, fault: str) -> NoReturn:
        """Ends with 1, and says what is wrong of which programs."""
        raise SystemExit(f"{fault}; the programs are {[path.read_text() for path in sorted(self.folder.glob('*.kf'))]}")


def is_no(answer: str) -> bool:
    """Whether an answer is the verdict no, as a text or as a certificate, or a mark that rejects one."""
    return answer.startswith(("refines no\n", "rejected ")) or '"verdict":"no"' in answer


def said(words: Sequence[Word]) -> str:
    """Words as a line."""
    return " ".join(map(str, words))
