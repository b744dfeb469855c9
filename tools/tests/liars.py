"""A program that answers as the built one does, but for one text."""

from __future__ import annotations

import re
import subprocess
from collections.abc import Callable
from dataclasses import replace
from pathlib import Path

from gate.program import Outcome, Program, Stream, Word
from gate.trial import is_no


class Liar(Program):
    """The built program, which prints another text where a command's answer has one, and ends as it would with that, or with another status."""

    def __init__(self, path: Path, command: str, old: str, new: str, status: int | None = None) -> None:
        super().__init__(path)
        self.command, self.old, self.new, self.status = command, old.encode(), new.encode(), status
        self.told = 0

    def run(
        self,
        *words: Word,
        folder: Path | None = None,
        stdin: Stream = subprocess.DEVNULL,
        stdout: Stream = subprocess.PIPE,
        stderr: Stream = subprocess.PIPE,
        before: Callable[[], object] | None = None,
    ) -> Outcome:
        outcome = super().run(*words, folder=folder, stdin=stdin, stdout=stdout, stderr=stderr, before=before)
        if words[0] != self.command:
            return outcome
        out, count = re.subn(self.old, self.new, outcome.out or b"", count=1, flags=re.MULTILINE)
        if count == 0:
            return outcome
        self.told += 1
        return replace(outcome, out=out, status=int(is_no(out.decode())) if self.status is None else self.status)
