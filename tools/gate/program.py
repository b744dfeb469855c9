"""Runs of the program, and of other commands: the one place from which checks start them and read how they ended."""

from __future__ import annotations

import os
import subprocess
import sys
from collections.abc import Callable, Mapping, Sequence
from dataclasses import dataclass
from pathlib import Path
from typing import IO

from .repository import BUILT

Word = str | bytes | os.PathLike[str]
Stream = int | IO[bytes] | None  # as `subprocess` has it; None is this process's own
PATIENCE = 60.0  # seconds


@dataclass(frozen=True)
class Outcome:
    """What a run came to: its words, its status, and what stood on standard output and standard error.

    The status is below 0 where a signal ended the run, and None where it was stopped, since it took too long. A stream that went elsewhere is None.
    """

    words: tuple[Word, ...]
    status: int | None
    out: bytes | None = None
    err: bytes | None = None

    @property
    def answer(self) -> str:
        """Standard output as a text."""
        return (self.out or b"").decode(errors="replace")

    @property
    def message(self) -> str:
        """Standard error as a text."""
        return (self.err or b"").decode(errors="replace")


def run(
    words: Sequence[Word],
    *,
    folder: Path | None = None,
    seconds: float | None = PATIENCE,
    environment: Mapping[str, str] | None = None,
    stdin: Stream = subprocess.DEVNULL,
    stdout: Stream = subprocess.PIPE,
    stderr: Stream = subprocess.PIPE,
    before: Callable[[], object] | None = None,
) -> Outcome:
    """Runs a command in a folder, for so many seconds at most. ``before`` is called in the new process before the command begins.

    Where no environment is given the command has this process's own, but for the folders in which this package is found. Raises ``OSError`` where the
    command can't be started.
    """
    if environment is None:
        environment = {name: value for name, value in os.environ.items() if name != "PYTHONPATH"}
    try:
        done = subprocess.run(
            words, cwd=folder, timeout=seconds, env=environment, stdin=stdin, stdout=stdout, stderr=stderr, preexec_fn=before, check=False
        )
    except subprocess.TimeoutExpired:
        return Outcome(tuple(words), None)
    return Outcome(tuple(words), done.returncode, done.stdout, done.stderr)


class Program:
    """The program that is asked: a file, whose words are those of docs/COMMANDS.md."""

    def __init__(self, path: Path = BUILT) -> None:
        self.path = path.resolve()

    def run(
        self,
        *words: Word,
        folder: Path | None = None,
        stdin: Stream = subprocess.DEVNULL,
        stdout: Stream = subprocess.PIPE,
        stderr: Stream = subprocess.PIPE,
        before: Callable[[], object] | None = None,
    ) -> Outcome:
        """What the program makes of these words, as ``run`` has it; ``words`` of the outcome are without the program."""
        ended = run([self.path, *words], folder=folder, stdin=stdin, stdout=stdout, stderr=stderr, before=before)
        return Outcome(words, ended.status, ended.out, ended.err)


def program_at(path: Path) -> Program:
    """The program that is asked. Ends with 1 where there is none."""
    if not path.is_file():
        sys.exit(f"there is no {path}: build the program first")
    return Program(path)


def named(words: Sequence[str]) -> Program:
    """The program that the words of a check name first, or the built one."""
    return program_at(Path(words[0]) if words else BUILT)
