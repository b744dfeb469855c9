"""A worker: the process that runs questions, and the pipes to it."""

from __future__ import annotations

import json
import os
import select
import signal
import subprocess
import sys
from collections.abc import Mapping, Sequence
from contextlib import suppress
from pathlib import Path

from ._protocol import BEGUN, HEAD, LIBRARY, NAME, PROGRAM, VERSION_LENGTH, WANT_OF_MEMORY
from .answers import Answer
from .deadlines import Deadline
from .errors import KuifjeError, OutOfTime, TooLarge

__all__ = ["Gone", "Worker", "too_late"]

PACKAGES = str(Path(__file__).resolve().parents[1])  # where the worker finds this package, and nothing else but the standard library
ANSWER_SHARE = 32  # an answer may have one byte for so many bytes of memory, since its objects here take about as many times its text
PIECE = 1 << 16  # bytes that are written at once, at most
LONGEST = 3600.0  # seconds that one look at a pipe waits


class Gone(Exception):
    """The worker ended before it began with a question: another one can be asked."""


def too_late(deadline: Deadline) -> OutOfTime:
    """The error of a question that has no answer by its deadline."""
    return OutOfTime(f"the question took longer than it may: no answer within {deadline.seconds:.3g} seconds")


class Worker:
    """A process that answers one question after the other, with so many bytes of address space.

    ``holder`` is what holds the worker while it asks, and none while the worker is free; ``free_since`` is when it came to be free. ``usable`` says
    whether it can be asked again: it can't where it is left in the middle of a start or of a question.
    """

    def __init__(self, memory: int, holder: object) -> None:
        self.memory, self.holder = memory, holder
        self.free_since, self.usable = 0.0, True
        self._owner, self._written, self._version = os.getpid(), bytearray(), ""
        self._process: subprocess.Popen[bytes] | None = None

    @property
    def pid(self) -> int | None:
        """The number of the process; none before it is started."""
        return None if self._process is None else self._process.pid

    def version(self, deadline: Deadline) -> str:
        """The SHA-256 of what answers; the worker is started where it isn't.

        Raises ``KuifjeError`` where there is nothing that answers, and ``OutOfTime`` where the worker takes longer to start; then it goes on with it.
        """
        if self._version:
            return self._version
        self.usable = False
        if self._process is None:
            self._process = subprocess.Popen(
                [sys.executable, "-P", "-S", "-m", "kuifje._worker", str(self.memory), str(os.getpid())],
                stdin=subprocess.PIPE,
                stdout=subprocess.PIPE,
                bufsize=0,
                start_new_session=True,
                env={**os.environ, "PYTHONPATH": PACKAGES, "MALLOC_ARENA_MAX": "1"},
            )
            os.set_blocking(_pipe(self._process.stdin), False)
        try:
            self._read(self._written, VERSION_LENGTH, deadline)
        except OutOfTime:
            self.usable = True
            raise
        except EOFError:
            raise TooLarge(f"a worker doesn't start in {self.memory} bytes of memory") from None
        self._version = self._written.decode().strip()
        if not self._version:
            raise KuifjeError(
                f"there is no library {NAME} and no kuifje on the path, and neither {LIBRARY} nor {PROGRAM} names one; "
                "`make` in the repository builds bin/kuifje, and the packages of `make dist` install both"
            )
        self.usable = True
        return self._version

    def ask(self, words: Sequence[str], files: Mapping[str, bytes], deadline: Deadline) -> Answer:
        """The answer to a question.

        Raises ``Gone`` where the worker ends before it begins with it, and ``TooLarge`` where it ends later, or there is no answer in time.
        """
        head = {"words": list(words), "files": [[name, len(text)] for name, text in files.items()]}
        question = json.dumps(head).encode() + b"\n" + b"".join(files.values())
        self.usable = False
        try:
            self._write(question, deadline)
            self._read(bytearray(), len(BEGUN), deadline)
        except (BrokenPipeError, EOFError):
            raise Gone from None
        try:
            answer = self._answer(deadline)
        except EOFError:
            raise TooLarge(f"the worker ended while it answered, most likely for want of memory: it may take {self.memory} bytes") from None
        if answer.status == WANT_OF_MEMORY or answer.status < 0:
            how = f", and was ended by signal {-answer.status}" if answer.status < 0 else ""
            raise TooLarge(f"the question took more than {self.memory} bytes of memory{how}")
        self.usable = True
        return answer

    def kill(self) -> None:
        """Ends the process, and a program that it has started, without waiting for it. In a process that was forked it does nothing."""
        if self._process is not None and self._owner == os.getpid():
            with suppress(ProcessLookupError):
                os.killpg(self._process.pid, signal.SIGKILL)

    def close(self) -> None:
        """Ends the process and waits for it; in a process that was forked it closes this process's ends of the pipes alone."""
        self.kill()
        process, self._process = self._process, None
        if process is None:
            return
        if self._owner == os.getpid():
            process.wait()
        else:
            process.returncode = 0  # it is for the parent to wait for it
        for pipe in (process.stdin, process.stdout):
            if pipe is not None:
                pipe.close()

    def _answer(self, deadline: Deadline) -> Answer:
        status, *lengths = HEAD.unpack(self._read(bytearray(), HEAD.size, deadline))
        if sum(lengths) > self.memory // ANSWER_SHARE:
            raise TooLarge(f"the answer has {sum(lengths)} bytes, and may have {self.memory // ANSWER_SHARE}")
        out, err = (bytes(self._read(bytearray(), length, deadline)) for length in lengths)
        return Answer(status, out, err)

    def _write(self, text: bytes, deadline: Deadline) -> None:
        """Writes all of a text: what a pipe has no room for waits until it has."""
        assert self._process is not None
        sink, view = _pipe(self._process.stdin), memoryview(text)
        while view:
            try:
                view = view[os.write(sink, view[:PIECE]) :]
            except BlockingIOError:
                _wait(sink, select.POLLOUT, deadline)

    def _read(self, found: bytearray, count: int, deadline: Deadline) -> bytearray:
        """Reads until so many bytes are found. Raises ``EOFError`` where they end before, and ``OutOfTime`` where they don't come in time."""
        assert self._process is not None
        source = _pipe(self._process.stdout)
        while len(found) < count:
            _wait(source, select.POLLIN, deadline)
            piece = os.read(source, min(count - len(found), 1 << 20))
            if not piece:
                raise EOFError
            found += piece
        return found


def _pipe(pipe: object) -> int:
    """The number of a process's pipe."""
    number: int = pipe.fileno()  # type: ignore[attr-defined]
    return number


def _wait(pipe: int, event: int, deadline: Deadline) -> None:
    """Waits until a pipe can be read or written, or its other end is closed. Raises ``OutOfTime`` where that takes too long."""
    look = select.poll()
    look.register(pipe, event)
    while not deadline.passed:
        if look.poll(1000 * min(LONGEST, deadline.left)):
            return
    raise too_late(deadline)
