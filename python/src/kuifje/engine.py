"""Questions to the proved program, each with a bound on its time and on its memory.

Worker processes stay open between questions. Each loads the library where that is there, and starts the program for each question where it isn't. A
question takes a worker that is free, or starts one while there are fewer than there may be: so one thread doesn't wait for what another asks. A
question that takes too long or too much memory ends its worker, and so does an interrupt; the next question starts another.
"""

from __future__ import annotations

import os
import threading
import time
import weakref
from collections.abc import Mapping, Sequence
from contextlib import suppress

from .answers import Answer, Cache
from .arguments import seconds, whole
from .deadlines import Deadline
from .errors import TooLarge
from .workers import Gone, Worker, too_late

__all__ = ["Answer", "Engine", "default_engine"]

GIGABYTE = 1 << 30
MOST_WORKERS = min(4, os.cpu_count() or 1)  # of an engine, where it isn't said
LINGERING = 10.0  # seconds that a worker stays open which nothing is asked, where another one is free, too


class Engine:
    """Workers that answer questions, each one after the other, and several at a time where several threads ask.

    ``memory`` bounds a worker's address space in bytes, and an answer's text to a 32nd part of it; ``timeout`` bounds the seconds of a question, also
    those in which it waits for a worker (none: as long as it takes). ``cache`` keeps the answers. ``workers`` is how many there may be at most: as
    many as there are processors, up to 4, where it isn't said. They start when they are needed; all but one end when nothing was asked for some
    time. Raises ``TypeError`` and ``ValueError`` where an argument is none of these.
    """

    def __init__(self, *, memory: int = 4 * GIGABYTE, timeout: float | None = None, cache: Cache | None = None, workers: int = MOST_WORKERS) -> None:
        self.memory, self.timeout = whole("memory", memory, 1, (1 << 63) - 1), seconds("timeout", timeout)
        if cache is not None and not isinstance(cache, Cache):
            raise TypeError(f"cache is a Cache or None, and a value of type {type(cache).__name__} was given")
        self.cache, self.workers = cache, whole("workers", workers, 1, 1 << 10)
        self._workers: list[Worker] = []
        self._begin()
        _ENGINES.add(self)

    def _begin(self) -> None:
        """Has no worker: at first, and in a process that was forked, where the workers are the parent's."""
        self._changed = threading.Condition()
        self._reaping = False
        before, self._workers = self._workers, []
        for worker in before:
            worker.close()
        self._ending = weakref.finalize(self, _end, self._workers, os.getpid())

    @property
    def version(self) -> str:
        """The SHA-256 of the library or of the program that answers. Raises ``KuifjeError`` where there is neither."""
        holder = object()
        try:
            return self._taken(holder, Deadline(None)).version(Deadline(None))
        finally:
            self._let_go(holder)

    def ask(self, words: Sequence[str], files: Mapping[str, bytes], timeout: float | None = None) -> Answer:
        """The run of the program on these words over these files, which are all that it sees.

        It takes ``timeout`` seconds at most; where that isn't said, as many as the engine says, and without a bound where they are infinitely many.
        Raises ``TooLarge`` where it takes more time or memory than it may, or its answer is too long. A question changes nothing: so where a worker
        has ended before it began with it, as one that was killed in between, another one is asked, once.
        """
        bound = seconds("timeout", timeout)
        deadline = Deadline(self.timeout if bound is None else bound)
        try:
            return self._asked(words, files, deadline)
        except Gone:
            self._end_free()  # what ended one may have ended others
        try:
            return self._asked(words, files, deadline)
        except Gone:
            raise TooLarge(f"two workers ended before they began, most likely for want of memory: each may take {self.memory} bytes") from None

    def close(self) -> None:
        """Ends the workers, and programs that they have started; the next question starts another."""
        with self._changed:
            for worker in self._workers:
                worker.kill()
        self._end_free()

    def _end_free(self) -> None:
        """Ends the workers that nothing is asked."""
        with self._changed:
            ended = [worker for worker in self._workers if worker.holder is None]
            for worker in ended:
                worker.kill()
                self._workers.remove(worker)
            self._changed.notify_all()
        for worker in ended:
            worker.close()

    def _asked(self, words: Sequence[str], files: Mapping[str, bytes], deadline: Deadline) -> Answer:
        """The answer by a worker, or the one that is kept. Raises ``Gone`` where the worker ended before it began."""
        holder = object()
        try:
            worker = self._taken(holder, deadline)
            version = worker.version(deadline)
            key = self.cache.key(version, words, files) if self.cache else ""
            if self.cache and (kept := self.cache.get(key)):
                return kept
            answer = worker.ask(words, files, deadline)
        finally:
            self._let_go(holder)
        if self.cache:
            self.cache.put(key, answer)
        return answer

    def _taken(self, holder: object, deadline: Deadline) -> Worker:
        """A worker that is held from now on: the free one that was asked last, or a new one. Waits where there are as many as there may be."""
        with self._changed:
            while True:
                if free := [worker for worker in self._workers if worker.holder is None]:
                    worker = max(free, key=lambda worker: worker.free_since)
                    worker.holder = holder
                    return worker
                if len(self._workers) < self.workers:
                    worker = Worker(self.memory, holder)
                    self._workers.append(worker)
                    return worker
                if deadline.passed:
                    raise too_late(deadline)
                self._changed.wait(min(deadline.left, LINGERING))

    def _let_go(self, holder: object) -> None:
        """Lets a worker go that is held: the next question may have it, if it is usable, and else it is ended."""
        with self._changed:
            held = [worker for worker in self._workers if worker.holder is holder]
            for worker in held:
                if worker.usable:
                    worker.free_since, worker.holder = time.monotonic(), None
                else:
                    worker.kill()
                    self._workers.remove(worker)
            self._changed.notify_all()
            if not self._reaping and self._lingering():
                with suppress(RuntimeError):  # no thread can be started any more
                    threading.Thread(target=_reap, args=(weakref.ref(self),), name="kuifje-workers", daemon=True).start()
                    self._reaping = True
        for worker in held:
            if not worker.usable:
                worker.close()

    def _lingering(self) -> list[Worker]:
        """The free workers but for the one that was asked last, the one first that is free for longest."""
        return sorted((worker for worker in self._workers if worker.holder is None), key=lambda worker: worker.free_since)[:-1]

    def _reap(self) -> bool:
        """Ends workers that nothing was asked for a while, and says whether others may still be."""
        with self._changed:
            ended = [worker for worker in self._lingering() if time.monotonic() - worker.free_since >= LINGERING]
            for worker in ended:
                self._workers.remove(worker)
            self._reaping = bool(self._lingering())
            more = self._reaping
        for worker in ended:
            worker.close()
        return more


def _reap(engine: weakref.ref[Engine]) -> None:
    """Ends the workers of an engine that nothing is asked any more, as long as it is there and has more than one that is free."""
    while True:
        time.sleep(LINGERING / 4)
        if (found := engine()) is None or not found._reap():
            return
        del found


def _end(workers: list[Worker], owner: int) -> None:
    """Ends the workers of an engine that is no more."""
    for worker in list(workers) if owner == os.getpid() else ():
        worker.kill()
        if worker.holder is None:
            worker.close()


_ENGINES: weakref.WeakSet[Engine] = weakref.WeakSet()
_DEFAULT = Engine()


def _begin_all() -> None:
    for engine in list(_ENGINES):
        engine._ending.detach()
        engine._begin()


os.register_at_fork(after_in_child=_begin_all)


def default_engine() -> Engine:
    """The engine that answers where a question names none."""
    return _DEFAULT
