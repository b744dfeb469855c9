"""Sweeps: one question at each point of a grid, over processes of this machine or of several.

What a worker needs goes along with each point, so any ``concurrent.futures.Executor`` does, and so does a ``dask.distributed`` client, whose workers
need this package and the program on their machines. A worker that ends loses no point where its executor runs what it had again.
"""

from __future__ import annotations

import os
import threading
import warnings
from collections.abc import Callable, Iterable, Mapping, Sequence
from concurrent.futures import Executor, Future, ProcessPoolExecutor, as_completed
from contextlib import AbstractContextManager, nullcontext
from dataclasses import dataclass
from itertools import product
from pathlib import Path
from typing import TYPE_CHECKING, Any

from .answers import Cache
from .engine import Engine
from .errors import KuifjeError, Refusal
from .program import Program
from .questions import AsItIsLeft
from .templates import Template
from .texts import Printed
from .words import answer, read

if TYPE_CHECKING:
    import pandas

__all__ = ["Measure", "points", "sweep"]

REFUSED = ("status", "refusal")
Measure = str | Callable[[Program], object]
Point = Mapping[str, object]


def points(grid: Mapping[str, Sequence[object]] | Iterable[Point]) -> list[dict[str, object]]:
    """The points of a grid: of names with their values each combination, the last name's values changing first; or the points that are given."""
    if isinstance(grid, Mapping):
        return [dict(zip(grid, values)) for values in product(*grid.values())]
    return [dict(point) for point in grid]


@dataclass(frozen=True)
class _Task:
    """What a worker needs for a point."""

    template: Template
    measure: Measure
    turns: int
    timeout: float | None
    memory: int
    cache: Path | None

    def __call__(self, point: Point) -> dict[str, object]:
        """The row of a point: what was found there, or what refused it."""
        try:
            with warnings.catch_warnings():
                warnings.simplefilter("ignore", AsItIsLeft)
                program = self.template.program(point, turns=self.turns, engine=own_engine(self.memory, self.timeout, self.cache))
                found = self.measure(program) if callable(self.measure) else answer(self.measure, program)
        except KuifjeError as cause:
            refused = {"status": cause.status, "refusal": cause.text} if isinstance(cause, Refusal) else {"refusal": str(cause)}
            return {**point, **refused}
        columns = _columns(found)
        if double := {*point, *REFUSED} & columns.keys() or set(REFUSED) & point.keys():
            raise ValueError(f"{min(double)!r} is the name of two columns")
        return {**point, **columns}


_OWN = threading.local()


def own_engine(memory: int, timeout: float | None, cache: Path | None) -> Engine:
    """The engine of this thread, so that threads don't wait for one another."""
    before: Engine | None = getattr(_OWN, "engine", None)
    kept = Cache(cache) if cache else None
    if before is not None:
        if (before.memory, before.timeout, before.cache) == (memory, timeout, kept):
            return before
        before.close()
    _OWN.engine = made = Engine(memory=memory, timeout=timeout, cache=kept)
    return made


def _columns(found: object) -> dict[str, object]:
    """The columns of what was found: of an answer with one row its members, of a mapping its entries, and of anything else ``value``."""
    if isinstance(found, Printed):
        rows = found.records()
        return rows[0] if len(rows) == 1 else {"value": found}
    return dict(found) if isinstance(found, Mapping) else {"value": found}


def sweep(
    template: Template | str | os.PathLike[str],
    grid: Mapping[str, Sequence[object]] | Iterable[Point],
    measure: Measure,
    executor: Executor | Any = None,
    *,
    turns: int = 1024,
    timeout: float | None = None,
    memory: int = 4 << 30,
    cache: str | os.PathLike[str] | None = None,
    progress: bool = False,
) -> pandas.DataFrame:
    """A data frame with a row for each point of a grid, in its order: the point's values, and what was found there.

    ``template`` is a template or the path of one, ``grid`` either names with their values, of which each combination is a point, or the points
    themselves. ``measure`` is a question in words (``"leak --gain tries:2"``, as ``kuifje.words`` has them), or a function of the program that
    gives an answer, a number or a mapping of columns; it must be one that the executor's workers can import. ``executor`` is a
    ``concurrent.futures.Executor`` or a ``dask.distributed.Client``; where none is given, processes of this machine. A question may take
    ``timeout`` seconds and ``memory`` bytes. ``cache`` is a folder that keeps answers by their content: a sweep that is run again asks only what is
    new. ``progress`` shows a bar.

    A point without an answer is a row, too: its ``refusal`` says why, and ``status`` is that of a refusal; both columns are always there. Raises
    ``ValueError`` where the words are no question, or a point has a name that the template doesn't ask for, and besides what the measure raises, and
    what the executor does.
    """
    import pandas

    template = template if isinstance(template, Template) else Template.from_file(template)
    if isinstance(measure, str):
        read(measure)
    listed = points(grid)
    template.check_names({name for point in listed for name in point})
    task = _Task(template, measure, turns, timeout, memory, None if cache is None else Path(cache).resolve())
    with _opened(executor) as opened:
        rows = _rows(opened, task, listed, progress)
    found = dict.fromkeys(name for row in rows for name in row if name not in REFUSED)
    return pandas.DataFrame([{**dict.fromkeys([*found, *REFUSED]), **row} for row in rows], dtype=object)


def _opened(executor: Executor | Any) -> AbstractContextManager[Executor]:
    """The executor of a sweep: a pool of processes that ends with it where none is given, and that of a client where it is one."""
    if executor is None:
        return ProcessPoolExecutor()
    return nullcontext(executor.get_executor(pure=False) if hasattr(executor, "get_executor") else executor)


def _rows(executor: Executor, task: _Task, listed: list[dict[str, object]], progress: bool) -> list[dict[str, object]]:
    """The rows of points, in their order, once the executor has found them all. Those that wait are given up where one raises."""
    futures: list[Future[dict[str, object]]] = [executor.submit(task, point) for point in listed]
    try:
        for future in _tracked(as_completed(futures), len(futures), progress):
            future.result()
    finally:
        for future in futures:
            future.cancel()
    return [future.result() for future in futures]


def _tracked(done: Iterable[Future[dict[str, object]]], total: int, progress: bool) -> Iterable[Future[dict[str, object]]]:
    if not progress:
        return done
    from rich.console import Console
    from rich.progress import track

    return track(done, description="points", total=total, console=Console(stderr=True))
