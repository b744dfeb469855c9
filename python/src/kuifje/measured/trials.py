"""A model in Python, tried against the compiled code that it is a model of: both are run on all inputs, and what they tell apart is compared."""

from __future__ import annotations

from collections.abc import Mapping
from dataclasses import dataclass
from typing import Any

from ..errors import KuifjeError
from ..model import Model as PythonModel
from ..model.interpret import Run
from .lines import describe
from .measurement import Measurement, NewlyTold
from .models import Model, model_named

__all__ = ["Tried", "tried_against"]


@dataclass(frozen=True)
class Tried:
    """Whether a model tells the same secrets apart as the code. ``by_code`` has two that the code alone tells apart, and where: the model misses it.
    ``by_model`` has two that the model alone tells apart, and where: the code doesn't show it."""

    secrets: int
    by_code: NewlyTold | None
    by_model: NewlyTold | None

    @property
    def agrees(self) -> bool:
        """Whether both tell the same secrets apart."""
        return self.by_code is None and self.by_model is None

    def __str__(self) -> str:
        if self.agrees:
            return f"of {self.secrets} secrets the model and the code tell the same apart\n"
        lines = [f"the code alone tells apart: {self.by_code}\n"] if self.by_code else []
        return "".join([*lines, *([f"the model alone tells apart: {self.by_model}\n"] if self.by_model else [])])


def _runs(model: PythonModel, measured: Measurement, inputs: Mapping[str, Any]) -> list[Run]:
    """The model's run of each secret. Raises ``KuifjeError`` where its secrets aren't those of the code, or one has several runs."""
    domain, found = measured.secrets, {}
    for run in model.runs(**inputs):
        values = run.secret if isinstance(run.secret, tuple) else (run.secret,)
        try:
            number = domain.number([int(v) for v in values if isinstance(v, int)])
        except ValueError:
            raise KuifjeError(f"the secret {run.secret} of the model isn't one of the code's") from None
        if number in found:
            raise KuifjeError("the model draws at random, so that it can't be compared run by run")
        found[number] = run
    if len(found) != domain.size:
        raise KuifjeError(f"the model has {len(found)} secrets, and the code {domain.size}")
    return [found[number] for number in range(domain.size)]


def _shown(run: Run) -> tuple[Any, ...]:
    return tuple((seen.place.line, seen.guard, seen.value) for seen in run.trace)


def _of_model(runs: list[Run], pair: tuple[int, int], measured: Measurement) -> NewlyTold:
    """Where two runs of the model part."""
    a, b = (runs[number] for number in pair)
    at = next((i for i, (x, y) in enumerate(zip(a.trace, b.trace)) if (x.value, x.guard) != (y.value, y.guard)), min(len(a.trace), len(b.trace)))
    seen = [run.trace[at] if at < len(run.trace) else None for run in (a, b)]
    place = next((s.place for s in seen if s is not None), None)
    texts = [measured.secrets.text(number) for number in pair]
    ways = [f"on with {s.value}" if s is not None else "to its end" for s in seen]
    return NewlyTold((texts[0], texts[1]), f"{place.file}:{place.line}" if place else "the end", (ways[0], ways[1]))


def tried_against(
    model: PythonModel, measured: Measurement, seen: str | Model = "control-flow", inputs: Mapping[str, Any] = {}, public: int = 0
) -> Tried:
    """Compares what a model tells apart, with these public inputs, with what an observer sees of the code, at one value of its public inputs.

    Both have the same secrets, entry by entry, and one run for each. Raises ``KuifjeError`` where they haven't.
    """
    if measured.emulated.noise.size != 1:
        raise KuifjeError("the code draws at random, so that it can't be compared run by run")
    runs, observer = _runs(model, measured, inputs), model_named(seen)
    code, traces = measured.partition(observer, public), measured.traces_for(observer)
    first_of_code: dict[int, int] = {}
    first_of_model: dict[tuple[Any, ...], int] = {}
    by_code = by_model = None
    for secret, run in enumerate(runs):
        mine = first_of_model.setdefault(_shown(run), secret)
        other = first_of_code.setdefault(code.classes[secret], secret)
        if by_code is None and code.classes[mine] != code.classes[secret]:
            start = traces.runs(public)[0]
            place, ways = describe(traces, observer, traces.difference(observer, traces.trace_of(start + mine), traces.trace_of(start + secret)))
            by_code = NewlyTold((measured.secrets.text(mine), measured.secrets.text(secret)), str(place), ways, place)
        if by_model is None and _shown(runs[other]) != _shown(run):
            by_model = _of_model(runs, (other, secret), measured)
    return Tried(measured.secrets.size, by_code, by_model)
