"""Python functions, measured: each secret is tried, and what is seen are the lines that run, or the bytecodes, and what is returned.

Nothing is seen of what C does below: of strings that are compared, of numbers that are multiplied, of dictionaries. For that there are harnesses.
"""

from __future__ import annotations

import _thread
import sys
import threading
from collections.abc import Callable, Iterator, Mapping, Sequence
from contextlib import contextmanager
from dataclasses import dataclass
from fractions import Fraction
from itertools import product
from pathlib import Path
from types import CodeType, FrameType
from typing import Any

from ..intervals import Interval
from ..program import Gain
from ..texts import Leakage
from .domains import Domain, Variable
from .places import Place
from .refusals import Unmeasured
from .texts import MeasuredProgram, Partition, measured_program
from .told import Ledger, bits

__all__ = ["MeasuredFunction", "ToldLine", "measured"]

MOST_EVENTS = 1_000_000
Values = Sequence[Any]
Secret = Values | list[Values]
Site = tuple[CodeType, int]
Trace = tuple[tuple[Site, ...], object]


@dataclass(frozen=True)
class ToldLine:
    """What is first told at a line of Python: how many bits, how many classes more, and two secrets that part there."""

    place: Place
    bits: Interval
    classes: int
    secrets: tuple[str, str]


class _Argument:
    """An argument: an array of which each entry has its values, or one value of some."""

    def __init__(self, name: str, given: Secret, role: str) -> None:
        self.is_array = isinstance(given, list)
        self.entries: list[Values] = list(given) if isinstance(given, list) else [given]
        if not self.entries or any(list(entry) != list(self.entries[0]) for entry in self.entries) or not list(self.entries[0]):
            raise ValueError(f"{name} is a sequence of values, or a list of equal ones: one for each entry of an array")
        values = list(self.entries[0])
        self.are_numbers = all(type(v) is int for v in values) and values == list(range(values[0], values[0] + len(values)))
        low = values[0] if self.are_numbers else 0
        self.values = values
        self.variable = Variable(name, len(self.entries), low, low + len(values) - 1, role)

    def value(self, numbers: Sequence[int]) -> Any:
        """What the function is called with."""
        found = [self.values[number - self.variable.low] for number in numbers]
        return found if self.is_array else found[0]


@contextmanager
def _one_thread() -> Iterator[None]:
    """Refuses other threads."""

    def refuse(*_: Any, **__: Any) -> Any:
        raise Unmeasured("Threads", "another thread is started")

    before = _thread.start_new_thread, getattr(threading, "_start_new_thread")
    setattr(_thread, "start_new_thread", refuse)
    setattr(threading, "_start_new_thread", refuse)
    try:
        yield
    finally:
        setattr(_thread, "start_new_thread", before[0])
        setattr(threading, "_start_new_thread", before[1])


class MeasuredFunction:
    """A function that was run with every value of its arguments. It can be called as before; the questions are about what is seen of its runs.

    ``model`` is ``lines`` (or ``opcodes``, where these were asked for): which run, in their order; or ``returned``: the value, or the exception.
    """

    def __init__(self, function: Callable[..., Any], see: str, only: str | None, noise: Mapping[str, Secret], secrets: Mapping[str, Secret]) -> None:
        if see not in ("lines", "opcodes"):
            raise ValueError("what is seen is lines or opcodes")
        if not secrets:
            raise ValueError("there is no secret")
        self.function, self.see = function, see
        self._home = only if only is not None else function.__code__.co_filename
        self._arguments = [_Argument(name, given, "secret") for name, given in secrets.items()]
        self._noise = [_Argument(name, given, "noise") for name, given in noise.items()]
        self.secrets = Domain(tuple(a.variable for a in self._arguments))
        self.noise = Domain(tuple(a.variable for a in self._noise))
        if self.secrets.size > 65536 or self.secrets.size * self.noise.size > 1 << 20:
            raise Unmeasured("Large", "there are more than 65,536 secrets, or a million runs")
        self._traces = self._measured()
        self._programs: dict[str, MeasuredProgram] = {}

    def __call__(self, *args: Any, **kwargs: Any) -> Any:
        return self.function(*args, **kwargs)

    def __repr__(self) -> str:
        return f"<MeasuredFunction {self.function.__name__}: {self.secrets.size} secrets>"

    # ---- runs

    def _given(self, secret: int, noise: int) -> dict[str, Any]:
        found = {}
        for arguments, domain, number in ((self._arguments, self.secrets, secret), (self._noise, self.noise, noise)):
            values, at = domain.values(number), 0
            for argument in arguments:
                found[argument.variable.name] = argument.value(values[at : at + argument.variable.count])
                at += argument.variable.count
        return found

    def _text(self, secret: int) -> str:
        """A secret in words."""
        given = self._given(secret, 0)
        return ", ".join(f"{argument.variable.name} = {given[argument.variable.name]!r}" for argument in self._arguments)

    def _trace(self, secret: int, noise: int) -> Trace:
        """What one run shows."""
        events: list[Site] = []
        opcodes, home = self.see == "opcodes", self._home

        def tracer(frame: FrameType, event: str, _: Any) -> Any:
            if not frame.f_code.co_filename.startswith(home):
                return None
            frame.f_trace_opcodes, frame.f_trace_lines = opcodes, not opcodes
            if event in ("line", "opcode"):
                events.append((frame.f_code, frame.f_lasti if opcodes else frame.f_lineno))
                if len(events) > MOST_EVENTS:
                    raise Unmeasured("Endless", f"a run has more than {MOST_EVENTS} events", None, self._text(secret))
            return tracer

        given, before = self._given(secret, noise), sys.gettrace()
        sys.settrace(tracer)
        try:
            returned: object = repr(self.function(**given))
        except Unmeasured:
            raise
        except Exception as cause:
            returned = type(cause)
        finally:
            sys.settrace(before)
        return tuple(events), returned

    def _measured(self) -> list[Trace]:
        """The traces of all runs, each made twice. Raises ``Unmeasured`` where a run can't be relied on."""
        runs = list(product(range(self.secrets.size), range(self.noise.size)))
        kept: dict[Trace, Trace] = {}
        with _one_thread():
            self._trace(*runs[0])  # what is set up at first isn't counted
            found = [kept.setdefault(trace, trace) for trace in (self._trace(*run) for run in runs)]
            for i in reversed(range(len(runs))):
                again = self._trace(*runs[i])
                if again != found[i]:
                    place = self._parting(found[i], again)
                    raise Unmeasured("Earlier", "a run depends on earlier runs, or on the clock", place, self._text(runs[i][0]))
        if len(kept) == 1:
            raise Unmeasured("Nothing", "neither a line that runs nor what is returned depends on anything")
        return found

    def _parting(self, a: Trace, b: Trace) -> str | None:
        at = next((i for i, (x, y) in enumerate(zip(a[0], b[0])) if x != y), min(len(a[0]), len(b[0])))
        return str(self._place(a[0][at - 1])) if at else None

    def _place(self, site: Site) -> Place:
        code, number = site
        line = number
        if self.see == "opcodes":
            line = next((found for start, end, found in code.co_lines() if found is not None and start <= number < end), code.co_firstlineno)
        return Place(Path(code.co_filename).name, line, code.co_name, code.co_filename)

    # ---- questions

    def _seen(self, trace: Trace, model: str) -> object:
        if model not in (self.see, "returned"):
            raise ValueError(f"what is seen is {self.see} or returned")
        return trace[1] if model == "returned" else trace[0]

    def partition(self, model: str | None = None) -> Partition:
        """What is seen of each secret."""
        numbers: dict[object, int] = {}
        classes = [numbers.setdefault(self._seen(trace, model or self.see), len(numbers)) for trace in self._traces]
        return Partition(self.secrets, self.noise, classes, len(numbers))

    def classes(self, model: str | None = None) -> int:
        """How many classes are seen."""
        return self.partition(model).count

    def program(self, model: str | None = None) -> MeasuredProgram:
        """The text of what is seen, as a program that is compared with what was measured before each question."""
        name = model or self.see
        if name not in self._programs:
            self._programs[name] = measured_program(self.partition(name), f"# Measured: {self.function.__name__} in Python; seen: {name}.\n")
        return self._programs[name]

    def leak(self, gain: Gain = "bayes", model: str | None = None, timeout: float | None = None) -> Leakage:
        """Prior and posterior vulnerability under a gain function, by the proved program."""
        return self.program(model).leak(gain, timeout)

    def capacity(self, model: str | None = None, timeout: float | None = None) -> Fraction:
        """The Bayes capacity, by the proved program."""
        return self.program(model).capacity(timeout)

    def first_told(self) -> list[ToldLine]:
        """At which lines something is first told: their bits add up to the mutual information, most first."""
        weights: dict[tuple[Site, ...], dict[int, int]] = {}
        each, noise = self.noise.size, self.noise.weights
        for run, trace in enumerate(self._traces):
            way = weights.setdefault(trace[0], {})
            way[run // each] = way.get(run // each, 0) + noise[run % each]
        ledger: Ledger[Place] = Ledger(self.secrets.size * self.noise.total)
        examples: dict[Place, tuple[str, str]] = {}
        work = [(list(weights), 0)]
        while work:
            group, depth = work.pop()
            while len(group) > 1 and len({t[depth] if depth < len(t) else None for t in group}) == 1:
                depth += 1
            if len(group) < 2:
                continue
            ways: dict[Site | None, list[tuple[Site, ...]]] = {}
            for seen in group:
                ways.setdefault(seen[depth] if depth < len(seen) else None, []).append(seen)
            place = self._place(group[0][depth - 1]) if depth else Place(self.function.__name__)
            ledger.add(place, [_together([weights[t] for t in some]) for some in ways.values()])
            first = [min(weights[t]) for t in (some[0] for some in ways.values())]
            examples.setdefault(place, (self._text(first[0]), self._text(first[1])))
            work += [(some, depth + 1) for some in ways.values()]
        told = [ToldLine(place, ledger.bits(place), counts.classes, examples[place]) for place, counts in ledger.sites.items()]
        return sorted(told, key=lambda t: (-float(t.bits), t.place.line or 0))

    def bits(self) -> Interval:
        """The mutual information of the secret and the lines that run."""
        partition = self.partition()
        ledger: Ledger[int] = Ledger(self.secrets.size * self.noise.total)
        ways: list[dict[int, int]] = [{} for _ in range(partition.count)]
        each, noise = self.noise.size, self.noise.weights
        for run, number in enumerate(partition.classes):
            ways[number][run // each] = ways[number].get(run // each, 0) + noise[run % each]
        ledger.add(0, ways)
        return bits(ledger.all().counts, ledger.total)


def _together(ways: Sequence[Mapping[int, int]]) -> dict[int, int]:
    whole: dict[int, int] = {}
    for way in ways:
        for secret, weight in way.items():
            whole[secret] = whole.get(secret, 0) + weight
    return whole


def measured(
    *, see: str = "lines", only: str | None = None, noise: Mapping[str, Secret] = {}, **secrets: Secret
) -> Callable[[Callable[..., Any]], MeasuredFunction]:
    """Makes a function of Python one that was measured: ``@measured(pin=[range(10)] * 4)`` above it.

    A secret is a sequence of the values that it may have, or a list of equal ones for an array. ``only`` is the beginning of the paths whose lines
    are seen: the function's own file where it isn't given. Raises ``Unmeasured`` where a run can't be relied on.
    """
    return lambda function: MeasuredFunction(function, see, only, noise, secrets)
