"""A measurement: the compiled code was run on every assignment of its bounded inputs, and each question is about what a model sees of these runs."""

from __future__ import annotations

import os
from collections.abc import Callable, Mapping, Sequence
from dataclasses import dataclass, replace
from fractions import Fraction
from pathlib import Path
from typing import Any

from ..errors import KuifjeError
from ..program import Gain
from ..refinement import Decision, decide
from ..texts import Leakage
from .builds import Build, Entries, library_harness
from .lines import Lines, describe, lines_of
from .models import Model, model_named
from .places import Place
from .refusals import Unmeasured
from .texts import QUICK, MeasuredProgram, Partition, measured_program, natural
from .tools import Tools, default_tools
from .traces import Limits, Traces, scratch, trace, with_operands

__all__ = ["Comparison", "Measurement", "NewlyTold", "measure", "measure_build"]

Harness = str | os.PathLike[str]
SECONDS_OF_DIVISIONS = 120.0


@dataclass(frozen=True)
class NewlyTold:
    """Two secrets that the newer code tells apart and the older doesn't, and where."""

    secrets: tuple[str, str]
    place: str
    ways: tuple[str, str]
    source: Place | None = None

    def __str__(self) -> str:
        return f"at {self.place} {self.secrets[0]} goes {self.ways[0]}, and {self.secrets[1]} goes {self.ways[1]}"


@dataclass(frozen=True)
class Comparison:
    """Whether newer code leaks no more than older code, at every prior, to any adversary.

    ``refines`` is whether the newer partition is a function of the older one, which is worked out here. ``decision`` is the proved program's verdict
    with its certificate, where there is one; ``told`` has two secrets of a no, and ``public`` the inputs at which it is one.
    """

    refines: bool
    decision: Decision | None
    told: NewlyTold | None
    public: str = ""

    @property
    def proved(self) -> bool:
        """Whether the proved program has confirmed it."""
        return self.decision is not None and self.decision.refines == self.refines

    def __str__(self) -> str:
        at = f" at {self.public}" if self.public else ""
        how = "the proved program confirms it" if self.proved else "worked out here, and not confirmed by the proved program"
        if self.proved and self.decision is not None and self.decision.certificate is not None:
            how += f", with a certificate of {len(self.decision.certificate.text)} bytes"
        if self.refines:
            return f"leaks no more than before, to any adversary: {how}\n"
        return f"leaks more than before, to some adversary{at}: {how}\n" + (f"  newly told apart: {self.told}\n" if self.told else "")


class Measurement:
    """What was measured of one build. A question names a model of what is seen; with public inputs the answer is the worst of their values."""

    def __init__(self, build: Build, limits: Limits = Limits(), tools: Tools | None = None) -> None:
        """Builds and runs it. Raises ``Unmeasured`` where a run can't be relied on."""
        self.build, self.limits = build, limits
        self._scratch = scratch()
        self._folder = Path(self._scratch.name)
        self._tools = tools or default_tools()
        self.emulated, self.stepped, self.compared = trace(build, limits, self._folder, self._tools)
        self._divided: Traces | None = None
        self._partitions: dict[tuple[Model, int], Partition] = {}
        self._programs: dict[tuple[Model, int], MeasuredProgram] = {}

    def __repr__(self) -> str:
        return f"<Measurement of {self.build.sources[0].name}, {self.build.name}: {self.secrets.size} secrets>"

    @property
    def secrets(self) -> Any:
        """The secrets' domain."""
        return self.emulated.secrets

    @property
    def publics(self) -> range:
        """The numbers of the public inputs' values."""
        return range(self.emulated.publics.size)

    def public_text(self, public: int) -> str:
        """The public inputs in words."""
        return str(self.emulated.publics.text(public))

    @property
    def summary(self) -> str:
        """How much was run, in a sentence or two."""
        report = self.emulated.report
        runs = self.emulated.run_count
        text = f"{self.secrets.size} secrets, {runs} runs, each twice in another order and on other memory; {report['instructions']} instructions"
        if self.stepped is None:
            return text + "; by the emulator alone"
        return text + f"; on {self.compared} runs the processor's own steps are the same"

    def traces_for(self, model: Model) -> Traces:
        """The traces in which a model's events stand: the emulator's, and with the operands of divisions where it sees them and they may matter."""
        if model.needs_operands and self.emulated.report["divides"]:
            _, count = self.emulated.partition(model)
            if count < self.secrets.size * self.emulated.noise.size or self.emulated.publics.size > 1:
                return self._with_operands()
        return self.emulated

    def _with_operands(self) -> Traces:
        """The traces with the operands of divisions. Raises ``Unmeasured`` where there are none, or they take too long."""
        if self.stepped is None:
            raise Unmeasured("Divisions", "the operands of divisions are seen on a processor of x86-64 alone")
        if self._divided is None:
            limits = replace(self.limits, seconds=SECONDS_OF_DIVISIONS if self.limits.seconds is not None else None)
            self._divided = with_operands(self.build, limits, self._folder, self._tools, self.emulated)
        return self._divided

    def partition(self, model: str | Model, public: int = 0) -> Partition:
        """What a model sees of each secret, at one value of the public inputs. Raises ``Unmeasured`` where the two tracers' partitions differ."""
        model = model_named(model)
        if (model, public) not in self._partitions:
            traces = self.traces_for(model)
            classes, count = traces.partition(model, public)
            if self.stepped is not None and not (model.needs_operands and self.emulated.report["divides"]):
                _same_where_made(classes, self.stepped.partition(model, public)[0])
            self._partitions[model, public] = Partition(self.emulated.secrets, self.emulated.noise, classes, count)
        return self._partitions[model, public]

    def classes(self, model: str | Model) -> int:
        """How many classes a model sees, at the worst public input."""
        return max(self.partition(model, public).count for public in self.publics)

    def notes(self, model: Model, public: int) -> str:
        """What stands above a text."""
        known = f", with {self.public_text(public)}" if self.emulated.publics.variables else ""
        names = ", ".join(source.name for source in self.build.sources)
        return f"# Measured: {names}, by {self.build.name}; seen: {model}{known}.\n"

    def program(self, model: str | Model, public: int = 0) -> MeasuredProgram:
        """The text of what a model sees, as a program that is compared with what was measured before each question."""
        model = model_named(model)
        if (model, public) not in self._programs:
            self._programs[model, public] = measured_program(self.partition(model, public), self.notes(model, public), QUICK)
        return self._programs[model, public]

    def written(self, model: str | Model, public: int = 0) -> MeasuredProgram:
        """The text that is kept: in natural order up to a megabyte, else by classes."""
        model = model_named(model)
        return measured_program(self.partition(model, public), self.notes(model, public))

    def program_for(self, gain: Gain, model: str | Model, public: int = 0) -> MeasuredProgram:
        """The program that is asked under a gain: a table of gains names the secrets as they are in the code, and so needs the natural order."""
        found = self.program(model, public)
        is_table = not isinstance(gain, str) or gain.startswith("table:")
        return self.written(model, public) if is_table and found.numbering is not None else found

    def worst(
        self, model: str | Model, measure: Callable[[MeasuredProgram], Fraction], least: bool = False, gain: Gain = "bayes"
    ) -> tuple[int, Fraction]:
        """The value of the public inputs at which a measure is greatest (or least), and that measure."""
        found = [(measure(self.program_for(gain, model, public)), public) for public in self.publics]
        value, public = min(found, key=lambda pair: (pair[0] if least else -pair[0], pair[1]))
        return public, value

    def leak(self, gain: Gain = "bayes", model: str | Model = "lines", timeout: float | None = None) -> Leakage:
        """Prior and posterior vulnerability under a gain function, by the proved program, at the worst public input."""
        public, _ = self.worst(model, lambda program: program.leak(gain, timeout).posterior_vulnerability, gain == "guessing", gain)
        return self.program_for(gain, model, public).leak(gain, timeout)

    def capacity(self, model: str | Model = "lines", timeout: float | None = None) -> Fraction:
        """The Bayes capacity, by the proved program, at the worst public input."""
        return self.worst(model, lambda program: program.capacity(timeout))[1]

    def worst_public(self, model: str | Model) -> int:
        """The public input with the greatest capacity."""
        return max(self.publics, key=lambda public: (self.partition(model, public).count, -public))

    def lines(self, model: str | Model = "lines", public: int | None = None, bound: int = 1) -> Lines:
        """Which lines leak, at a public input, the worst where none is given; ``bound`` is how many classes may be left without a smallest set."""
        model = model_named(model)
        return lines_of(self, model, self.worst_public(model) if public is None else public, bound)

    def refines(self, old: Measurement, model: str | Model = "lines", seconds: float = 10.0, timeout: float | None = None) -> Comparison:
        """Whether this leaks no more than older code. Raises ``KuifjeError`` where their declared inputs differ."""
        model = model_named(model)
        if (old.emulated.secrets, old.emulated.publics, old.emulated.noise) != (self.emulated.secrets, self.emulated.publics, self.emulated.noise):
            raise KuifjeError("the declared inputs of both differ, so that they can't be compared")
        found = Comparison(True, None, None)
        for public in self.publics:
            found = self._refines(old, model, public, seconds, timeout)
            if not found.refines:
                return found
        return found

    def _refines(self, old: Measurement, model: Model, public: int, seconds: float, timeout: float | None) -> Comparison:
        before, after = old.partition(model, public), self.partition(model, public)
        decision = _decided(old, self, model, public, seconds, timeout)
        known = self.public_text(public) if self.emulated.publics.variables else ""
        if not after.is_function:
            if decision is None or decision.refines is None:
                raise Unmeasured("Large", "whether randomised code leaks no more than before wasn't decided")
            return Comparison(decision.refines, decision, None, known)
        pair = before.refines_to(after)
        if decision is not None and decision.refines not in (None, pair is None):
            raise Unmeasured("Text", "the proved program's verdict isn't that of the partitions")
        return Comparison(pair is None, decision, None if pair is None else self._newly_told(model, public, pair), known)

    def _newly_told(self, model: Model, public: int, pair: tuple[int, int]) -> NewlyTold:
        traces = self.traces_for(model)
        first = traces.runs(public)[0]
        parted = traces.difference(model, *(traces.trace_of(first + secret) for secret in pair))
        place, ways = describe(traces, model, parted)
        texts = [self.secrets.text(secret) for secret in pair]
        return NewlyTold((texts[0], texts[1]), str(place), ways, place)


def _same_where_made(all_classes: Sequence[int], some: Sequence[int]) -> None:
    """Compares two partitions on the runs that the second one has. Raises ``Unmeasured`` where they differ."""
    there: dict[int, int] = {}
    back: dict[int, int] = {}
    for a, b in zip(all_classes, some):
        if b != 0xFFFFFFFF and (there.setdefault(a, b) != b or back.setdefault(b, a) != a):
            raise Unmeasured("Disagree", "the emulator and the processor give different partitions")


def _decided(old: Measurement, new: Measurement, model: Model, public: int, seconds: float, timeout: float | None) -> Decision | None:
    """The proved program's verdict, where both have texts in natural order."""
    programs = []
    for measured, name in ((old, "old.kf"), (new, "new.kf")):
        partition = measured.partition(model, public)
        text = natural(partition)
        if text is None or len(text) > QUICK:
            return None
        programs.append(MeasuredProgram(text, partition, None, name))
        programs[-1].compare(timeout)
    return decide(programs[0], programs[1], seconds, timeout)


def measure_build(build: Build, limits: Limits = Limits(), tools: Tools | None = None) -> Measurement:
    """The measurement of a build."""
    return Measurement(build, limits, tools)


def measure(
    harness: Harness | Sequence[Harness],
    function: str | None = None,
    *,
    secret: Mapping[str, Entries] | None = None,
    public: Mapping[str, Entries | bytes | int] | None = None,
    arguments: Sequence[str | int] | None = None,
    include: str | None = None,
    compiler: str = "gcc",
    level: str = "2",
    flags: Sequence[str] = (),
    libraries: Sequence[str] = (),
    target: str = "x86_64",
    limits: Limits = Limits(),
) -> Measurement:
    """The measurement of a harness with its sources, or of a function of a shared library by its name.

    ``measure(["pin_harness.c", "pin.c"])`` builds a harness. ``measure("libcrypto.so.3", "CRYPTO_memcmp", secret={"a": bytes_of(4, range(10))},
    public={"b": b"\\3\\1\\4\\1"}, arguments=("a", "b", 4))`` writes one. Raises ``Unmeasured`` where there is no measurement.
    """
    options = {"compiler": compiler, "level": level, "flags": tuple(flags), "target": target}
    if function is None:
        files = [harness] if isinstance(harness, (str, os.PathLike)) else list(harness)
        return Measurement(Build(tuple(map(Path, files)), libraries=tuple(libraries), **options), limits)  # type: ignore[arg-type]
    if not secret or not isinstance(harness, (str, os.PathLike)):
        raise ValueError("a function of a library needs the library, and a secret")
    name = os.fspath(harness)
    linked = name if "/" in name else f"-l:{name}"
    with scratch() as folder:
        written = Path(folder) / f"{function}.c"
        written.write_text(library_harness(function, secret, public or {}, arguments, include), encoding="utf-8")
        options["flags"] = (*tuple(flags), "-fno-builtin", "-w")
        return Measurement(Build((written,), libraries=(linked, *libraries), **options), limits)  # type: ignore[arg-type]
