"""Judgements of measured code: which rules hold, at which of the code's own lines they are broken, and what pipelines read of them."""

from __future__ import annotations

import hashlib
import json
import os
from collections.abc import Iterable, Sequence
from dataclasses import dataclass, field
from fractions import Fraction
from pathlib import Path
from urllib.parse import quote
from xml.etree import ElementTree

from ..gates import Finding
from ..program import Gain
from .lines import Lines, Told
from .measurement import Comparison, Measurement
from .models import Model
from .places import Place
from .texts import MeasuredProgram
from .refusals import Unmeasured

__all__ = ["Judged", "Rules", "judge", "junit", "path_of", "refused", "sarif", "status"]

SCHEMA = "https://json.schemastore.org/sarif-2.1.0.json"


@dataclass(frozen=True)
class Rules:
    """What must hold of a measurement: the greatest posterior vulnerability and capacity, and under ``guessing`` the least number of guesses.

    None bounds nothing. Raises ``ValueError`` where a bound isn't one of its gain.
    """

    gain: Gain = "bayes"
    posterior: Fraction | None = None
    capacity: Fraction | None = None
    least_guesses: Fraction | None = None

    def __post_init__(self) -> None:
        if self.gain == "guessing" and self.posterior is not None:
            raise ValueError("fewer guesses are worse for the secret, so that they have a least number and no greatest")
        if self.gain != "guessing" and self.least_guesses is not None:
            raise ValueError(f"a least number of guesses is one of the gain guessing, and not of {self.gain}")


@dataclass(frozen=True)
class Judged:
    """What was found of one measurement under one model: its findings, its lines, and the numbers that they rest on."""

    title: str
    file: str
    findings: tuple[Finding, ...]
    model: str = ""
    summary: str = ""
    public: str = ""
    prior: Fraction | None = None
    posterior: Fraction | None = None
    capacity: Fraction | None = None
    classes: int | None = None
    lines: Lines | None = None
    comparison: Comparison | None = None
    cause: Exception | None = None
    program: MeasuredProgram | None = field(default=None, compare=False)

    @property
    def held(self) -> bool | None:
        """Whether all rules hold: none where there is no answer."""
        if self.cause is not None or any(finding.held is None for finding in self.findings):
            return None
        return all(finding.held for finding in self.findings)


def refused(title: str, file: str, cause: Exception) -> Judged:
    """That there was no measurement, or no answer."""
    place = cause.place if isinstance(cause, Unmeasured) else None
    name, _, line = (place or "").rpartition(":")
    number = int(line) if line.isdigit() else None
    finding = Finding("measured", name if number else file, None, f"{title}: {cause}", number)
    return Judged(title, file, (finding,), cause=cause)


def path_of(place: Place) -> str:
    """The path of a source from here where it lies below this folder, else its name."""
    if place.path and os.path.exists(place.path):
        shown = os.path.relpath(place.path)
        return shown if not shown.startswith("..") else place.file
    return place.file


def _at(lines: Lines) -> tuple[str, int] | None:
    """The line at which most is told."""
    return next(((path_of(told.place), told.place.line) for told in lines.told if told.place.line is not None), None)


def _bounded(title: str, file: str, rules: Rules, posterior: Fraction, capacity: Fraction, lines: Lines) -> list[Finding]:
    """Whether the bounds hold; one that doesn't is placed at the line at which most is told."""
    found, where = [], _at(lines)
    for rule, value, bound in (
        ("posterior_vulnerability", posterior, rules.posterior),
        ("least_guesses", posterior, rules.least_guesses),
        ("capacity", capacity, rules.capacity),
    ):
        if bound is None:
            continue
        held = value >= bound if rule == "least_guesses" else value <= bound
        named, line = (file, None) if held or where is None else where
        text = f"{title}: {value}, at {'least' if rule == 'least_guesses' else 'most'} {bound}"
        found.append(Finding(rule, named, held, text, line))
    return found


def _refinement(title: str, file: str, than: str, found: Comparison) -> Finding:
    """Whether the code leaks no more than older code; a no is placed where secrets are newly told apart."""
    source = found.told.source if found.told else None
    place = (path_of(source), source.line) if source is not None and source.line else (file, None)
    text = f"{title}: leaks {'no ' if found.refines else ''}more than {than}" + (f", {found.told}" if found.told else "")
    return Finding("refinement", place[0], found.refines, text, place[1])


def judge(
    measured: Measurement,
    model: Model,
    rules: Rules = Rules(),
    old: Measurement | None = None,
    *,
    than: str = "before",
    timeout: float | None = None,
) -> Judged:
    """What a model sees of a measurement, and whether the rules hold; each number is the proved program's. Raises what a question raises."""
    title = f"{measured.build.name}, seen: {model}"
    file = os.path.relpath(measured.build.sources[0])
    public, _ = measured.worst(model, lambda p: p.leak(rules.gain, timeout).posterior_vulnerability, rules.gain == "guessing", rules.gain)
    program = measured.program_for(rules.gain, model, public)
    leak, capacity = program.leak(rules.gain, timeout), measured.capacity(model, timeout)
    lines = measured.lines(model, bound=int(rules.capacity) if rules.capacity is not None else 1)
    findings = _bounded(title, file, rules, leak.posterior_vulnerability, capacity, lines)
    comparison = None if old is None else measured.refines(old, model, timeout=timeout)
    if comparison is not None:
        findings.append(_refinement(title, file, than, comparison))
    return Judged(
        title,
        file,
        tuple(findings),
        str(model),
        measured.summary,
        measured.public_text(public),
        leak.prior_vulnerability,
        leak.posterior_vulnerability,
        capacity,
        measured.classes(model),
        lines,
        comparison,
        program=program if program.numbering is None else measured.written(model, public),
    )


# ---- SARIF


def _line_text(place: Place) -> str:
    try:
        lines = Path(place.path or place.file).read_text(encoding="utf-8", errors="replace").splitlines()
    except OSError:
        return ""
    return lines[place.line - 1].strip() if place.line and place.line <= len(lines) else ""


def _location(file: str, line: int | None, message: str | None = None) -> dict[str, object]:
    physical: dict[str, object] = {"artifactLocation": {"uri": quote(file.replace(os.sep, "/"))}}
    if line is not None:
        physical["region"] = {"startLine": line}
    return {"physicalLocation": physical, **({"message": {"text": message}} if message else {})}


def _of_line(judged: Judged, told: Told) -> dict[str, object]:
    """The result of a line at which something is first told."""
    file = path_of(told.place)
    text = f"{judged.title}: {float(told.bits):.3f} bits of the secret are first told here, {told.left} classes are left without it. {told.parting}"
    print_of = hashlib.sha256(f"{told.place.file}\0{told.place.symbol}\0{_line_text(told.place)}\0{judged.model}".encode()).hexdigest()
    related = [_location(file, told.place.line, f"{secret} goes {way}") for secret, way in zip(told.parting.secrets, told.parting.ways)]
    return {
        "ruleId": "first-told",
        "level": "note" if judged.held else "error",
        "message": {"text": text},
        "locations": [_location(file, told.place.line)],
        "relatedLocations": related,
        "partialFingerprints": {"kuifjeLine/v1": print_of},
    }


def sarif(all_judged: Iterable[Judged]) -> str:
    """The judgements as SARIF 2.1.0: each line at which something is told, and each rule that doesn't hold or got no answer."""
    judged = list(all_judged)
    results: list[dict[str, object]] = []
    for one in judged:
        results += [_of_line(one, told) for told in (one.lines.told if one.lines else ())]
        for finding in one.findings:
            if not finding.held:
                place = _location(finding.file, finding.line)
                results.append({"ruleId": finding.rule, "level": "error", "message": {"text": finding.text}, "locations": [place]})
    run = {
        "tool": {"driver": {"name": "kuifje-lab measure", "rules": [{"id": rule} for rule in sorted({str(result["ruleId"]) for result in results})]}},
        "invocations": [{"executionSuccessful": all(one.held is not None for one in judged)}],
        "results": results,
    }
    return json.dumps({"$schema": SCHEMA, "version": "2.1.0", "runs": [run]}, indent=1, ensure_ascii=False) + "\n"


def junit(findings: Sequence[Finding]) -> str:
    """The findings as JUnit XML: a rule that doesn't hold is a failure, and one without an answer an error."""
    counts = {"tests": len(findings), "failures": sum(f.held is False for f in findings), "errors": sum(f.held is None for f in findings)}
    suite = ElementTree.Element("testsuite", {"name": "kuifje-lab measure", **{key: str(count) for key, count in counts.items()}})
    for finding in findings:
        case = ElementTree.SubElement(suite, "testcase", classname=finding.file, name=finding.rule)
        if not finding.held:
            ElementTree.SubElement(case, "error" if finding.held is None else "failure", message=finding.text).text = str(finding)
    ElementTree.indent(suite)
    return ElementTree.tostring(suite, encoding="unicode", xml_declaration=True) + "\n"


def status(all_judged: Sequence[Judged]) -> int:
    """0 where all rules hold, 1 where one doesn't, and 2 where there was no answer, whatever the others say."""
    if any(one.held is None for one in all_judged):
        return 2
    return 0 if all(one.held for one in all_judged) else 1
