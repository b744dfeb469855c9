"""The command ``kuifje-lab measure``: compiled code is run on all of its bounded inputs, and the proved program judges what is seen of it."""

from __future__ import annotations

import sys
from collections.abc import Sequence
from fractions import Fraction
from pathlib import Path

import click

from ..errors import KuifjeError
from .builds import Build, builds
from .judgements import Judged, Rules, judge, junit, refused, sarif, status
from .measurement import Measurement
from .models import MODELS, Model, model_named
from .refusals import Unmeasured
from .reports import report
from .traces import Limits, scratch

__all__ = ["measure"]

FILE = click.Path(path_type=Path)


def _fraction(text: str | None) -> Fraction | None:
    try:
        return None if text is None else Fraction(text)
    except (ValueError, ZeroDivisionError):
        raise ValueError(f"the bound {text!r} is no fraction") from None


def _limits(snapshot: bool, instructions: int, whole: bool, emulator_alone: bool) -> Limits:
    return Limits(instructions=instructions, snapshot=snapshot, seconds=None if whole else Limits().seconds, processor=not emulator_alone)


def _older(build: Build, against: Path | None, revision: str | None, folder: Path, limits: Limits) -> tuple[Measurement | None, str]:
    """The measurement of the older code, and what it is called."""
    if against is not None:
        return Measurement(build.with_old(against), limits), str(against)
    if revision is not None:
        return Measurement(build.at_revision(revision, folder), limits), f"itself at {revision}"
    return None, ""


def _judged(
    build: Build, models: Sequence[Model], rules: Rules, limits: Limits, old: tuple[Path | None, str | None], timeout: float | None
) -> list[Judged]:
    """What is found of one build under each model; a refusal is a finding, too."""
    file = str(build.sources[0])
    with scratch() as folder:
        try:
            measured = Measurement(build, limits)
            older, than = _older(build, *old, Path(folder), limits)
        except Unmeasured as cause:
            return [refused(build.name, file, cause)]
        found = []
        for model in models:
            try:
                found.append(judge(measured, model, rules, older, than=than, timeout=timeout))
            except KuifjeError as cause:
                found.append(refused(f"{build.name}, seen: {model}", file, cause))
        return found


def _table(rows: Sequence[tuple[str, Sequence[Judged]]], models: Sequence[Model]) -> str:
    """How many classes each model sees of each build."""
    heads = [str(model) for model in models]
    wide = max(len("classes"), *(len(name) for name, _ in rows))
    text = f"{'classes':{wide}}  {'  '.join(heads)}\n"
    for name, found in rows:
        cells = [str(one.classes) if one.classes is not None else one.cause.word if isinstance(one.cause, Unmeasured) else "none" for one in found]
        cells += [cells[0]] * (len(heads) - len(cells))
        text += f"{name:{wide}}  {'  '.join(f'{cell:>{len(head)}}' for cell, head in zip(cells, heads))}\n"
    return text


def _details(one: Judged, gain: str) -> str:
    if one.cause is not None:
        return f"{one.title}: no answer: {one.cause}\n"
    at = f", with {one.public}" if one.public else ""
    text = f"{one.title}\n{one.summary}\n"
    text += f"gain {gain}: prior {one.prior}, posterior {one.posterior}; capacity {one.capacity}{at}\n"
    text += str(one.lines) if one.lines and one.lines.told else "  nothing is told anywhere\n"
    if one.comparison is not None:
        text += str(one.comparison)
    return text


@click.command()
@click.argument("sources", type=FILE, nargs=-1, required=True)
@click.option(
    "--cc", "compilers", multiple=True, metavar="NAME", help="A compiler: gcc where none is named; clang, clang-16, .. Several make a table."
)
@click.option("-O", "levels", multiple=True, metavar="LEVEL", help="A level, as for the compiler: 2 where none is named.")
@click.option("-D", "defines", multiple=True, metavar="NAME[=VALUE]", help="A macro of the sources.")
@click.option("--flag", "flags", multiple=True, help="A word for the compiler.")
@click.option("-l", "libraries", multiple=True, metavar="NAME", help="A library.")
@click.option("--target", type=click.Choice(["x86_64", "aarch64"]), default="x86_64", show_default=True, help="The processor that is compiled for.")
@click.option(
    "--model", "models", multiple=True, metavar="NAME", help=f"What is seen: {', '.join(MODELS)}; lines:32 of another size. lines where none is."
)
@click.option("--gain", default="bayes", show_default=True, help='As for kuifje leak: bayes, "tries:3", guessing, or table:FILE.')
@click.option("--at-most", metavar="N/D", help="The greatest posterior vulnerability that holds.")
@click.option("--at-least", metavar="N/D", help="With --gain guessing: the least number of guesses that holds.")
@click.option("--capacity", metavar="N/D", help="The greatest Bayes capacity that holds: 1 where nothing may be told.")
@click.option("--against", type=FILE, help="An older file in place of the last source: the newer one must leak no more.")
@click.option("--revision", help="The sources at this revision of git: they must leak no more now.")
@click.option("--snapshot", is_flag=True, help="Memory is as it was at first before each run, for code with a state of its own.")
@click.option("--instructions", default=Limits().instructions, show_default=True, help="How many a run may take.")
@click.option("--whole", is_flag=True, help="The processor makes all runs by single steps, however long that takes.")
@click.option("--emulator", "emulator_alone", is_flag=True, help="The processor isn't asked: no second tracer.")
@click.option("-o", "--output", type=FILE, help="Writes the text of what was measured.")
@click.option("--table", type=FILE, help="Writes the table beside the text: which number is which secret.")
@click.option("--sarif", "sarif_file", type=FILE, help="Writes what was found as SARIF 2.1.0.")
@click.option("--junit", "junit_file", type=FILE, help="Writes the rules as JUnit XML.")
@click.option("--report", "report_file", type=FILE, help="Writes a report as HTML, with the coloured source.")
@click.option("--timeout", type=float, help="Seconds that a question may take; as long as it takes where it isn't said.")
def measure(
    sources: tuple[Path, ...],
    compilers: tuple[str, ...],
    levels: tuple[str, ...],
    defines: tuple[str, ...],
    flags: tuple[str, ...],
    libraries: tuple[str, ...],
    target: str,
    models: tuple[str, ...],
    gain: str,
    at_most: str | None,
    at_least: str | None,
    capacity: str | None,
    against: Path | None,
    revision: str | None,
    snapshot: bool,
    instructions: int,
    whole: bool,
    emulator_alone: bool,
    output: Path | None,
    table: Path | None,
    sarif_file: Path | None,
    junit_file: Path | None,
    report_file: Path | None,
    timeout: float | None,
) -> None:
    """Runs compiled code on every secret, and judges what is seen of it. The first of SOURCES is the harness, and the others are its code, in C, C++
    or Rust, or are objects and libraries. Ends with 0 where all rules hold, with 1 where one doesn't, and with 2 where there is no answer."""
    if against is not None and revision is not None:
        raise ValueError("--against and --revision exclude one another")
    words = (*flags, *(f"-D{define}" for define in defines))
    build = Build(sources, flags=words, libraries=tuple(f"-l{name}" for name in libraries), target=target)
    seen = [model_named(name) for name in models or ("lines",)]
    rules = Rules(gain, _fraction(at_most), _fraction(capacity), _fraction(at_least))
    limits = _limits(snapshot, instructions, whole, emulator_alone)
    rows = [(b.name, _judged(b, seen, rules, limits, (against, revision), timeout)) for b in builds(build, compilers, levels)]
    everything = [one for _, found in rows for one in found]
    if len(everything) > 1:
        click.echo(_table(rows, seen), nl=False)
    shown = everything if len(everything) <= len(seen) else [one for one in everything if one.held is not True][:4]
    for one in shown:
        click.echo(_details(one, gain), nl=False)
    findings = [finding for one in everything for finding in one.findings]
    for finding in findings:
        if finding.held is not None:
            click.echo(finding)
    _written(everything[0], output, table)
    if sarif_file is not None:
        sarif_file.write_text(sarif(everything), encoding="utf-8")
    if junit_file is not None:
        junit_file.write_text(junit(findings), encoding="utf-8")
    if report_file is not None:
        report_file.write_text(report(everything), encoding="utf-8")
    sys.exit(status(everything))


def _written(one: Judged, output: Path | None, table: Path | None) -> None:
    if (output is None and table is None) or one.program is None:
        return
    one.program.compare()
    if output is not None:
        output.write_bytes(one.program.text)
    if table is not None:
        table.write_text(one.program.table(), encoding="utf-8")
