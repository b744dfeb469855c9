"""The command ``kuifje-lab``: reports, leakage, orders, pictures, attack plans, hints, sweeps, templates, floors and repairs; a check for pipelines.

Each command ends with 0, or with 2 and a line on standard error where it can't be done, which a refusal of a program is, too. ``gate`` ends with 1 as
well, where a rule doesn't hold, and so do ``decide`` for a no, ``lint`` where it has a hint, ``floor`` where more leaks than what is kept, and
``repair`` where nothing is found against that; ``decide`` ends with 2 where it comes to no verdict.
"""

from __future__ import annotations

import re
import sys
import warnings
from collections.abc import Callable
from concurrent.futures import ProcessPoolExecutor
from fractions import Fraction
from pathlib import Path
from typing import Any

import click

from . import gates
from .errors import KuifjeError
from .observations import plan
from .lints import SLOW, lint
from .measured.command import measure
from .named import program_named
from .orders import order
from .program import Program
from .questions import AsItIsLeft
from .repair.commands import floor_command, repair_command
from .values import parse_value
from .field_words import leakage_lines

FILE = click.Path(path_type=Path)
F = Callable[..., None]


class _Lab(click.Group):
    """The commands; what can't be done ends with 2."""

    def invoke(self, ctx: click.Context) -> Any:
        """Runs a command, without the warnings that are for sessions."""
        with warnings.catch_warnings():
            warnings.simplefilter("ignore", AsItIsLeft)
            try:
                if sys.stdout is None:
                    raise OSError("standard output is closed")
                return super().invoke(ctx)
            except ImportError as cause:
                cause_text = f"{cause.name} isn't installed; the package's page names the Debian packages"
            except (KuifjeError, OSError, ValueError) as cause:
                cause_text = str(cause)
        click.echo(f"kuifje-lab: {cause_text}", err=True)
        sys.exit(2)


@click.group(cls=_Lab)
def main() -> None:
    """What programs leak: reports, pictures and checks, by the proved program's answers."""


def _asking(command: F) -> F:
    """The options of a command that asks questions."""
    command = click.option("--timeout", type=float, help="Seconds that a question may take; as long as it takes where it isn't said.")(command)
    return click.option("--turns", type=int, default=1024, show_default=True, help="How many turns a loop may take.")(command)


def _output(command: F) -> F:
    return click.option("-o", "--output", type=FILE, help="The file to write; standard output where it isn't said.")(command)


def _write(text: str, output: Path | None) -> None:
    """Writes a text to a file, or to standard output. Raises ``OSError``, which names what couldn't be written."""
    try:
        if output is None:
            click.echo(text, nl=False)
        else:
            output.write_text(text, encoding="utf-8")
    except OSError as cause:
        raise OSError(f"{output or 'standard output'}: {cause.strerror}") from None


@main.command()
@click.argument("files", type=FILE, nargs=-1, required=True)
@click.option("--title", default="What programs leak", show_default=True, help="The report's title.")
@_output
@_asking
def report(files: tuple[Path, ...], title: str, output: Path | None, turns: int, timeout: float | None) -> None:
    """Writes all that is found about programs as one HTML file that opens anywhere. A file may be a model in Python, FILE.py:NAME, which is run."""
    from . import reports

    _write(reports.report([program_named(file, turns) for file in files], title, timeout), output)


@main.command("leak")
@click.argument("file", type=FILE)
@click.option("--gain", default="bayes", show_default=True, help='As for kuifje leak: bayes, "tries:3", guessing, or table:FILE.')
@click.option("--printed", is_flag=True, help="Prints what kuifje leak prints, byte by byte.")
@_asking
def leak_(file: Path, gain: str, printed: bool, turns: int, timeout: float | None) -> None:
    """Prints prior and posterior vulnerability, multiplicative and additive leakage; of one guess in bits, too, which are rounded. The file may be a
    model in Python, FILE.py:NAME, which is run."""
    found = program_named(file, turns).leak(gain, timeout)
    click.echo(str(found) if printed else leakage_lines(found), nl=False)


@main.command("order")
@click.argument("files", type=FILE, nargs=-1, required=True)
@click.option("--json", "as_json", is_flag=True, help="Prints the order as JSON, with all certificates.")
@click.option("-o", "--output", type=FILE, help="Draws the order to this file, which ends with .svg or .png.")
@_asking
def order_(files: tuple[Path, ...], as_json: bool, output: Path | None, turns: int, timeout: float | None) -> None:
    """Prints which of several programs leaks no more than which, to any adversary."""
    found = order(*(Program.from_file(file, turns=turns) for file in files), timeout=timeout)
    click.echo(found.to_json() + "\n" if as_json else str(found), nl=False)
    if output is not None:
        from . import pictures

        pictures.save(pictures.hasse(found), output)


@main.command()
@click.argument("a", type=FILE)
@click.argument("b", type=FILE)
@click.option("--json", "as_json", is_flag=True, help="Prints the answer as JSON, with the certificate.")
@click.option("--seconds", type=float, default=10.0, show_default=True, help="How long the search for a certificate may take.")
@click.option("-o", "--output", type=FILE, help="Writes the certificate to this file.")
@_asking
def decide(a: Path, b: Path, as_json: bool, seconds: float, output: Path | None, turns: int, timeout: float | None) -> None:
    """Prints whether B leaks no more than A, to any adversary, where `kuifje refine` meets its bounds, and for which priors that holds. A certificate
    is found, and the proved program checks it. Ends with 0 where it is so, with 1 where it isn't, and with 2 where that isn't decided."""
    from . import refinement

    found = refinement.decide(Program.from_file(a, turns=turns), Program.from_file(b, turns=turns), seconds, timeout)
    holds = f"{found.priors}\n" if found.priors is not None else ""
    click.echo(found.to_json() + "\n" if as_json else str(found) + holds, nl=False)
    if output is not None and found.certificate is not None:
        output.write_bytes(found.certificate.text)
    sys.exit({True: 0, False: 1, None: 2}[found.refines])


@main.command()
@click.argument("a", type=FILE)
@click.argument("b", type=FILE)
@click.option("--plus", is_flag=True, help="The least amount, for gains from 0 to 1, in place of the least factor.")
@click.option("--seconds", type=float, default=60.0, show_default=True, help="How long the search may take.")
@click.option("--turns", type=int, default=1024, show_default=True, help="How many turns a loop may take.")
def more(a: Path, b: Path, plus: bool, seconds: float, turns: int) -> None:
    """Prints by how much B leaks more than A, at most: the least factor for every gain function without gains below 0, with a matrix that proves that
    no adversary gets more, and the gain table of one that gets as much. It is exact, found and checked by this package, and not proved. Ends with 0
    where B leaks no more, and with 1 where it leaks more. A and B may be models in Python, FILE.py:NAME, which are run."""
    from . import refinement

    asked = refinement.distance if plus else refinement.ratio
    found = asked(program_named(a, turns), program_named(b, turns), seconds)
    click.echo(str(found), nl=False)
    sys.exit(0 if found.times == 1 and found.plus == 0 else 1)


@main.command()
@click.argument("kind", type=click.Choice(["bars", "blame", "channel", "lines", "trail", "triangle", "vulnerability"]))
@click.argument("file", type=FILE)
@click.option("-o", "--output", type=FILE, required=True, help="The file to draw, which ends with .svg or .png.")
@_asking
def plot(kind: str, file: Path, output: Path, turns: int, timeout: float | None) -> None:
    """Draws an answer about a program."""
    from . import pictures

    program = Program.from_file(file, turns=turns)
    drawn: dict[str, Callable[[], Any]] = {
        "bars": lambda: pictures.bars(program.hyper(timeout)),
        "blame": lambda: pictures.blame(program, program.blame(timeout)),
        "channel": lambda: pictures.channel(program.channel(timeout)),
        "lines": lambda: pictures.lines(program, program.lines(timeout=timeout)),
        "trail": lambda: pictures.trail(program, program.trail(timeout)),
        "triangle": lambda: pictures.triangle(program.hyper(timeout)),
        "vulnerability": lambda: pictures.vulnerability(program.channel(timeout)),
    }
    pictures.save(drawn[kind](), output)


@main.command("plan")
@click.argument("file", type=FILE)
@click.option("--gain", default="bayes", show_default=True, help='As for kuifje attack: bayes, "tries:3", guessing, or table:FILE.')
@_asking
def plan_(file: Path, gain: str, turns: int, timeout: float | None) -> None:
    """Prints what an adversary does best after what is seen, as a tree."""
    click.echo(str(plan(Program.from_file(file, turns=turns), gain, timeout=timeout)), nl=False)


@main.command("lint")
@click.argument("files", type=FILE, nargs=-1, required=True)
@click.option("--attacker", multiple=True, metavar="NAME", help="A variable that is the attacker's: to show it must not change what is learned.")
@click.option("--refine", is_flag=True, help="Compares the priors of each program with those of the first, as refine does.")
@click.option("--covers", is_flag=True, help="Looks for variables that covers takes as secrets.")
@click.option("--slow", type=float, default=SLOW, show_default=True, help="The seconds after which a program is looked at for unread variables.")
@_asking
def lint_(files: tuple[Path, ...], attacker: tuple[str, ...], refine: bool, covers: bool, slow: float, turns: int, timeout: float | None) -> None:
    """Prints the lines of programs that may not mean what their author meant. Ends with 0 where there is none, and with 1 where there is one."""
    programs = [Program.from_file(file, turns=turns) for file in files]
    found = lint(*programs, attacker=attacker, refine=refine, covers=covers, slow=slow, timeout=timeout)
    click.echo(str(found), nl=False)
    sys.exit(1 if found else 0)


def _value(text: str) -> object:
    """A value of the language, a fraction, or else the text itself."""
    readers: tuple[Callable[[str], object], ...] = (parse_value, Fraction)
    for read in readers:
        try:
            return read(text)
        except (ValueError, ZeroDivisionError):
            continue
    return text


def _grid(settings: tuple[str, ...]) -> dict[str, list[object]]:
    """The values of names: of ``n=4`` and ``n=6..8`` the numbers 4, 6, 7 and 8. Raises ``ValueError`` of other texts."""
    found: dict[str, list[object]] = {}
    for setting in settings:
        name, is_there, text = setting.partition("=")
        if not (is_there and name.isidentifier()):
            raise ValueError(f"{setting!r} isn't like NAME=VALUE")
        between = re.fullmatch(r"(-?[0-9]+)\.\.(-?[0-9]+)", text)
        found.setdefault(name, []).extend(range(int(between[1]), int(between[2]) + 1) if between else [_value(text)])
    return found


SETTING = click.option(
    "--set", "settings", multiple=True, metavar="NAME=VALUE", help="A value of the template's; VALUE is a value, or A..B in a sweep."
)


@main.command()
@click.argument("template", type=FILE)
@SETTING
@_output
def expand(template: Path, settings: tuple[str, ...], output: Path | None) -> None:
    """Writes the text of a template (.kf.j2) with these values."""
    from .templates import Template

    grid = _grid(settings)
    if several := [name for name, values in grid.items() if len(values) != 1]:
        raise ValueError(f"{several[0]} has {len(grid[several[0]])} values")
    read = Template.from_file(template)
    read.check_names(grid)
    _write(read.expand(**{name: values[0] for name, values in grid.items()}).text, output)


@main.command()
@click.argument("template", type=FILE)
@click.argument("question")
@SETTING
@click.option("--cache", type=FILE, help="A folder that keeps answers, so that a sweep that is run again asks only what is new.")
@click.option("--workers", type=int, help="How many processes ask; as many as there are processors where it isn't said.")
@click.option("--scheduler", help="The address of a dask scheduler whose workers ask.")
@_output
@_asking
def sweep(
    template: Path,
    question: str,
    settings: tuple[str, ...],
    cache: Path | None,
    workers: int | None,
    scheduler: str | None,
    output: Path | None,
    turns: int,
    timeout: float | None,
) -> None:
    """Asks QUESTION (like "leak --gain tries:2") of a template with each combination of values, and writes a table as CSV. A refusal is a row."""
    from . import sweeps

    def ask(executor: Any) -> None:
        frame = sweeps.sweep(template, _grid(settings), question, executor, turns=turns, timeout=timeout, cache=cache, progress=sys.stderr.isatty())
        _write(frame.to_csv(index=False), output)

    if scheduler is not None:
        from distributed import Client

        with Client(scheduler) as client:
            ask(client)
    else:
        with ProcessPoolExecutor(workers) as pool:
            ask(pool)


@main.command()
@click.argument("policy", type=FILE)
@click.option("--json", "as_json", is_flag=True, help="Prints the results as JSON.")
@click.option("--junit", type=FILE, help="Writes the results as JUnit XML to this file.")
@click.option("--sarif", type=FILE, help="Writes the rules that don't hold as SARIF 2.1.0 to this file.")
@click.option("--timeout", type=float, help="Seconds that a question may take; a comparison has 60 where it isn't said.")
def gate(policy: Path, as_json: bool, junit: Path | None, sarif: Path | None, timeout: float | None) -> None:
    """Ends with 0 where all rules of POLICY hold, with 1 where one doesn't, and with 2 where the policy can't be read or a question got no answer."""
    from . import gate_reports

    try:
        read = gates.Policy.from_file(policy)
    except ValueError as cause:
        raise ValueError(f"{policy}: {cause}") from None
    findings = gates.judge(read, timeout)
    _write(gate_reports.as_json(findings) if as_json else "".join(f"{finding}\n" for finding in findings), None)
    if junit is not None:
        _write(gate_reports.junit(findings), junit)
    if sarif is not None:
        _write(gate_reports.sarif(findings, read.folder), sarif)
    sys.exit(gates.status(findings))


main.add_command(floor_command)
main.add_command(repair_command)
main.add_command(measure)


if __name__ == "__main__":
    main(prog_name="kuifje-lab")
