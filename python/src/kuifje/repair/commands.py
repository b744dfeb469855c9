"""The commands ``kuifje-lab floor`` and ``kuifje-lab repair``."""

from __future__ import annotations

import re
import sys
from pathlib import Path

import click

from ..measures import posterior_vulnerability, prior_vulnerability
from ..named import program_named
from .purposes import Floor, Keep, Place, floor
from .search import CHANGES, Repair, repair

__all__ = ["floor_command", "repair_command"]

FILE = click.Path(path_type=Path)


def _place(context: click.Context, option: click.Parameter, words: tuple[str, ...]) -> Keep:
    """The observations that are kept, each as ``LINE`` or ``LINE:COLUMN``."""
    found: list[Place] = []
    for word in words:
        if not (parts := re.fullmatch(r"(\d{1,6})(?::(\d{1,6}))?", word, re.ASCII)):
            raise click.BadParameter(f"{word!r} is no LINE or LINE:COLUMN")
        found.append(int(parts[1]) if parts[2] is None else (int(parts[1]), int(parts[2])))
    return found or None


KEEP = click.option(
    "--keep", multiple=True, callback=_place, metavar="LINE[:COLUMN]", help="An observation that the program is for; several with --keep each."
)


def _said(name: str, found: Floor) -> str:
    """What is known of a program before anything is searched."""
    leak, least = posterior_vulnerability(found.hyper), posterior_vulnerability(found.floor)
    lines = [f"{name}: one guess is right with {leak}, before a run with {prior_vulnerability(found.hyper)}, and with {least} by what is kept alone"]
    if found.is_reached:
        lines.append("at the floor: nothing leaks but what is kept")
    elif leak == least:
        lines.append("above the floor: more leaks than what is kept, though not to one guess")
    else:
        lines.append(f"above the floor by {leak - least}")
    lines += [f"line {line} shows up to {count} values in a run, and all of them are kept, in their order" for line, count in found.repeated.items()]
    return "".join(f"{line}\n" for line in lines)


def _repaired(number: int, one: Repair) -> str:
    at = "at the floor: none that keeps what is kept leaks less" if one.at_floor else "not at the floor: a better one may exist"
    lines = [
        f"repair {number} ({', '.join(one.kinds)}): one guess is right with {posterior_vulnerability(one.hyper)}; {at}",
        "by the proved program: secret, final values and what is kept are distributed alike, a run shows what is kept, and the first is refined",
        *(f"without the change at line {line}, column {column}, one guess would be right with {left}" for (line, column), left in one.needed.items()),
    ]
    return "".join(f"{line}\n" for line in lines) + one.diff


@click.command("floor")
@click.argument("file", type=FILE)
@KEEP
@click.option("--turns", type=int, default=1024, show_default=True, help="How many turns a loop may take.")
def floor_command(file: Path, keep: Keep, turns: int) -> None:
    """Says how far a program leaks beyond what it is for. Ends with 1 where it leaks more.

    FILE may be a model in Python, FILE.py:NAME, which is run; lines are then those of its Python.
    """
    found = floor(program_named(file, turns), keep)
    click.echo(_said(str(file), found), nl=False)
    sys.exit(0 if found.is_reached else 1)


@click.command("repair")
@click.argument("file", type=FILE)
@KEEP
@click.option("--finals", multiple=True, metavar="NAME", help="A variable that has to end as it does; all where none is named.")
@click.option("--changes", default="structure", show_default=True, help=f"The kinds of changes, of {','.join(CHANGES)}.")
@click.option("--seconds", type=float, default=10, show_default=True, help="How long the search may take.")
@click.option("-o", "--output", type=FILE, help="Where the text of the first repair is written.")
@click.option("--turns", type=int, default=1024, show_default=True, help="How many turns a loop may take.")
def repair_command(file: Path, keep: Keep, finals: tuple[str, ...], changes: str, seconds: float, output: Path | None, turns: int) -> None:
    """Proposes programs that do the same, still show what this one is for, and leak less.

    Ends with 1 where the program is above the floor and none was found. FILE may be a model in Python, FILE.py:NAME, which is run; lines are then
    those of its Python, and so is the change where it can be written there.
    """
    found = repair(program_named(file, turns), keep, finals or None, tuple(changes.split(",")), seconds)
    click.echo(_said(str(file), found.floor), nl=False)
    for number, one in enumerate(found.found, 1):
        click.echo(_repaired(number, one), nl=False)
    if not found.floor.is_reached and not found.found:
        click.echo(f"no repair was found by {' and '.join(changes.split(','))}; that is a search, and another kind of change may do: --changes")
    for line, why in found.uncovered:
        click.echo(f"line {line} isn't changed: {why}")
    if output is not None and found.found:
        output.write_bytes(found.found[0].program.text)
    sys.exit(0 if found.floor.is_reached or found.found else 1)
