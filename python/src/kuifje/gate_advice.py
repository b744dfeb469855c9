"""What a gate says of a program above its bound where the policy has ``keep``: the floor of what is kept, and the best repair by structure.

Nothing is decided by it: a rule holds or doesn't whatever is said here.
"""

from __future__ import annotations

from collections.abc import Callable
from dataclasses import dataclass
from fractions import Fraction
from re import ASCII, fullmatch

from .channels import from_hyper
from .errors import KuifjeError
from .program import Program
from .repair import Floor, Repair, Repairs, repair

__all__ = ["Advice", "Searching", "advice", "places"]

SECONDS = 10.0  # for the search of a program's repair, at most
Number = Callable[[Program, bool], Fraction | None]
"""The number that a rule bounds, of a program; the flag says whether its secrets are numbered, so that no table of gains is for them."""


@dataclass(frozen=True)
class Advice:
    """What is said, with the rule's number at the floor, and of the best repair by structure; none where it isn't known, or there is none."""

    text: str
    floor: Fraction | None = None
    repaired: Fraction | None = None


def places(found: object) -> list[int | tuple[int, int]]:
    """The observations that are kept: lines, or texts ``LINE:COLUMN``. Raises ``ValueError`` where they are others."""
    wanted = f'keep is {found!r}, and has to be a list of lines, or of texts like "5:3" for a line and a column'
    if not isinstance(found, list) or not found:
        raise ValueError(wanted)
    read: list[int | tuple[int, int]] = []
    for place in found:
        if isinstance(place, int) and not isinstance(place, bool) and place > 0:
            read.append(place)
        elif isinstance(place, str) and (parts := fullmatch(r"([1-9]\d{0,6}):([1-9]\d{0,6})", place, ASCII)):
            read.append((int(parts[1]), int(parts[2])))
        else:
            raise ValueError(wanted)
    return read


class Searching:
    """The repairs of a policy's programs: each is searched once, for ``timeout`` seconds, and ten at most."""

    def __init__(self, timeout: float | None) -> None:
        self.seconds = SECONDS if timeout is None else min(SECONDS, timeout)
        self._known: dict[tuple[Program, str], Repairs | Exception] = {}

    def repairs(self, program: Program, keep: list[object]) -> Repairs:
        """The repairs of a program. Raises what the search raised."""
        key = program, repr(keep)
        if key not in self._known:
            try:
                self._known[key] = repair(program, places(keep), seconds=self.seconds)
            except (KuifjeError, ValueError) as cause:
                self._known[key] = cause
        found = self._known[key]
        if isinstance(found, Exception):
            raise found
        return found


def advice(searching: Searching, program: Program, keep: list[object], number: Number, holds: Callable[[Fraction], bool]) -> Advice:
    """What is said of a program above a bound."""
    lines = ", ".join(map(str, keep))
    kept = f"what is kept, line{'s' if len(keep) > 1 else ''} {lines},"
    try:
        found = searching.repairs(program, keep)
        if found.floor.is_reached:
            return Advice(f"{kept} comes to as much alone: no program that keeps it leaks less", floor=number(program, False))
        if found.best is None:
            least = _at_floor(found.floor, number)
            return Advice(f"{kept} comes to {_or_less(least)} alone; no repair by structure was found", least)
        repaired = number(found.best.program, False)
        least = repaired if found.best.at_floor else _at_floor(found.floor, number)
    except (KuifjeError, ValueError) as cause:
        return Advice(f"no repair is known: {str(cause).partition(chr(10))[0]}")
    return Advice(_of_repair(kept, found.best, least, repaired, holds) + f": kuifje-lab repair {program.name}{_words(keep)}", least, repaired)


def _of_repair(kept: str, best: Repair, least: Fraction | None, repaired: Fraction | None, holds: Callable[[Fraction], bool]) -> str:
    met = "" if repaired is None else ", which holds" if holds(repaired) else ", which does not hold either"
    comes = "so much" if best.at_floor else _or_less(repaired)
    changed = f"line{'s' if len(best.lines) > 1 else ''} {', '.join(map(str, best.lines))}"
    return f"{kept} comes to {_or_less(least)} alone; a repair of {changed} comes to {comes}{met}"


def _or_less(number: Fraction | None) -> str:
    return "less" if number is None else str(number)


def _words(keep: list[object]) -> str:
    return "".join(f" --keep {place}" for place in keep)


def _at_floor(found: Floor, number: Number) -> Fraction | None:
    """The number of a program whose hyper is the floor; none where it is too large for a text, or the gain is a table of values."""
    try:
        return number(Program(from_hyper(found.floor).to_program(found.floor.prior)), True)
    except ValueError:
        return None
