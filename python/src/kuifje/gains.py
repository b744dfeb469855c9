"""Gain functions as questions have them: the words of a gain, the file of a gain table, and of which gains less is worse for the secret.

No other module of this package says which way a measure goes.
"""

from __future__ import annotations

import json
import re
from fractions import Fraction
from pathlib import Path
from typing import Any

from .texts import GainTable, Leakage, Reach
from .values import format_value

__all__ = ["TABLE", "Gain", "check_word", "gain_json", "gain_of", "less_is_worse", "measured"]

Gain = str | GainTable
TABLE = "gain.json"  # the name of a table's file in a question
MOST_TRIES = 65_535
WORDS = "bayes, tries:K with K from 1 to 65535, guessing, table:FILE"


def gain_of(gain: Any) -> tuple[str, dict[str, bytes]]:
    """The word of a gain, and the file that it needs.

    Raises ``TypeError`` and ``ValueError`` where it isn't one of those that there are, and ``OSError`` where the file of a table can't be read.
    """
    if isinstance(gain, GainTable):
        return f"table:{TABLE}", {TABLE: gain_json(gain).encode()}
    if not isinstance(gain, str):
        raise TypeError(f"gain is {WORDS}, or a GainTable, and a value of type {type(gain).__name__} was given")
    if not _is_word(gain):
        raise ValueError(f"gain is {WORDS}, or a GainTable, and {gain[:40]!r} was given")
    if gain.startswith("table:"):
        return f"table:{TABLE}", {TABLE: Path(gain.removeprefix("table:")).read_bytes()}
    return gain, {}


def check_word(gain: str) -> None:
    """Raises ``ValueError`` where a text is the word of no gain; whether the file of a table is one isn't looked at."""
    if not _is_word(gain):
        raise ValueError(f"gain is {WORDS}, and {gain[:40]!r} was given")


def _is_word(gain: str) -> bool:
    tries = re.fullmatch(r"tries:([0-9]{1,5})", gain)
    if tries is not None:
        return 1 <= int(tries[1]) <= MOST_TRIES
    return gain in ("bayes", "guessing") or gain.startswith("table:") and gain != "table:"


def less_is_worse(gain: Gain) -> bool:
    """Whether less of what is measured under a gain is worse for the secret: so it is with the expected number of guesses.

    That holds of prior and posterior vulnerability, and of both leakages: the fewer guesses are left, the less are quotient and difference.
    """
    return gain == "guessing"


def measured(found: object, number: str = "posterior_vulnerability") -> tuple[Fraction | None, bool | None]:
    """The number of an answer, and whether less of it is worse for the secret, which is none where the answer doesn't say.

    Of ``leak`` it is the one with this name, none where it is undefined; of ``reach`` the tries, of which fewer are worse; else the number itself.
    Raises ``TypeError`` where it is no number.
    """
    if isinstance(found, Leakage):
        value: Fraction | None = getattr(found, number)
        return value, less_is_worse(found.gain)
    if isinstance(found, Reach):
        return Fraction(found.tries), True
    if isinstance(found, (int, Fraction)) and not isinstance(found, bool):
        return Fraction(found), None
    raise TypeError(f"{found!r} is no number, and so nothing leaks most")


def gain_json(table: GainTable) -> str:
    """The file of a gain table (docs/FORMATS.md, "Gain tables"), as ``kuifje leak --gain table:FILE`` takes it."""
    actions = [{"gains": [[format_value(value), gain] for value, gain in action.gains.items()], "name": action.name} for action in table.actions]
    return json.dumps({"actions": actions, "format": "kuifje-gain-1", "over": table.over, "rest": table.rest}, separators=(",", ":"))
