"""Questions in words, as cells and sweeps have them: the program's commands on one file, without the file, and some of this package's own.

They are written as the program takes them: ``hyper``, ``leak --gain guessing``, ``reach 9/10``, ``quiet 0..1``. What takes a gain asks under
``bayes`` where ``--gain`` is missing. Of this package ``labels`` stands alone, ``plan`` takes ``--gain``, and ``lint`` takes ``--attacker`` with a
variable's name, once for each. ``--timeout`` bounds the seconds.
"""

from __future__ import annotations

import argparse
import shlex
from collections.abc import Callable
from typing import Any

from .arguments import probability
from .gains import check_word
from .observations import labels, plan
from .lints import lint
from .program import Program
from .vocabulary import COMMANDS

__all__ = ["answer", "parser", "question", "read"]


def _probability(value: str) -> tuple[object, ...]:
    return (probability("the probability", value, one=True),)


def _block(value: str) -> tuple[object, ...]:
    start, _, end = value.partition("..")
    return int(start), int(end)


OWN = {"labels": (1, "", "no"), "lint": (1, "", "no"), "plan": (1, "", "may")}
ASKED = {word: row for word, row in (COMMANDS | OWN).items() if row[0] == 1}
READERS: dict[str, tuple[str, Callable[[str], tuple[object, ...]]]] = {  # of what stands after a command: how it looks, and what a method takes of it
    "N/D": ("a probability like 9/10", _probability),
    "A..B": ("a block like 0..1", _block),
}


class Words(argparse.ArgumentParser):
    """A reader of words. It raises ``ValueError`` for other words, where a command would end the process."""

    def error(self, message: str) -> Any:
        """Raises what is wrong."""
        raise ValueError(message)


def parser() -> Words:
    """What reads the words of a question: ``command`` (none where there is none), ``value``, ``gain``, ``attacker`` and ``timeout``."""
    words = Words(prog="kuifje", add_help=False, allow_abbrev=False)
    words.add_argument("command", nargs="?", choices=ASKED)
    words.add_argument("value", nargs="?")
    words.add_argument("--gain")
    words.add_argument("--attacker", action="append", default=[])
    words.add_argument("--timeout", type=float)
    return words


def _given(command: str, value: str | None) -> tuple[object, ...]:
    """What the value after a command is for its method. Raises ``ValueError`` where it is another one than the command takes."""
    _, wanted, _ = ASKED[command]
    if not wanted:
        if value is not None:
            raise ValueError(f"{command} takes no value")
        return ()
    look, reader = READERS[wanted]
    if value is None:
        raise ValueError(f"{command} takes {look}")
    return reader(value)


def question(words: argparse.Namespace) -> Callable[[Program], object]:
    """The question of words that were read. Raises ``ValueError`` where they are none."""
    command, gain, timeout = words.command, words.gain or "bayes", words.timeout
    values, has_gain = _given(command, words.value), ASKED[command][2] != "no"
    if words.gain is not None and not has_gain:
        raise ValueError(f"{command} takes no --gain")
    if words.attacker and command != "lint":
        raise ValueError(f"{command} takes no --attacker")
    check_word(gain)
    if command == "labels":
        return lambda program: labels(program, timeout=timeout)
    if command == "lint":
        return lambda program: lint(program, attacker=words.attacker, timeout=timeout)
    if command == "plan":
        return lambda program: plan(program, gain, timeout=timeout)
    taken = (gain,) if has_gain else values
    return lambda program: getattr(program, command.replace("-", "_"))(*taken, timeout)


def read(line: str) -> Callable[[Program], object]:
    """The question that a line asks. Raises ``ValueError`` where it asks none."""
    words = parser().parse_args(shlex.split(line))
    if words.command is None:
        raise ValueError("there is no question")
    return question(words)


def answer(line: str, program: Program) -> object:
    """The answer to a question in words. Raises ``ValueError`` where they are none."""
    return read(line)(program)
