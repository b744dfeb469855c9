"""``%load_ext kuifje``: cells that are programs.

A cell ``%%kuifje hyper`` has a program as its text, and shows the answer. The first line has a question in words, as ``kuifje.words`` reads them:
``%%kuifje leak --gain tries:2``, ``%%kuifje quiet 0..1``, ``%%kuifje reach 9/10``; ``--turns`` bounds the turns of loops, ``--name lock`` keeps the
program as the notebook's variable ``lock``, too, and ``%%kuifje --name lock`` alone does only that.
"""

from __future__ import annotations

import shlex
import sys
from typing import Any

from .errors import KuifjeError
from .program import Program
from .words import parser, question

__all__ = ["answer", "load_ipython_extension"]


def answer(line: str, cell: str, variables: dict[str, object] | None = None) -> object:
    """The answer to a cell with this first line and this text. Raises ``ValueError`` where the line isn't one of those above."""
    reader = parser()
    reader.add_argument("--turns", type=int, default=1024)
    reader.add_argument("--name")
    words = reader.parse_args(shlex.split(line))
    asked = None if words.command is None else question(words)
    program = Program(cell, name="cell.kf", turns=words.turns)
    if words.name is not None:
        if not words.name.isidentifier() or variables is None:
            raise ValueError(f"{words.name!r} can't be a variable's name")
        variables[words.name] = program
    return None if asked is None else asked(program)


def load_ipython_extension(shell: Any) -> None:
    """Gives a notebook the cells ``%%kuifje``. A refusal is printed below the cell, without a traceback."""

    def kuifje(line: str, cell: str) -> object:
        try:
            return answer(line, cell, shell.user_ns)
        except (KuifjeError, ValueError) as cause:
            print(cause, file=sys.stderr)
            return None

    shell.register_magic_function(kuifje, magic_kind="cell")
