"""What a question is about, in a sentence."""

from __future__ import annotations

import re
import warnings

from .source import read
from .texts import Target

__all__ = ["AsItIsLeft", "sentence", "statement_lines", "target_of", "warning_of"]

_COMMENT = re.compile(r"#[^\n]*")
_ABOUT = re.compile(r"\babout\b([^;]*);")
_DECLARED = re.compile(r"\b(?:var|vis)\s+(\w+)\s*:")


class AsItIsLeft(UserWarning):
    """No item of the target is ``old``: the question is about values after the last statement, and not about what a secret was."""


def target_of(text: str) -> Target | None:
    """The target of a program's text, as it stands there; all variables, as they are left, where there is no ``about``."""
    bare = _COMMENT.sub("", text)
    if found := _ABOUT.search(bare):
        words = ", ".join(" ".join(item.split()) for item in found[1].split(","))
    else:
        words = ", ".join(_DECLARED.findall(bare))
    try:
        return Target.parse(words)
    except ValueError:
        return None


def _part(names: list[str], old: bool) -> str:
    """Some items of a target, and when their values are meant."""
    listed = names[0] if len(names) == 1 else f"{', '.join(names[:-1])} and {names[-1]}"
    if old:
        return f"{listed}, as {'it was' if len(names) == 1 else 'they were'} before the first statement"
    return f"{listed}, as {'it is' if len(names) == 1 else 'they are'} after the last statement"


def sentence(text: str) -> str | None:
    """Which secret is asked about, as it was or as it is left, and at which prior."""
    target = target_of(text)
    if target is None:
        return None
    named = {old: [item.name for item in target.items if item.old == old] for old in (True, False)}
    about = "; and about ".join(_part(names, old) for old, names in named.items() if names)
    return f"What an observer learns about {about}, where all variables are drawn as the program declares them."


def warning_of(text: str) -> str | None:
    """What to say where no item of the target is asked about as it was; none where one is."""
    target = target_of(text)
    if target is None or any(item.old for item in target.items):
        return None
    return (
        "no item of the target is old: the question is about values after the last statement; for what a secret was, write 'about old' and its name"
    )


def warn_of(text: str) -> None:
    """Warns where no item of the target is asked about as it was."""
    if (warning := warning_of(text)) is not None:
        warnings.warn(warning, AsItIsLeft, stacklevel=4)


def statement_lines(text: str) -> list[int]:
    """The lines, from 0 on, on which the top-level statements of a program begin; none where the text can't be read."""
    try:
        source = read(text)
    except ValueError:
        return []
    return [source.line(statement.at) - 1 for statement in source.statements]
