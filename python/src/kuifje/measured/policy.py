"""The rules ``[[measured]]`` of a policy: which compiled code may leak how much, by which compilers, and that it leaks no more than older code::

    [[measured]]
    harness = "comparison_harness.c"
    sources = ["comparison.c"]
    compilers = ["gcc -O2", "clang -O2"]     # gcc -O2 where none are named
    model = "control-flow"                   # lines where none is named
    capacity = 1                             # or posterior_vulnerability, under gain: the greatest that still holds; of guessing least_guesses
    against = "comparison_old.c"             # or revision = "main"
    libraries = ["crypto"]
    flags = ["-DSAFE"]
    snapshot = true
"""

from __future__ import annotations

import tempfile
from collections.abc import Iterator, Mapping, Sequence
from dataclasses import replace
from fractions import Fraction
from pathlib import Path
from typing import TYPE_CHECKING

from ..errors import KuifjeError
from .builds import Build
from .judgements import Rules, judge, refused
from .measurement import Measurement
from .models import model_named
from .traces import Limits

if TYPE_CHECKING:
    from ..gates import Finding

__all__ = ["check", "findings"]

Entry = Mapping[str, object]
TEXTS = ("harness", "model", "gain", "against", "revision", "target")
LISTS = ("sources", "compilers", "libraries", "flags")
BOUNDS = ("capacity", "posterior_vulnerability", "least_guesses")
KEYS = {*TEXTS, *LISTS, *BOUNDS, "snapshot"}


def check(entry: Entry) -> None:
    """Raises ``ValueError`` where an entry isn't a rule for measured code."""
    if unknown := set(entry) - KEYS:
        raise ValueError(f"[[measured]] has no {min(unknown)!r}")
    if not entry.get("harness") or not all(isinstance(entry.get(key, ""), str) for key in TEXTS):
        raise ValueError("[[measured]] needs a harness, by its name")
    for key in LISTS:
        found = entry.get(key, [])
        if not isinstance(found, list) or not all(isinstance(word, str) for word in found):
            raise ValueError(f"[[measured]]: {key} is a list of texts")
    if not isinstance(entry.get("snapshot", False), bool):
        raise ValueError("[[measured]]: snapshot is true or false")
    if "against" in entry and "revision" in entry:
        raise ValueError("[[measured]] has 'against' or 'revision', and not both")
    if not {*BOUNDS, "against", "revision"} & set(entry):
        raise ValueError(f"[[measured]] of {entry['harness']} has no bound")
    _rules(entry)
    model_named(str(entry.get("model", "lines")))
    for compiler in _words(entry, "compilers"):
        _compiler(compiler)


def _words(entry: Entry, key: str) -> list[str]:
    found = entry.get(key, [])
    return [str(word) for word in found] if isinstance(found, list) else []


def _bound(found: object) -> Fraction | None:
    if found is None:
        return None
    if isinstance(found, bool) or not isinstance(found, (int, str)):
        raise ValueError(f'the bound {found} is neither a whole number nor a text like "1/4"')
    try:
        return Fraction(found)
    except ZeroDivisionError:
        raise ValueError(f"the bound {found} has the denominator 0") from None


def _rules(entry: Entry) -> Rules:
    """The bounds. Raises ``ValueError`` where one can't be read, or isn't one of the gain."""
    posterior, capacity, guesses = (_bound(entry.get(key)) for key in ("posterior_vulnerability", "capacity", "least_guesses"))
    return Rules(str(entry.get("gain", "bayes")), posterior, capacity, guesses)


def _compiler(text: str) -> tuple[str, str]:
    """The compiler and the level of ``gcc -O2``."""
    name, _, level = text.partition(" -O")
    if not name or " " in name or not level.isalnum():
        raise ValueError(f"{text!r} isn't like 'gcc -O2'")
    return name, level


def _builds(folder: Path, entry: Entry) -> Iterator[Build]:
    sources = tuple(folder / name for name in (str(entry["harness"]), *_words(entry, "sources")))
    libraries = tuple(f"-l{name}" for name in _words(entry, "libraries"))
    build = Build(sources, flags=tuple(_words(entry, "flags")), libraries=libraries, target=str(entry.get("target", "x86_64")))
    for text in _words(entry, "compilers") or ["gcc -O2"]:
        compiler, level = _compiler(text)
        yield replace(build, compiler=compiler, level=level)


def _of_build(build: Build, folder: Path, entry: Entry, timeout: float | None) -> Sequence[Finding]:
    limits = Limits(snapshot=bool(entry.get("snapshot", False)))
    rules = _rules(entry)
    old, than = None, ""
    try:
        with tempfile.TemporaryDirectory() as scratch:
            measured = Measurement(build, limits)
            if "against" in entry:
                old, than = Measurement(build.with_old(folder / str(entry["against"])), limits), str(entry["against"])
            elif "revision" in entry:
                old, than = Measurement(build.at_revision(str(entry["revision"]), Path(scratch)), limits), f"itself at {entry['revision']}"
            return judge(measured, model_named(str(entry.get("model", "lines"))), rules, old, than=than, timeout=timeout).findings
    except (KuifjeError, OSError, ValueError) as cause:
        return refused(build.name, str(entry["harness"]), cause).findings


def findings(folder: Path, entries: Sequence[Entry], timeout: float | None = None) -> list[Finding]:
    """What is found of each rule for measured code."""
    return [finding for entry in entries for build in _builds(folder, entry) for finding in _of_build(build, folder, entry, timeout)]
