"""Compares words of the pages that no table has, and ends with 1 where they differ. What the tables have, .ci/tables compares.

The version of CHANGELOG.md: with those of VERSION, the manual page, the library for C (kuifje_c) and its header, and the Python package.
The words of the field: each has a line in docs/GLOSSARY.md and is used on another page, and every page has a link to that one.
Phrases that were replaced by the field's or by plainer ones: none of them stands on a page or in an example.
"""

from __future__ import annotations

import ast
import json
import re
import sys
import tomllib
from collections.abc import Iterator
from pathlib import Path

TOP = Path(__file__).resolve().parents[2]
CRATES, DOCS, SHARE = TOP / "crates", TOP / "docs", TOP / "share"
FIELD = """hyper-distribution; prior vulnerability; posterior vulnerability; gain function; g-vulnerability; g-leakage; multiplicative
leakage; additive leakage; min-entropy leakage; channel matrix; Bayes capacity; miracle; data-processing inequality; structural
refinement; Coriaceous theorem; Dalenius; noninterference; differential privacy; observer; adversary; cascade; parallel
composition; visible choice; guessing entropy; refinement"""
REPLACED = {  # what stood on the pages once: what stands there now. No plain word that has a right use, as "behind" a door
    "behind the last line": "after the last line",
    "behind the declaration": "after the declaration",
    "behind the statement": "after the statement",
    "behind each statement": "after each statement",
    "behind the first": "after the first",
    "behind a channel": "after a channel",
    "one behind the other": "one after the other",
    "outermost": "top-level",
    "whoever watches": "an observer",
    "who watches": "an observer",
    "watcher": "observer",
    "with a chance of": "with probability",
    "equal chance": "equal probability",
    "on the average": "on average",
    "is told rightly": "is reported correctly",
    "who guesses on": "an adversary who keeps guessing",
    "beliefs behind": "posteriors after",
    "belief about": "posterior about",
    "chances of the secret": "probabilities of the secret",
    "behind a trace": "after a trace",
    "behind the statements": "after the statements",
    "behind a block": "after a block",
    "behind it": "after it",
    "behind them": "after them",
    "comes to the same beliefs": "comes to the same posteriors",
    "equal chances": "equal probabilities",
}
HEADLESS = re.compile(r"(?:^|[.:;] )Who(?:ever)? [^?.]*\.(?: |$)")  # a sentence that begins so and asks nothing
OF_THE_CRATES = {"ARCHITECTURE.md", "PROVING.md", "TRUST-TABLES.md"}


def text_of(path: Path) -> str:
    """A file's text."""
    return path.read_text(encoding="utf-8")


def all_of(pattern: str, text: str) -> set[str]:
    """What the pattern's group is, wherever a line or more match it."""
    return set(re.findall(pattern, text, re.MULTILINE | re.DOTALL))


def same(what: str, found: set[str], wanted: set[str]) -> Iterator[str]:
    """What is found and not wanted, and the other way round."""
    if found != wanted:
        yield f"{what}: has {sorted(found - wanted)}, and not {sorted(wanted - found)}"


def pages() -> list[Path]:
    """The pages for users, without those that have the words of the crates."""
    found = [
        *TOP.glob("*.md"),
        *(path for folder in ("docs", "examples", "course", "share", "python", "audit") for path in (TOP / folder).rglob("*.md")),
    ]
    return sorted(path for path in found if path.name not in OF_THE_CRATES)


def compare_field() -> Iterator[str]:
    """The field's words with the glossary's first column and with the other pages."""
    glossary = text_of(DOCS / "GLOSSARY.md")
    listed_words = {word.strip().lower() for cell in all_of(r"^\| ([^|]+) \|", glossary) for word in cell.split(",")}
    others = " ".join(" ".join(text_of(path).split()) for path in pages() if path.name not in ("GLOSSARY.md", "DECISIONS.md")).lower()
    for word in (" ".join(word.split()) for word in FIELD.split(";")):
        if word.lower() not in listed_words:
            yield f"GLOSSARY.md: no line for {word}"
        if word.lower() not in others:
            yield f"{word}: on no page but the glossary"
    first = [TOP / "README.md", TOP / "examples" / "README.md"]
    for path in pages():
        if (path.parent == DOCS or path in first) and path.name != "GLOSSARY.md" and "GLOSSARY.md" not in text_of(path):
            yield f"{path.relative_to(TOP)}: no link to the glossary"


def compare_phrases() -> Iterator[str]:
    """The pages and the programs beside them with the phrases that were replaced."""
    for path in [*pages(), *sorted((TOP / "examples").rglob("*.kf")), *sorted((TOP / "course").rglob("*.kf"))]:
        for number, line in enumerate(text_of(path).splitlines(), 1):
            for phrase, better in REPLACED.items():
                if phrase in line.lower():
                    yield f"{path.relative_to(TOP)}:{number}: {phrase!r} was replaced: {better}"
            if HEADLESS.search(line.lstrip("#*| ")):
                yield f"{path.relative_to(TOP)}:{number}: a sentence that begins with 'Who' and asks nothing"


def first_of(pattern: str, text: str) -> str:
    """What the pattern's group is where it stands first, or nothing."""
    found = re.search(pattern, text, re.MULTILINE)
    return found[1] if found else ""


def of_python() -> str:
    """The version that the Python package gives itself, by its tree: an assignment to one name."""
    for node in ast.parse(text_of(TOP / "python/src/kuifje/__init__.py")).body:
        if isinstance(node, (ast.AnnAssign, ast.Assign)) and isinstance(node.value, ast.Constant):
            targets: list[ast.expr] = [node.target] if isinstance(node, ast.AnnAssign) else node.targets
            if any(isinstance(target, ast.Name) and target.id == "__version__" for target in targets):
                return str(node.value.value)
    return ""


def compare_versions() -> Iterator[str]:
    """The version everywhere that it stands."""
    version = {first_of(r"^## (\d+\.\d+\.\d+)", text_of(TOP / "CHANGELOG.md"))}
    numbers = re.findall(r"^const (?:MAJOR|MINOR|PATCH): u32 = (\d+);", text_of(CRATES / "kuifje_c/src/version.rt"), re.MULTILINE)
    header = {str(int(number)) for number in all_of(r"#define KUIFJE_VERSION (\d+)", text_of(TOP / "include/kuifje.h"))}
    yield from same("the version of VERSION", {text_of(TOP / "VERSION").strip()}, version)
    yield from same("the version of kuifje_c", {".".join(numbers)}, version)
    yield from same("the version of kuifje.h", header, {str(int("".join(f"{int(number):03}" for number in numbers) or 0))})
    yield from same("the version of kuifje.1", all_of(r'^\.Os "kuifje ([^"]*)"$', text_of(SHARE / "man/kuifje.1")), version)
    yield from same("the version of textmate/package.json", {json.loads(text_of(SHARE / "textmate/package.json"))["version"]}, version)
    yield from same("__version__ of the Python package", {of_python()}, version)
    project = tomllib.loads(text_of(TOP / "python/pyproject.toml"))
    dynamic = project.get("tool", {}).get("setuptools", {}).get("dynamic", {})
    read = dynamic.get("version", {}).get("attr", project["project"].get("version"))
    yield from same("what pyproject.toml takes the version from", {read}, {"kuifje.__version__"})


def main() -> int:
    """Prints what differs. Returns the status to end with."""
    faults = [*compare_field(), *compare_phrases(), *compare_versions()]
    print(*faults, sep="\n", end="\n" if faults else "", file=sys.stderr)
    return 1 if faults else 0


if __name__ == "__main__":
    sys.exit(main())
