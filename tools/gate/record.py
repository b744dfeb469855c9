"""Records what proved the sources as they stand, for docs/PROVED.md and CHANGELOG.md.

    .ci/record [--write]

It believes what the runs themselves left, and nothing that is handed to it: bin/gate, which the gate and `make audit` write once all
has passed, and bin/proved, lib/proved and web/out/proved, which the builds write, each with the sum of the sources (.ci/sources) and the
toolchain. Each has to be of the sources and the toolchain as they are now, the gate's count has to be each crate and each wrong body once, and
program, library and, where they are built, the page's modules have to be the files whose SHA-256 stand there; and the sources have to be
those of the last commit. Else the script says what isn't so, and ends with 1. Prints the record; with --write it becomes the page, and the newest
version in the changelog gets a line with what proved it."""

from __future__ import annotations

import datetime
import hashlib
import os
import platform
import re
import shutil
import sys
from collections.abc import Mapping, Sequence
from pathlib import Path

from .program import run
from .repository import DOCS, TOP, crates

PAGE, CHANGES = DOCS / "PROVED.md", TOP / "CHANGELOG.md"
GATE = "bin/gate"
BUILT = {"program": "bin/kuifje", "library": "lib/libkuifje.so.0", "static library": "lib/libkuifje.a"}
MODULES = {"page's module of 64 bits": "web/out/kuifje64.wasm", "page's module of 32 bits": "web/out/kuifje32.wasm"}
DECIDES = ("crates", "crates.txt", "VERSION", "HANDLES", ".ci/compile", ".ci/link", "share/c/kuifje.map")
HEAD = """# What proved this version

`.ci/record` makes this page of what the last full proof and the builds left. It speaks of the sources whose tree and sum are named here: compare \
them with
what `git rev-parse HEAD:crates` and `.ci/sources` print. [TRUST.md](TRUST.md) says what a proof shows and what is trusted, \
[GLOSSARY.md](GLOSSARY.md) what the
words mean.

"""


class Unproved(Exception):
    """Why there is nothing to record."""


def printed(*command: str) -> str:
    """What a command prints, or that it can't be run here."""
    try:
        outcome = run(command, folder=TOP, seconds=None)
    except OSError:
        outcome = None
    if outcome is None or outcome.status != 0:
        print(f"skipped: {command[0]} can't be run here", file=sys.stderr)
        return "not known"
    return outcome.answer.strip()


def toolchain() -> list[tuple[str, str]]:
    """The lines of the toolchain's file WHAT, where there is one beside the command's folder."""
    found = shutil.which("rt")
    what = Path(found).resolve().parent.parent / "WHAT" if found else None
    if what is None or not what.is_file():
        print("skipped: the toolchain's file WHAT isn't beside rt", file=sys.stderr)
        return []
    return [(f"toolchain, {line.split()[0]}", line.split()[1]) for line in what.read_text().splitlines() if len(line.split()) == 2]


def counted() -> tuple[int, int]:
    """How many crates there are, and how many wrong bodies."""
    return len(crates()), len(list(TOP.glob("crates/*/must-fail/*.edit")))


def with_proof(changes: str, rows: Mapping[str, object]) -> str:
    """The changelog with what proved its newest version, in the place of an earlier such line."""
    head, version, rest = re.split(r"(^## .*$\n\n)", changes, maxsplit=1, flags=re.MULTILINE)
    sums = ", ".join(f"{what.removeprefix('SHA-256 of ')} `{value}`" for what, value in rows.items() if what.startswith("SHA-256 of "))
    line = (
        f"- **Proved** by `{rows['`rt version`']}` on {rows['date']}: {rows['crates proved, with their tests']} crates, and "
        f"{rows['wrong bodies refused']} wrong bodies refused. SHA-256 of {sums}.\n"
    )
    return head + version + line + re.sub(r"\A- \*\*Proved\*\* .*\n", "", rest)


def record_of(name: str, sources: str, version: str) -> dict[str, str]:
    """What a run left in this file, where it is of these sources and this toolchain: values by their names."""
    path = TOP / name
    if not path.is_file():
        raise Unproved(f"there is no {name}")
    left = dict(line.split(" ", 1) for line in path.read_text().splitlines() if " " in line)
    if left.get("sources") != sources:
        raise Unproved(f"{name} is of other sources")
    if left.get("rt") != version:
        raise Unproved(f"{name} is of another toolchain")
    return left


def built(what: str, name: str, sources: str, version: str) -> tuple[str, str]:
    """The row of a file, whose SHA-256 has to be what the run that built it left."""
    path = TOP / name
    left = record_of(f"{path.parent.relative_to(TOP)}/proved", sources, version)
    if not path.is_file():
        raise Unproved(f"there is no {name}")
    found = hashlib.sha256(path.read_bytes()).hexdigest()
    if left.get(path.name) != found:
        raise Unproved(f"{name} isn't the file that was built with the proof")
    return f"SHA-256 of the {what}", found


def recorded() -> list[tuple[str, object]]:
    """The rows of the page, or why there are none."""
    if printed("git", "status", "--porcelain", "--", *DECIDES):
        raise Unproved("the sources aren't those of the last commit")
    sources, version = printed(".ci/sources"), printed("rt", "version")
    proved, bodies = counted()
    passed = record_of(GATE, sources, version).get("passed")
    if passed != str(proved + bodies):
        raise Unproved(f"{GATE} counts {passed}, and there are {proved} crates and {bodies} wrong bodies")
    rows: list[tuple[str, object]] = [
        ("sources, tree of `crates`", printed("git", "rev-parse", "HEAD:crates")),
        ("sources, sum by `.ci/sources`", sources),
        ("`rt version`", version),
        *toolchain(),
        ("date", datetime.datetime.now(datetime.timezone.utc).strftime("%Y-%m-%d")),
        ("machine", f"{platform.system()} {platform.machine()}"),
        ("C library", os.confstr("CS_GNU_LIBC_VERSION")),
        ("crates proved, with their tests", proved),
        ("wrong bodies refused", bodies),
    ]
    rows += [built(what, name, sources, version) for what, name in BUILT.items()]
    if any((TOP / name).exists() for name in MODULES.values()):
        rows += [built(what, name, sources, version) for what, name in MODULES.items()]
    else:
        print("skipped: the page's modules aren't built (make page), so they aren't recorded", file=sys.stderr)
    return rows


def main(words: Sequence[str]) -> None:
    """Prints the record, or writes it."""
    if list(words) not in ([], ["--write"]):
        print(__doc__, file=sys.stderr)
        sys.exit(2)
    try:
        rows = recorded()
    except Unproved as why:
        print(f"record: {why}, so there is nothing to record", file=sys.stderr)
        sys.exit(1)
    text = HEAD + "| What | |\n|---|---|\n" + "".join(f"| {what} | {value} |\n" for what, value in rows)
    print(text, end="")
    if words:
        PAGE.write_text(text)
        CHANGES.write_text(with_proof(CHANGES.read_text(), dict(rows)))


if __name__ == "__main__":
    main(sys.argv[1:])
