"""Compares the table of crates in docs/ARCHITECTURE.md with crates.txt, and what the pages name of the crates with the crates.

    .ci/map [--write]

Each crate of crates.txt has one row, and each row is a crate's; rows stand in the order of that file. What a crate stands on is there without what
these stand on themselves, then the toolchain's crates. With --write that column is written anew.
On each page a file or folder named with its crate (`kf_run/src/pushes.rt`) is one of that crate, one named alone (`pushes.rt`) of some crate, and a
call or type with its crate (`kf_run::push`) is defined or named again there. A script (`.ci/pages`) or a file of `tools/` is there, too, and so is
what `tools/run` is to run. A crate's README has its files by their paths within the crate (`src/pushes.rt`), and a name that stands there alone
(`push`) is defined in that crate, in its code or in its logic. Ends with 1 where a page differs."""

from __future__ import annotations

import re
import sys
from collections.abc import Iterator, Mapping, Sequence
from pathlib import Path

from .faults import end
from .repository import CRATES, DOCS, TOP, crates

PAGE = DOCS / "ARCHITECTURE.md"
ROW = re.compile(r"^\| `(\w+)` \|([^|]*)\|", re.MULTILINE)
SCRIPT = re.compile(r"`((?:\.ci|tools)/[\w./-]+)(?: ([a-z][\w.]*))?")
OF_THE_TOOLCHAIN = {"AnswersOffered.antt"}
Listed = Mapping[str, list[str]]  # the crates, each with what it uses
DEFINED = r"\b(?:fn|struct|enum|trait|type|const) {0}\b|pub use [^;]*\b{0}\b"
IN_A_CRATE = DEFINED + r"|\bensures {0} \{{|^ *(?:(?:abbrev|pub|record|data|law|lemma|unfoldable) +)*{0}\b[^\n]*:"
OF_ITS_OWN = {"kf_cases"}  # crates whose README has the words of their data, too


def reached(name: str, listed: Listed) -> set[str]:
    """All crates of the repository below this one."""
    below = {use for use in listed[name] if use in listed}
    return below.union(*(reached(use, listed) for use in below))


def nearest(name: str, listed: Listed) -> list[str]:
    """The crates that stand right below this one: its own, then the toolchain's."""
    own = [use for use in listed[name] if use in listed]
    covered = {under for use in own for under in reached(use, listed)}
    return [use for use in own if use not in covered] + [use for use in listed[name] if use not in listed]


def tree(crate: str) -> list[Path]:
    """The files of a crate that people write, as paths within it; none where it has no folder."""
    parts = [part for part in (CRATES / crate).glob("*") if part.name != "out"]
    paths = [path for part in parts for path in (part, *part.rglob("*"))]
    return [path.relative_to(CRATES / crate) for path in paths if path.is_file()]


def unknown(text: str, files: Mapping[str, list[Path]], sources: Mapping[str, str]) -> Iterator[tuple[int, str]]:
    """What a page names of the crates, outside of its blocks, and what isn't there."""
    every = {path.name for paths in files.values() for path in paths}
    shown = re.sub(r"^```.*?^```", lambda block: "\n" * block[0].count("\n"), text, flags=re.MULTILINE | re.DOTALL)
    for number, line in enumerate(shown.splitlines(), 1):
        for crate, rest in re.findall(r"`(\w+)/([\w/+]+(?:\.\w+)?)`", line):
            if crate in files and not any(f"/{path}/".find(f"/{rest}/") >= 0 for path in files[crate]):
                yield number, f"no {rest} in {crate}"
        for name in re.findall(r"`(?:\w+/)*([\w+]+\.(?:rt|antt))`", line):
            if name not in every | OF_THE_TOOLCHAIN:
                yield number, f"no file {name}"
        for crate, name in re.findall(r"`(\w+)::(\w+)`", line):
            if crate in files and not re.search(DEFINED.format(name), sources[crate]):
                yield number, f"no {name} in {crate}"
        yield from ((number, fault) for fault in unknown_scripts(line))


def unknown_within(text: str, crate: str, files: list[Path], source: str, listed: Listed) -> Iterator[tuple[int, str]]:
    """What a crate's README names of its own crate, and what isn't there."""
    for number, line in enumerate(text.splitlines(), 1):
        for path in re.findall(r"`((?:specs|src|proofs|must-fail)/[\w/+.-]+)`", line):
            if not any(f"/{own}/".startswith(f"/{path.rstrip('/')}/") for own in files):
                yield number, f"no {path} in {crate}"
        for name in re.findall(r"`([A-Za-z_]\w*)`", line):
            if name not in listed and not re.search(IN_A_CRATE.format(name), source, re.MULTILINE):
                yield number, f"no {name} in {crate}"


def unknown_scripts(line: str) -> Iterator[str]:
    """What a line names of the scripts, and isn't there. A name in capitals stands for any."""
    for script, word in SCRIPT.findall(line):
        if not (TOP / script).exists() and not Path(script).name.isupper():
            yield f"no {script}"
        if script == "tools/run" and word and not (TOP / "tools" / "gate" / f"{word.replace('.', '/')}.py").is_file():
            yield f"no {word} for tools/run"


def faults_of_rows(page: str, listed: Listed) -> list[str]:
    """What is wrong with the rows of the page's table: one for each crate, in their order, and with no other crates."""
    names = [name for name, _ in ROW.findall(page)]
    placed = [name for name in names if name in listed]
    faults = [f"{name}: not one row" for name in listed if placed.count(name) != 1]
    faults += [f"{name}: no crate" for name in names if name.startswith("k") and name not in listed]
    return faults + [f"{name}: stands where crates.txt has {wants}" for name, wants in zip(placed, listed) if name != wants][:1]


def written(page: str, wanted: Mapping[str, str]) -> str:
    """The page with the column on what crates stand on as it has to be."""

    def row(found: re.Match[str]) -> str:
        cell = f" {wanted[found[1]]} " if wanted.get(found[1]) else " "
        return f"| `{found[1]}` |{cell}|" if found[1] in wanted else found[0]

    return ROW.sub(row, page)


def faults_of_names(listed: Listed) -> list[str]:
    """What the pages name of the crates, and isn't there."""
    files = {crate: tree(crate) for crate in listed}
    faults = [f"crates.txt: there is no folder crates/{crate}" for crate in listed if not files[crate]]
    sources = {crate: "\n".join((CRATES / crate / path).read_text() for path in files[crate] if path.suffix == ".rt") for crate in listed}
    for path in [*TOP.glob("*.md"), *DOCS.rglob("*.md"), *CRATES.glob("*/README.md")]:
        text, crate = path.read_text(), path.parent.name
        found = [*unknown(text, files, sources)]
        if crate in listed and crate not in OF_ITS_OWN:
            written = [CRATES / crate / own for own in files[crate] if own.suffix in (".rt", ".antt")]
            found += unknown_within(text, crate, files[crate], "\n".join(own.read_text() for own in written), listed)
        faults += [f"{path.relative_to(TOP)}:{number}: {fault}" for number, fault in found]
    return faults


def main(words: Sequence[str]) -> None:
    """Compares the table and the names, or writes the table's column and compares the rest."""
    listed, page = crates(), PAGE.read_text()
    wanted = {name: ", ".join(f"`{use}`" for use in nearest(name, listed)) for name in listed}
    faults = faults_of_rows(page, listed)
    if "--write" in words:
        PAGE.write_text(written(page, wanted))
    else:
        faults += [
            f"{name}: stands on {wanted[name] or 'nothing'}, and not on {said.strip() or 'nothing'}"
            for name, said in ROW.findall(page)
            if name in wanted and said.strip() != wanted[name]
        ]
    end([f"docs/{PAGE.name}: {fault}" for fault in faults] + faults_of_names(listed))


if __name__ == "__main__":
    main(sys.argv[1:])
