"""Checks the cases of crates/kf_cases/data, or turns runs into cases. crates/kf_cases/README.md has the form of both.

    .ci/cases                       ends with 1 where a file can't be read or has a megabyte, two cases have one name or are the same run,
                                    fewer than 4,000 runs differ in words or files, or `args` or `stdout` don't fit the files
    .ci/cases --write               writes `args` and `stdout` first
    .ci/cases ABOUT RUNS.jsonl ..   prints the cases of these runs, below a line that says what they are about"""

from __future__ import annotations

import base64
import json
import re
import sys
from collections.abc import Iterator, Mapping, Sequence
from pathlib import Path
from typing import Any

from .case_files import DATA, NUMBERS, ONE_NUMBER, Case, case_files, cases_of
from .faults import end

CRATE = DATA.parent
FEWEST, LONGEST = 4000, 1_000_000
Run = tuple[Any, ...]  # all that a run depends on

# ---- checking


def run_of(case: Case) -> tuple[Run, Run]:
    """The words and files of a run, and all that it depends on: these, and how files are read and what is written is taken."""
    words_and_files = (tuple(case.argv), tuple(sorted(case.read.items())))
    sizes, fails = (case.sizes[key] for key in ONE_NUMBER), (tuple(sorted(case.fails[key])) for key in NUMBERS)
    return words_and_files, (*words_and_files, *sizes, *fails)


class Files:
    """The cases of the files, each with its place by its name and by its run, and what is wrong with them."""

    def __init__(self) -> None:
        self.faults: list[str] = []
        self.places: dict[str | Run, str] = {}
        self.inputs: set[Run] = set()
        self.count = 0

    def add(self, path: Path) -> None:
        """Takes the cases of a file in, and says how many these are."""
        text = path.read_bytes()
        try:
            cases = cases_of(text.decode())
        except (ValueError, IndexError) as fault:
            self.faults.append(f"{path.name}: {fault}")
            return
        if len(text) >= LONGEST or path.suffix != ".cases":
            self.faults.append(f"{path.name}: {len(text)} bytes, or not named so")
        for case in cases:
            words_and_files, run = run_of(case)
            self.inputs.add(words_and_files)
            place = f"{path.name}: {case.name}"
            known: tuple[str | Run, ...] = (case.name, run)
            for what in known:
                if what in self.places:
                    self.faults.append(f"{place}: the same as {self.places[what]}")
                self.places[what] = place
        self.count += len(cases)
        print(f"{path.name}: {len(cases)} cases, {len(text)} bytes")


def check(write: bool) -> None:
    """Compares the files with each other and with `args` and `stdout`, or writes these two."""
    paths, files = case_files(), Files()
    for path in paths:
        files.add(path)
    print(f"{files.count} cases, {len(files.inputs)} with other words or files")
    if len(files.inputs) < FEWEST:
        files.faults.append(f"{len(files.inputs)} cases with other words or files, and {FEWEST} are wanted")
    for name, wanted in (("args", "".join(f"{path.name}\n" for path in paths)), ("stdout", f"{files.count} agree, 0 differ\n")):
        if write:
            (CRATE / name).write_text(wanted)
        elif (CRATE / name).read_text() != wanted:
            files.faults.append(f"{name} doesn't fit the files")
    end(files.faults)


# ---- writing

# Characters that can't be seen, and blanks at the end of a line, are no text.
UNSEEN = "\x00-\x08\x0a-\x1f\x7f-\x9f\u2028\u2029\ufeff\ud800-\udfff"
REPEATED = re.compile(rb"(.{1,16}?)\1{199,}", re.DOTALL)
NO_TEXT = re.compile(rf"[{UNSEEN}]|[ \t]\Z")
PIECES = re.compile(rf"(?:[{UNSEEN}]|[ \t]+\Z)+|(?:(?![ \t]+\Z)[^{UNSEEN}])+")


def is_text(piece: str) -> bool:
    """Whether a piece can stand in a file of cases as it is."""
    return NO_TEXT.search(piece) is None


def hex_line(bytes_: bytes) -> str:
    """Bytes that are no text; what is repeated often stands once."""
    repeated = REPEATED.fullmatch(bytes_)
    if repeated:
        return f"*{len(bytes_) // len(repeated[1])} {repeated[1].hex()}"
    return f"={bytes_.hex()}"


def content_lines(bytes_: bytes) -> Iterator[str]:
    """The content lines of some bytes."""
    *whole, last = bytes_.decode(errors="surrogateescape").split("\n")
    for line in whole:
        *front, end = list(pieces_of(line)) or [""]
        yield from map(content_line, front)
        if is_text(end) and not REPEATED.fullmatch(end.encode()):
            yield f"|{end}"
        else:
            yield hex_line(end.encode(errors="surrogateescape") + b"\n")
    yield from map(content_line, pieces_of(last))


def pieces_of(line: str) -> Iterator[str]:
    """A line in pieces that are text or not, and those in what is repeated often and what isn't."""
    for piece in PIECES.findall(line):
        if len(piece) > 10000:
            bytes_ = piece.encode(errors="surrogateescape")
            spans = [0, *(end for found in REPEATED.finditer(bytes_) for end in found.span()), len(bytes_)]
            yield from (bytes_[i:j].decode(errors="surrogateescape") for i, j in zip(spans, spans[1:]) if i < j)
        else:
            yield piece


def content_line(piece: str) -> str:
    """The line of a piece without an LF."""
    if is_text(piece) and not REPEATED.fullmatch(piece.encode()):
        return f":{piece}"
    return hex_line(piece.encode(errors="surrogateescape"))


def word_lines(words: Sequence[str]) -> Iterator[str]:
    """The words of a run: on one line, where that tells them apart."""
    if words and all(word and is_text(word) and " " not in word for word in words):
        yield f"words {' '.join(words)}"
    else:
        for word in words:
            if is_text(word):
                yield f"word {word}"
            else:
                yield "word"
                yield from content_lines(word.encode(errors="surrogateescape"))


def lines_of(run: Mapping[str, Any], name: str) -> Iterator[str]:
    """The lines of a run as a case."""
    program = run.get("program", "kuifje")
    yield f"case {name}"
    yield from word_lines(run["words"] if program is None else [program, *run["words"]])
    for file, content in run["files"].items():
        yield f"file {file}" if is_text(file) else "file"
        yield from content_lines(base64.b64decode(content))
        if not is_text(file):
            yield "name"
            yield from content_lines(file.encode())
    for key in ONE_NUMBER:
        if run.get(key, ONE_NUMBER[key]) != ONE_NUMBER[key]:
            yield f"{key} {run[key]}"
    for key in NUMBERS:
        if run.get(key):
            yield f"{key} {' '.join(map(str, run[key]))}"
    yield f"status {run['status']}"
    for key in ("out", "err"):
        if run[key]:
            yield key
            yield from content_lines(base64.b64decode(run[key]))


def turn(about: str, paths: Sequence[str]) -> None:
    """The cases of the runs of these files. A run that stood above is left out."""
    counts: dict[str, int] = {}
    seen: set[str] = set()
    print(f"# {about}\n")
    for path in paths:
        for line in Path(path).read_text(encoding="utf-8").splitlines():
            run = json.loads(line)
            given = json.dumps([run.get(key) for key in ("program", "words", "files", *ONE_NUMBER, *NUMBERS)], sort_keys=True)
            if given in seen:
                continue
            seen.add(given)
            kind = re.sub(r"\W+", "_", run.get("kind", "run"))
            counts[kind] = counts.get(kind, 0) + 1
            print(*lines_of(run, run.get("name", f"{kind}_{counts[kind]:04}")), "", sep="\n")
    print(f"end {len(seen)}")


def main(words: Sequence[str]) -> None:
    """Checks, writes or turns, as the words have it."""
    if list(words) in ([], ["--write"]):
        check(bool(words))
    else:
        turn(words[0], words[1:])


if __name__ == "__main__":
    main(sys.argv[1:])
