"""Commands with what the program makes of them: those of the pages, and every program of the gallery and the course under every command."""

from __future__ import annotations

import base64
import subprocess
import tempfile
from dataclasses import dataclass
from pathlib import Path

TOP = Path(__file__).resolve().parent.parent.parent
SECONDS = 20
RECORDER = """#!/bin/sh
# Runs the program, and keeps what it was asked and what it wrote.
kept=$(mktemp -d "{records}/XXXXXXXX")
mkdir "$kept/files"
printf '%s\\0' "$@" >"$kept/words"
for word in "$@"; do
    name=${{word#table:}}
    case "$name" in /*|*..*) ;; *) [ ! -f "$name" ] || cp --parents -- "$name" "$kept/files" ;; esac
done
"{program}" "$@" >"$kept/out" 2>"$kept/err"
status=$?
echo "$status" >"$kept/status"
cat "$kept/out"
cat "$kept/err" >&2
exit "$status"
"""
ALONE = [
    ["hyper"], ["traces"], ["channel"], ["trail"], ["blame"], ["capacity"], ["lines"], ["lines", "--gain", "guessing"],
    ["leak", "--gain", "bayes"], ["leak", "--gain", "tries:2"], ["leak", "--gain", "guessing"],
    ["attack", "--gain", "bayes"], ["attack", "--gain", "tries:2"], ["attack", "--gain", "guessing"],
]
PAIRS = [["refine"], ["covers"], ["cascade"], ["parallel"]]


@dataclass
class Command:
    """What was asked, over which files, and what came of it."""

    words: list[str]
    files: dict[str, bytes]
    status: int
    out: bytes
    err: bytes

    def question(self) -> tuple[list[str], dict[str, str]]:
        return self.words, {name: base64.b64encode(held).decode() for name, held in self.files.items()}

    def key(self) -> tuple[str, ...]:
        return (*self.words, *(f"{name}\0{held!r}" for name, held in sorted(self.files.items())))


def of_record(folder: Path) -> Command:
    words = (folder / "words").read_bytes().decode().split("\0")[:-1]
    files = {str(it.relative_to(folder / "files")): it.read_bytes() for it in (folder / "files").rglob("*") if it.is_file()}
    return Command(words, files, int((folder / "status").read_text()), (folder / "out").read_bytes(), (folder / "err").read_bytes())


def of_pages(program: Path, pages: list[str]) -> list[Command]:
    """Each different command of these pages, or of all where none is named."""
    with tempfile.TemporaryDirectory() as scratch:
        records = Path(scratch) / "records"
        records.mkdir()
        recorder = Path(scratch) / "kuifje"
        recorder.write_text(RECORDER.format(records=records, program=program.resolve()))
        recorder.chmod(0o755)
        # What the pages say is compared by .ci/pages itself elsewhere: here its status doesn't count.
        subprocess.run([TOP / ".ci" / "pages", recorder, *(TOP / page for page in pages)], capture_output=True, check=False)
        # A command that its page ends, as by `timeout`, has no status.
        found = {command.key(): command for command in map(of_record, sorted(path.parent for path in records.glob("*/status")))}
    return list(found.values())


def run(program: Path, words: list[str], files: dict[str, bytes]) -> Command | None:
    """What the program makes of a command at the top of the repository, or None where it takes too long."""
    try:
        done = subprocess.run([program.resolve(), *words], cwd=TOP, capture_output=True, timeout=SECONDS, check=False)
    except subprocess.TimeoutExpired:
        return None
    return Command(words, files, done.returncode, done.stdout, done.stderr)


def of_programs(program: Path) -> list[Command]:
    """Every program of the gallery and the course under every command; pairs are neighbours in one folder, either way."""
    paths = [path.relative_to(TOP) for folder in ("examples", "course") for path in sorted((TOP / folder).rglob("*.kf"))]
    found = []
    for path in paths:
        files = {str(path): (TOP / path).read_bytes()}
        found += [run(program, [words[0], str(path), *words[1:]], files) for words in ALONE]
        found += [run(program, ["reach", str(path), "9/10"], files), run(program, ["quiet", str(path), "0..1"], files)]
    for a, b in zip(paths, paths[1:]):
        if a.parent == b.parent:
            files = {str(it): (TOP / it).read_bytes() for it in (a, b)}
            for first, second in ((a, b), (b, a)):
                found += [run(program, [words[0], str(first), str(second)], files) for words in PAIRS]
                found.append(run(program, ["choice", str(first), str(second), "1/3"], files))
                found.append(run(program, ["refine", str(first), str(second), "--json"], files))
    return [command for command in found if command is not None]
