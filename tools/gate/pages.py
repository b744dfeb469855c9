"""Runs what the pages show, and compares it with what they show.

    .ci/pages [--write] [PROGRAM [PAGE ..]]

Goes through the pages and notebooks at the top and in the folders for users, or those that are named. A page has blocks of these kinds, each between
two lines of three backticks, with its word after the first:

    console     commands after `$ `, each with what a terminal shows of it below: standard output, then standard error. All of it is
                compared, byte for byte. Where `$ echo $?` stands after a command its status is compared, too
    kuifje      a program, and
    json        a gain table or certificate. The line above ends with the file's name: `NAME`:
                A file of that name that stands in the tree has to be the same; else the commands below find it under its name
    text, sh, python, c    anything else that is shown, and what isn't run here: no page says that it is

Commands are run by bash in a folder of the page's own, which has the files that the page shows and copies of examples/ and course/. `kuifje` is
PROGRAM: bin/kuifje where none is named. With --write each page gets what the program prints, and files as they stand in the tree; what is wrong
otherwise is told as ever. A command that needs a tool which isn't on this machine is skipped, and named. Ends with 1 where something else is printed,
where a page has a block of another kind or a command outside of a block of commands, where a study, or a page that says that its blocks are run, has
none, where a link leads to no file or to no heading, where no page runs a program of these folders, and where the gate's first example isn't that of
examples/. Notebooks have no outputs and no numbers of runs stored, and their links lead somewhere, too: what their cells print is a matter of the
Python package's tests."""

from __future__ import annotations

import difflib
import json
import os
import re
import shutil
import sys
import tempfile
from collections.abc import Callable, Sequence
from concurrent.futures import ThreadPoolExecutor
from functools import cache
from pathlib import Path

from .faults import end
from .program import named, run
from .repository import COURSE, CRATES, EXAMPLES, TOP, from_top

PROGRAMS_IN = [EXAMPLES, COURSE]
FOLDERS = ["docs", "examples", "course", "share", "python", "audit"]
RUN, NAMED, SHOWN = {"console"}, {"kuifje", "json"}, {"text", "sh", "python", "c"}
FENCE, PROMPT = "```", "$ "
LONGEST = 300  # seconds that a command may take
NAME_ABOVE = re.compile(r"`([\w./-]+)`:$")
SAYS_SO = "run by `.ci/pages`"
LINK = re.compile(r"\]\(([^)\s#]*)(?:#([^)\s]*))?\)")
TOOLS = re.compile(r"(?:^|[|;&(]\s*)(awk|cmp|diff|iconv|python3|sed|sha256sum|sort)\b")


class Block:
    """What stands between two fences: its word, the last line of text above it, its lines, and the number of the first one."""

    def __init__(self, word: str, above: str, first: int) -> None:
        self.word, self.above, self.first = word, above, first
        self.lines: list[str] = []
        self.new: list[str] | None = None

    def text(self) -> str:
        """What the block has, as a text."""
        return "".join(f"{line}\n" for line in self.lines)

    def become(self, lines: list[str]) -> None:
        """Takes other lines in the place of its own, and keeps those for the page to be written anew."""
        self.new = lines

    def commands(self) -> list[tuple[int, str, str]]:
        """Each command with the number of its line and the text below it."""
        found: list[tuple[int, str, list[str]]] = []
        for number, line in enumerate(self.lines, self.first):
            if line.startswith(PROMPT):
                found.append((number, line.removeprefix(PROMPT), []))
            elif found:
                found[-1][2].append(f"{line}\n")
        return [(number, command, "".join(lines)) for number, command, lines in found]


def blocks_of(text: str, tell: Callable[[int, str], None]) -> list[Block]:
    """The blocks of a page. Tells of what isn't one."""
    blocks: list[Block] = []
    block: Block | None = None
    above, number = "", 0
    for number, line in enumerate(text.splitlines(), 1):
        if line.startswith(FENCE) and block is None:
            block = Block(line.removeprefix(FENCE), above, number + 1)
            if block.word not in RUN | NAMED | SHOWN:
                tell(number, f"a block of the kind {block.word!r}")
        elif line.startswith(FENCE) and block is not None:
            blocks.append(block)
            block, above = None, ""
        elif block is not None:
            block.lines.append(line)
            if line.startswith(PROMPT) and block.word not in RUN:
                tell(number, "a command that isn't run")
        elif line.lstrip().startswith((PROMPT, FENCE)):
            tell(number, "a command outside of a block, or a block that isn't at the start of its line")
        elif line.strip():
            above = line
    if block is not None:
        tell(number, "a block without an end")
    return blocks


class Run:
    """A page's folder, with the status that its last command ended with."""

    def __init__(self, folder: Path, program: Path) -> None:
        self.folder, self.status, self.words = folder / "page", 0, ""
        for programs in PROGRAMS_IN:
            if programs.is_dir():
                shutil.copytree(programs, self.folder / programs.name)
        (folder / "bin").mkdir()
        (folder / "bin" / "kuifje").symlink_to(program)
        self.environment = {"PATH": f"{folder / 'bin'}:/usr/local/bin:/usr/bin:/bin", "LC_ALL": "C.UTF-8"}

    def show(self, name: str, text: str) -> str:
        """The text of the file in the tree. Where there is none the page's folder has the page's now."""
        if (TOP / name).is_file():
            return (TOP / name).read_text()
        (self.folder / name).parent.mkdir(parents=True, exist_ok=True)
        (self.folder / name).write_text(text)
        return text

    def ask(self, command: str) -> str:
        """What a terminal shows of a command."""
        self.words += f"{command}\n"
        outcome = run(["bash", "-c", f"(exit {self.status})\n{command}"], folder=self.folder, environment=self.environment, seconds=LONGEST)
        if outcome.status is None:
            return f"no answer within {LONGEST} seconds\n"
        self.status = outcome.status
        return outcome.answer + outcome.message


def difference(wanted: str, told: str) -> str:
    """The lines in which what a page shows and what the program prints differ."""
    return "".join(
        f"    {line.rstrip()}\n" for line in difflib.unified_diff(wanted.splitlines(), told.splitlines(), "the page", "the program", lineterm="")
    )


class Page:
    """A page that was run: its commands, how many blocks of them and how many files it has, and what is wrong with it."""

    def __init__(self, path: Path, program: Path) -> None:
        self.path, self.name = path, from_top(path)
        self.faults: list[str] = []
        self.skipped: list[str] = []
        self.text = text = path.read_text()
        blocks = blocks_of(text, self.tell)
        self.ran, self.files = (sum(block.word in words for block in blocks) for words in (RUN, NAMED))
        with tempfile.TemporaryDirectory() as scratch:
            shell = Run(Path(scratch), program)
            for block in blocks:
                if block.word in NAMED:
                    self.show(shell, block)
                elif block.word in RUN:
                    self.ask(shell, block)
        self.words = shell.words
        self.new = written(text, blocks)
        if self.ran == 0 and (SAYS_SO in " ".join(text.split()) or path.parent.parent == EXAMPLES):
            self.tell(1, "the page has no command")
        for number, line in enumerate(text.splitlines(), 1):
            for name, heading in LINK.findall(line):
                if fault := link_fault(path, name, heading):
                    self.tell(number, fault)

    def tell(self, number: int, fault: str) -> None:
        """Adds a fault of a line."""
        self.faults.append(f"{self.name}:{number}: {fault}")

    def show(self, shell: Run, block: Block) -> None:
        """Compares a file with that of the tree, or leaves it for the commands."""
        name = NAME_ABOVE.search(block.above)
        if name is None:
            self.tell(block.first - 1, "a file whose name doesn't stand above it")
        elif (text := shell.show(name[1], block.text())) != block.text():
            self.tell(block.first, f"{name[1]} is another text in the tree")
            block.become(text.splitlines())

    def ask(self, shell: Run, block: Block) -> None:
        """Runs the commands of a block, and compares what they print."""
        if not (block.lines and block.lines[0].startswith(PROMPT)):
            self.tell(block.first, "a block of commands that begins with none")
        lines = []
        for number, command, wanted in block.commands():
            missing = [tool for tool in TOOLS.findall(command) if shutil.which(tool) is None]
            told = wanted if missing else shell.ask(command)
            self.skipped += [f"{self.name}:{number}: skipped, as there is no {tool} here" for tool in missing]
            lines += [PROMPT + command, *told.splitlines()]
            if told != wanted:
                self.tell(number, f"{command}\n{difference(wanted, told)}")
        block.become(lines)


def written(text: str, blocks: Sequence[Block]) -> str:
    """The page with the lines that its blocks have become."""
    lines = text.splitlines()
    for block in reversed(blocks):
        if block.new is not None:
            lines[block.first - 1 : block.first - 1 + len(block.lines)] = block.new
    return "".join(f"{line}\n" for line in lines)


@cache
def anchors(path: Path) -> set[str]:
    """The headings of a page as links name them: small letters, digits and hyphens alone."""
    heads = re.findall(r"^#+ (.*)$", re.sub(rf"^{FENCE}.*?^{FENCE}", "", path.read_text(), flags=re.MULTILINE | re.DOTALL), re.MULTILINE)
    return {re.sub(r"[^\w -]", "", head.lower()).replace(" ", "-") for head in heads}


def link_fault(page: Path, name: str, heading: str) -> str | None:
    """Why a link leads nowhere, or None. Links to other places than this repository aren't followed."""
    if ":" in name:
        return None
    path = (page.parent / name).resolve() if name else page
    if not path.exists():
        return f"there is no {name}"
    return f"{name or page.name} has no heading #{heading}" if heading and path.suffix == ".md" and heading not in anchors(path) else None


def notebook_faults(path: Path) -> list[str]:
    """What is wrong with a notebook: what running it has left in it, and links of its text that lead nowhere. Cells are counted from 1."""
    try:
        cells = json.loads(path.read_text())["cells"]
    except (ValueError, KeyError, TypeError):
        return ["is no notebook"]
    faults = [
        f"cell {number}: an output or a number of runs is stored"
        for number, cell in enumerate(cells, 1)
        if cell.get("outputs") or cell.get("execution_count") is not None
    ]
    for number, cell in enumerate(cells, 1):
        if cell["cell_type"] == "markdown":
            links = LINK.findall("".join(cell["source"]))
            faults += [f"cell {number}: {fault}" for name, heading in links if (fault := link_fault(path, name, heading))]
    return faults


def unused(commands: str) -> list[Path]:
    """The programs and tables of examples/ and course/ that none of the commands names."""
    return [
        path
        for programs in PROGRAMS_IN
        for path in sorted(programs.rglob("*"))
        if path.suffix in (".kf", ".json") and not re.search(rf"(^|[\s:]){re.escape(str(path.relative_to(TOP)))}\s", commands)
    ]


def pages_and_notebooks() -> list[Path]:
    """All pages and notebooks for users."""
    places = [(TOP, "*"), *((TOP / folder, "**/*") for folder in FOLDERS), (TOP / "crates", "*/*")]
    return [path for kind in ("md", "ipynb") for place, any_file in places for path in sorted(place.glob(f"{any_file}.{kind}"))]


def main(words: Sequence[str]) -> None:
    """Runs the pages, writes them where that is asked, and says what is wrong."""
    others = [word for word in words if word != "--write"]
    program = named(others).path
    only = [Path(name).resolve() for name in others[1:]]
    every = only or pages_and_notebooks()
    with ThreadPoolExecutor(os.cpu_count()) as pool:
        pages = list(pool.map(lambda path: Page(path, program), (path for path in every if path.suffix == ".md")))
    for page in pages:
        print(f"{page.name}: {page.ran} blocks with {page.words.count(chr(10))} commands, {page.files} files", *page.skipped, sep="\n")
        if "--write" in words and page.new != page.text:
            page.path.write_text(page.new)
    faults = [fault for page in pages for fault in page.faults]
    faults += [f"{from_top(path)}: {fault}" for path in every if path.suffix == ".ipynb" for fault in notebook_faults(path)]
    if not only:
        faults += [f"{path.relative_to(TOP)}: no page runs it" for path in unused("".join(page.words for page in pages))]
        if (CRATES / "kuifje" / "data" / "first.kf").read_bytes() != (EXAMPLES / "first.kf").read_bytes():
            faults.append("the gate's first.kf isn't that of examples/")
    end(faults)


if __name__ == "__main__":
    main(sys.argv[1:])
