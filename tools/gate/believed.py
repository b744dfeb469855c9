"""Keeps docs/TRUST-TABLES.md true: what has to be believed, what each call promises, which wrong bodies are refused.

    .ci/believed            compares the page with the sources, and prints lines and characters to believe, crate by crate and by what they are about
    .ci/believed --write    writes the page

What has to be believed is found from the contract of `run`, the call that the program makes: the files of definitions that its clauses name,
and those that these use. For each kind of answer docs/TRUST.md names, in one table, the definitions to begin with and the laws that the answer
rests on; what these reach is listed in the order in which to read it. Three more lists have what isn't counted as believed: the files with which the
traits of files and sinks state their clauses, those that the contract of `kuifje_run` reaches beside the others, for a caller from C, and those that
laws alone reach, for a reader of laws.
Ends with 1 where the page is stale, where a file is reached and not marked `-- Believed:`, or is marked and not reached, where it has no kind in
SUBJECTS, where a line after the first of such a file is longer than 140 characters, where docs/TRUST.md gives another number of lines, and where a
page names a file or a call of a crate that there isn't. There is no bound on how much may have to be believed: a new command adds to it, and the page
shows by how much."""

from __future__ import annotations

import re
import sys
from collections.abc import Collection, Iterable, Iterator, Sequence
from dataclasses import dataclass
from functools import cached_property
from pathlib import Path

from .faults import end
from .repository import CRATES, DOCS, TOP, crates

TRUST, TABLES = DOCS / "TRUST.md", DOCS / "TRUST-TABLES.md"
CONTRACT, FROM_C = CRATES / "kf_top" / "src" / "top.rt", CRATES / "kuifje_c" / "src" / "run.rt"
TRAITS = CRATES / "kf_io" / "src" / "traits.rt"
MARK, MARK_FROM_C, LONGEST = "-- Believed: ", "-- Believed by a caller from C: ", 140
SUBJECTS = {  # what the believed definitions are about, by crate, or by a crate's file, which goes before the crate
    "the promise, loading, how a run ends": "kf_io kf_load kf_top/Ends kf_top/Outcome",
    "words": "kf_words",
    "syntax and types": "kf_ast kf_check kf_lex kf_parse kf_ops/Places kf_ops/Rows",
    "the meaning of programs": "kf_core kf_frac kf_ops/Values kf_value",
    "measures, channels, silence, refinement, priors": (
        "kf_attack kf_capacity kf_channel kf_column kf_gain kf_lines kf_prior kf_push kf_quiet kf_refine kf_report kf_silent"
    ),
    "which of several verdicts": "kf_refine/Equations kf_refine/Verdicts kf_simplex",
    "JSON, gain tables and certificates": "kf_cert kf_gain/Tables kf_json",
    "texts and outcomes": "kf_lines/LineTexts kf_text kf_top/Answer",
    "`make`": "kf_make",
}
IMPORT = re.compile(r"^\s*(?:ghost )?use Rattle\.(kf_\w+)\.specs\.(?!declared\b|contracts\b)(\w+)(?:\.\{(.*)\})?", re.MULTILINE)
DECLARED = re.compile(r"\bRattle\.(kf_\w+)\.specs\.declared\.(\w+)\.(\w+)")
PUBLIC = re.compile(r'^( *)pub (?:extern "C" )?fn (\w+)')
FILE, CALL = re.compile(r"\b(kf_\w+/(?:specs|src)/\w+\.\w+)"), re.compile(r"`(kf_\w+)::(\w+)")

Row = list[str | int]  # of a table

# ---- definitions


def imported(path: Path, names: Collection[str] | None = None) -> list[Path]:
    """The files of definitions that a file uses; where names are given, those alone that one of them comes from."""
    return [
        CRATES / crate / "specs" / f"{module}.antt"
        for crate, module, used in IMPORT.findall(path.read_text())
        if names is None or set(names) & set(re.findall(r"\w+", used))
    ]


def reached(starts: Iterable[Path], seen: Collection[Path] = ()) -> list[Path]:
    """The files that these reach, each after those that it uses; without those that were seen before."""
    order: list[Path] = []

    def visit(path: Path) -> None:
        if path not in seen and path not in order and path.is_file():
            for used in imported(path):
                visit(used)
            order.append(path)

    for start in starts:
        visit(start)
    return order


def contract_of(path: Path, function: str) -> list[Path]:
    """The files of definitions that the clauses of a public function name."""
    text = path.read_text()
    begins = re.search(rf'^pub (?:extern "C" )?fn {function}\b', text, re.MULTILINE)
    if begins is None:
        sys.exit(f"{path}: there is no {function}")
    clauses = re.split(r"\n *\{\}?\n", text[begins.start() :])[0]
    return imported(path, set(re.findall(r"\w+", clauses)))


def subject_of(path: Path) -> str | None:
    """What a believed file is about, or None where SUBJECTS has no place for it."""
    crate, places = path.parent.parent.name, {name: subject for subject, names in SUBJECTS.items() for name in names.split()}
    return places.get(f"{crate}/{path.stem}", places.get(crate))


def by_subject(paths: Collection[Path]) -> dict[str, int]:
    """The lines to believe, by what they are about."""
    return {subject: size_of([path for path in paths if subject_of(path) == subject])[0] for subject in SUBJECTS}


def counted(path: Path) -> list[str]:
    """The lines of a file of definitions that are to be believed: no imports, comments and blank ones."""
    return [line for line in path.read_text().splitlines() if line.strip() and not re.match(r"use |\s*--", line)]


def size_of(paths: Iterable[Path]) -> tuple[int, int]:
    """The lines and characters to believe."""
    lines = [line for path in paths for line in counted(path)]
    return len(lines), sum(map(len, lines))


def first_sentence(comment: str) -> str:
    """Without the sources that it names in parentheses."""
    return re.split(r"\.(?: |$)", re.sub(r" ?\([^()]*\b20\d\d\b[^()]*\)", "", comment))[0]


def says(path: Path) -> str:
    """The first sentence of a file's first comment, without the mark."""
    comment = " ".join(line.removeprefix("--").strip() for line in path.read_text().split("\nuse ")[0].splitlines() if line.startswith("--"))
    return first_sentence(re.sub(r"^[\w ]+: ", "", comment, count=1))


def name_of(path: Path) -> str:
    """A file as pages name it."""
    return str(path.relative_to(CRATES))


# ---- calls


@dataclass(frozen=True)
class Call:
    """A public function: its name, with the type's before it, the first sentence of its comment, and its text up to its body."""

    name: str
    comment: str
    header: str

    @cached_property
    def clauses(self) -> list[str]:
        """The names of its clauses."""
        found: list[str] = re.findall(r"^ *ensures (?:(\w+) )?\{", self.header, re.MULTILINE)
        return [clause for clause in found if clause] + ["its clause"] * found.count("")

    @property
    def is_law(self) -> bool:
        """Whether it does nothing when it runs."""
        return bool(self.clauses) and re.search(r"pub fn \w+\(\)\n", self.header) is not None


def header_end(lines: Sequence[str], first: int, indent: str) -> int:
    """The line at which a function's body begins, whose first line is this one."""
    for number, line in enumerate(lines[first:], first):
        if re.match(rf"{indent}\{{(\}})?$", line):
            return number
        if re.search(r"\{(.*\})?$", line) and not re.match(r" *(ensures|requires|  )", line[len(indent) :]):
            return number
    raise ValueError(f"the function of line {first + 1} has no body")


def calls_in(path: Path) -> Iterator[Call]:
    """The public functions of a file, with and without clauses."""
    lines, owner = path.read_text().splitlines(), ""
    comment: list[str] = []
    for number, line in enumerate(lines):
        if found := re.match(r"(?:impl|pub trait)\b(?:<[^>]*>)? *(?:[\w:]+(?:<[^>]*>)? for )?(\w+)", line):
            owner = f"{found[1]}::"
        elif line == "}":
            owner = ""
        if line.lstrip().startswith("///"):
            comment.append(line.strip().removeprefix("///").strip())
        elif found := PUBLIC.match(line):
            last = header_end(lines, number, found[1])
            yield Call(owner + found[2], first_sentence(" ".join(comment)), "\n".join(lines[number:last]) + "\n")
        if not line.lstrip().startswith(("///", "#[")):
            comment = []


def calls_of(crate: Path) -> list[Call]:
    """The public functions of a crate that have clauses, by name."""
    library = crate / "src" / "lib.rt"
    if not library.is_file():
        return []
    exported = set(re.findall(r"\w+", " ".join(re.findall(r"^pub (?:use|mod) [^;]*", library.read_text(), re.MULTILINE))))
    calls = [call for path in sorted(crate.glob("src/**/*.rt")) for call in calls_in(path) if path == library or call.name.split("::")[0] in exported]
    return sorted((call for call in calls if call.clauses), key=lambda call: call.name)


# ---- the page


def rows_of_trust() -> Iterator[tuple[str, list[Path], list[tuple[str, str]]]]:
    """The rows of the table of docs/TRUST.md on kinds of answers: the kind, the files to begin with and the laws."""
    table = TRUST.read_text().split("| To believe |", 1)[1].split("\n\n", 1)[0]
    for line in table.splitlines()[2:]:
        kind, definitions, laws = (cell.strip() for cell in line.strip("|").split("|"))
        yield kind, [CRATES / name for name in FILE.findall(definitions)], CALL.findall(laws)


def source_of(crate: str, function: str) -> Path | None:
    """The file that has a public function."""
    return next(
        (path for path in sorted((CRATES / crate).glob("src/**/*.rt")) if re.search(rf"^pub fn {function}\b", path.read_text(), re.MULTILINE)), None
    )


def table(heads: Row, rows: Sequence[Row]) -> str:
    """A table of a page."""
    lines: list[Row] = [heads, ["---"] * len(heads), *rows]
    return "\n".join("| " + " | ".join(str(cell).replace("|", "\\|") for cell in line) + " |" for line in lines) + "\n"


def definitions(paths: Sequence[Path]) -> str:
    """The table of some files."""
    return table(["File", "What it says", "Lines"], [[f"`{name_of(path)}`", says(path), len(counted(path))] for path in paths])


class Tables:
    """What the page has: the calls and the wrong bodies of each crate, and files of definitions by who needs them.

    ``traits`` are those with which the traits of files and sinks state their clauses, ``caller`` those for a caller from C, ``laws`` those that laws
    which docs/TRUST.md names reach, and ``all_laws`` those that any law reaches: none of these is counted as believed.
    """

    def __init__(self, folders: Sequence[Path], believed: Collection[Path]) -> None:
        self.believed = believed
        self.kinds = list(rows_of_trust())
        self.calls = {folder.name: calls_of(folder) for folder in folders}
        self.bodies = {folder.name: sorted(path.stem for path in folder.glob("must-fail/*.edit")) for folder in folders}
        self.traits = [path for path in reached(imported(TRAITS)) if path not in believed]
        self.caller = [path for path in reached(contract_of(FROM_C, "kuifje_run"), believed) if path not in self.traits]
        self.laws: list[Path] = []
        for _, _, names in self.kinds:
            for crate, function in names:
                self.laws += [path for path in self.reached_by(crate, function) if path not in self.laws]
        every = [(crate, call.name) for crate, found in self.calls.items() for call in found if call.is_law]
        self.all_laws = reached([path for crate, name in every if (source := source_of(crate, name)) for path in contract_of(source, name)], believed)

    def reached_by(self, crate: str, function: str) -> list[Path]:
        """The files that a law reaches beside the believed ones."""
        source = source_of(crate, function)
        return reached(contract_of(source, function), self.believed) if source else []

    def by_kind(self) -> list[tuple[str, list[Path]]]:
        """The believed files in the order in which to read them: the promise, and then what each kind of answer needs."""
        seen: set[Path] = set()
        parts = []
        for kind, starts, _ in self.kinds:
            found = [path for path in reached(starts, seen) if path in self.believed]
            parts.append((kind, found))
            seen |= set(found)
        promise = [path for path in reversed(reached(contract_of(CONTRACT, "run"))) if path not in seen]
        return [("The promise", promise), *parts]

    def counts(self) -> list[Row]:
        """How many there are of each thing."""
        lines, characters = size_of(self.believed)
        types = {found for path in self.believed for found in DECLARED.findall(path.read_text())}
        every = [call for found in self.calls.values() for call in found]
        bodies = sum(map(len, self.bodies.values()))
        return [
            ["crates", len(self.calls)],
            ["files of definitions to believe", len(self.believed)],
            ["their lines, without imports, comments and blank ones", lines],
            ["their characters", characters],
            ["types of the code that they name", len(types)],
            ["lines of the traits' definitions, beside these", size_of(self.traits)[0]],
            ["lines for a caller from C, beside all these", size_of(self.caller)[0]],
            ["files that only laws named in TRUST.md reach", len(self.laws)],
            ["their lines", size_of(self.laws)[0]],
            ["files that only laws reach, named there or not", len(self.all_laws)],
            ["their lines", size_of(self.all_laws)[0]],
            ["public calls with clauses", len(every)],
            ["of these laws", sum(call.is_law for call in every)],
            ["clauses", sum(len(call.clauses) for call in every)],
            ["wrong bodies", bodies],
            ["what `make audit` counts: crates and wrong bodies", len(self.calls) + bodies],
        ]

    def on_counts(self) -> Iterator[str]:
        """The page's head and its counts."""
        yield "# Tables to the page on trust\n"
        yield (
            "`.ci/believed --write` makes this page of the sources, and `.ci/believed` fails where it is stale: nothing here is written by hand.\n"
            "[TRUST.md](TRUST.md) says what it is for, and [GLOSSARY.md](GLOSSARY.md) what the words mean.\n"
        )
        yield "## Counts\n"
        yield table(["What", "How many"], self.counts())
        yield "The lines to believe, by what they are about:\n"
        rows: list[Row] = [[subject, lines] for subject, lines in by_subject(self.believed).items()]
        yield table(["About", "Lines"], [*rows, ["all", size_of(self.believed)[0]]])

    def on_definitions(self) -> Iterator[str]:
        """The page's part on definitions."""
        yield "## Definitions to believe\n"
        yield (
            'In the order in which to read them: each kind of answer needs the promise, what stands under "every answer" and, beside its own files,\n'
            "those of the kinds above it that these use.\n"
        )
        yield "".join(f"### {kind}\n\n{definitions(found)}\n" for kind, found in self.by_kind() if found).rstrip("\n") + "\n"
        yield "### The traits of files and sinks\n"
        yield (
            "What the clauses in `kf_io/src/traits.rt` are stated with, beside the files above. They say what the counts of faults, the contents\n"
            "and the bytes taken are that the promise speaks of.\n"
        )
        yield definitions(self.traits)
        yield "### A caller from C\n"
        yield "What the contract of `kuifje_run` reaches beside the files above: for readers who call the library, and for no others.\n"
        yield definitions(self.caller)
        yield "### Laws\n"
        yield (
            "What the laws of [TRUST.md](TRUST.md#how-to-read-the-definitions) are stated with, beside the files above. "
            "The contract of `run` doesn't reach these: they are for readers\n"
            "who want what an answer means, and not only what it is. Some begin with `-- For bodies:` and are to be read all the same.\n"
        )
        yield definitions(self.laws)
        yield "### Other laws\n"
        yield "The same for laws that TRUST.md doesn't name, beside the files above.\n"
        yield definitions([path for path in self.all_laws if path not in self.laws])

    def on_calls(self) -> Iterator[str]:
        """The page's part on calls."""
        yield "## What each call promises\n"
        yield "A call without a clause isn't listed. A *law* does nothing when it runs: its clauses say what holds of the definitions.\n"
        for name, found in self.calls.items():
            if found:
                yield f"### {name}\n"
                yield table(["Call", "What it does", "Clauses"], [row_of(call) for call in found])

    def on_bodies(self) -> Iterator[str]:
        """The page's part on wrong bodies."""
        yield "## Wrong bodies\n"
        yield (
            "Each is a change of the code that means something else; the gate sees that the prover refuses it. "
            "The files are `crates/CRATE/must-fail/NAME.edit`.\n"
        )
        rows: list[Row] = [[f"`{name}`", len(names), ", ".join(f"`{edit}`" for edit in names)] for name, names in self.bodies.items() if names]
        yield table(["Crate", "How many", "Names"], rows)

    def page(self) -> str:
        """The whole page."""
        return "\n".join([*self.on_counts(), *self.on_definitions(), *self.on_calls(), *self.on_bodies()])


def row_of(call: Call) -> Row:
    """A call's row."""
    clauses = ", ".join(f"`{clause}`" if " " not in clause else clause for clause in call.clauses)
    return [f"`{call.name}`" + (" (law)" if call.is_law else ""), call.comment, clauses]


# ---- faults


def faults_of(believed: Collection[Path]) -> Iterator[str]:
    """What is wrong with the marks, the lines and the subjects of the files."""
    for path in sorted(believed):
        lines = path.read_text().splitlines()
        if not lines[0].startswith(MARK):
            yield f"{name_of(path)}: reached from `run`, and not marked"
        for number, line in enumerate(lines[1:], 2):
            if len(line) > LONGEST and not line.startswith("use "):
                yield f"{name_of(path)}:{number}: longer than {LONGEST} characters"
        if subject_of(path) is None:
            yield f"{name_of(path)}: no subject in SUBJECTS of tools/gate/believed.py"
    caller = reached(contract_of(FROM_C, "kuifje_run"))
    for path in sorted(CRATES.glob("*/specs/*.antt")):
        if path.read_text().startswith(MARK) and path not in believed:
            yield f"{name_of(path)}: marked, and not reached from `run`"
        if path.read_text().startswith(MARK_FROM_C) and path not in caller:
            yield f"{name_of(path)}: marked for a caller from C, and not reached from `kuifje_run`"
    known = {name for path in believed for name in (path.parent.parent.name, f"{path.parent.parent.name}/{path.stem}")}
    for name in " ".join(SUBJECTS.values()).split():
        if name not in known:
            yield f"SUBJECTS of tools/gate/believed.py has {name}, and nothing of it is believed"


def faults_of_trust(believed: Collection[Path]) -> Iterator[str]:
    """The number of lines to believe that docs/TRUST.md gives, in hundreds."""
    wanted = f"some {round(size_of(believed)[0], -2):,} lines of definitions"
    if wanted not in TRUST.read_text():
        yield f"{TRUST.name}: it doesn't say `{wanted}`"


def faults_on_pages() -> Iterator[str]:
    """What pages name, and isn't there."""
    for path in [TOP / "README.md", *(page for page in sorted(DOCS.glob("*.md")) if page != TABLES)]:
        text = path.read_text()
        for name in sorted(set(FILE.findall(text))):
            if not (CRATES / name).is_file():
                yield f"{path.name}: there is no {name}"
        for crate, item in sorted(set(CALL.findall(text))):
            sources = "".join(source.read_text() for source in (CRATES / crate).glob("src/**/*.rt"))
            if not re.search(rf"\b(fn|const|struct|enum|trait|type|use .*) {item}\b|\buse [^;]*\b{item}\b", sources):
                yield f"{path.name}: there is no {crate}::{item}"


def main(words: Sequence[str]) -> None:
    """Compares the page with the sources, or writes it, and says what is wrong otherwise."""
    folders = [CRATES / name for name in crates()]
    believed = set(reached(contract_of(CONTRACT, "run")))
    for folder in folders:
        lines, characters = size_of([path for path in believed if path.parent.parent == folder])
        if lines:
            print(f"{folder.name} {lines} lines, {characters} characters")
    for subject, lines in by_subject(believed).items():
        print(f"{lines} lines on {subject}")
    print("believed {} lines, {} characters".format(*size_of(believed)))
    text = Tables(folders, believed).page()
    if "--write" in words:
        TABLES.write_text(text)
    faults = [*faults_of(believed), *faults_of_trust(believed), *faults_on_pages()]
    if not TABLES.is_file() or TABLES.read_text() != text:
        faults.append(f"{TABLES.name} is stale: `.ci/believed --write` writes it")
    end(faults)


if __name__ == "__main__":
    main(sys.argv[1:])
