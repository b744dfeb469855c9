"""Tries the library beside the program: hostile/library.c, which says what each trial is, linked with lib/libkuifje.a.

    tools/run hostile.library [--quick] [--library lib/libkuifje.a] [--program bin/kuifje]

Twenty-five questions and a dozen bad calls, the cases of crates/kf_cases, buffers of every length, many calls, eight threads, each allocation
refused in turn, and what valgrind finds. Then kuifje_ask of include/kuifje_ask.h: the same questions and cases, one for each status, answers that
are longer than its first buffers, and the trials of hostile/ask.c, by themselves, in valgrind and with the compiler's sanitizers. Without
--quick all of the cases, a million calls, every command of the pages, and memory beside the program's. Ends with 1 where a trial isn't passed. What
needs a C compiler, valgrind or the sanitizers is skipped where there is none, and says so."""

from __future__ import annotations

import argparse
import ctypes
import os
import shutil
import sys
import tempfile
from collections.abc import Sequence
from pathlib import Path
from typing import Any, Protocol

from ..case_files import case_files, cases_of
from ..program import Outcome, Program, Word, program_at, run
from ..repository import BUILT, TOP

COMPILER = os.environ.get("CC", "cc")
ALLOCATIONS: list[Word] = [TOP / "hostile" / "allocations.c", "-fno-builtin", "-Wl,--wrap=malloc", "-Wl,--wrap=realloc", "-Wl,--wrap=free"]
WARNINGS = ["-std=c11", "-D_GNU_SOURCE", "-O1", "-Wall", "-Wextra", "-Werror"]
SANITIZERS = ["-g", "-fsanitize=address,undefined", "-fno-sanitize-recover=all"]

QUESTIONS = [
    line.split()
    for line in """
hyper examples/guard.kf
hyper examples/first.kf
traces examples/guard.kf
traces examples/twice.kf
channel examples/guard.kf
capacity examples/guard.kf
trail examples/pin.kf
blame examples/guard.kf
quiet examples/guard.kf 0..1
leak examples/guard.kf --gain bayes
leak examples/guard.kf --gain tries:2
leak examples/doors.kf --gain table:examples/doors.json
attack examples/guard.kf --gain guessing
reach examples/guard.kf 3/4
refine examples/guard.kf examples/cond.kf
refine examples/cond.kf examples/guard.kf
refine examples/guard.kf examples/cond.kf --json
covers examples/guard.kf examples/cond.kf
cascade examples/receipt_first.kf examples/receipt_last.kf
parallel examples/guard.kf examples/cond.kf
choice examples/guard.kf examples/cond.kf 1/3
make 3
hyper examples/doors.json
hyper examples/missing.kf
refine examples/guard.kf
""".strip().splitlines()
]


# What takes memory: answers of 2 and of 4 MB, many stores, many cells.
LARGE = {
    "many_inners.kf": ("hyper", "var x : 0..65535 := uniform 0..65535;\nobserve x;\n"),
    "many_traces.kf": ("traces", "var x : 0..1 := 0;\n" + "observe flip 1/2;\n" * 15),
    "many_stores.kf": ("leak --gain guessing", "var x : 0..65535 := uniform 0..65535;\nvar y : 0..3 := uniform 0..3;\nobserve (x + y) mod 7;\n"),
    "many_rows.kf": ("capacity", "var x : 0..1023 := uniform 0..1023;\nabout old x;\nobserve x div 2;\nobserve choose { x mod 2 : 3, 1 : 1 };\n"),
}
# What kuifje_ask is asked beside these: the status, how often it has to run the program, the words, and the files' texts by their names.
COIN = "var x : bool := flip 1/2;\n"
ASKED: list[tuple[int, int, str, dict[str, str]]] = [
    (0, 1, "hyper a.kf", {"a.kf": COIN}),
    (0, 2, "hyper a.kf", {"a.kf": LARGE["many_inners.kf"][1]}),
    (0, 2, "traces a.kf", {"a.kf": LARGE["many_traces.kf"][1]}),
    (1, 1, "refine a.kf b.kf", {"a.kf": COIN, "b.kf": COIN + "observe x;\n"}),
    (2, 1, "hyper a.kf b.kf", {"a.kf": COIN, "b.kf": COIN}),
    (3, 1, "hyper a.kf", {"b.kf": COIN}),
    (3, 2, "hyper " + "a" * 5_000, {}),
    (5, 1, "hyper a.kf", {"a.kf": "var x"}),
    (6, 1, "hyper a.kf", {"a.kf": "var x : 0..1 := 0;\nobserve 1 div x;\n"}),
    (7, 1, "hyper a.kf", {"a.kf": COIN + "observe flip 1/999999999;\n" * 5}),
    (8, 1, "covers a.kf a.kf", {"a.kf": "var x : 0..65535 := 0;\n"}),
    (9, 1, "leak a.kf --gain table:b.json", {"a.kf": COIN, "b.json": "{}"}),
    (10, 1, "channel a.kf", {"a.kf": COIN}),
    (11, 1, "hyper a.kf", {"a.kf": "#" * ((1 << 20) + 1)}),
    (13, 1, "quiet a.kf 0..2", {"a.kf": COIN + "observe x;\n"}),
]
SLACK = 512  # kilobytes: what is loaded of the two programs themselves, by pages

# What takes stack: expressions and blocks as deep as a text may have them, and a type, a set and a choice that are nested.
DEEP = {
    "minus.kf": "var x : 0..1 := uniform 0..1;\nobserve " + "x - (" * 63 + "x" + ")" * 63 + ";\n",
    "parts.kf": "var x : 0..1 := uniform 0..1;\nobserve " + "((" * 31 + "x, x" + "), x)" * 31 + " = " + "((" * 31 + "x, x" + "), x)" * 31 + ";\n",
    "conds.kf": "var x : 0..1 := uniform 0..1;\nobserve " + "cond(x = 1, x, " * 63 + "x" + ")" * 63 + ";\n",
    "blocks.kf": "var x : 0..1 := uniform 0..1;\n" + "if x = 1 { " * 63 + "observe x;" + " } else { skip; }" * 63 + "\n",
    "loops.kf": "var x : 0..1 := uniform 0..1;\n" + "while x = 1 { " * 63 + "x := 0;" + " }" * 63 + "\n",
    "choices.kf": "var x : 0..1 := uniform 0..1;\nobserve choose { " + "abs(" * 62 + "x" + ")" * 62 + " : 1 };\n",
    "json.json": "[" * 126 + "]" * 126,
}
STACKS = [8192, 4096, 2048, 1024, 896, 768, 512]  # KiB


Answered = tuple[int, bytes, bytes]  # status, out and err
Files = Sequence[tuple[bytes, bytes]]  # names with contents
Bounds = tuple[int, int]  # where a text begins, and the place after it


class Called(Protocol):
    """A way to call the library: what it says of words or names that are no text, and whether these may have bytes of 0 in them."""

    badly_called: Answered
    takes_zeros: bool

    def ask(self, words: Sequence[bytes], files: Files) -> Answered:
        """Status, out and err of a question."""


class Span(ctypes.Structure):
    """Where a text begins, and the place after it: `kuifje_span` of include/kuifje.h."""

    _fields_ = [("start", ctypes.c_size_t), ("end", ctypes.c_size_t)]


class File(ctypes.Structure):
    """A name and contents: `kuifje_file`."""

    _fields_ = [("name", Span), ("contents", Span)]


class Lengths(ctypes.Structure):
    """How long both streams are: `kuifje_lengths`."""

    _fields_ = [("out", ctypes.c_size_t), ("err", ctypes.c_size_t)]


class NamedFile(ctypes.Structure):
    """A file by its name: `kuifje_named_file` of include/kuifje_ask.h."""

    _fields_ = [("name", ctypes.c_char_p), ("bytes", ctypes.c_char_p), ("length", ctypes.c_size_t)]


class Answer(ctypes.Structure):
    """What kuifje_ask leaves: `kuifje_answer` of include/kuifje_ask.h."""

    _fields_ = [
        ("status", ctypes.c_int),
        ("out", ctypes.c_void_p),
        ("out_length", ctypes.c_size_t),
        ("err", ctypes.c_void_p),
        ("err_length", ctypes.c_size_t),
        ("memory", ctypes.c_void_p),
    ]


class Library:
    """The shared library, called by ctypes."""

    badly_called: Answered = (64, b"", b"")
    takes_zeros = True

    def __init__(self, path: Path) -> None:
        self.call = ctypes.CDLL(str(path)).kuifje_run
        self.call.restype = ctypes.c_uint8
        lists: list[type[Any]] = [ctypes.c_char_p, ctypes.POINTER(Span), ctypes.POINTER(File), ctypes.c_char_p, ctypes.c_char_p]
        arguments: list[Any] = [kind for item in lists for kind in (item, ctypes.c_size_t)]
        self.call.argtypes = [*arguments, ctypes.POINTER(Lengths)]

    def ask_spans(self, text: bytes, words: Sequence[Bounds], files: Sequence[tuple[Bounds, Bounds]], room: int = 1 << 16) -> Answered:
        """Status, out and err of a call whose words and files are given by their spans."""
        lengths, out, err = Lengths(7, 7), ctypes.create_string_buffer(room), ctypes.create_string_buffer(room)
        spans = (Span * max(1, len(words)))(*(Span(*word) for word in words))
        held = (File * max(1, len(files)))(*(File(Span(*name), Span(*contents)) for name, contents in files))
        status = self.call(text, len(text), spans, len(words), held, len(files), out, room, err, room, ctypes.byref(lengths))
        if max(lengths.out, lengths.err) > room:
            return self.ask_spans(text, words, files, max(lengths.out, lengths.err))
        return status, out.raw[: lengths.out], err.raw[: lengths.err]

    def ask(self, words: Sequence[bytes], files: Files, room: int = 1 << 16) -> Answered:
        """The same of words and of pairs of a name and contents. Where the answer is longer than the room, all of it."""
        text, spans = b"", []
        for piece in [*words, *(piece for file in files for piece in file)]:
            spans.append((len(text), len(text) + len(piece)))
            text += piece
        pairs = spans[len(words) :]
        return self.ask_spans(text, spans[: len(words)], list(zip(pairs[::2], pairs[1::2])), room)


class Asked:
    """kuifje_ask as hostile/ask.c compiles it in this folder, called by ctypes."""

    badly_called: Answered = (64, b"", b"kuifje: a word or a name is null or isn't UTF-8\n")
    takes_zeros = False

    def __init__(self, folder: Path, archive: Path) -> None:
        self.folder, self.archive = folder, archive
        self.functions = ctypes.CDLL(str(self.compiled("ask.so", "-shared", "-fPIC")))
        self.functions.runs_of.restype = ctypes.c_size_t
        self.functions.asked_of.argtypes = [
            ctypes.c_size_t,
            ctypes.POINTER(ctypes.c_char_p),
            ctypes.POINTER(NamedFile),
            ctypes.c_size_t,
            ctypes.POINTER(Answer),
        ]

    def compiled(self, name: str, *options: str) -> Path:
        """The file that hostile/ask.c is compiled to."""
        path = self.folder / name
        sources: list[Word] = [TOP / "hostile" / "ask.c", *ALLOCATIONS, "-Wl,--wrap=kuifje_run", self.archive]
        compile_with(*WARNINGS, "-Wpedantic", "-Wconversion", *options, *sources, "-o", path)
        return path

    def ask(self, words: Sequence[bytes], files: Files) -> Answered:
        """Status, out and err; both texts have to end in a 0."""
        answer, named = Answer(), (NamedFile * len(files))(*(NamedFile(name, text, len(text)) for name, text in files))
        status = self.functions.asked_of(len(words), (ctypes.c_char_p * len(words))(*words), named, len(files), ctypes.byref(answer))
        out, err = (ctypes.string_at(at, length + 1) for at, length in ((answer.out, answer.out_length), (answer.err, answer.err_length)))
        self.functions.freed(ctypes.byref(answer))
        must(status == answer.status and out[-1] == err[-1] == 0, f"kuifje_ask of {words}: another status, or no 0 at the end")
        return status, out[:-1], err[:-1]

    def trials(self) -> str:
        """Those of hostile/ask.c, by themselves and by what finds faults of memory."""
        ways: dict[str, list[Word]] = {"by themselves": [self.compiled("ask")]}
        lacks = told = ""
        if shutil.which("valgrind"):
            ways["in valgrind"] = ["valgrind", "-q", "--error-exitcode=99", "--leak-check=full", self.folder / "ask"]
        else:
            lacks += "; valgrind is skipped, since it isn't here"
        source = self.folder / "empty.c"
        source.write_text("int main(void) { return 0; }")
        empty = run([COMPILER, *SANITIZERS, source, "-o", self.folder / "empty"], seconds=None)
        if empty.status == 0:
            ways["with sanitizers"] = [self.compiled("ask-sanitized", *SANITIZERS)]
        else:
            lacks += f"; the sanitizers are skipped, since {COMPILER} has none"
        for way, command in ways.items():
            done = run(command, seconds=None)
            must(done.status == 0, f"kuifje_ask {way}: {done.message}")
            told = done.answer.strip().replace("\n", "; ")
        return f"kuifje_ask: trials passed {', '.join(ways)}; {told}{lacks}"


def compile_with(*options: Word) -> None:
    """Has the compiler do this; its own words stand on standard error."""
    done = run([COMPILER, *options], seconds=None, stdout=None, stderr=None)
    must(done.status == 0, f"{COMPILER} ends with {done.status}")


def bad_calls(library: Library) -> str:
    """Calls that have to end with 64, with 3 and with an answer."""
    text, most = b"kuifjehyperg.kfvar x : bool := flip 1/2;\n\xff", 2**64 - 1
    words, file = [(0, 6), (6, 11), (11, 15)], ((11, 15), (15, 41))
    full = len(text)
    cases = {
        f"a word {span}": ([words[0], words[1], span], [file])
        for span in ((12, 11), (0, full + 1), (full - 1, full), (most, most), (most, 0), (0, most))
    }
    cases |= {f"a name {span}": (words, [file, (span, (0, 0))]) for span in ((3, 2), (full - 1, full), (full + 1, full + 1))}
    cases |= {f"contents {span}": (words, [file, ((0, 0), span)]) for span in ((3, 2), (0, full + 1), (most - 1, most))}
    for name, (spans, files) in cases.items():
        told = library.ask_spans(text, spans, files)
        must(told == (64, b"", b""), f"{name}: {told}")
    answer = library.ask_spans(text, words, [file])
    must(answer[0] == 0 and answer[1].startswith(b"target x\n"), f"a good call: {answer}")
    must(library.ask_spans(text, words, [file, ((11, 15), (0, 0))]) == answer, "the second of two files with one name isn't left alone")
    must(library.ask_spans(text, words, [((11, 15), (0, 0)), file])[0] == 5, "the first of two files with one name doesn't count")
    must(library.ask_spans(text, words, [file, ((0, 0), (full - 1, full))]) == answer, "contents have to be no text")
    must(library.ask_spans(text, [], [])[0] == 2, "a call of no words isn't refused as one")
    must(library.ask_spans(text, words, []) == (3, b"", b"kuifje: g.kf: read failed\n"), "a missing file isn't told")
    return f"{len(cases)} bad calls and 6 others"


def must(holds: bool, what: str) -> None:
    """Ends with 1 where something doesn't hold."""
    if not holds:
        sys.exit(f"library: {what}")


class Trials:
    """The trials of hostile/library.c, which is compiled in this folder."""

    def __init__(self, folder: Path, archive: Path) -> None:
        self.program = str(folder / "kuifje")
        compile_with(*WARNINGS, TOP / "hostile" / "library.c", *ALLOCATIONS, archive, "-pthread", "-o", self.program)

    def ask(self, words: Sequence[str], trial: str | None = None, before: Sequence[str] = ()) -> Outcome:
        environment = {"PATH": "/usr/bin:/bin", "LC_ALL": "C.UTF-8"} | ({"TRIAL": trial} if trial else {})
        return run([*before, self.program, *words], folder=TOP, environment=environment, seconds=None)

    def pass_all(self, trial: str, questions: Sequence[Sequence[str]]) -> str:
        """Passes a trial on each of these questions."""
        told = ""
        for words in questions:
            done = self.ask(words, trial)
            must(done.status == 0, f"{trial}, {' '.join(words)}: {done.message}")
            told = done.answer.strip()
        return f"{trial}: {len(questions)} questions; the last had {told}"

    def valgrind(self, questions: Sequence[Sequence[str]]) -> str:
        """Asks these questions in valgrind, where that is here."""
        if shutil.which("valgrind") is None:
            return "valgrind is skipped, since it isn't here"
        for words in questions:
            plain = self.ask(words)
            done = self.ask(words, None, ["valgrind", "-q", "--error-exitcode=99", "--leak-check=no"])
            must((done.status, done.out) == (plain.status, plain.out), f"valgrind, {' '.join(words)}: {done.message}")
        return f"valgrind finds nothing on {len(questions)} questions"


def beside(library: Called, program: Program) -> str:
    """Each question by the program and by the library."""
    for words in QUESTIONS:
        done = program.run(*words, folder=TOP)
        named = {word.removeprefix("table:") for word in words}
        files = [(name.encode(), (TOP / name).read_bytes()) for name in sorted(named) if (TOP / name).is_file()]
        told = library.ask([b"kuifje", *(word.encode() for word in words)], files)
        must(told == (done.status, done.out, done.err), f"{' '.join(words)}: the library {told}, the program {done}")
    return f"{len(QUESTIONS)} questions as the program answers them"


def statuses(asked: Asked, program: Program, folder: Path) -> str:
    """A question for each status by the program and by kuifje_ask, and how often kuifje_ask runs the program for it."""
    for at, (status, runs, question, texts) in enumerate(ASKED):
        place, words = folder / f"asked{at}", question.split()
        place.mkdir()
        for name, text in texts.items():
            (place / name).write_text(text)
        done = program.run(*words, folder=place)
        told = asked.ask([b"kuifje", *(word.encode() for word in words)], [(name.encode(), text.encode()) for name, text in texts.items()])
        must(done.status == status, f"{question}: the program ends with {done.status} in place of {status}")
        must(told == (status, done.out, done.err), f"{question}: kuifje_ask gives {told[0]} and {told[2]!r}, or another answer than the program")
        must(asked.functions.runs_of() == runs, f"{question}: kuifje_ask runs the program {asked.functions.runs_of()} times in place of {runs}")
    return f"{len(ASKED)} questions for {len({row[0] for row in ASKED})} statuses as the program answers them"


def is_text(bytes_: bytes) -> bool:
    """Whether the bytes are UTF-8."""
    try:
        bytes_.decode()
    except UnicodeDecodeError:
        return False
    return True


def cases(library: Called, few: bool) -> str:
    """The cases of crates/kf_cases. A library has no reads and no writes that fail, and no sink with too little room: such cases are left out, and
    so are those with a byte of 0 in a word or a name, where the call doesn't take it."""
    asked, left_out = 0, 0
    for path in case_files()[:: 8 if few else 1]:
        for case in cases_of(path.read_text(encoding="utf-8")):
            pieces = [*case.argv, *(name for name, _ in case.files)]
            fails = any(case.fails.values()) or len(case.out) >= case.sizes["out_room"] or len(case.err) >= case.sizes["err_room"]
            if fails or not library.takes_zeros and any(b"\0" in piece for piece in pieces):
                left_out += 1
                continue
            asked += 1
            wanted: object = (case.status, case.out, case.err) if all(map(is_text, pieces)) else library.badly_called
            told = library.ask(case.argv, case.files)
            must(told == wanted, f"{path.name}, {case.name}: {told}, where {wanted} is wanted")
    return f"{asked} cases as they have it, {left_out} left out"


def most_memory(trials: Trials, command: Sequence[str]) -> tuple[int, bytes]:
    """The kilobytes that a command holds at most, and what it prints."""
    done = trials.ask(command, "memory")
    must(done.status == 0, f"{command}: {done.message}")
    *answer, kilobytes = (done.out or b"").splitlines(keepends=True)
    return int(kilobytes), b"".join(answer)


def memory(trials: Trials, program: Program, folder: Path) -> str:
    """A call takes no more memory than the program for the same question, and besides its files and twice its answer."""
    lines = []
    for name, (command, text) in LARGE.items():
        (folder / name).write_text(text)
        word, *options = command.split()
        words = [word, str(folder / name), *options]
        by_program, answer = most_memory(trials, [str(program.path), *words])
        by_library, told = most_memory(trials, [trials.program, *words])
        must(told == answer, f"{words}: another answer")
        allowed = by_program + (len(text) + 2 * len(answer)) // 1024 + SLACK
        lines.append(f"{word}: {by_library} kB, the program {by_program} kB, the answer {len(answer) // 1024} kB")
        must(by_library <= allowed, f"memory of {lines[-1]}")
    return "\n".join(lines)


def stack(trials: Trials, folder: Path) -> str:
    """The least of these stacks in which each deep text has its answer; 8 MiB must do."""
    for name, text in DEEP.items():
        (folder / name).write_text(text)
    words = [[word, str(folder / name)] for name in DEEP for word in ("hyper", "blame", "traces") if name != "json.json"]
    words.append(["leak", str(folder / "minus.kf"), "--gain", f"table:{folder / 'json.json'}"])
    enough = [size for size in STACKS if all(trials.ask(question, f"stack {size}").status == 0 for question in words)]
    must(STACKS[0] in enough, "8 MiB of stack don't do")
    return f"stack: the deepest texts have their answers in {min(enough)} KiB"


def pages(trials: Trials) -> str:
    """Runs the commands of the pages by the library."""
    done = run([TOP / ".ci" / "pages", trials.program], folder=TOP, seconds=None)
    must(done.status == 0, f"the pages by the library: {done.message}")
    commands = sum(int(line.split(" commands")[0].split()[-1]) for line in done.answer.splitlines() if " commands" in line)
    return f"{commands} commands of the pages print what the program prints"


def main() -> None:
    """Tries all."""
    arguments = argparse.ArgumentParser(description=__doc__, formatter_class=argparse.RawDescriptionHelpFormatter)
    arguments.add_argument("--quick", action="store_true")
    arguments.add_argument("--library", default=TOP / "lib" / "libkuifje.a", type=Path)
    arguments.add_argument("--program", default=BUILT, type=Path)
    asked = arguments.parse_args()
    program = program_at(asked.program)
    library, few = Library(asked.library.resolve().with_suffix(".so.0")), 3 if asked.quick else 20
    print(bad_calls(library), flush=True)
    print(beside(library, program), flush=True)
    print(cases(library, asked.quick), flush=True)
    if shutil.which(COMPILER) is None:
        print("the other trials are skipped, since there is no C compiler")
        return
    with tempfile.TemporaryDirectory() as scratch:
        trials = Trials(Path(scratch), asked.library.resolve())
        print(trials.pass_all("lengths", QUESTIONS[:few]), flush=True)
        print(trials.pass_all(f"calls {20_000 if asked.quick else 1_000_000}", QUESTIONS[:1]), flush=True)
        print(trials.pass_all(f"threads {100 if asked.quick else 2_000}", QUESTIONS[:few]), flush=True)
        print(trials.pass_all("refusals", [QUESTIONS[at] for at in (0, 9, 16)]), flush=True)
        print(trials.valgrind(QUESTIONS[:few]), flush=True)
        ask = Asked(Path(scratch), asked.library.resolve())
        print(f"kuifje_ask: {beside(ask, program)}", flush=True)
        print(f"kuifje_ask: {cases(ask, asked.quick)}", flush=True)
        print(f"kuifje_ask: {statuses(ask, program, Path(scratch))}", flush=True)
        print(ask.trials(), flush=True)
        if not asked.quick:
            print(memory(trials, program, Path(scratch)), flush=True)
            print(stack(trials, Path(scratch)), flush=True)
            print(pages(trials), flush=True)


if __name__ == "__main__":
    main()
