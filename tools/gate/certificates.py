"""Tampers with certificates and hypers, and compares `kuifje check` with examples/check_certificate.py.

    .ci/certificates [PROGRAM]

Certificates of several verdicts are spoilt in some hundreds of ways: another value at each place, a member left out, doubled or moved, another
text of the same JSON, and texts that are no JSON. Each is checked by the program on the two texts and by the script on their hypers; both have to
say the same. Where the script's own list names a difference (width, length, values of probability 0) it has to be that one. Spoilt hypers, missing
files, wrong use and answers that can't be written have to end the script with 2, and a certificate of 10,000 rows may take it no longer than a
minute. Ends with 1 where anything differs, and where the script prints a traceback. The program is bin/kuifje where no other is named."""

from __future__ import annotations

import copy
import io
import json
import os
import sys
import tempfile
import time
import traceback
from collections.abc import Callable, Iterator, Sequence
from concurrent.futures import ThreadPoolExecutor
from contextlib import redirect_stderr, redirect_stdout
from dataclasses import dataclass, field
from pathlib import Path
from typing import Any

from .faults import end
from .program import Outcome, Program, Word, named, run
from .repository import EXAMPLES

SCRIPT = EXAMPLES / "check_certificate.py"
LONGEST = 60  # processor seconds
MOST_BYTES, LARGEST = 1_048_576, 2**127 - 1

# A value that can't come stands in the target's type: 3.
SELDOM = "var x : 0..3 := uniform 0..2;\nabout old x;\n"
TEXTS = {"seldom.kf": f"{SELDOM}observe x mod 2;\n", "never.kf": SELDOM}
PAIRS = [
    ("pin.kf", "pin_whole.kf"),
    ("geometric/one.kf", "geometric/strong.kf"),
    ("receipt_last.kf", "receipt_first.kf"),
    ("never.kf", "seldom.kf"),
    ("seldom.kf", "never.kf"),
]
THOROUGH = (PAIRS[0], PAIRS[2])
HARMLESS = ("gains times 10^36", "gains times 10^40", "too many blanks at the end", "too many blanks at the beginning")
Step = str | int
Place = Sequence[Step]
Cert = dict[str, Any]
Change = Callable[[Any, Step], object]
ENTRY: list[Step] = ["entries", 0]
LAST: list[Step] = ["entries", -1]
ACTION: list[Step] = ["actions", 0]
GAINS: list[Step] = ["actions", 0, "gains"]
PLACES: list[list[Step]] = [
    [],
    ["verdict"],
    ["format"],
    ["rows"],
    ["columns"],
    ["entries"],
    ENTRY,
    [*ENTRY, 0],
    [*ENTRY, 1],
    [*ENTRY, 2],
    [*LAST, 2],
    ["matrix"],
    ["matrix", 0],
    ["matrix", 0, 0],
    ["over"],
    ["rest"],
    ["actions"],
    ACTION,
    [*ACTION, "name"],
    GAINS,
    [*GAINS, 0],
    [*GAINS, 0, 0],
    [*GAINS, 0, 1],
    ["more"],
    [*ACTION, "more"],
]
LONG = f"1{'0' * 4400}"
VALUES: list[Any] = [
    None,
    True,
    1,
    -1,
    0.5,
    [],
    {},
    [[]],
    "",
    "x",
    "0",
    "1",
    "2",
    "3",
    "-1",
    "-0",
    "0/7",
    "2/4",
    "7/5",
    "1/0",
    "1/00",
    "01",
    "+1",
    " 1",
    "1 ",
    "1.0",
    "1e0",
    "1/-4",
    "1//4",
    "--1",
    "\u00bd",
    "\u0662",
    "\uff11",
    "yes",
    "no",
    "Yes",
    "kuifje-cert-1",
    "kuifje-cert-2",
    "kuifje-cert-3",
    "(0, 0)",
    "(0,0)",
    "a.b",
    "a" * 64,
    "a" * 65,
    "\x1b[31m",
    "caf\u00e9",
    str(LARGEST),
    str(LARGEST + 1),
    f"-{LARGEST}",
    f"{LARGEST + 1}/{LARGEST + 1}",
    f"{LONG}/{LONG}",
    LONG,
]


# What may stand in a member that a later one replaces, and what may not.
MEMBERS = [
    "NaN",
    "Infinity",
    "-Infinity",
    "1e999",
    "-1e999",
    "1e-999",
    "1" + "0" * 400,
    "1" + "0" * 5000,
    "-0",
    "0.0",
    "1.5E+3",
    "01",
    "1.",
    ".5",
    "+1",
    "0x10",
    "1e",
    r'"\ud800"',
    r'"\udc00"',
    r'"\udc00\ud800"',
    r'"\ud83d\ude00"',
    r'"\ud83d\\ude00"',
    r'"\\ud800"',
    r'"\u12"',
    r'"\x41"',
    r'"\u0000"',
    '"\0"',
    '"\x7f"',
    "True",
    "None",
    "null",
    '{"a":1,"a":2}',
    r'{"\ud800":1}',
    "{1:2}",
    "[1,]",
    "[,]",
    '"yes"',
    '"no"',
]


# ---- spoilt values


def at(value: Any, place: Place) -> Any:
    """The part of a value at a place."""
    for step in place:
        value = value[step]
    return value


def has(value: Any, place: Place) -> bool:
    """Whether a value has this place."""
    try:
        at(value, place)
    except (KeyError, IndexError, TypeError):
        return False
    return True


def edited(cert: Cert, place: Place, change: Change) -> Cert:
    """The certificate after a change of the list or object that holds the place."""
    cert = copy.deepcopy(cert)
    change(at(cert, place[:-1]), place[-1])
    return cert


def put(value: Any) -> Change:
    """The change that leaves a value there."""
    return lambda holder, key: holder.__setitem__(key, copy.deepcopy(value))


def numbers_times(cert: Cert, factor: int) -> Cert:
    """A table whose numbers are multiplied."""
    cert = copy.deepcopy(cert)
    cert["rest"] = str(int(cert["rest"]) * factor)
    for action in cert["actions"]:
        action["gains"] = [[value, str(int(gain) * factor)] for value, gain in action["gains"]]
    return cert


def mapped(entries: list[list[str]], change: Callable[[int, int, str], tuple[object, ...]]) -> Cert:
    """The entries of a matrix, each changed."""
    return {"entries": [list(map(str, change(int(i), int(j), value))) for i, j, value in entries]}


def spoilt_members(cert: Cert) -> Iterator[tuple[str, Any]]:
    """Members left out, doubled, moved and turned round."""
    for place in (place for place in PLACES if place and has(cert, place)):
        yield f"without {place}", edited(cert, place, lambda holder, key: holder.pop(key))
        if isinstance(place[-1], int):
            yield f"twice {place}", edited(cert, place, lambda holder, key: holder.insert(0, copy.deepcopy(holder[key])))
            yield f"more in {place}", edited(cert, place, lambda holder, key: isinstance(holder[key], list) and holder[key].append("1"))
    whole: list[list[Step]] = [["entries"], ["matrix"], ["actions"], GAINS]
    for place in whole:
        if has(cert, place):
            yield f"{place} turned round", edited(cert, place, lambda holder, key: holder[key].reverse())
            yield f"{place} as text", edited(cert, place, lambda holder, key: holder.__setitem__(key, json.dumps(holder[key])))


def spoilt_matrices(cert: Cert) -> Iterator[tuple[str, Any]]:
    """Matrices that say something else, or the same otherwise."""
    entries, columns, rows = cert["entries"], int(cert["columns"]), int(cert["rows"])
    yield "rows and columns changed over", {**cert, "rows": cert["columns"], "columns": cert["rows"]}
    yield "one row more", {**cert, "rows": str(rows + 1)}
    yield "one column more", {**cert, "columns": str(columns + 1)}
    yield "columns turned round", {**cert, **mapped(entries, lambda i, j, value: (i, columns - 1 - j, value))}
    yield "rows turned round", {**cert, "entries": sorted(mapped(entries, lambda i, j, value: (rows - 1 - i, j, value))["entries"])}
    yield "first column alone", {**cert, "entries": [[str(i), "0", "1"] for i in range(rows)]}
    yield "all alike", {**cert, "entries": [[str(i), str(j), f"1/{columns}"] for i in range(rows) for j in range(columns)]}
    yield "not in lowest terms", {
        **cert,
        **mapped(entries, lambda i, j, value: (i, j, "/".join(f"{part}0" for part in f"{value}/1".split("/")[:2]))),
    }
    yield "as a text each", {**cert, "entries": ["".join(entry[:2]) + "1" for entry in entries]}
    named = {tuple(entry[:2]) for entry in entries}
    zeros = [[str(i), str(j), "0"] for i in range(rows) for j in range(columns) if (str(i), str(j)) not in named]
    yield "with entries of 0", {**cert, "entries": sorted(entries + zeros)}
    yield "below 0 and above 1", {**cert, "entries": [["0", "0", "2"], ["0", "1", "-1"], *(entry for entry in entries if entry[0] != "0")]}


def spoilt_tables(cert: Cert) -> Iterator[tuple[str, Any]]:
    """Tables that say something else, or the same otherwise."""
    yield "gains and over doubled", {**numbers_times(cert, 2), "over": str(2 * int(cert["over"]))}
    yield "gains turned into losses", numbers_times(cert, -1)
    yield "no gain at all", numbers_times(cert, 0)
    yield "gains times 10^36", numbers_times(cert, 10**36)
    yield "gains times 10^40", numbers_times(cert, 10**40)
    yield "one action, its gains not named", {**cert, "actions": [{"gains": [], "name": "b0"}]}
    yield "every action of one name", {**cert, "actions": [{**action, "name": "b"} for action in cert["actions"]]}
    yield "rest greater than all gains", {**cert, "rest": "1000"}
    yield "a value twice in an action", edited(cert, ["actions", 0, "gains"], lambda holder, key: holder[key].append(holder[key][0]))
    yield "a value that can't come", edited(cert, ["actions", 0, "gains"], lambda holder, key: holder[key].append(["3", "1"]))
    yield "an empty action more", {**cert, "actions": [*cert["actions"], {"gains": [], "name": "none"}]}


def spoilt_lists(cert: Cert) -> Iterator[tuple[str, Any]]:
    """Spoilt members, and whole matrices and tables that are other ones."""
    yield from spoilt_members(cert)
    if "entries" in cert:
        yield from spoilt_matrices(cert)
    if "actions" in cert:
        yield from spoilt_tables(cert)


def spoilt_values(cert: Cert) -> Iterator[tuple[str, Any]]:
    """Another value at each place, and spoilt lists."""
    for place in PLACES[1:]:
        if has(cert, place[:-1]) and (has(cert, place) or place[-1] == "more"):
            for value in VALUES:
                yield f"{place} is {json.dumps(value)[:40]}", edited(cert, place, put(value))
    yield from ((f"all is {json.dumps(value)[:40]}", value) for value in VALUES)
    yield from spoilt_lists(cert)


# ---- spoilt texts


# What stands before or after a certificate.
ENDS = {
    "a letter": b"x",
    "NUL": b"\0",
    "a comma": b",",
    "a bracket": b"}",
    "a second value": b"{}",
    "form feed": b"\f",
    "U+00A0": b"\xc2\xa0",
    "blanks": b" \t\r\n",
    "a comment": b"// x",
    "many blanks": b" " * 5000,
    "too many blanks": b" " * MOST_BYTES,
}


def replaced(text: str, value: str) -> bytes:
    """A member of the same key stands before the right one, which counts."""
    return text.replace("{", f'{{"verdict":{value},', 1).encode()


def spoilt_texts(cert: Cert) -> Iterator[tuple[str, bytes]]:
    """Other texts, of the same JSON or of none."""
    text = json.dumps(cert, separators=(",", ":"))
    whole = text.encode()
    yield from ((f"cut after {part}", whole[: len(whole) * part // 8]) for part in range(8))
    yield "without the last byte", whole[:-1]
    for name, more in ENDS.items():
        yield f"{name} at the end", whole + more
        yield f"{name} at the beginning", more + whole
    yield "a byte order mark", b"\xef\xbb\xbf" + whole
    yield "as UTF-16", text.encode("utf-16")
    yield "a byte that is no UTF-8", whole.replace(b"verdict", b"verdict\xff", 1)
    yield "an overlong byte", whole.replace(b"verdict", b"verdict\xc0\xaf", 1)
    yield "half of a pair as bytes", whole.replace(b"verdict", b"verdict\xed\xa0\x80", 1)
    yield "single quotes", text.replace('"', "'").encode()
    yield "keys without quotes", text.replace('"verdict"', "verdict").encode()
    yield "a comma more in a list", text.replace("]", ",]", 1).encode()
    yield "a comma more in the object", (text[:-1] + ",}").encode()
    yield "blanks everywhere", json.dumps(cert, indent=3).replace("\n", "\r\n\t").encode()
    yield "keys in another order", json.dumps(dict(reversed(cert.items()))).encode()
    yield "a bar with an escape", text.replace("/", "\\/").encode()
    yield "letters with an escape", text.replace("verdict", "\\u0076erdict").replace("kuifje", "\\u006buifj\\u0065").encode()
    yield "a capital escape", text.replace("verdict", "\\U0076erdict").encode()
    yield "a control character", text.replace("verdict", "ver\tdict").encode()
    for value in MEMBERS:
        yield f"{value[:20]!r} before it", replaced(text, value)
    for depth in (100, 125, 126, 127, 128, 5000, 100_000):
        yield f"{depth} lists before it", replaced(text, "[" * depth + "]" * depth)
        yield f"{depth} objects before it", replaced(text, '{"a":' * depth + "1" + "}" * depth)
        yield f"{depth} open brackets", b"[" * depth
    yield "brackets in a text", replaced(text, json.dumps("[" * 500 + '"\\'))


# ---- what both say


@dataclass(frozen=True)
class Said:
    """What the program or the script came to: its status, and what it said on both streams, without blanks around it."""

    status: int
    out: str
    err: str


@dataclass(frozen=True)
class Spoilt:
    """A certificate: what was done to it, its bytes, and the two programs that it is about."""

    what: str
    cert: bytes
    a: str
    b: str


@dataclass
class Runs:
    """A folder with certificates, the program, and the script."""

    folder: Path
    program: Program
    faults: list[str] = field(default_factory=list)
    listed: int = 0

    def __post_init__(self) -> None:
        self.code = compile(SCRIPT.read_text(), SCRIPT, "exec")
        for name, text in TEXTS.items():
            (self.folder / name).write_text(text)

    def kuifje(self, *words: Word) -> Said:
        """What the program says."""
        return said(self.program.run(*words, folder=self.folder))

    def script(self, *words: str) -> Said:
        """What the script does, in this process: some thousand of Python's own would take a while."""
        sys.argv, out, err = [str(SCRIPT), *(str(self.folder / word) for word in words)], io.StringIO(), io.StringIO()
        status: object = 0
        with redirect_stdout(out), redirect_stderr(err):
            try:
                exec(self.code, {"__name__": "__main__"})
            except SystemExit as stop:
                status = stop.code
            except BaseException:
                status = traceback.format_exc()
        return self.judged(words, status, out.getvalue().strip(), err.getvalue().strip())

    def script_alone(self, *words: str) -> Said:
        """What the script does in a process of its own."""
        outcome = said(run([sys.executable, SCRIPT, *words], folder=self.folder))
        return self.judged(words, outcome.status, outcome.out, outcome.err)

    def judged(self, words: Sequence[str], status: object, out: str, err: str) -> Said:
        """How the script ended, which has to be with 0, 1 or 2, and with a reason in the place of an answer where it is 2."""
        if status not in (0, 1, 2) or "Traceback" in err or (status == 2) != (out == "") or (status == 2) != (err != ""):
            self.faults.append(f"{' '.join(words)}: the script ends with {status}: {out} {err[-300:]}")
        return Said(status if isinstance(status, int) else -1, out, err)

    def path(self, name: str) -> str:
        """The file of a program: of this folder, or of the examples."""
        return str(self.folder / name if name in TEXTS else EXAMPLES / name)

    def hyper(self, name: str) -> str:
        """The name of the file with the hyper of a program."""
        file = self.folder / f"{name.replace('/', '_')}.txt"
        if not file.is_file():
            told = self.kuifje("hyper", self.path(name))
            if told.status != 0:
                sys.exit(f"hyper {name}: status {told.status}, {told.err}")
            file.write_text(f"{told.out}\n")
        return file.name

    def compare(self, number: int, case: Spoilt, told: Said) -> None:
        """Whether the script says of a certificate, which is numbered, what the program said."""
        here = self.script(f"{number}.json", self.hyper(case.a), self.hyper(case.b))
        if told.status == 11 or told.err.endswith("Wide") or "passes 2^127" in told.err:
            same, self.listed = here.status == 0 or not case.what.endswith(HARMLESS), self.listed + 1
        elif here.out == "rejected value" and told.out in ("accepted", "rejected order") and b'"3"' in case.cert and {case.a, case.b} <= set(TEXTS):
            same, self.listed = True, self.listed + 1
        elif told.status < 2:
            same = (here.status, here.out) == (told.status, told.out)
        else:
            differ = told.status == 10 and "targets differ" in told.err and "targets differ" in here.err
            same = here.status == 2 and (told.status == 9 or differ)
        if not same:
            self.faults.append(
                f"{case.a} {case.b}, {case.what}: kuifje {told.status} {told.out or told.err}, the script {here.status} {here.out or here.err}"
            )


def said(outcome: Outcome) -> Said:
    """What a run said. Ends with 1 where it took too long."""
    if outcome.status is None:
        sys.exit(f"{' '.join(map(str, outcome.words))}: no end")
    return Said(outcome.status, outcome.answer.strip(), outcome.message.strip())


def in_older_format(cert: Cert) -> Cert:
    """A certificate in the format before the present one."""
    if cert["verdict"] == "no":
        return {**cert, "format": "kuifje-cert-1"}
    rows = [["0"] * int(cert["columns"]) for _ in range(int(cert["rows"]))]
    for i, j, value in cert["entries"]:
        rows[int(i)][int(j)] = value
    return {"format": "kuifje-cert-1", "matrix": rows, "verdict": "yes"}


def cases(runs: Runs) -> Iterator[Spoilt]:
    """The certificates of all pairs, as they are and spoilt."""
    for a, b in PAIRS:
        cert = json.loads(runs.kuifje("refine", runs.path(a), runs.path(b), "--json").out)
        for what, whole in (("as printed", cert), ("in the older format", in_older_format(cert))):
            for c, d in ((a, b), (b, a), (a, a), (b, b), PAIRS[0]):
                yield Spoilt(f"{what}, of {a} {b}", json.dumps(whole).encode(), c, d)
            kinds = spoilt_values(whole) if whole is cert and (a, b) in THOROUGH else spoilt_lists(whole)
            yield from (Spoilt(f"{what}, {kind}", json.dumps(value).encode(), a, b) for kind, value in kinds)
        if (a, b) in THOROUGH:
            yield from (Spoilt(kind, spoilt, a, b) for kind, spoilt in spoilt_texts(cert))


def compare_all(runs: Runs, tried: Sequence[Spoilt]) -> None:
    """Compares what both say of each of these certificates."""
    for number, case in enumerate(tried):
        (runs.folder / f"{number}.json").write_bytes(case.cert)

    def asked(number: int) -> Said:
        case = tried[number]
        return runs.kuifje("check", f"{number}.json", runs.path(case.a), runs.path(case.b))

    with ThreadPoolExecutor(os.cpu_count()) as pool:
        for number, told in enumerate(pool.map(asked, range(len(tried)))):
            runs.compare(number, tried[number], told)


# ---- hypers and words

CHANGES = [
    ("inner 1", "inner 2"),
    ("inner 0 outer ", "inner 0 outer -"),
    ("outer ", "outer 0"),
    ("outer ", "outer 1"),
    ("inners ", "inners 1"),
    ("scale ", "scale 0 "),
    ("scale 9", "scale 7"),
    ("scale 9", "scale 0"),
    ("1/6", "1/5"),
    ("1/6", "-1/6"),
    ("1/6", "0.5"),
    ("1/6", "1/0"),
    ("1/6", ""),
    ("  (0, 0)", " (0, 0)"),
    ("  (0, 0)", "  (0, 1)"),
    ("inner 0", "trace [0]"),
    ("\n", "\n\n"),
    ("target", "targets"),
    ("inner ", "Inner "),
    ("1/6", "2/12"),
    ("outer 2/9", "outer 4/18"),
    ("(1, 1) 1\n", "(1, 1) 1/1\n"),
    ("(1, 1) 1\n", "(1, 1) 7/7\n"),
    ("1/6", "01/6"),
    ("1/6", "1/06"),
    ("scale 9", "scale 09"),
    (" 1/6", "  1/6"),
    ("1/6\n", "1/6 \n"),
    ("1/6\n", "1/6\r\n"),
]


def spoilt_hypers(text: str) -> Iterator[tuple[str, str]]:
    """Hypers that aren't printed so."""
    lines = text.splitlines()
    yield from ((f"cut after {count} lines", "\n".join(lines[:count])) for count in range(len(lines)))
    yield from ((f"without line {k}", "\n".join(lines[:k] + lines[k + 1 :])) for k in range(len(lines)))
    yield from ((f"line {k} twice", "\n".join(lines[: k + 1] + lines[k:])) for k in range(len(lines)))
    yield "without the last LF", text[:-1]
    yield "an LF more at the end", f"{text}\n"
    yield "a blank in the place of the last LF", f"{text[:-1]} "
    for old, new in CHANGES:
        if old not in text:
            sys.exit(f"a hyper has no {old!r}, so it isn't spoilt")
        yield f"{new!r} for {old!r}", text.replace(old, new, 1)


def check_hypers(runs: Runs) -> int:
    """How many spoilt hypers and wrong words the script was given, each of which it has to refuse."""
    a, b = (runs.hyper(name) for name in PAIRS[0])
    (runs.folder / "yes.json").write_text(runs.kuifje("refine", *map(runs.path, PAIRS[0]), "--json").out)
    text, count = (runs.folder / a).read_text(), 0
    for what, spoilt in spoilt_hypers(text):
        (runs.folder / "spoilt.txt").write_text(spoilt)
        for words in (("yes.json", "spoilt.txt", b), ("yes.json", a, "spoilt.txt")):
            count += 1
            if runs.script(*words).status != 2:
                runs.faults.append(f"a hyper, {what}: the script doesn't end with 2")
    (runs.folder / "bytes").write_bytes(b"\xff\xfe\0")
    wrong: list[tuple[str, ...]] = [
        (),
        ("yes.json",),
        ("yes.json", a),
        ("yes.json", a, b, b),
        ("none.json", a, b),
        ("yes.json", "none.txt", b),
        ("yes.json", a, "."),
        (".", a, b),
        ("bytes", a, b),
        ("yes.json", "bytes", b),
        ("yes.json", "yes.json", b),
        ("", a, b),
    ]
    for line in wrong:
        count += 1
        if runs.script_alone(*line).status != 2:
            runs.faults.append(f"the words {line}: the script doesn't end with 2")
    return count


def check_writes(runs: Runs) -> int:
    """An answer, or a reason, that can't be written: on a full device, and on a stream that is closed. Standard error has the reason where it can."""
    cert, a, b = "yes.json", *(runs.hyper(name) for name in PAIRS[0])
    asked, count = {"accepted": (cert, a, b), "rejected cell": (cert, b, a), "none": ("none.json", a, b)}, 0
    for told, words in asked.items():
        for ends in (">/dev/full", ">&-", "2>/dev/full", "2>&-", ">/dev/full 2>/dev/full", ">&- 2>&-"):
            for python in (sys.executable, f"{sys.executable} -u"):
                count += 1
                is_lost = ends.startswith(">") and told != "none"
                wanted = 2 if is_lost or told == "none" else 0 if told == "accepted" else 1
                ended = said(run(["bash", "-c", f'exec {python} "$@" {ends}', "bash", SCRIPT, *words], folder=runs.folder))
                status, err = ended.status, ended.err
                if status != wanted or err != (
                    "check_certificate.py: write failed" if is_lost and "2>" not in ends else err if told == "none" else ""
                ):
                    runs.faults.append(f"{told} {ends} of {python}: the script ends with {status}: {err[-300:]}")
    return count


def check_size(runs: Runs, size: int = 10_000) -> None:
    """Each inner of A becomes one of two inners of B: no row may be gone through for each column."""
    head = f"target old x\nscale {2 * size}\ninners {size}\n"
    (runs.folder / "a.txt").write_text(head + "".join(f"inner {i} outer 1/{size}\n  {i} 1\n" for i in range(size)))
    (runs.folder / "b.txt").write_text(head + "".join(f"inner {i} outer 1/{size}\n  {i} 1/2\n  {(i - 1) % size} 1/2\n" for i in range(size)))
    entries = [[str(i), str(j), "1/2"] for i in range(size) for j in sorted((i, (i + 1) % size))]
    cert = {"columns": str(size), "entries": entries, "format": "kuifje-cert-2", "rows": str(size), "verdict": "yes"}
    (runs.folder / "large.json").write_text(json.dumps(cert))
    begun = time.process_time()
    if runs.script("large.json", "a.txt", "b.txt").out != "accepted":
        runs.faults.append(f"the script doesn't accept a certificate of {size} rows")
    if (took := time.process_time() - begun) > LONGEST:
        runs.faults.append(f"the script takes {took:.0f} seconds for a certificate of {size} rows")


def main(words: Sequence[str]) -> None:
    """Tries all, and says how much that is."""
    with tempfile.TemporaryDirectory() as folder:
        runs = Runs(Path(folder), named(words))
        tried = list(cases(runs))
        compare_all(runs, tried)
        others = check_hypers(runs) + check_writes(runs)
        check_size(runs)
    print(
        f"{len(tried)} certificates, {runs.listed} of them answered otherwise, as the script's list has it; "
        f"{others} spoilt hypers, wrong words and lost answers"
    )
    end(runs.faults)


if __name__ == "__main__":
    main(sys.argv[1:])
