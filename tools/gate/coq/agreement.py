"""Compares kuifje-confirm with `kuifje check` on certificates that were tampered with.

    tools/run coq.agreement PROGRAM [A B]..

PROGRAM is kuifje. For each pair of programs (some examples where none is named) it takes the certificate of `refine` and spoils it in
each of more than 200 ways. Both have to say the same of each: accepted, rejected for the same rule, or the same rule of form. They may
differ in three things alone, and each such case is counted:

- width: kuifje refuses numbers and products that pass 2^127 - 1, and kuifje-confirm goes on;
- length: kuifje refuses a file of more than 1,048,576 bytes;
- values: kuifje-confirm knows a value only where it stands in one of the printed hypers, and kuifje knows all values of the target."""

from __future__ import annotations

import json
import sys
import tempfile
from collections import Counter
from collections.abc import Iterable, Iterator, Sequence
from pathlib import Path
from typing import Any

from ..program import Program, named, run
from ..repository import EXAMPLES
from .confirm import CONFIRM, printed

Step = str | int
Place = tuple[Step, ...]
PAIRS = [("pin.kf", "pin_whole.kf"), ("pin_whole.kf", "pin.kf"), ("receipt_last.kf", "receipt_first.kf"), ("noisy.kf", "noisy.kf")]

NUMBERS = [
    "",
    "0",
    "-0",
    "1",
    "-1",
    "2",
    "00",
    "01",
    "-01",
    "+1",
    " 1",
    "1 ",
    "1.0",
    "1e0",
    "0x1",
    "1/1",
    "2/2",
    "1/2",
    "2/4",
    "-1/2",
    "3/2",
    "1/0",
    "1/00",
    "1/02",
    "1/-2",
    "/2",
    "1/",
    "1/2/3",
    "--1",
    "-",
    "\u0661",
    "a",
    "1\n",
    "7",
    "0/5",
    "170141183460469231731687303715884105727",
    "170141183460469231731687303715884105728",
    "1/170141183460469231731687303715884105728",
]
OTHER: list[Any] = [None, True, 0, 1.5, [], {}, ["1"], {"1": "1"}]
VALUES = ["", "0", "99", "(0, 0)", "(0,0)", "( 0, 0)", "true", "{}", "\u00e9", "0 "]


def changed(tree: Any, path: Place, value: Any) -> Any:
    """A copy of a JSON tree with another value at a path; with no path, that value."""
    if not path:
        return value
    copy: Any = list(tree) if isinstance(tree, list) else dict(tree)
    copy[path[0]] = changed(tree[path[0]], path[1:], value)
    return copy


def places(tree: Any, path: Place = ()) -> Iterator[tuple[Place, Any]]:
    """Each part of a tree, with its path."""
    yield path, tree
    steps: Iterable[tuple[Step, Any]] = enumerate(tree) if isinstance(tree, list) else tree.items() if isinstance(tree, dict) else ()
    for step, part in steps:
        yield from places(part, path + (step,))


def first_places(cert: Any) -> list[tuple[Place, Any]]:
    """One place of each kind: paths that differ in the numbers of list members alone are of one kind."""
    seen: dict[Place, tuple[Place, Any]] = {}
    for path, part in places(cert):
        kind = tuple("*" if isinstance(step, int) and step > 2 else step for step in path)
        seen.setdefault(kind, (path, part))
    return list(seen.values())


def bent_trees(cert: Any) -> Iterator[tuple[str, Any]]:
    """What was done to a certificate, and what it became."""
    for path, part in first_places(cert):
        where = "/".join(map(str, path))
        for value in OTHER:
            yield f"{where} := {value!r}", changed(cert, path, value)
        if isinstance(part, str):
            for value in NUMBERS + VALUES:
                yield f"{where} := {value!r}", changed(cert, path, value)
        if isinstance(part, list) and part:
            yield f"{where} reversed", changed(cert, path, part[::-1])
            yield f"{where} without its first", changed(cert, path, part[1:])
            yield f"{where} without its last", changed(cert, path, part[:-1])
            yield f"{where} with its first twice", changed(cert, path, [part[0]] + part)
            yield f"{where} with its last twice", changed(cert, path, part + [part[-1]])
        if isinstance(part, dict):
            for key in part:
                yield f"{where} without {key}", changed(cert, path, {k: v for k, v in part.items() if k != key})
                yield f"{where} with {key} renamed", changed(cert, path, {k + "s" if k == key else k: v for k, v in part.items()})
            yield f"{where} with another key", changed(cert, path, {**part, "more": "1"})
    for key, values in (("verdict", ["yes", "no", "Yes", "maybe"]), ("format", ["kuifje-cert-1", "kuifje-cert-2", "kuifje-cert-3", "kuifje-gain-1"])):
        for value in values:
            yield f"{key} is {value}", {**cert, key: value}
    if cert["verdict"] == "yes":
        rows, columns = int(cert["rows"]), int(cert["columns"])
        matrix = [["0"] * columns for _ in range(rows)]
        for i, j, entry in cert["entries"]:
            matrix[int(i)][int(j)] = entry
        first = {"format": "kuifje-cert-1", "matrix": matrix, "verdict": "yes"}
        yield "as the first format", first
        yield "as the first format without a row", {**first, "matrix": matrix[1:]}
        yield "as the first format with a short row", {**first, "matrix": matrix[:-1] + [matrix[-1][1:]]}
        yield "as the first format with a row twice", {**first, "matrix": matrix + [matrix[0]]}
        for value in NUMBERS:
            yield f"as the first format with {value!r}", {**first, "matrix": [[value] + matrix[0][1:]] + matrix[1:]}
    else:
        for name in ["a" * 64, "a" * 65, "", "a b", "\u00e9", "b_-9", "b0"]:
            yield f"an action named {name!r}", changed(cert, ("actions", 0, "name"), name)


def replaced_members(compact: bytes) -> Iterator[tuple[str, bytes]]:
    """A member before the one that counts, or after it."""
    for word in (
        b"nul",
        b"nulll",
        b"True",
        b"01",
        b"1.",
        b".5",
        b"-",
        b"1e",
        b"1e+",
        b"-0.5e-3",
        b"1E5",
        b"+1",
        b"NaN",
        b"1 2",
        b"[1,]",
        b"{}",
        b"[[]",
        b"{1:2}",
        b'{"a" 1}',
        b'{"a":1,}',
        b'"\\u12g4"',
        b'"\x7f"',
        b'"\xc3\xa9"',
        b'"\xc0\xaf"',
        b'"\xed\xa0\x80"',
        b'"\xf4\x90\x80\x80"',
    ):
        yield f"with a member {word!r} that a later one takes the place of", b'{"verdict":' + word + b"," + compact[1:]
        yield f"with a member {word!r} in place of the first", compact[:-1] + b',"verdict":' + word + b"}"


def bent_texts(text: bytes) -> Iterator[tuple[str, bytes]]:
    """The same certificate, or a spoilt one, in other bytes."""
    compact = text.strip()
    yield "as it is", text
    yield "with spaces", compact.replace(b",", b" ,\n\t ").replace(b":", b" :\r")
    yield "with a byte order mark", b"\xef\xbb\xbf" + text
    yield "with a comma at the end", compact[:-1] + b",}"
    yield "with a byte after it", text + b"x"
    yield "with a NUL after it", text + b"\0"
    yield "twice", text + text
    yield "empty", b""
    yield "blank", b" \n"
    yield "with a wrong byte in a text", compact.replace(b'"verdict"', b'"verdict\xff"')
    yield "with a line feed in a text", compact.replace(b'"format"', b'"for\nmat"')
    yield "with a wrong escape", compact.replace(b'"format"', b'"\\format\\q"')
    yield "with half a pair", compact.replace(b'"format"', b'"format\\ud800"')
    yield "with the second half of a pair", compact.replace(b'"format"', b'"format\\udc00"')
    yield "with a pair", compact.replace(b'"format"', b'"\\ud83d\\ude00"')
    yield "with an escaped key", compact.replace(b'"format"', b'"f\\u006frm\\u0061t"')
    yield "with an escaped number", compact.replace(b'"1"', b'"\\u0031"')
    yield "with single quotes", compact.replace(b'"', b"'")
    yield "with a comment", b"/* */" + compact
    yield from replaced_members(compact)
    for deep in (126, 127, 128):
        yield f"with {deep} lists in it", b'{"verdict":' + b"[" * deep + b"]" * deep + b"," + compact[1:]
        yield f"{deep} lists", b"[" * deep + b"]" * deep
    for length in range(0, len(compact), max(1, len(compact) // 12)):
        yield f"cut after {length} bytes", compact[:length]


def verdicts(program: Program, cert: Path, a: Path, b: Path, hypers: Sequence[Path]) -> tuple[str, str]:
    """What kuifje says of a certificate, and what kuifje-confirm says."""
    asked = program.run("check", cert, a, b)
    if asked.status in (0, 1):
        theirs = asked.answer.strip()
    else:
        theirs = asked.message.strip().removeprefix("kuifje: ").removeprefix(f"{cert}: ")
    done = run([CONFIRM, cert, *hypers])
    if done.status in (0, 1):
        return theirs, "accepted" if done.status == 0 else done.answer.strip()
    return theirs, done.message.strip().removeprefix("kuifje-confirm: ").removeprefix(f"{cert}: ")


def excuse(theirs: str, ours: str) -> str | None:
    """In which of the three things they differ, or None."""
    if theirs == "Wide" or "passes 2^127 - 1" in theirs:
        return "width"
    if "longer than" in theirs:
        return "length"
    if ours == "rejected value" and theirs in ("accepted", "rejected order"):
        return "values"
    return None


def compare(program: Program, a: Path, b: Path, folder: Path) -> list[str]:
    """Compares both on the spoilt certificates of two programs, says how many these are, and gives where they differ."""
    hypers = [folder / "a.txt", folder / "b.txt"]
    for path, source in zip(hypers, (a, b)):
        path.write_bytes(printed(program, "hyper", source))
    text = printed(program, "refine", a, b, "--json")
    cert = folder / "cert.json"
    trees = ((how, json.dumps(tree, ensure_ascii=False).encode()) for how, tree in bent_trees(json.loads(text)))
    cases = [*bent_texts(text), *trees]
    count, faults = Counter(kinds=len({how for how, _ in cases})), []
    for how, spoilt in cases:
        cert.write_bytes(spoilt)
        theirs, ours = verdicts(program, cert, a, b, hypers)
        count["alike" if theirs == ours else excuse(theirs, ours) or "faults"] += 1
        count[ours.split(" ")[0]] += 1
        if theirs != ours and excuse(theirs, ours) is None:
            faults.append(f"{a.name} {b.name}: {how}: kuifje says {theirs!r}, kuifje-confirm {ours!r}")
    print(a.name, b.name, *(f"{name} {number}" for name, number in sorted(count.items())))
    return faults


def main(words: Sequence[str]) -> None:
    """Compares both on each pair."""
    if len(words) % 2 == 0:
        sys.exit(__doc__)
    paths = [Path(word).resolve() for word in words[1:]]
    pairs = list(zip(paths[::2], paths[1::2])) or [(EXAMPLES / a, EXAMPLES / b) for a, b in PAIRS]
    with tempfile.TemporaryDirectory() as folder:
        faults = [fault for a, b in pairs for fault in compare(named(words), a, b, Path(folder))]
    print(*faults, sep="\n", end="\n" if faults else "")
    sys.exit(1 if faults else 0)


if __name__ == "__main__":
    main(sys.argv[1:])
