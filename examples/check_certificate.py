#!/usr/bin/env python3
"""Checks a certificate of `kuifje refine --json` on two printed hypers, by the rules on docs/FORMATS.md and by no code of kuifje.

    python3 check_certificate.py CERT HYPER_A HYPER_B

The hypers are what `kuifje hyper A` and `kuifje hyper B` print, to the last byte. Prints `accepted` (status 0) or `rejected` and the first broken
rule (status 1). Where a file can't be read, or is no certificate or no whole hyper, where the targets differ, where it is used wrongly, and where
its answer can't be written, it says so on standard error (status 2).

`kuifje check CERT A B` gives the same answer, and refuses where this script ends with 2, but for these:

- **Width.** Numbers may have any size here. There, a number of the certificate above 2^127 - 1 is `Wide`, and so is what is worked out of
  it (`certificate passes 2^127 - 1`).
- **Length.** A certificate may have any length here, and there 1,048,576 bytes.
- **Types.** A hyper names the items of its target and not their types. Where the types alone differ, there is no answer there
  (`targets differ`), and here the rules are tried.
- **Values of probability 0.** A text that stands in neither hyper is no value here (`rejected value`). There it is one if the type has it.
- **Order.** Here the certificate is read first and the hypers afterwards; there the programs first. Where both are refused another one is
  named."""
import json
import os
import re
import sys
from collections import defaultdict
from fractions import Fraction
from math import isinf
from typing import Any, NoReturn, TextIO

Inner = dict[str, int]
Entry = tuple[int, int, Fraction]
Gains = list[tuple[str, int]]

SIZE = re.compile(r"0|[1-9][0-9]*")
WHOLE = re.compile(r"-?(?:0|[1-9][0-9]*)")
FRACTION = re.compile(r"-?(?:0|[1-9][0-9]*)(?:/[1-9][0-9]*)?")
ABOVE_0 = re.compile(r"[1-9][0-9]*(?:/[1-9][0-9]*)?")
NAME = re.compile(r"[A-Za-z0-9_-]{1,64}")
INNER = re.compile(r"inner (\S+) outer (\S+)")
STRING = re.compile(r'"(?:[^"\\]|\\.)*"', re.DOTALL)
ESCAPE = re.compile(r"\\u[dD][89abAB]..\\u[dD][c-fC-F]..|(?P<lone>\\u[dD][89a-fA-F])|\\.", re.DOTALL)
DEEPEST, DIGITS = 127, 4000
FORMATS = ("kuifje-cert-1", "kuifje-cert-2")


def written(stream: TextIO | None, line: str) -> bool:
    """Writes a line, and returns whether all of it was taken. A stream that was closed before the script began is None."""
    if stream is None:
        return False
    try:
        print(line, file=stream, flush=True)
    except OSError:
        # What wasn't taken would be tried once more at the end, and fail again with another status.
        os.dup2(os.open(os.devnull, os.O_WRONLY), stream.fileno())
        return False
    return True


def stop(reason: str) -> NoReturn:
    written(sys.stderr, f"check_certificate.py: {reason}")
    sys.exit(2)


def answer(line: str, status: int) -> NoReturn:
    if not written(sys.stdout, line):
        stop("write failed")
    sys.exit(status)


def reject_unless(holds: bool, rule: str) -> None:
    if not holds:
        answer(f"rejected {rule}", 1)


def require(holds: bool) -> None:
    """A file that breaks this has no meaning."""
    if not holds:
        raise ValueError


def bytes_of(path: str) -> bytes:
    try:
        with open(path, "rb") as file:
            return file.read()
    except (OSError, ValueError):
        stop(f"{path} can't be read")


# ---- numbers, of any length

def natural(digits: str) -> int:
    """Python itself reads some thousand digits at once, and no more."""
    if len(digits) <= DIGITS:
        return int(digits)
    low = len(digits) // 2
    return natural(digits[:-low]) * int(10 ** low) + natural(digits[-low:])


def number(pattern: re.Pattern[str], text: Any) -> Fraction:
    require(isinstance(text, str) and pattern.fullmatch(text) is not None)
    over, _, under = text.removeprefix("-").partition("/")
    value = Fraction(natural(over), natural(under or "1"))
    return -value if text.startswith("-") else value


def above_0(text: str) -> Fraction:
    """A probability as it is printed: in lowest terms, and without a denominator of 1."""
    value = number(ABOVE_0, text)
    require("/" not in text or 1 < value.denominator == natural(text.partition("/")[2]))
    return value


def whole(pattern: re.Pattern[str], text: Any) -> int:
    return int(number(pattern, text))


# ---- the certificate

def json_number(text: str) -> float:
    require(not isinf(float(text)))
    return float(text)


def json_constant(text: str) -> NoReturn:
    raise ValueError(text)


def json_of(text: str) -> Any:
    """What is JSON to kuifje: no number too large for a float, no half of a pair of surrogates, no more than 127 brackets."""
    depth = 0
    for bracket in re.sub(r"[^][{}]", "", STRING.sub("", text)):
        depth += 1 if bracket in "[{" else -1
        require(depth <= DEEPEST)
    value = json.loads(text, parse_int=json_number, parse_float=json_number, parse_constant=json_constant)
    require(all(match["lone"] is None for match in ESCAPE.finditer(text)))
    return value


def listed(value: Any, length: int = -1) -> list[Any]:
    """A list, of so many members where a length is named."""
    require(isinstance(value, list) and length in (-1, len(value)))
    return list(value)


def matrix_of(rows: Any) -> tuple[int, list[int], list[Entry]]:
    """How many rows, how many entries in each, and those that aren't 0."""
    read = [[number(FRACTION, text) for text in listed(row)] for row in listed(rows)]
    entries = [(i, j, value) for i, row in enumerate(read) for j, value in enumerate(row) if value != 0]
    return len(read), [len(row) for row in read], entries


def entries_of(cert: dict[str, Any]) -> tuple[int, list[int], list[Entry]]:
    """The same of named entries, whose places ascend; every other entry is 0."""
    rows, columns = whole(SIZE, cert["rows"]), whole(SIZE, cert["columns"])
    entries = []
    for row, column, value in (listed(entry, 3) for entry in listed(cert["entries"])):
        entries.append((whole(SIZE, row), whole(SIZE, column), number(FRACTION, value)))
    places = [(i, j) for i, j, _ in entries]
    require(all(one < next_one for one, next_one in zip(places, places[1:])))
    require(all(i < rows and j < columns for i, j in places))
    return rows, [columns], entries


def table_of(cert: dict[str, Any]) -> tuple[int, list[Gains]]:
    """The gain of values that an action doesn't name, and the gains of each action at those that it names. `over` divides all of them,
    so it decides nothing."""
    rest, actions = whole(WHOLE, cert["rest"]), []
    require(whole(WHOLE, cert["over"]) >= 1)
    for action in listed(cert["actions"]):
        require(isinstance(action, dict) and sorted(action) == ["gains", "name"])
        require(isinstance(action["name"], str) and NAME.fullmatch(action["name"]) is not None)
        pairs = [listed(pair, 2) for pair in listed(action["gains"])]
        require(all(isinstance(value, str) for value, _ in pairs))
        actions.append([(value, whole(WHOLE, gain)) for value, gain in pairs])
    require(actions != [])
    return rest, actions


def certificate_of(text: str) -> tuple[str, Any]:
    cert = json_of(text)
    require(isinstance(cert, dict) and cert.get("verdict") in ("yes", "no"))
    keys, form = sorted(cert), cert.get("format")
    if cert["verdict"] == "no":
        require(keys == ["actions", "format", "over", "rest", "verdict"] and form in FORMATS)
        return "no", table_of(cert)
    if keys == ["format", "matrix", "verdict"]:
        require(form == FORMATS[0])
        return "yes", matrix_of(cert["matrix"])
    require(keys == ["columns", "entries", "format", "rows", "verdict"] and form == FORMATS[1])
    return "yes", entries_of(cert)


# ---- a hyper

def weights_of(lines: list[str], scale: int) -> Inner:
    """An inner's lines: the joint probability of each value and the inner, as a whole number over the scale."""
    head = INNER.fullmatch(lines[0])
    assert head is not None
    outer, chances = above_0(head[2]), {}
    for line in lines[1:]:
        value, _, probability = line.removeprefix("  ").rpartition(" ")
        require(line.startswith("  ") and value == value.strip(" ") != "" and value not in chances)
        chances[value] = above_0(probability)
    require(sum(chances.values()) == 1)
    joint = {value: scale * outer * chance for value, chance in chances.items()}
    require(all(weight.denominator == 1 for weight in joint.values()))
    return {value: weight.numerator for value, weight in joint.items()}


def hyper_of(text: str) -> tuple[str, int, list[Inner]]:
    """The target's line, the scale, and the inners. All of them have to be there, and their probabilities have to sum to 1."""
    require(text.endswith("\n"))
    target, scale_line, count_line, body = text.removesuffix("\n").split("\n", 3)
    scale, count = whole(SIZE, scale_line.removeprefix("scale ")), whole(SIZE, count_line.removeprefix("inners "))
    require(target.startswith("target ") and scale_line.startswith("scale ") and count_line.startswith("inners ") and scale > 0)
    lines = body.split("\n")
    starts = [at for at, line in enumerate(lines) if INNER.fullmatch(line)]
    require(starts[:1] == [0] and len(starts) == count)
    require(all(lines[at].split(" ")[1] == str(i) for i, at in enumerate(starts)))
    inners = [weights_of(lines[at:end], scale) for at, end in zip(starts, [*starts[1:], len(lines)])]
    require(sum(sum(inner.values()) for inner in inners) == scale)
    return target, scale, inners


# ---- what a certificate must prove of two hypers

def check_matrix(shape: tuple[int, list[int]], entries: list[Entry], a: tuple[int, list[Inner]], b: tuple[int, list[Inner]]) -> None:
    (scale_a, inners_a), (scale_b, inners_b) = a, b
    rows, columns = shape
    reject_unless(rows == len(inners_a) and all(count == len(inners_b) for count in columns), "shape")
    reject_unless(all(0 <= value <= 1 for _, _, value in entries), "range")
    sums: dict[int, Fraction] = defaultdict(Fraction)
    for i, _, value in entries:
        sums[i] += value
    reject_unless(all(sums[i] == 1 for i in range(rows)), "sum")
    carried: list[dict[str, Fraction]] = [defaultdict(Fraction) for _ in inners_b]
    for i, j, value in entries:
        if value != 0:
            for x, weight in inners_a[i].items():
                carried[j][x] += weight * value
    for inner, cells in zip(inners_b, carried):
        reject_unless(len(cells) == len(inner) and all(cells.get(x, 0) * scale_b == weight * scale_a for x, weight in inner.items()), "cell")


def posterior(inners: list[Inner], rest: int, actions: list[Gains]) -> int:
    """What the best actions come to, over the scale and `over`. Beyond `rest` at every value an action gains at those that it names alone."""
    named: dict[str, list[tuple[int, int]]] = defaultdict(list)
    for k, gains in enumerate(actions):
        for value, gain in gains:
            named[value].append((k, gain - rest))
    total = 0
    for inner in inners:
        beyond: dict[int, int] = defaultdict(int)
        for value, weight in inner.items():
            for k, gain in named.get(value, ()):
                beyond[k] += weight * gain
        best = max(beyond.values(), default=0)
        total += rest * sum(inner.values()) + (best if len(beyond) == len(actions) else max(best, 0))
    return total


def check_table(rest: int, actions: list[Gains], a: tuple[int, list[Inner]], b: tuple[int, list[Inner]]) -> None:
    (scale_a, inners_a), (scale_b, inners_b) = a, b
    values = set().union(*inners_a, *inners_b)
    for gains in actions:
        texts = {value for value, _ in gains}
        reject_unless(texts <= values and len(texts) == len(gains), "value")
    reject_unless(posterior(inners_a, rest, actions) * scale_b < posterior(inners_b, rest, actions) * scale_a, "order")


def read(path: str, what: str, reader: Any) -> Any:
    try:
        return reader(bytes_of(path).decode("utf-8"))
    except (ValueError, KeyError, RecursionError):
        stop(f"{path} is no {what}")


def main() -> None:
    if len(sys.argv) != 4:
        stop("usage: python3 check_certificate.py CERT HYPER_A HYPER_B")
    verdict, proof = read(sys.argv[1], "certificate", certificate_of)
    (target_a, scale_a, a), (target_b, scale_b, b) = (read(path, "hyper", hyper_of) for path in sys.argv[2:])
    if target_a != target_b:
        stop("targets differ")
    if verdict == "yes":
        rows, columns, entries = proof
        check_matrix((rows, columns), entries, (scale_a, a), (scale_b, b))
    else:
        rest, actions = proof
        check_table(rest, actions, (scale_a, a), (scale_b, b))
    answer("accepted", 0)


try:
    main()
except MemoryError:
    stop("out of memory")
