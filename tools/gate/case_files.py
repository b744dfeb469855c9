"""Reads the cases of crates/kf_cases/data. crates/kf_cases/README.md has their form."""

from __future__ import annotations

import re
from collections.abc import Iterator
from dataclasses import dataclass, field
from pathlib import Path

from .repository import CRATES

DATA = CRATES / "kf_cases" / "data"
MOST_TIMES = 2_000_000
ONE_NUMBER = {"read_piece": 65536, "out_room": 1_048_576, "out_piece": 65536, "err_room": 1_048_576, "err_piece": 65536}
WITH_CONTENT = ["word", "file", "name", "out", "err"]
NUMBERS = ["read_fail", "out_fail", "err_fail"]


@dataclass
class Case:
    """A run of the program and how it has to end: its words with the program's name before them, its files, and its status and streams.

    ``sizes`` has a number for each key of ``ONE_NUMBER``: how much is read or written at once, and how much a sink takes. ``fails`` has the numbers
    of the reads and writes that fail, by the keys of ``NUMBERS``.
    """

    name: str
    argv: list[bytes] = field(default_factory=list)
    files: list[tuple[bytes, bytes]] = field(default_factory=list)
    status: int | None = None
    out: bytes = b""
    err: bytes = b""
    sizes: dict[str, int] = field(default_factory=lambda: dict(ONE_NUMBER))
    fails: dict[str, list[int]] = field(default_factory=lambda: {key: [] for key in NUMBERS})

    @property
    def read(self) -> dict[bytes, bytes]:
        """The contents that are read of each name: those of the first file that has it."""
        first: dict[bytes, bytes] = {}
        for name, content in self.files:
            first.setdefault(name, content)
        return first


def number(text: str) -> int:
    """The number that a text is. Raises ``ValueError`` where it is none."""
    if not re.fullmatch(r"[0-9]+", text):
        raise ValueError(f"no number: {text}")
    return int(text)


def hexadecimal(text: str) -> bytes:
    """The bytes whose digits these are, two for each."""
    if not re.fullmatch(r"([0-9a-f]{2})*", text):
        raise ValueError(f"no bytes: {text}")
    return bytes.fromhex(text)


def bytes_of_content(line: str) -> bytes:
    """The bytes of a content line."""
    sign, text = line[0], line[1:]
    if sign == "|":
        return (text + "\n").encode()
    if sign == ":":
        return text.encode()
    if sign == "=":
        return hexadecimal(text)
    times, bytes_ = text.split(" ")
    if number(times) > MOST_TIMES:
        raise ValueError(f"{times} times")
    return number(times) * hexadecimal(bytes_)


def parts_of(text: str) -> list[tuple[str, str, bytes]]:
    """Each key line as its key, its text, and the bytes of the content below it."""
    if not text.startswith("#") or not text.endswith("\n"):
        raise ValueError("the first line is no comment, or the last one has no end")
    parts: list[tuple[str, str, bytes]] = []
    for line in text.removesuffix("\n").split("\n"):
        if line == "" or line[0] == "#":
            continue
        if line[0] in "|:=*":
            key, rest, content = parts[-1]
            parts[-1] = key, rest, content + bytes_of_content(line)
        else:
            key, _, rest = line.partition(" ")
            parts.append((key, rest, b""))
    return parts


def put(case: Case, key: str, text: str, content: bytes) -> None:
    """Takes a part of a case in. Raises ``ValueError`` of another part."""
    if content and key not in WITH_CONTENT:
        raise ValueError(f"content under {key}")
    if key == "words":
        case.argv += [word.encode() for word in text.split(" ")] if text else []
    elif key == "word":
        case.argv.append(text.encode() + content)
    elif key == "file":
        case.files.append((text.encode(), content))
    elif key == "name" and case.files and text == "":
        name, bytes_ = case.files.pop()
        case.files.append((name + content, bytes_))
    elif key == "out" and text == "":
        case.out += content
    elif key == "err" and text == "":
        case.err += content
    elif key in NUMBERS:
        case.fails[key] += [number(word) for word in text.split(" ")]
    elif key in ONE_NUMBER:
        case.sizes[key] = number(text)
    elif key == "status" and case.status is None:
        case.status = number(text)
    else:
        raise ValueError(f"{key} {text}")


def cases_of(text: str) -> list[Case]:
    """The cases of a file. Raises ``ValueError`` or ``IndexError`` where it isn't of their form."""
    *parts, (last, count, content) = parts_of(text)
    cases: list[Case] = []
    for key, rest, bytes_ in parts:
        if key == "case":
            cases.append(Case(rest))
        elif not cases:
            raise ValueError(f"{key} before a case")
        else:
            put(cases[-1], key, rest, bytes_)
    if last != "end" or content or number(count) != len(cases):
        raise ValueError(f"ends with {last} {count} and has {len(cases)} cases")
    for case in cases:
        if case.status is None or 0 in (case.sizes["read_piece"], case.sizes["out_piece"], case.sizes["err_piece"]):
            raise ValueError(f"{case.name} has no status, or a piece of 0")
    return cases


def case_files() -> list[Path]:
    """The files of cases, in the order of their names."""
    return sorted(DATA.iterdir())


def every_case() -> Iterator[tuple[Path, Case]]:
    """Each case of each file, with the file."""
    for path in case_files():
        for case in cases_of(path.read_text(encoding="utf-8")):
            yield path, case
