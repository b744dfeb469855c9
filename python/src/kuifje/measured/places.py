"""Where an instruction comes from: a line of a source, by DWARF, or a symbol of a library."""

from __future__ import annotations

import json
import os
import re
import shutil
import subprocess
from collections import defaultdict
from collections.abc import Iterable
from dataclasses import dataclass
from functools import cache
from pathlib import Path

__all__ = ["Place", "Places"]

_MAPPED = re.compile(r"([0-9a-f]+)-([0-9a-f]+) (\S+) ([0-9a-f]+) \S+ \d+ *(.*)")
SHARED = 3  # the type of an ELF file that may be loaded anywhere


@dataclass(frozen=True, order=True)
class Place:
    """A line (from 1) of a source file, or a symbol of a module; ``path`` is the whole path of the source."""

    file: str
    line: int | None = None
    symbol: str | None = None
    path: str | None = None

    def __str__(self) -> str:
        return f"{self.file}:{self.line}" if self.line else f"{self.file}!{self.symbol}" if self.symbol else self.file


_OF_COMPILER = re.compile(r"/(gcc|clang|llvm[^/]*)/.*/include/")  # headers whose functions are the compiler's own


@cache
def _symbolizer() -> str | None:
    """The command that reads DWARF: ``llvm-symbolizer`` of any version, else ``addr2line``."""
    names = ["llvm-symbolizer", *(f"llvm-symbolizer-{version}" for version in range(20, 12, -1)), "addr2line"]
    return next((name for name in names if shutil.which(name)), None)


@dataclass(frozen=True)
class _Frame:
    """A function at an instruction, with the line of its source, as a symbolizer has it; functions that are inlined have the first ones."""

    function: str
    path: str
    line: int


def _by_llvm(command: str, module: str, asked: str) -> list[list[_Frame]]:
    words = [command, "--output-style=JSON", "--functions", "--demangle", "-e", module]
    said = subprocess.run(words, input=asked, capture_output=True, text=True, errors="replace", check=False).stdout
    found = []
    for line in filter(None, said.splitlines()):
        symbols = json.loads(line).get("Symbol") or []
        found.append([_Frame(s.get("FunctionName", ""), s.get("FileName", ""), int(s.get("Line", 0))) for s in symbols])
    return found


def _by_addr2line(command: str, module: str, asked: str) -> list[list[_Frame]]:
    said = subprocess.run([command, "-f", "-C", "-e", module], input=asked, capture_output=True, text=True, errors="replace", check=False).stdout
    lines, found = said.splitlines(), []
    for function, place in zip(lines[::2], lines[1::2]):
        path, _, line = place.partition(" ")[0].rpartition(":")
        number = int(line) if line.isdigit() else 0
        found.append([_Frame("" if function == "??" else function, "" if path == "??" else path, number)])
    return found


class Places:
    """The places of a process's instructions, by the text of its memory map. What is asked for is kept."""

    def __init__(self, maps: str, program: Path) -> None:
        self._parts = []
        for line in maps.splitlines():
            if (found := _MAPPED.fullmatch(line)) and found[5].startswith("/"):
                self._parts.append((int(found[1], 16), int(found[2], 16), int(found[4], 16), found[5]))
        self._program = program
        self._known: dict[int, Place] = {0: Place("the end")}
        self._bias: dict[str, int] = {}

    def _module(self, pc: int) -> str | None:
        return next((path for low, high, _, path in self._parts if low <= pc < high), None)

    def module_of(self, pc: int) -> tuple[int, str] | None:
        """How far an instruction lies from the beginning of its module's memory, and the path of the module's file."""
        path = self._module(pc)
        return None if path is None else (pc - min(low for low, _, _, other in self._parts if other == path), path)

    def _bias_of(self, path: str) -> int:
        """What is added to an address in a file to have it in memory: 0 of one that is always loaded at its own addresses."""
        if path not in self._bias:
            try:
                with open(path, "rb") as file:
                    is_shared = file.read(18)[16] == SHARED
            except (OSError, IndexError):
                is_shared = True
            starts = [low - offset for low, _, offset, other in self._parts if other == path]
            self._bias[path] = min(starts) if is_shared and starts else 0
        return self._bias[path]

    def at(self, pc: int) -> Place:
        """The place of one instruction."""
        if pc not in self._known:
            self.find([pc])
        return self._known[pc]

    def find(self, pcs: Iterable[int]) -> None:
        """Finds the places of many instructions at once."""
        by_module = defaultdict(list)
        for pc in set(pcs) - self._known.keys():
            module = self._module(pc)
            if module is None:
                self._known[pc] = Place(hex(pc))
            else:
                by_module[module].append(pc)
        for module, some in by_module.items():
            self._known.update(zip(some, self._ask(module, some)))

    def _ask(self, module: str, pcs: list[int]) -> list[Place]:
        name, bias, command = os.path.basename(module), self._bias_of(module), _symbolizer()
        if command is None:
            return [Place(name, symbol=hex(pc - bias)) for pc in pcs]
        ask = _by_addr2line if command == "addr2line" else _by_llvm
        said = ask(command, module, "".join(f"{pc - bias:#x}\n" for pc in pcs))
        if len(said) != len(pcs):
            said = [[]] * len(pcs)
        return [_placed(frames, name, pc - bias) for frames, pc in zip(said, pcs)]


def _placed(frames: list[_Frame], module: str, address: int) -> Place:
    """The innermost line that isn't in a header of the compiler's; else the symbol, or the address in the file."""
    lined = [frame for frame in frames if frame.line and frame.path]
    own = [frame for frame in lined if not _OF_COMPILER.search(frame.path)]
    for frame in own or lined:
        return Place(os.path.basename(frame.path), frame.line, frame.function or None, frame.path)
    symbol = frames[-1].function if frames and frames[-1].function not in ("", "??") else hex(address)
    return Place(module, symbol=symbol)
