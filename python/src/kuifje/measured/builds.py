"""A harness with the code that it measures, compiled and linked to the driver; and harnesses that are written for functions of libraries."""

from __future__ import annotations

import shutil
import subprocess
from collections.abc import Iterator, Mapping, Sequence
from dataclasses import dataclass, field, replace
from pathlib import Path

from ..errors import KuifjeError
from .refusals import Unmeasured
from .tools import Tools, lacks, run

__all__ = ["Build", "Entries", "builds", "bytes_of", "library_harness"]

PLUS = {"gcc": "g++", "clang": "clang++", "aarch64-linux-gnu-gcc": "aarch64-linux-gnu-g++"}
CODE = {".c", ".cc", ".cpp", ".cxx", ".rs", ".S"}
OF_RUST = ("-C", "panic=abort", "--crate-type=staticlib", "-g")


@dataclass(frozen=True)
class Build:
    """What is compiled, and how.

    ``sources`` are files of C, C++ and Rust, and objects and libraries, the harness first; ``level`` is that of ``-O``, ``flags`` go to the compiler,
    ``libraries`` to the linker, and ``target`` is ``x86_64`` or ``aarch64``.
    """

    sources: tuple[Path, ...]
    compiler: str = "gcc"
    level: str = "2"
    flags: tuple[str, ...] = ()
    libraries: tuple[str, ...] = ()
    target: str = "x86_64"

    @property
    def name(self) -> str:
        """The compiler and its level: ``gcc -O2``."""
        return f"{self.compiler} -O{self.level}"

    @property
    def _command(self) -> str:
        return "aarch64-linux-gnu-gcc" if self.target == "aarch64" and self.compiler == "gcc" else self.compiler

    @property
    def _is_plus(self) -> bool:
        """Whether some of it is C++."""
        return any(source.suffix in {".cc", ".cpp", ".cxx"} for source in self.sources)

    def _linker(self) -> str:
        if not self._is_plus:
            return self._command
        base, dash, version = self._command.partition("clang-")
        return f"clang++-{version}" if dash else PLUS.get(self._command, self._command)

    def _object(self, source: Path, tools: Tools, folder: Path, number: int) -> str:
        """What is linked for a source."""
        if source.suffix not in CODE:
            return str(source.resolve())
        made = folder / f"{number}-{source.stem}.o"
        if source.suffix == ".rs":
            made = made.with_suffix(".a")
            run(["rustc", *OF_RUST, "-C", f"opt-level={self.level}", str(source), "-o", str(made)])
        else:
            command = self._linker() if source.suffix != ".c" else self._command
            run([command, f"-O{self.level}", "-g", f"-I{tools.sources}", *self.flags, "-c", str(source.resolve()), "-o", str(made)])
        return str(made)

    def link(self, tools: Tools, folder: Path) -> Path:
        """The program of the harness. Raises ``Unmeasured`` with what the compiler said where it can't be built."""
        if not self.sources:
            raise Unmeasured("Build", "there is no harness")
        for source in self.sources:
            if not source.exists():
                raise Unmeasured("Build", f"there is no file {source}")
        if shutil.which(self._command) is None:
            raise lacks(self._command)
        objects = [self._object(source, tools, folder, number) for number, source in enumerate(self.sources)]
        program = folder / "program"
        # At fixed addresses, and a C++ library within, modules lie in one order for both tracers: exceptions search them by their addresses.
        static = ["-static"] if self.target == "aarch64" else ["-no-pie"]
        static += ["-static-libstdc++", "-static-libgcc"] if self._is_plus else []
        rust = ["-lpthread", "-ldl", "-lm"] if any(source.suffix == ".rs" for source in self.sources) else []
        run([self._linker(), "-g", "-Wl,-z,now", *static, *objects, *tools.driver(self.target), "-o", str(program), *self.libraries, *rust])
        return program

    def with_old(self, old: Path) -> Build:
        """The same with an older file in place of the code: of the last source, which is the harness where there is no other."""
        places = [i for i, source in enumerate(self.sources) if source.suffix in CODE]
        if not places:
            raise Unmeasured("Build", "no source stands in place of the older one")
        sources = list(self.sources)
        sources[places[-1]] = old
        return replace(self, sources=tuple(sources))

    def at_revision(self, revision: str, folder: Path) -> Build:
        """The same with each source as it was at a revision of git; those that git doesn't have stay."""
        if revision.startswith("-"):
            raise KuifjeError("a revision doesn't begin with -")
        sources, changed = [], False
        for number, source in enumerate(self.sources):
            place = source.resolve()
            shown = subprocess.run(["git", "-C", str(place.parent), "show", f"{revision}:./{place.name}"], capture_output=True, check=False)
            if source.suffix in CODE and shown.returncode == 0:
                sources.append(folder / f"{number}" / source.name)
                sources[-1].parent.mkdir(parents=True, exist_ok=True)
                sources[-1].write_bytes(shown.stdout)
                changed = True
            else:
                sources.append(source)
        if not changed:
            raise Unmeasured("Build", f"git has none of the sources at {revision}")
        return replace(self, sources=tuple(sources), flags=(*self.flags, *(f"-I{p}" for p in {str(s.resolve().parent) for s in self.sources})))


def builds(build: Build, compilers: Sequence[str] = (), levels: Sequence[str] = ()) -> Iterator[Build]:
    """The same build with each compiler and each level."""
    for compiler in compilers or (build.compiler,):
        for level in levels or (build.level,):
            yield replace(build, compiler=compiler, level=level)


# ---- functions of libraries


@dataclass(frozen=True)
class Entries:
    """The entries of an argument that is an array: how many there are, from which value to which, and of which type."""

    count: int
    low: int
    high: int
    type: str = "uint8_t"
    weights: tuple[int, ...] = field(default=())


def bytes_of(count: int, values: range) -> Entries:
    """An array of so many bytes, each of these values, which follow one another."""
    if values.step != 1 or len(values) == 0 or values[0] < 0 or values[-1] > 255:
        raise ValueError(f"{values} aren't bytes that follow one another")
    return Entries(count, values[0], values[-1])


def _declared(role: str, name: str, entries: Entries) -> str:
    text = f"KUIFJE_{role}({entries.type}, {name}, {entries.count}, {entries.low}, {entries.high});\n"
    return text + (f"KUIFJE_WEIGHTS({name}, {', '.join(map(str, entries.weights))});\n" if entries.weights else "")


def library_harness(
    function: str,
    secret: Mapping[str, Entries],
    public: Mapping[str, Entries | bytes | int],
    arguments: Sequence[str | int] | None = None,
    include: str | None = None,
) -> str:
    """A harness in C of a function of a library: it is called with the addresses of arrays, and with numbers.

    A public input may be bytes or a number, which are constants. Without a header the function is declared as one that returns ``long``.
    ``arguments`` are names and numbers in the order of the call; secrets and then public inputs where they aren't given.
    """
    text = '#include "kuifje_measure.h"\n' + (f"#include <{include}>\n" if include else f"extern long {function}();\n")
    numbers: dict[str, str] = {}
    for name, entries in secret.items():
        text += _declared("SECRET", name, entries)
    for name, value in public.items():
        if isinstance(value, Entries):
            text += _declared("PUBLIC", name, value)
        elif isinstance(value, int):
            numbers[name] = str(value)
        else:
            text += f"uint8_t {name}[] = {{ {', '.join(map(str, value))} }};\n"
    order = arguments if arguments is not None else [*secret, *public]
    words = (f"(long){word}" if isinstance(word, int) else numbers.get(word, word) for word in order)
    return text + f"KUIFJE_MEASURE {{ return (long){function}({', '.join(words)}); }}\n"
