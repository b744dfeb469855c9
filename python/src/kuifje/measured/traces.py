"""The tracers' runs, what they wrote, and what is worked out from it in C: partitions, forks, silence, agreement."""

from __future__ import annotations

import ctypes
import json
import os
import re
import shutil
import subprocess
import tempfile
import weakref
from array import array
from dataclasses import dataclass
from functools import cache
from pathlib import Path
from typing import Any

from .builds import Build
from .domains import Domain, Variable
from .models import ANSWERED, DIVISION, MODELS, OPERAND, RETURNED, TRANSFER, Model
from .places import Places
from .refusals import Unmeasured
from .tools import Tools, default_tools, lacks

__all__ = ["Fork", "Limits", "Traces", "trace"]

NOWHERE = (1 << 64) - 1
NOT_MADE = (1 << 32) - 1
TRACED, REFUSED = 0, 3
# What the emulator's processor lacks is hidden from the real one, and both have caches of one size, so that libraries choose one and the same variant
# of a function on both, and lay their memory out alike. Memory comes from the heap, which a snapshot can give back.
_HIDDEN = ",".join(f"-{name}" for name in ("AVX512F", "AVX512VL", "AVX512BW", "AVX512DQ", "AVX512CD", "XSAVEC", "RTM"))
_SIZES = {
    "data_cache_size": 32768,
    "shared_cache_size": 1048576,
    "non_temporal_threshold": 786432,
    "rep_movsb_threshold": 4096,
    "rep_stosb_threshold": 2048,
}
ALIKE = {
    "GLIBC_TUNABLES": f"glibc.cpu.hwcaps={_HIDDEN}"
    + "".join(f":glibc.cpu.x86_{name}={size}" for name, size in _SIZES.items())
    + ":glibc.malloc.mmap_max=0:glibc.malloc.trim_threshold=1073741824",
    "OPENSSL_ia32cap": ":~0x60f0230000",
    "LD_BIND_NOW": "1",
    "LC_ALL": "C",
}


@dataclass(frozen=True)
class Limits:
    """Bounds of a measurement.

    ``instructions`` of a run, ``memory`` bytes of distinct traces, ``seconds`` that single steps may take (none: until all runs are made),
    ``snapshot``: memory is as it was at first before each run, and ``processor``: whether the real processor is asked at all.
    """

    instructions: int = 10_000_000
    memory: int = 1 << 30
    seconds: float | None = 1.0
    snapshot: bool = False
    processor: bool = True


@dataclass(frozen=True)
class Fork:
    """Where traces with one history part: the classes ``low`` to ``high`` in the tree's order, where each child begins, and the instruction."""

    low: int
    high: int
    children: tuple[int, ...]
    pc: int
    kind: int
    position: int


def _library(tools: Tools) -> ctypes.CDLL:
    library = ctypes.CDLL(str(tools.library()))
    pointer, number, small = ctypes.c_void_p, ctypes.c_uint64, ctypes.c_uint32
    library.kf_open.restype, library.kf_open.argtypes = pointer, [ctypes.c_char_p]
    library.kf_close.restype, library.kf_close.argtypes = None, [pointer]
    library.kf_sizes.restype, library.kf_sizes.argtypes = None, [pointer, pointer]
    library.kf_site.restype, library.kf_site.argtypes = None, [pointer, number, pointer]
    library.kf_site_of.restype, library.kf_site_of.argtypes = small, [pointer, number]
    library.kf_partition.restype = ctypes.c_int64
    library.kf_partition.argtypes = [pointer, small, small, pointer, number, number, pointer]
    library.kf_forks.restype = ctypes.c_int64
    library.kf_forks.argtypes = [pointer, small, small, pointer, number, number, pointer, pointer, pointer, pointer]
    library.kf_difference.restype, library.kf_difference.argtypes = ctypes.c_int, [pointer, small, small, small, small, pointer]
    library.kf_agree.restype, library.kf_agree.argtypes = ctypes.c_int, [pointer, pointer, small, pointer]
    library.kf_merge.restype, library.kf_merge.argtypes = ctypes.c_int, [pointer, pointer, ctypes.c_char_p]
    library.kf_silence.restype, library.kf_silence.argtypes = ctypes.c_int, [pointer, pointer, pointer]
    return library


def _address(found: Any) -> int:
    """The address of an array's first entry."""
    return int(found.buffer_info()[0])


def _empty(kind: str, count: int) -> Any:
    """An array of zeros."""
    return array(kind, bytes(array(kind).itemsize * max(count, 1)))


class Traces:
    """What one tracer wrote into a folder."""

    def __init__(self, folder: Path, tools: Tools, program: Path) -> None:
        self._library = _library(tools)
        self._handle = self._library.kf_open(str(folder).encode())
        if not self._handle:
            raise Unmeasured("Lost", "a tracer's files can't be read")
        self._end = weakref.finalize(self, self._library.kf_close, self._handle)
        self.report: dict[str, Any] = json.loads((folder / "report.json").read_text(encoding="utf-8"))
        sizes = _empty("Q", 5)
        self._library.kf_sizes(self._handle, _address(sizes))
        self.site_count, _, self.trace_count, self.run_count, self.event_count = sizes
        variables = tuple(Variable.of_report(found) for found in self.report["variables"])
        self.secrets, self.publics, self.noise = (Domain(tuple(v for v in variables if v.role == role)) for role in ("secret", "public", "noise"))
        self.places = Places((folder / "maps").read_text(errors="replace") if (folder / "maps").exists() else "", program)
        self._classes: Any = None
        self._folder = folder

    def site(self, number: int) -> tuple[int, int, int, int, int]:
        """A site's kind, way, size, instruction, and where it goes to."""
        found = _empty("Q", 5)
        self._library.kf_site(self._handle, number, _address(found))
        kind, way, size, pc, to = found
        return kind, way, size, pc, to

    def site_of(self, event: int) -> int:
        """The number of the site of an event."""
        return int(self._library.kf_site_of(self._handle, event))

    def runs(self, public: int = 0) -> tuple[int, int]:
        """The first run with a value of the public inputs, and the one after the last."""
        each = self.secrets.size * self.noise.size
        return public * each, (public + 1) * each

    def partition(self, model: Model, public: int = 0, keep: Any = None) -> tuple[Any, int]:
        """For each secret with each noise the number of its class, by first occurrence, and how many classes there are."""
        first, end = self.runs(public)
        found = _empty("I", end - first)
        kept = None if keep is None else _address(keep)
        count = self._library.kf_partition(self._handle, model.mask, model.shift, kept, first, end, _address(found))
        if count < 0:
            raise Unmeasured("Large", "there isn't memory enough to compare the traces")
        return found, int(count)

    def forks(self, model: Model, public: int = 0, keep: Any = None) -> tuple[Any, list[Fork]]:
        """The classes in the order of the tree of traces, and its forks."""
        first, end = self.runs(public)
        order, classes = _empty("I", self.trace_count), _empty("I", self.trace_count)
        forks, children = _empty("Q", 5 * self.trace_count), _empty("Q", 3 * self.trace_count + 3)
        kept = None if keep is None else _address(keep)
        where = tuple(map(_address, (order, classes, forks, children)))
        count = self._library.kf_forks(self._handle, model.mask, model.shift, kept, first, end, *where)
        if count < 0:
            raise Unmeasured("Large", "there isn't memory enough to compare the traces")
        found, at = [], 0
        for i in range(count):
            low, high, position, event, parts = forks[5 * i : 5 * i + 5]
            kind, _, _, pc, _ = self.site(self.site_of(event))
            found.append(Fork(low, high, tuple(children[at : at + parts]), pc, kind, position))
            at += parts + 1
        return classes, found

    def trace_of(self, run: int) -> int:
        """The number of a run's trace."""
        if self._classes is None:
            self._classes = array("I", (self._folder / "classes").read_bytes())
        return int(self._classes[run])

    def difference(self, model: Model, a: int, b: int) -> list[tuple[int, int, int, int] | None]:
        """Where two traces part: for each the kind, the instruction, the size and the value of its event, and none where it has ended. Empty where
        they don't part."""
        found = _empty("Q", 4)
        parted = self._library.kf_difference(self._handle, model.mask, model.shift, a, b, _address(found))
        if parted < 0:
            raise Unmeasured("Large", "there isn't memory enough to compare the traces")
        if not parted:
            return []
        out: list[tuple[int, int, int, int] | None] = []
        for event, value in (found[:2], found[2:]):
            if event == NOWHERE:
                out.append(None)
            else:
                kind, _, size, pc, _ = self.site(self.site_of(event))
                out.append((kind, pc, size, value))
        return out

    def silence(self, chosen: bytes) -> Any:
        """For each event whether it is shown where the chosen sites (a byte for each) and what they control show nothing."""
        keep = _empty("B", self.event_count)
        if not self._library.kf_silence(self._handle, chosen, _address(keep)):
            raise Unmeasured("Large", "there isn't memory enough for the graph of blocks")
        return keep

    def agrees(self, other: Traces, kinds: int) -> tuple[bool, int, int, tuple[int, int]]:
        """Whether another tracer's runs have the same events of these kinds, as bits: how many were compared, and where they don't the run and the
        instruction of each."""
        found = _empty("Q", 4)
        agreed = self._library.kf_agree(self._handle, other._handle, kinds, _address(found))
        if agreed < 0:
            raise Unmeasured("Large", "there isn't memory enough to compare the tracers")
        return agreed == 1, found[0], found[1], (found[2], found[3])

    def divisions(self) -> str:
        """The divisions that were executed, a line for each: how far it lies from the beginning of its module's memory, and the module's path."""
        pcs = {pc for kind, _, _, pc, _ in map(self.site, range(self.site_count)) if kind == DIVISION}
        return "".join(f"{away:x} {path}\n" for away, path in sorted(filter(None, map(self.places.module_of, pcs))))

    def merged(self, other: Traces, folder: Path, tools: Tools, program: Path) -> Traces:
        """These traces with the operands of divisions that another tracer has recorded, in a folder of their own."""
        folder.mkdir()
        if not self._library.kf_merge(self._handle, other._handle, str(folder).encode()):
            raise Unmeasured("Large", "there isn't room enough for the operands of divisions")
        for name in ("report.json", "maps"):
            shutil.copyfile(self._folder / name, folder / name)
        return Traces(folder, tools, program)


def _inputs_of(traces: Traces, run: int) -> str:
    each = traces.secrets.size * traces.noise.size
    parts = (
        traces.secrets.text(run // traces.noise.size % traces.secrets.size),
        traces.publics.text(run // each),
        traces.noise.text(run % traces.noise.size),
    )
    return ", ".join(filter(None, parts))


def _refused(traces: Traces) -> Unmeasured:
    """What a tracer wrote instead of a measurement."""
    said = traces.report["refusal"]
    pc, pair = said["pc"], said["traces"]
    if said["word"] in ("Earlier", "Unwritten", "Clock") and not pc:
        parted = traces.difference(MODELS["constant-time"], *pair) or traces.difference(_ALL, *pair)
        pc = next((event[1] for event in parted if event is not None), 0)
    run = said["run"] if said["run"] < (1 << 32) and said["word"] != "Folded" else None
    secret = _inputs_of(traces, run) if run is not None and traces.secrets.variables and said["word"] not in ("Build", "Large", "Nothing") else None
    return Unmeasured(said["word"], said["why"], str(traces.places.at(pc)) if pc else None, secret)


_ALL = Model("all", tuple(range(1, 10)))


def _environment(step: bool, folder: Path, limits: Limits, machine: str) -> dict[str, str]:
    seconds = 0 if not step else limits.seconds or 0
    given = {
        "KUIFJE_TRACE": f"{folder} {int(limits.snapshot)} {limits.instructions} {limits.memory} {seconds}",
        **(ALIKE if machine == "x86_64" else {}),
    }
    kept = {key: value for key, value in os.environ.items() if key in ("PATH", "LD_LIBRARY_PATH", "TMPDIR", "HOME")}
    return {**kept, **given, **({"KUIFJE_STEP": "1"} if step else {})}


@cache
def _steady() -> tuple[str, ...]:
    """The command that starts another without random addresses, where that is allowed; the emulator gives out the same ones in any case."""
    words = ("setarch", "-R")
    try:
        done = subprocess.run([*words, "true"], capture_output=True, check=False)
    except OSError:
        return ()
    return words if done.returncode == 0 else ()


def _processor(target: str) -> str:
    """The emulator's processor: all that it can do, under the name of the real one, by which libraries choose variants, too."""
    if target != "x86_64" or os.uname().machine != "x86_64":
        return "max"
    try:
        lines = Path("/proc/cpuinfo").read_text(encoding="utf-8").splitlines()
    except OSError:
        return "max"
    known = {name.strip(): value.strip() for name, _, value in (line.partition(":") for line in reversed(lines))}
    names = {"vendor": "vendor_id", "family": "cpu family", "model": "model", "stepping": "stepping"}
    return ",".join(["max", *(f"{name}={known[key]}" for name, key in names.items() if re.fullmatch(r"\w+", known.get(key, "")))])


class _Running:
    """A tracer's process, and the folder into which it writes."""

    def __init__(self, words: list[str], folder: Path, environment: dict[str, str]) -> None:
        self.folder = folder
        folder.mkdir()
        self._errors = (folder / "errors").open("wb")
        self._process = subprocess.Popen(
            words, stdin=subprocess.DEVNULL, stdout=subprocess.DEVNULL, stderr=self._errors, env=environment, cwd=folder, start_new_session=True
        )

    def end(self) -> None:
        """Ends it, if it still runs."""
        if self._process.poll() is None:
            self._process.kill()
        self._process.wait()
        self._errors.close()

    def traces(self, tools: Tools, program: Path) -> Traces:
        """What it wrote, once it has ended. Raises ``Unmeasured`` where that is a refusal, or it ended without a word."""
        status = self._process.wait()
        self._errors.close()
        if status not in (TRACED, REFUSED) or not (self.folder / "report.json").exists():
            said = (self.folder / "errors").read_text(errors="replace").strip().splitlines()
            how = f"signal {-status}" if status < 0 else f"status {status}"
            raise Unmeasured("Lost", f"a tracer ended with {how}" + (f": {said[-1]}" if said else ""))
        found = Traces(self.folder, tools, program)
        if found.report["refusal"]:
            raise _refused(found)
        return found


def trace(build: Build, limits: Limits, folder: Path, tools: Tools | None = None) -> tuple[Traces, Traces | None, int]:
    """The emulator's traces of all runs, the processor's of those that it came to, and how many runs were compared.

    Raises ``Unmeasured`` where a run can't be relied on, or both don't agree.
    """
    tools = tools or default_tools()
    emulator = f"qemu-{build.target}"
    if shutil.which(emulator) is None:
        raise lacks(emulator)
    tools.prepare(build.target)
    plugin = tools.plugin()
    steps = limits.processor and build.target == os.uname().machine == "x86_64"
    if steps and not tools.has_stepper:
        raise lacks("Zydis")
    program = build.link(tools, folder)
    words = [*_steady(), emulator, "-cpu", _processor(build.target), "-plugin", str(plugin), str(program)]
    emulated = _Running(words, folder / "emulator", _environment(False, folder / "emulator", limits, build.target))
    stepped = (
        _Running([str(tools.launcher()), str(program)], folder / "processor", _environment(True, folder / "processor", limits, build.target))
        if steps
        else None
    )
    try:
        found = emulated.traces(tools, program)
        other = stepped.traces(tools, program) if stepped else None
    finally:
        emulated.end()
        if stepped:
            stepped.end()
    if other is None:
        return found, None, 0
    return found, other, _compared(found, other)


def with_operands(build: Build, limits: Limits, folder: Path, tools: Tools, found: Traces) -> Traces:
    """The emulator's traces with the operands of all divisions, by a run of its own on the processor, which stops at these alone.

    Raises ``Unmeasured`` where that takes longer than ``limits`` say, or the divisions aren't the same.
    """
    program, listed = folder / "program", folder / "divisions.txt"
    listed.write_text(found.divisions(), encoding="utf-8")
    environment = {**_environment(True, folder / "divisions", limits, build.target), "KUIFJE_STEP": str(listed)}
    stopping = _Running([str(tools.launcher()), str(program)], folder / "divisions", environment)
    try:
        other = stopping.traces(tools, program)
    finally:
        stopping.end()
    if other.report["runs"] != found.run_count:
        why = f"the processor came to {other.report['runs']} of {found.run_count} runs in {limits.seconds:.0f} seconds"
        raise Unmeasured("Divisions", f"the operands of divisions were not seen in all runs: {why}")
    agreed, _, run, (pc, _) = found.agrees(other, 1 << DIVISION | 1 << RETURNED)
    if not agreed:
        place = str(found.places.at(pc))
        raise Unmeasured("Disagree", "the processor divides elsewhere than the emulator", place, _inputs_of(found, run))
    return found.merged(other, folder / "merged", tools, program)


def _compared(found: Traces, other: Traces) -> int:
    agreed, compared, run, (pc, other_pc) = found.agrees(other, sum(1 << kind for kind in range(TRANSFER, ANSWERED + 1) if kind != OPERAND))
    if not agreed:
        emulated, real = found.places.at(pc), other.places.at(other_pc)
        raise Unmeasured(
            "Disagree", f"an event is at {emulated} by the emulator, and at {real} by the processor", str(emulated), _inputs_of(found, run)
        )
    return compared


def scratch() -> tempfile.TemporaryDirectory[str]:
    """A folder for one measurement, with a path without blanks, which the tracers read."""
    return tempfile.TemporaryDirectory(prefix="kuifje-measure-", dir="/tmp" if re.search(r"\s", tempfile.gettempdir()) else None)
