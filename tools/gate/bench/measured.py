"""What one run of a program takes. This module and those that measure with it load little: a process that starts another one lends it its memory, so
that less than its own can't be told."""

from __future__ import annotations

import os
import platform
import resource
import subprocess
import time
from collections.abc import Sequence
from dataclasses import dataclass
from pathlib import Path

from ..program import Word

PATIENCE = 120  # processor seconds that a run may take where nothing else is said


@dataclass(frozen=True)
class Measured:
    """Seconds of the clock and of processors, megabytes at their peak, and the status, which is below 0 where a signal ended the run."""

    seconds: float
    processor: float
    megabytes: float
    status: int


def measured(words: Sequence[Word], out: Path, *, folder: Path | None = None, seconds: int = PATIENCE, megabytes: int | None = None) -> Measured:
    """Runs a command whose answer goes to a file, within so many processor seconds and so many megabytes of address space."""

    def limit() -> None:
        resource.setrlimit(resource.RLIMIT_CPU, (seconds, seconds + 1))
        if megabytes is not None:
            resource.setrlimit(resource.RLIMIT_AS, (megabytes << 20, megabytes << 20))

    with open(out, "wb") as file:
        begun = time.perf_counter()
        child = subprocess.Popen(words, cwd=folder, stdin=subprocess.DEVNULL, stdout=file, stderr=subprocess.DEVNULL, preexec_fn=limit)
        _, status, used = os.wait4(child.pid, 0)
        took = time.perf_counter() - begun
    child.returncode = os.waitstatus_to_exitcode(status)
    return Measured(took, used.ru_utime + used.ru_stime, used.ru_maxrss / 1024, child.returncode)


def own_megabytes() -> float:
    """What this process has taken at its peak: less can't be told of another one."""
    return resource.getrusage(resource.RUSAGE_SELF).ru_maxrss / 1024


def machine() -> str:
    """The processor's name, and the day."""
    try:
        lines = Path("/proc/cpuinfo").read_text().splitlines()
    except OSError:
        lines = []
    model = next((line.split(":")[1].strip() for line in lines if line.startswith("model name")), platform.machine())
    return f"{model}, {time.strftime('%Y-%m-%d', time.gmtime())}"
