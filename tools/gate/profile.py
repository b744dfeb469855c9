"""Shows what the check of a crate spends its processor time on, module by module.

    .ci/profile CRATE [--tests] [--most N]

Runs `rt check --jobs 1` in the crate's folder, and sets the processor time of its process against the times of the files that it writes to
out/incremental, one for each module as its check ends. Modules end in Lts (the borrow checker's part of a function), Tie, Proof, and so on. What an
earlier check kept takes no time and isn't shown: docs/PROVING.md says how a check begins from nothing. The first module's seconds are those in
which the check begins. Needs Linux's /proc. Ends with the check's status."""

from __future__ import annotations

import argparse
import bisect
import os
import re
import subprocess
import sys
import time
from collections import defaultdict
from collections.abc import Sequence
from pathlib import Path

from .repository import CRATES

Sample = tuple[float, float]  # a moment and the processor time at it


def processor_time(folder: Path) -> float | None:
    """The seconds of the busiest rattle at work in a folder, or None where there is none."""
    found = []
    for process in Path("/proc").glob("[0-9]*"):
        try:
            if b"rattle" not in (process / "cmdline").read_bytes().split(b"\0")[0] or Path(os.readlink(process / "cwd")) != folder:
                continue
            fields = (process / "stat").read_text().rpartition(")")[2].split()
        except OSError:
            continue
        found.append((int(fields[11]) + int(fields[12])) / os.sysconf("SC_CLK_TCK"))
    return max(found, default=None)


def modified(file: Path) -> float:
    """When a file was written."""
    return float(file.stat().st_mtime)


def seconds_at(moment: float, samples: Sequence[Sample]) -> float:
    """The processor time at a moment, between the samples around it."""
    after = bisect.bisect(samples, (moment,))
    if after in (0, len(samples)):
        return samples[min(after, len(samples) - 1)][1]
    (start, low), (end, high) = samples[after - 1], samples[after]
    return low + (high - low) * (moment - start) / (end - start)


def main() -> int:
    """Runs the check, prints the modules that took most, and gives the check's status."""
    parser = argparse.ArgumentParser(usage=__doc__)
    parser.add_argument("crate")
    parser.add_argument("--tests", action="store_true")
    parser.add_argument("--most", type=int, default=30)
    words = parser.parse_args()
    folder = CRATES / words.crate
    if not folder.is_dir():
        parser.error(f"there is no crate {words.crate}")
    check = subprocess.Popen(["rt", "check", "--jobs", "1", *["--test"] * words.tests], cwd=folder)
    begun = time.time()
    samples: list[Sample] = []
    while check.poll() is None:
        if (seconds := processor_time(folder)) is not None:
            samples.append((time.time(), seconds))
        time.sleep(0.3)
    files = [it for it in (folder / "out" / "incremental").rglob("*.oantt") if "records" not in it.parts and modified(it) >= begun]
    if not samples or not files:
        print("nothing was proved anew", file=sys.stderr)
        return check.returncode
    took: list[tuple[float, float, str]] = []
    kinds: defaultdict[str, float] = defaultdict(float)
    before = 0.0
    for file in sorted(files, key=modified):
        now = seconds_at(modified(file), samples)
        took.append((now - before, file.stat().st_size / 1e6, file.name.removeprefix("Rattle-").removesuffix(".oantt")))
        kinds[re.split(r"[.-]", took[-1][2])[-1]] += now - before
        before = now
    print(f"{before:.0f} s: " + ", ".join(f"{kind} {seconds:.0f}" for kind, seconds in sorted(kinds.items(), key=lambda kind: -kind[1])[:6]))
    for seconds, size, name in sorted(took, reverse=True)[: words.most]:
        print(f"{seconds:6.1f} s {size:6.2f} MB {name}")
    return check.returncode


if __name__ == "__main__":
    sys.exit(main())
