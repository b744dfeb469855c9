"""Memory: each allocation refused in turn, and a limit on the address space, stepped up until the program has all that it wants."""

from __future__ import annotations

import resource
from collections.abc import Callable, Sequence
from pathlib import Path

from ..program import Outcome, Program
from .refusing import can_stop_programs, run_refusing
from .report import Report

EACH, SPREAD = 500, 20  # so many allocations are refused one by one, and of those behind them so many

STEP = 16 * 1024
WANT_OF_MEMORY = 12
NOISY = b"var x : 0..1 := uniform 0..1;\nobserve choose { x : 3, 1 - x : 1 };\n"
SHOWN = b"var x : 0..3 := uniform 0..3;\nobserve x;\n"
PARITY = b"var x : 0..3 := uniform 0..3;\nobserve x mod 2;\n"


def limited(size: int) -> Callable[[], None]:
    """What gives a process no more address space than this."""
    return lambda: resource.setrlimit(resource.RLIMIT_AS, (size, size))


LOADER_FAILED = 127


def is_started(outcome: Outcome) -> bool:
    """Under a limit that is too small for the program's own code the system, or its loader, ends it before its first step."""
    return outcome.status is None or 0 <= outcome.status != LOADER_FAILED


def refused_calls(count: int) -> list[int]:
    """Which of so many allocations are refused: the first ones each, and some of those behind them, the last among these."""
    behind = range(EACH + 1, count + 1)
    return [*range(1, min(EACH, count) + 1), *behind[:: -max(1, len(behind) // SPREAD)]]


def try_refusals(program: Program, report: Report, folder: Path, words: Sequence[str], whole: Outcome) -> str:
    """Refuses one allocation of a run."""
    outcome, count = run_refusing(program.path, words, folder, None)
    report.add(outcome, f"{words}, stopped at each allocation", None, {whole.status})
    calls = refused_calls(count)
    for call in calls:
        outcome, _ = run_refusing(program.path, words, folder, call)
        report.add(outcome, f"{words} without allocation {call}", None, {WANT_OF_MEMORY, whole.status})
        if outcome.status == whole.status and outcome.out != whole.out:
            report.refuse(f"{words} without allocation {call}: another answer")
    return f"{len(calls)} of {count} allocations refused one by one"


def try_limits(program: Program, report: Report, folder: Path, words: Sequence[str], whole: Outcome) -> str:
    """Steps the limit on the address space up, until the answer has come sixteen times."""
    size, short, answered, started = STEP, 0, 0, False
    while answered < 16:
        size += STEP
        try:
            outcome = program.run(*words, folder=folder, before=limited(size))
        except OSError:
            continue  # the limit leaves no room to begin at all
        started = started or is_started(outcome)
        if not started:
            continue
        answered = answered + 1 if outcome.status == whole.status else 0
        short += outcome.status == WANT_OF_MEMORY
        report.add(outcome, f"{words} within {size} bytes", None, {WANT_OF_MEMORY, whole.status})
        if outcome.status == whole.status and outcome.out != whole.out:
            report.refuse(f"{words} within {size} bytes: another answer")
    return f"{short} limits too short, enough from {(size - 15 * STEP) // 1024} KiB on"


def try_memory(program: Program, report: Report, folder: Path) -> str:
    """Tries all of it on some commands, and says where memory was enough."""
    folder.mkdir()
    for name, text in (("first.kf", PARITY), ("noisy.kf", NOISY), ("p.kf", SHOWN), ("q.kf", PARITY)):
        (folder / name).write_bytes(text)
    told = []
    for words in (["hyper", "first.kf"], ["leak", "noisy.kf", "--gain", "bayes"], ["refine", "p.kf", "q.kf"], ["make", "60"]):
        whole = program.run(*words, folder=folder)
        seen = [try_limits(program, report, folder, words, whole)]
        if can_stop_programs():
            seen.append(try_refusals(program, report, folder, words, whole))
        told.append(f"{' '.join(words)}: {', '.join(seen)}")
    return "; ".join(told)
