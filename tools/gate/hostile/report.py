"""What trials saw: how often each status came, and what the program may not do."""

from __future__ import annotations

import threading
from collections import Counter
from collections.abc import Collection

from ..program import Outcome
from .statuses import fault_of

TOLD = 20  # how many faults are told one by one


class Report:
    """How often each status came, and how many faults there were, of which the first ones are printed."""

    def __init__(self) -> None:
        self.lock = threading.Lock()
        self.runs = self.faults = 0
        self.statuses: Counter[int | None] = Counter()

    def add(self, outcome: Outcome, case: str, text: bytes | None = None, wanted: Collection[int | None] | None = None) -> None:
        """Takes a run in: what the case was, the program's text where that says more, and the statuses that may come, where not all may."""
        fault = fault_of(outcome)
        if fault is None and wanted is not None and outcome.status not in wanted:
            fault = f"status {outcome.status}, where {' or '.join(sorted(map(str, wanted)))} was to come"
        with self.lock:
            self.runs += 1
            self.statuses[outcome.status] += 1
        if fault is not None:
            self.refuse(f"{case}: {fault}" + ("" if text is None else f", words {list(outcome.words)}, text {text[:300]!r}"))

    def refuse(self, fault: str) -> None:
        """Counts a fault."""
        with self.lock:
            self.faults += 1
            if self.faults <= TOLD:
                print(f"    {fault}", flush=True)

    def tell(self, name: str, what: str) -> None:
        """Prints what was tried and seen."""
        seen = ", ".join(f"{status} {count} times" for status, count in sorted(self.statuses.items(), key=lambda pair: str(pair[0]).zfill(2)))
        print(f"{name}: {what}; {self.runs} runs; statuses: {seen}", flush=True)
