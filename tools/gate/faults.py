"""How a check ends."""

from __future__ import annotations

import sys
from collections.abc import Sequence
from typing import NoReturn


def end(faults: Sequence[str]) -> NoReturn:
    """Prints what is wrong on standard error, and ends with 1 where anything is."""
    print(*faults, sep="\n", end="\n" if faults else "", file=sys.stderr)
    sys.exit(1 if faults else 0)
