"""What the program may say: the statuses and lines of docs/COMMANDS.md."""

from __future__ import annotations

import os
import re

from ..program import PATIENCE, Outcome

FAULTS_OF_A_TEXT = "Utf8|Char|Number|Deep|Syntax|Long|NoVariable|Twice|BadRange|TypeTooLarge|TooManyVariables|StoreTooWide|Unknown|" "Clash|BadFlip"
FAULTS_OF_A_RUN = "DivZero|ArithWide|OutOfRange|NoWeight|NegativeWeight|RangeLong|LoopBound"
WIDTH = r"2\^127 - 1"

# The lines that docs/COMMANDS.md has for each status. Nothing but them may stand on `err`.
LINES = {
    0: "",
    1: "",
    2: r"(kuifje: usage: kuifje COMMAND \[FILES\] \[--gain G\] \[--turns N\] \[--json\]\n)?",
    3: r"kuifje: NAME: read failed\n",
    4: r"kuifje: write failed\n",
    5: rf"kuifje: NAME:\d+:\d+: ({FAULTS_OF_A_TEXT})\n",
    6: rf"kuifje: NAME:\d+:\d+: ({FAULTS_OF_A_RUN})\n",
    7: rf"kuifje: (NAME: scale passes {WIDTH}|gain passes {WIDTH}|certificate passes {WIDTH}|channel passes {WIDTH}|"
    r"tableau passes 2\^62 after \d+ pivots)\n",
    8: r"kuifje: (NAME: \d+ stores|tableau has \d+ cells|channel has \d+ cells|more than 20000 pivots)\n",
    9: r"kuifje: NAME: (Json|Wide|Empty|Unknown|Twice|Form [1-7])\n",
    10: r"kuifje: (target is not initial|targets differ|rows differ|channels do not fit)\n",
    11: r"kuifje: NAME: longer than 1048576 bytes\n",
    12: r"(kuifje: want of memory\n)?",
    13: r"kuifje: NAME: \d+ statements\n",
}


def fault_of(outcome: Outcome) -> str | None:
    """What the program may not do, or None. Nothing is said of a stream that went elsewhere."""
    if outcome.status is None:
        return f"no end within {PATIENCE:.0f} seconds"
    if outcome.status not in LINES:
        return f"status {outcome.status}"
    names = b"|".join(re.escape(os.fsencode(word).removeprefix(b"table:")) for word in outcome.words)
    line = LINES[outcome.status].encode().replace(b"NAME", b"(" + names + b")")
    if outcome.err is not None and re.fullmatch(line, outcome.err) is None:
        return f"status {outcome.status} with {outcome.err[:200]!r} on err"
    if outcome.out and outcome.status not in (0, 1, 4):
        return f"status {outcome.status} with {outcome.out[:200]!r} on out"
    return None
