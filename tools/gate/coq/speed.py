"""Makes a large yes and a large no, and says how long kuifje-confirm takes for each.

    tools/run coq.speed [N]

N is how many inners there are, 10,000 where it isn't said. A shows which of N values there is. B shows one of the two values next to it on a
ring, so its inners have two values each: a yes with 2N entries. The other way round it is a no, whose table has an action for each value."""

from __future__ import annotations

import json
import resource
import sys
import tempfile
from collections.abc import Sequence
from pathlib import Path
from typing import Any

from ..program import run
from .confirm import CONFIRM


def hyper(scale: int, inners: Sequence[Sequence[int]]) -> str:
    """The printed text of a hyper whose inners are all equally likely, and uniform on these values."""
    lines = ["target x", f"scale {scale}", f"inners {len(inners)}"]
    for i, values in enumerate(inners):
        lines.append(f"inner {i} outer 1/{len(inners)}")
        lines += [f"  {x} {'1' if len(values) == 1 else f'1/{len(values)}'}" for x in values]
    return "\n".join(lines) + "\n"


def ring_of(n: int) -> list[tuple[dict[str, Any], str, str, str]]:
    """A yes and a no with n inners: the certificate, the two hypers, and the answer."""
    shown = hyper(2 * n, [[i] for i in range(n)])
    ring = hyper(2 * n, [sorted({i, (i + 1) % n}) for i in range(n)])
    entries = [[str(i), str(j), "1/2"] for i in range(n) for j in sorted({(i - 1) % n, i})]
    yes = {"columns": str(n), "entries": entries, "format": "kuifje-cert-2", "rows": str(n), "verdict": "yes"}
    actions = [{"gains": [[str(i), "1"]], "name": f"b{i}"} for i in range(n)]
    no = {"actions": actions, "format": "kuifje-cert-2", "over": "1", "rest": "0", "verdict": "no"}
    return [(yes, shown, ring, "accepted yes"), (no, ring, shown, "accepted no")]


def main(words: Sequence[str]) -> None:
    """Has both confirmed."""
    with tempfile.TemporaryDirectory() as name:
        cert, a, b = (Path(name) / file for file in ("cert.json", "a.txt", "b.txt"))
        for certificate, first, second, answer in ring_of(int(words[0]) if words else 10000):
            cert.write_text(json.dumps(certificate, separators=(",", ":")) + "\n")
            a.write_text(first)
            b.write_text(second)
            before = resource.getrusage(resource.RUSAGE_CHILDREN).ru_utime
            done = run([CONFIRM, cert, a, b], seconds=None)
            after = resource.getrusage(resource.RUSAGE_CHILDREN)
            print(f"{done.answer.strip() or done.message.strip()}: {after.ru_utime - before:.2f} s, {after.ru_maxrss // 1024} MB")
            if done.answer.strip() != answer:
                sys.exit(1)


if __name__ == "__main__":
    main(sys.argv[1:])
