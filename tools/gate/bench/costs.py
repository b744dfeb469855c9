"""Measures what small texts cost, for the table of docs/COSTS.md.

    tools/run bench.costs [PROGRAM]

Each question is asked once, in a process of its own, with a limit on its address space and on its processor seconds. Prints the rows of the table:
how many bytes the text has, what it is, the command, and processor seconds, greatest memory and length of the answer, or the status, or that it was
stopped. Memory is seen from that on which Python takes itself. The program is bin/kuifje where no other is named."""

from __future__ import annotations

import sys
import tempfile
from collections.abc import Mapping, Sequence
from pathlib import Path

from ..program import named
from ..repository import EXAMPLES
from .measured import machine, measured, own_megabytes

CODES = "var a : 0..999 := uniform 0..999;\nvar b : 0..999 := uniform 0..999;\nabout old a, old b;\n" + "".join(
    f"observe a = {n} and b = {n * 7};\n" for n in range(5)
)


def loops() -> str:
    """Six nested loops to 1,000."""
    declared = "".join(f"var {name}:0..1000:=0;" for name in "abcdef")
    body = ""
    for name, inner in zip("fedcba", ["", *"fedcb"]):
        reset = f"{inner}:=0;" if inner else ""
        body = f"while {name}<1000{{{reset}{body}{name}:={name}+1;}}"
    return declared + body


def table(actions: int) -> str:
    """A gain table of so many actions."""
    rows = ",".join(f'{{"gains":[["0",1]],"name":"a{n}"}}' for n in range(actions))
    return f'{{"actions":[{rows}],"format":"kuifje-gain-1","over":1,"rest":0}}'


# What it is; its texts; the words; the megabytes of address space and the processor seconds that it may have.
QUESTIONS: list[tuple[str, dict[str, str], str, int, int]] = [
    ("six nested loops to 1,000: 10^18 turns", {"p.kf": loops()}, "hyper p.kf", 2000, 20),
    (
        "two variables, uniform on 0..65535: 2^32 stores",
        {"p.kf": "var x:0..65535:=uniform 0..65535;\nvar y:0..65535:=uniform 0..65535;"},
        "hyper p.kf",
        2000,
        20,
    ),
    (
        "two variables, uniform on 0..65535 and 0..255",
        {"p.kf": "var x:0..65535:=uniform 0..65535;\nvar y:0..255:=uniform 0..255;"},
        "hyper p.kf",
        4000,
        20,
    ),
    (
        "a variable on 0..65535, drawn again from 65,536 stores",
        {"p.kf": "var x:0..65535:=uniform 0..65535;x:=uniform 0..65535;"},
        "hyper p.kf",
        2000,
        20,
    ),
    ("a variable of 4,096 values, drawn again", {"p.kf": "var x:0..4095:=0;x:=uniform 0..4095;"}, "covers p.kf p.kf", 1500, 20),
    ("22 coins, shown", {"p.kf": "var x:0..1:=0;" + "observe flip 1/2;" * 22}, "traces p.kf", 3000, 20),
    ("20 coins, shown", {"p.kf": "var x:0..1:=0;" + "observe flip 1/2;" * 20}, "traces p.kf", 3000, 20),
    (
        "`x mod 20` and `x mod 40`, `x` on 0..63",
        {"a.kf": "var x:0..63:=uniform 0..63;observe x mod 20;", "b.kf": "var x:0..63:=uniform 0..63;observe x mod 40;"},
        "refine a.kf b.kf",
        2000,
        60,
    ),
    (
        "the same two programs in the other order",
        {"a.kf": "var x:0..63:=uniform 0..63;observe x mod 40;", "b.kf": "var x:0..63:=uniform 0..63;observe x mod 20;"},
        "refine a.kf b.kf",
        2000,
        60,
    ),
    ("59,000 observations", {"p.kf": "var x:0..1:=uniform 0..1;" + "observe x = 1;\n" * 59_000}, "blame p.kf", 2000, 20),
    (
        "a gain table of 29,000 actions",
        {"p.kf": "var x:0..1:=uniform 0..1;observe x;", "t.json": table(29_000)},
        "leak p.kf --gain table:t.json",
        2000,
        20,
    ),
    ("a million one-time codes, five tries", {"p.kf": CODES}, "leak p.kf --gain bayes", 2000, 20),
    ("the salt kept", {"p.kf": (EXAMPLES / "costs/salt_kept.kf").read_text()}, "leak p.kf --gain bayes", 2000, 20),
    ("the salt set", {"p.kf": (EXAMPLES / "costs/salt_set.kf").read_text()}, "leak p.kf --gain bayes", 2000, 20),
]


def cost(program: Path, texts: Mapping[str, str], words: str, megabytes: int, seconds: int) -> str:
    """What became of a question: processor seconds, greatest memory and the length of the answer, or the status, or that it was stopped."""
    with tempfile.TemporaryDirectory() as scratch:
        folder = Path(scratch)
        for name, text in texts.items():
            (folder / name).write_text(text)
        run = measured([program, *words.split()], folder / "out", folder=folder, seconds=seconds, megabytes=megabytes)
        length = (folder / "out").stat().st_size
    own = own_megabytes()
    memory = f"{run.megabytes:.0f} MB" if run.megabytes > own + 1 else f"less than {own + 1:.0f} MB"
    took = f"{run.processor:.2f} s, {memory}"
    if run.status < 0:
        return f"stopped after {took}"
    if run.status > 1:
        return f"status {run.status} after {took}, with {megabytes / 1000} GB allowed"
    return f"{took}" + (f", {length / 1e6:.0f} MB of output" if length > 500_000 else "")


def main(words: Sequence[str]) -> None:
    """Prints the rows."""
    program = named(words).path
    print(machine())
    for what, texts, question, megabytes, seconds in QUESTIONS:
        size = max(map(len, texts.values()))
        print(f"| {size} | {what} | `{question.split()[0]}` | {cost(program, texts, question, megabytes, seconds)} |", flush=True)


if __name__ == "__main__":
    main(sys.argv[1:])
