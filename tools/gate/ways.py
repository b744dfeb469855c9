"""Compares the built program with a plain one that goes every way through small programs.

    .ci/ways [PROGRAM]

The plain one is plain.py, which works with fractions. It answers what `hyper`, `traces`, `channel` and `trail` are asked in the cases of
crates/kf_cases/data, unless there are too many ways, and the same of programs that are made from numbers that are always the same. Of these it
also knows what `quiet` and `blame` must print, and what is seen of two of them at any prior: where `covers` says yes, it tries a hundred priors
and gain tables; where it says no, the printed table at the uniform prior. Of 500 others, with loops and branches in one another, it knows what
`lines` must print under three gains. Ends with 1 where something else is printed. The program is bin/kuifje where no other is named."""

from __future__ import annotations

import random
import sys
import tempfile
from collections import defaultdict
from collections.abc import Callable, Iterator, Sequence
from fractions import Fraction
from functools import partial
from pathlib import Path

from kuifje.source import Statement
from kuifje.texts import GainTable, Hyper, Verdict
from kuifje.values import Value

from .case_files import Case, every_case
from .plain import Large, Program
from .program import named
from .trial import Trial, said

ROUNDS, PRIORS, NESTED = 60, 100, 500
COMMANDS = ("hyper", "traces", "channel", "trail")
STORES = [(x, b) for x in (-1, 0, 1) for b in (False, True)]
Numbers = random.Random
Gain = Callable[[Value], Fraction]
Columns = list[dict[Value, Fraction]]


def compare(trial: Trial, words: Sequence[str], wanted: tuple[int, list[str]]) -> None:
    """The status and the lines of an answer, or of a refusal, are these."""
    outcome = trial.ask(*words)
    told = outcome.status, (outcome.answer or outcome.message).splitlines()
    if told != wanted:
        trial.wrong(f"{said(words)}: {told}, and {wanted} by the plain program")


def by_plain(text: str, turns: int, command: str, *options: str) -> tuple[int, list[str]]:
    """What a command must print of p.kf, and its status."""
    status, lines = Program(text, turns).answer(command, *options)
    if status:
        lines = ["kuifje: p.kf:" + (" " if status == 7 else "") + line for line in lines]
    return status, lines


# ---- the programs of the cases


def questions() -> Iterator[tuple[str, list[str], str]]:
    """Of each case of one program that is asked a command of ``COMMANDS``: the command, the words after the file, and the program."""
    for _, case in every_case():
        question = question_of(case)
        if question is not None:
            yield question


def question_of(case: Case) -> tuple[str, list[str], str] | None:
    """The command of a case, the words after the file, and the text of the file; none where it asks something else, or the file is no text."""
    try:
        words = b" ".join(case.argv[1:]).decode().replace("--turns=", "--turns ").split(" ")
        command, *rest = words
        if command not in COMMANDS or case.status not in (0, 6, 7) or rest[1:2] not in ([], ["--turns"]) or not 1 <= len(rest) <= 3:
            return None
        content = case.read.get(rest[0].encode())
        return None if content is None else (command, rest[1:], content.decode())
    except UnicodeDecodeError:
        return None


def cases_beside(trial: Trial) -> tuple[int, int]:
    """How many cases of one program were compared, and how many have too many ways."""
    compared, large = 0, 0
    for command, options, text in questions():
        try:
            wanted = by_plain(text, int((options[1:] or ["1024"])[0]), command)
        except (Large, RecursionError):
            large += 1
            continue
        trial.write("p.kf", text)
        compare(trial, [command, "p.kf", *options], wanted)
        compared += 1
    return compared, large


# ---- programs made from numbers

OF_NUMBERS = ["-x", "cond(b, 0, x)", "uniform -1..x", "choose { x : 1, 0 : 2 }", "uniform {x, 0}"]
OF_TRUTHS = ["not b", "x < 0", "flip 1/3", "x in {0, 1} implies b"]
GUARDS = ["b", "x = 0", "flip 1/3", "choose { b : 2, x < 0 : 1 }"]
SHOWN = ["x", "b", "(x > 0, b)", "flip 1/3", "choose { x : 3, -x : 1 }", "{x, 0} less {1}", "choose { (x, b) : x + 1, (0, not b) : 2 }"]
TARGETS = ["", "about x;\n", "about old b;\n", "about old x, b;\n", "about old b, old x;\n"]


def observation(numbers: Numbers) -> str:
    """An observation."""
    return f"observe {numbers.choice(SHOWN)};"


def assignment(numbers: Numbers) -> str:
    """An assignment to one of the two variables."""
    slot = numbers.randrange(2)
    return f"{'xb'[slot]} := {numbers.choice((OF_NUMBERS, OF_TRUTHS)[slot])};"


def branch(numbers: Numbers) -> str:
    """An `if` with some statements in both branches."""
    return f"if {numbers.choice(GUARDS)} {{\n{block(some(numbers, 0, 2))}}} else {{\n{block(some(numbers, 0, 1))}}}"


def loop(numbers: Numbers) -> str:
    """A `while` that ends."""
    return f"while x > 0 {{\nx := x - 1;\n{observation(numbers) if numbers.random() < 0.5 else ''}\n}}"


def some(numbers: Numbers, least: int, most: int) -> list[str]:
    """So many statements; where only one may be, it has no others in it."""
    makers = [assignment, observation] * 2 + [branch, loop] * (most > 1)
    return [numbers.choice(makers)(numbers) for _ in range(numbers.randint(least, most))]


def block(statements: Sequence[str]) -> str:
    """Statements as a text."""
    return "".join(statement + "\n" for statement in statements)


def declarations(numbers: Numbers, chance: float, first: str) -> str:
    """Two variables, each visible with this probability; the first one begins with a distribution."""
    words = ["vis" if numbers.random() < chance else "var" for _ in range(2)]
    return f"{words[0]} x : -1..1 := {first};\n{words[1]} b : bool := flip 1/2;\n"


def runs_beside(trial: Trial) -> None:
    """Compares `hyper`, `traces`, `trail` and, where the target is initial, `channel` of one program."""
    numbers = trial.numbers
    first = numbers.choice(("uniform -1..1", "choose { -1 : 1, 0 : 2, 1 : 3 }"))
    text = trial.write("p.kf", declarations(numbers, 0.3, first) + numbers.choice(TARGETS) + block(some(numbers, 1, 4)))
    for command in ("hyper", "traces", "trail", *(["channel"] if "about old b" in text else [])):
        compare(trial, [command, "p.kf"], by_plain(text, 1024, command))


# ---- quiet blocks


def hyper_lines(program: Program, statements: Sequence[Statement], first: int, last: int) -> list[str]:
    """What is left of a program where a block's leaks are left out."""
    ways = program.run(statements[:first], program.starts())
    ways = program.run(statements[first:last], ways, quiet=True)
    return program.hyper(program.run(statements[last:], ways))


def bayes(lines: list[str]) -> Fraction:
    """How likely one guess is right, by the lines of a hyper."""
    hyper = Hyper.parse("".join(f"{line}\n" for line in lines))
    return sum((inner.outer * max(inner.distribution.values()) for inner in hyper.inners), Fraction(0))


def quiet_beside(trial: Trial) -> None:
    """Compares `quiet` of each block of a program, and `blame`."""
    numbers = trial.numbers
    text = trial.write("p.kf", declarations(numbers, 0.3, "uniform -1..1") + "about old x, b;\n" + block(some(numbers, 1, 4)))
    program = Program(text)
    count = len(program.body)
    for first in range(count):
        for last in range(first + 1, count + 1):
            compare(trial, ["quiet", "p.kf", f"{first}..{last}"], (0, hyper_lines(program, program.body, first, last)))
    compare(trial, ["quiet", "p.kf", f"{count}..{count + 1}"], (13, [f"kuifje: p.kf: {count} statements"]))
    hypers = [hyper_lines(program, program.body, 0, 0)] + [hyper_lines(program, program.body, i, i + 1) for i in range(count)]
    heads = ["all"] + [f"without {i}" for i in range(count)]
    compare(trial, ["blame", "p.kf"], (0, [f"{head} {lines[2]} bayes {bayes(lines)}" for head, lines in zip(heads, hypers)]))


# ---- silent statements, wherever they stand

IN_LOOPS = [
    "observe x;",
    "observe b;",
    "b := not b;",
    "if b {\nobserve x;\n} else {\nb := x = 0;\n}",
    "while b {\nb := false;\nobserve x;\n}",
    "if flip 1/3 {\nwhile b {\nb := x > 0;\nx := 0;\n}\n} else {\nskip;\n}",
]
GAINS = ["bayes", "tries:2", "guessing"]


def nested(numbers: Numbers) -> str:
    """A `while` with statements that have others in them."""
    return f"while x > 0 {{\nx := x - 1;\n{block(numbers.choices(IN_LOOPS, k=numbers.randint(1, 2)))}}}"


def lines_beside(trial: Trial) -> None:
    """Compares `lines` of a program whose statements stand in one another."""
    numbers = trial.numbers
    first = numbers.choice(("uniform -1..1", "choose { -1 : 1, 0 : 2, 1 : 3 }"))
    statements = [*some(numbers, 0, 3), nested(numbers), *some(numbers, 0, 2)]
    text = trial.write("p.kf", declarations(numbers, 0.5, first) + numbers.choice(TARGETS) + block(statements))
    for gain in GAINS:
        compare(trial, ["lines", "p.kf", "--gain", gain], by_plain(text, 1024, "lines", gain))


# ---- all priors


def at(program: Program, prior: Sequence[int]) -> Columns:
    """What is seen at a prior: for each trace the weights of the pairs of an initial store and the store after the statements."""
    columns: defaultdict[tuple[Value, ...], dict[Value, Fraction]] = defaultdict(lambda: defaultdict(Fraction))
    starts = program.with_copies(dict(zip(STORES, map(Fraction, prior))))
    for (trace, store), weight in program.run(program.body, {((), store): weight for store, weight in starts.items() if weight}).items():
        columns[trace][program.target_in(store)] += weight
    return list(columns.values())


def vulnerability(columns: Columns, actions: Sequence[Gain]) -> Fraction:
    """The posterior one under a table, whose actions are functions on pairs."""
    return sum(
        (max(sum((weight * gain(pair) for pair, weight in column.items()), Fraction(0)) for gain in actions) for column in columns), Fraction(0)
    )


def actions_of(table: GainTable) -> list[Gain]:
    """The actions of a printed table."""
    return [partial(table.gain, action) for action in table.actions]


def guesses(numbers: Numbers, pairs: Sequence[Value]) -> list[Gain]:
    """Two to four actions, whose gains at these pairs are whole numbers."""
    tables = [{pair: Fraction(numbers.randint(-3, 9)) for pair in pairs} for _ in range(numbers.randint(2, 4))]
    return [gains.__getitem__ for gains in tables]


def yes_beside(trial: Trial, first: Program, second: Program) -> None:
    """At no prior does the second program leak more."""
    pairs = [start + end for start in STORES for end in STORES]
    for _ in range(PRIORS):
        prior, actions = [trial.numbers.choice((0, 1, 1, 2, 7)) for _ in STORES], guesses(trial.numbers, pairs)
        if vulnerability(at(first, prior), actions) < vulnerability(at(second, prior), actions):
            trial.wrong(f"covers says yes, and the prior {prior} says no")


def no_beside(trial: Trial, first: Program, second: Program, table: GainTable) -> None:
    """At the uniform prior the second program leaks more by the table."""
    prior, actions = [1] * len(STORES), actions_of(table)
    if vulnerability(at(first, prior), actions) >= vulnerability(at(second, prior), actions):
        trial.wrong(f"covers says no by a table that doesn't separate: {table}")


def covers_beside(trial: Trial) -> bool:
    """Whether `covers` says no of two programs, which is compared with what is seen of them."""
    numbers = trial.numbers
    first = some(numbers, 1, 3)
    kept = [statement for statement in first if not statement.startswith("observe") or numbers.random() < 0.4]
    second = numbers.choice((kept, kept, [*first, observation(numbers)], some(numbers, 1, 2)))
    words = declarations(numbers, 0.2, "0")
    one, other = (
        Program(trial.write(name, words + "about old x, old b, x, b;\n" + block(statements)))
        for name, statements in (("p.kf", first), ("q.kf", second))
    )
    table = trial.read(Verdict, "covers", "p.kf", "q.kf").table
    if table is None:
        yes_beside(trial, one, other)
    else:
        no_beside(trial, one, other, table)
    return table is not None


def main(words: Sequence[str]) -> None:
    """Makes all comparisons, and says how many they were."""
    with tempfile.TemporaryDirectory() as scratch:
        trial = Trial(named(words), Path(scratch), random.Random(1))
        compared, large = cases_beside(trial)
        for _ in range(ROUNDS):
            runs_beside(trial)
            quiet_beside(trial)
        verdicts = [covers_beside(trial) for _ in range(ROUNDS)]
        for _ in range(NESTED):
            lines_beside(trial)
    if not compared or not 0 < sum(verdicts) < ROUNDS:
        sys.exit("no case is compared, or all verdicts are alike")
    print(
        f"{compared} programs of cases, {2 * ROUNDS + NESTED} others and {ROUNDS} pairs: the program and the plain one agree; "
        f"{large} cases have too many ways"
    )


if __name__ == "__main__":
    main(sys.argv[1:])
