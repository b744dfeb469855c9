"""Compares the built program with a plain one.

    .ci/beside [PROGRAM]

Makes small programs from numbers that are always the same, has the program print their channels and hypers, and works out by sums, products,
sets and orders of the printed fractions what `capacity`, `cascade`, `parallel`, `choice`, `leak`, `attack`, `reach` and `blame` must print of
them. So it does with the capacities of the examples. `quiet` has to print the hyper of the program that hides in a variable what it showed, and
`covers` what `refine` prints of the programs whose first values are all alike.

Of pairs of hypers it decides by all bases of their equations whether `refine` has to say yes, and tries the printed matrix or table on both.
`check` has to accept the certificate of each verdict, and to reject it where its matrix is changed or its programs change places.

Ends with 1 where something else is printed. The program is bin/kuifje where no other is named."""

from __future__ import annotations

import json
import random
import re
import sys
import tempfile
from collections.abc import Callable, Iterable, Mapping, Sequence
from fractions import Fraction
from functools import partial
from itertools import combinations, permutations
from pathlib import Path
from typing import TypedDict

from kuifje.channels import Channel
from kuifje.texts import GainTable, Hyper, Inner, Verdict
from kuifje.values import Value, format_value

from .program import named
from .repository import EXAMPLES, TOP
from .trial import Trial

ROUNDS, LEAKS, PAIRS = 60, 120, 160
Numbers = random.Random
Row = Sequence[Fraction]
Weights = Sequence[Sequence[int]]  # of columns
Shares = Mapping[Value, Fraction]


# ---- small programs


def prior(numbers: Numbers, size: int) -> str:
    """The cases of a choice of so many values."""
    return ", ".join(f"{value} : {numbers.randint(1, 4)}" for value in range(size))


def observation(numbers: Numbers, size: int) -> str:
    """A number from 0 to 2, with weights that depend on the secret; each has some weight somewhere."""
    weights = ["cond(x = 0, {}, cond(x = 1, {}, {}))".format(*(numbers.randint(0, 3) for _ in range(size))) for _ in range(2)]
    return f"observe choose {{ 0 : {weights[0]}, 1 : {weights[1]}, 2 : 1 }};\n"


def program(numbers: Numbers) -> str:
    """A program with one or two observations."""
    lines = "".join(observation(numbers, 3) for _ in range(numbers.randint(1, 2)))
    return f"var x : 0..2 := choose {{ {prior(numbers, 3)} }};\nabout old x;\n{lines}"


# ---- channels


def channel(trial: Trial, name: str) -> Channel:
    """The channel of a program, as it is printed."""
    return trial.read(Channel, "channel", name)


def rows_of(printed: Channel) -> list[Row]:
    """The rows of a channel without the secrets."""
    return list(printed.rows.values())


def capacity(rows: Sequence[Row]) -> Fraction:
    """The sum of the greatest cells of the columns."""
    return sum((max(column) for column in zip(*rows)), Fraction(0))


def composed(first: Sequence[Row], second: Sequence[Row], both: Sequence[Row]) -> list[str]:
    """What has to be printed of two channels and of what is put together of them."""
    return [f"rows {len(both)}", f"columns {len(both[0])}", f"first {capacity(first)}", f"second {capacity(second)}", f"both {capacity(both)}"]


def cascade(first: Channel, second: Channel) -> list[Row]:
    """What the first channel shows, one value, is the secret of the second."""
    after = [second.rows[shown] for (shown,) in first.columns]
    return [[sum((cell * row[k] for cell, row in zip(line, after)), Fraction(0)) for k in range(len(after[0]))] for line in rows_of(first)]


def parallel(first: Sequence[Row], second: Sequence[Row]) -> list[Row]:
    """Both channels show something of one secret, apart from each other."""
    return [[a * b for a in line for b in other] for line, other in zip(first, second)]


def choice(chance: Fraction, first: Sequence[Row], second: Sequence[Row]) -> list[Row]:
    """The first channel is taken with this probability, and which one is seen."""
    return [[a * chance for a in line] + [b * (1 - chance) for b in other] for line, other in zip(first, second)]


def channels_beside(trial: Trial) -> None:
    """Compares capacities of a program, and of what is put together of two."""
    numbers = trial.numbers
    drawn = trial.write("p.kf", program(numbers))
    for name in "qz":
        trial.write(f"{name}.kf", drawn.split("observe")[0] + observation(numbers, 3))
    p, q, z = (channel(trial, f"{name}.kf") for name in "pqz")
    first, second = rows_of(p), rows_of(q)
    trial.compare(["capacity", "p.kf"], [f"capacity {capacity(first)}"])
    trial.compare(["parallel", "p.kf", "q.kf"], composed(first, second, parallel(first, second)))
    chance = Fraction(numbers.randint(1, 8), 9)
    wanted = composed(first, second, choice(chance, first, second))
    trial.compare(["choice", "p.kf", "q.kf", f"{chance.numerator}/{chance.denominator}"], wanted)
    trial.compare(["cascade", "q.kf", "z.kf"], composed(second, rows_of(z), cascade(q, z)))


def examples_beside(trial: Trial) -> None:
    """The capacities that the pages of the examples show."""
    pages = "".join(path.read_text() for path in EXAMPLES.rglob("*.md"))
    names = sorted(set(re.findall(r"^\$ kuifje capacity (\S+)$", pages, re.MULTILINE)))
    if not names:
        trial.wrong("the pages of the examples show no capacity")
    for name in names:
        trial.compare(["capacity", name], [f"capacity {capacity(rows_of(channel(trial, name)))}"])


# ---- attacks


class Actions(TypedDict):
    """An action of a gain table."""

    name: str
    gains: list[tuple[str, int]]


class Table(TypedDict):
    """A gain table, as a file has it."""

    actions: list[Actions]
    format: str
    over: int
    rest: int


def hyper(trial: Trial, name: str) -> Sequence[Inner]:
    """The inners of a program, as they are printed."""
    return trial.read(Hyper, "hyper", name).inners


def best_set(inner: Shares, tries: int) -> Fraction:
    """The most that so many values come to."""
    return max(sum(chosen, Fraction(0)) for chosen in combinations(inner.values(), min(tries, len(inner))))


def best_order(inner: Shares) -> Fraction:
    """The fewest guesses that an order of the values makes be expected."""
    return min(sum((place * share for place, share in enumerate(order, 1)), Fraction(0)) for order in permutations(inner.values()))


def likeliest(inner: Shares) -> list[Value]:
    """The values with the most probable ones first, and of equals the least first."""
    return sorted(inner, key=lambda value: (-inner[value], value))


def gained(table: Table, action: Actions, inner: Shares) -> Fraction:
    """What an action gains."""
    gains = dict(action["gains"])
    return sum((share * gains.get(format_value(value), table["rest"]) for value, share in inner.items()), Fraction(0)) / table["over"]


def best_action(table: Table, inner: Shares) -> Fraction:
    """What the best action gains."""
    return max(gained(table, action, inner) for action in table["actions"])


def attack(gain: str, inners: Sequence[Inner], worth: Callable[[Shares], Fraction], lines: Callable[[Shares], Iterable[str]]) -> list[str]:
    """What has to be printed of an attack."""
    told = [f"gain {gain}"]
    for number, inner in enumerate(inners):
        told += [f"inner {number} outer {inner.outer} value {worth(inner.distribution)}", *lines(inner.distribution)]
    return told


def listed(count: int | None) -> Callable[[Shares], list[str]]:
    """The lines of so many guesses, or of all."""
    return lambda inner: [f"  {format_value(value)} {inner[value]}" for value in likeliest(inner)[:count]]


def table_of(numbers: Numbers, size: int) -> Table:
    """A table of three actions for values from 0 to below `size`."""
    actions: list[Actions] = [
        {"name": name, "gains": [(str(value), numbers.randint(-3, 8)) for value in numbers.sample(range(size), numbers.randint(0, size))]}
        for name in "abc"
    ]
    return {"actions": actions, "format": "kuifje-gain-1", "over": numbers.randint(1, 5), "rest": numbers.randint(-5, 2)}


def expected(inners: Sequence[Inner], worth: Callable[[Shares], Fraction]) -> Fraction:
    """What the inners are worth, by their outers."""
    return sum((inner.outer * worth(inner.distribution) for inner in inners), Fraction(0))


def attacks_beside(trial: Trial) -> None:
    """Compares `attack` under each kind of gain, and `reach`, of p.kf."""
    numbers = trial.numbers
    inners, table = hyper(trial, "p.kf"), table_of(numbers, 3)
    trial.write("g.json", json.dumps(table))

    def action_lines(inner: Shares) -> list[str]:
        return [f"  {action['name']} {gained(table, action, inner)}" for action in table["actions"]]

    for gain, word, worth, lines in (
        ("bayes", "bayes", lambda inner: best_set(inner, 1), listed(1)),
        ("tries 2", "tries:2", lambda inner: best_set(inner, 2), listed(2)),
        ("guessing", "guessing", best_order, listed(None)),
        ("table", "table:g.json", lambda inner: best_action(table, inner), action_lines),
    ):
        trial.compare(["attack", "p.kf", "--gain", word], attack(gain, inners, worth, lines))
    posteriors = [Fraction(0), *(expected(inners, partial(best_set, tries=tries)) for tries in (1, 2, 3))]
    wanted = Fraction(numbers.randint(1, 12), 12)
    tries = next(k for k in (1, 2, 3) if posteriors[k] >= wanted)
    trial.compare(
        ["reach", "p.kf", f"{wanted.numerator}/{wanted.denominator}"],
        [f"tries {tries}", f"posterior {posteriors[tries]}", f"before {posteriors[tries - 1]}"],
    )


# ---- leaks of hypers of six values


def by_value(weights: Sequence[int]) -> str:
    """The weight of each value of x, as one expression."""
    text = str(weights[-1])
    for value, weight in reversed(list(enumerate(weights[:-1]))):
        text = f"cond(x = {value}, {weight}, {text})"
    return text


def joint_program(columns: Weights) -> str:
    """The program whose traces have these columns of weights."""
    totals = ", ".join(f"{value} : {sum(weights)}" for value, weights in enumerate(zip(*columns)))
    cases = ", ".join(f"{number} : {by_value(column)}" for number, column in enumerate(columns))
    return f"var x : 0..{len(columns[0]) - 1} := choose {{ {totals} }};\nobserve choose {{ {cases} }};\n"


def some_column(numbers: Numbers) -> list[int]:
    """One, two, three or all of six values have some weight."""
    held = numbers.sample(range(6), numbers.choice((1, 2, 3, 3, 6, 6)))
    return [numbers.randint(1, 5) if value in held else 0 for value in range(6)]


def reported(gain: str, prior: Fraction, posterior: Fraction) -> list[str]:
    """What has to be printed of a leak."""
    quotient = posterior / prior if prior > 0 else "undefined"
    return [f"gain {gain}", f"prior {prior}", f"posterior {posterior}", f"quotient {quotient}", f"difference {posterior - prior}"]


def leaks_beside(trial: Trial) -> None:
    """What a set, an order or an action comes to for a column's weights is the column's share of the posterior vulnerability."""
    numbers = trial.numbers
    columns, table = [some_column(numbers) for _ in range(3)], table_of(numbers, 6)
    trial.write("p.kf", joint_program(columns))
    trial.write("g.json", json.dumps(table))
    whole = sum(sum(column) for column in columns)
    shares: list[Shares] = [{value: Fraction(weight, whole) for value, weight in enumerate(column) if weight} for column in columns]
    before: Shares = {value: Fraction(sum(weights), whole) for value, weights in enumerate(zip(*columns)) if any(weights)}
    worths: dict[str, Callable[[Shares], Fraction]] = {
        "bayes": lambda inner: best_set(inner, 1),
        "guessing": best_order,
        **{f"tries:{k}": partial(best_set, tries=k) for k in (1, 2, 3)},
        "table:g.json": lambda inner: best_action(table, inner),
    }
    for gain, worth in worths.items():
        name = "table" if gain.startswith("table") else gain.replace(":", " ")
        trial.compare(["leak", "p.kf", "--gain", gain], reported(name, worth(before), sum(map(worth, shares), Fraction(0))))


# ---- pairs of hypers of two or three values


def reduced(given: Sequence[Row]) -> list[list[Fraction]]:
    """Rows in which each first entry is 1 and stands alone in its column; there are as many as are independent."""
    rows, done = [list(map(Fraction, row)) for row in given], 0
    for place in range(len(rows[0])):
        found = next((i for i in range(done, len(rows)) if rows[i][place]), None)
        if found is not None:
            rows[done], rows[found] = rows[found], rows[done]
            first = [entry / rows[done][place] for entry in rows[done]]
            rows = [first if i == done else [entry - row[place] * one for entry, one in zip(row, first)] for i, row in enumerate(rows)]
            done += 1
    return rows[:done]


def is_solved_by(rows: Sequence[Row], basis: Sequence[int]) -> bool:
    """Whether the unknowns of a basis alone have a solution in which none is negative."""
    solved = reduced([[*(row[place] for place in basis), row[-1]] for row in rows])
    return all(row[i] == 1 and row[-1] >= 0 for i, row in enumerate(solved)) and len(solved) == len(basis)


def is_solvable(given: Sequence[Row]) -> bool:
    """Whether equations, each with its right side last, have a solution in which no unknown is negative: tries all bases."""
    rows = reduced(given)
    return any(rows[-1][:-1]) and any(is_solved_by(rows, basis) for basis in combinations(range(len(rows[0]) - 1), len(rows)))


def equations(a: Sequence[Row], b: Sequence[Row]) -> list[Row]:
    """Those of a matrix that carries the columns a to the columns b: of each value and column of b, and of each row's sum."""
    unknowns = [(i, j) for i in range(len(a)) for j in range(len(b))]
    cells: list[Row] = [[*(a[i][x] if j == k else Fraction(0) for i, j in unknowns), b[k][x]] for x in range(len(a[0])) for k in range(len(b))]
    return cells + [[*(Fraction(i == k) for i, _ in unknowns), Fraction(1)] for k in range(len(a))]


def columns_of(trial: Trial, name: str, values: int) -> list[Row]:
    """The joint probabilities of each inner with each value from 0 on."""
    return [[inner.outer * inner.distribution.get(value, Fraction(0)) for value in range(values)] for inner in hyper(trial, name)]


def carries(matrix: Sequence[Row], a: Sequence[Row], b: Sequence[Row]) -> bool:
    """Whether the matrix carries the columns a to the columns b."""
    images = [[sum((column[x] * row[j] for column, row in zip(a, matrix)), Fraction(0)) for x in range(len(a[0]))] for j in range(len(b))]
    return all(sum(row) == 1 and min(row) >= 0 and len(row) == len(b) for row in matrix) and len(matrix) == len(a) and images == list(b)


def separates(table: GainTable, a: Sequence[Row], b: Sequence[Row]) -> bool:
    """Whether the table gains less by the columns a than by the columns b."""

    def gained_by(columns: Sequence[Row]) -> Fraction:
        worths = (
            max(sum((weight * table.gain(action, x) for x, weight in enumerate(column)), Fraction(0)) for action in table.actions)
            for column in columns
        )
        return sum(worths, Fraction(0))

    return table.over == 1 and gained_by(a) < gained_by(b)


def marked(trial: Trial, matrix: Sequence[Row], mark: str) -> None:
    """A certificate of this matrix gets this mark."""
    cert = {"format": "kuifje-cert-1", "matrix": [list(map(str, row)) for row in matrix], "verdict": "yes"}
    trial.write("changed.json", json.dumps(cert))
    trial.compare(["check", "changed.json", "p.kf", "q.kf"], [mark])


def changes_beside(trial: Trial, matrix: Sequence[Row]) -> None:
    """Changes over the first two entries of the last row, which carries no column to itself only where they are equal, and then changes the first
    one, so that the row sums to 1 no longer."""
    changed = [list(row) for row in matrix]
    last = changed[-1]
    marked(trial, changed, "accepted")
    last[:2] = reversed(last[:2])
    marked(trial, changed, "accepted" if len(set(last[:2])) == 1 else "rejected cell")
    last[0] = Fraction(0 if last[0] else Fraction(1, 2))
    marked(trial, changed, "rejected sum")


def verdict_beside(trial: Trial, first: Weights, second: Weights) -> bool:
    """Whether the verdict on the programs of these columns is yes."""
    trial.write("p.kf", joint_program(first))
    trial.write("q.kf", joint_program(second))
    a, b = (columns_of(trial, name, len(first[0])) for name in ("p.kf", "q.kf"))
    verdict = trial.read(Verdict, "refine", "p.kf", "q.kf")
    yes = is_solvable(equations(a, b))
    if verdict.refines != yes:
        trial.wrong(f"refine: {verdict}, where trying all bases says {yes}; the columns are {first} and {second}")
    matrix, table = verdict.matrix, verdict.table
    if not (matrix is not None and carries(matrix.rows, a, b) or table is not None and separates(table, a, b)):
        trial.wrong(f"refine: {verdict} doesn't prove what it says; the columns are {first} and {second}")
    trial.write("cert.json", trial.answer("refine", "p.kf", "q.kf", "--json"))
    trial.compare(["check", "cert.json", "p.kf", "q.kf"], ["accepted"])
    if matrix is not None:
        changes_beside(trial, matrix.rows)
    else:
        trial.compare(["check", "cert.json", "q.kf", "p.kf"], ["rejected order"])
    return yes


def drawn(numbers: Numbers, columns: int, values: int) -> list[list[int]]:
    """Columns of weights."""
    return [[numbers.randint(0, 4) for _ in range(values)] for _ in range(columns)]


def parts(numbers: Numbers, whole: int, count: int) -> list[int]:
    """So many parts of a whole, some of which may be 0."""
    found: list[int] = []
    while len(found) < count - 1:
        found.append(numbers.randint(0, whole - sum(found)))
    return [*found, whole - sum(found)]


def second_of(numbers: Numbers, kind: str, first: Weights) -> Weights:
    """`garbled`: each column is split into quarters, which are joined anew. `near`: the same, and then a unit of weight at one value goes to
    another column. `free`: twice the weight of each value is split anew. `other`: all weights are new."""
    count, values = len(first), len(first[0])
    if kind == "other":
        return drawn(numbers, count, values)
    if kind == "free":
        return [list(column) for column in zip(*(parts(numbers, 2 * sum(weights), count) for weights in zip(*first)))]
    quarters = [parts(numbers, 4, count) for _ in first]
    second = [[sum(column[x] * share[j] for column, share in zip(first, quarters)) for x in range(values)] for j in range(count)]
    if kind == "near":
        x, one, other = numbers.randrange(values), numbers.randrange(count), numbers.randrange(count)
        if second[one][x]:
            second[one][x] -= 1
            second[other][x] += 1
    return second


def verdicts_beside(trial: Trial, kind: str) -> tuple[int, int]:
    """How many verdicts on pairs of a kind are no, and how many are yes."""
    told = [0, 0]
    for number in range(PAIRS):
        first = drawn(trial.numbers, 2 + number % 2, 2 + number // 2 % 2)
        second = second_of(trial.numbers, kind, first)
        if any(map(any, first)) and any(map(any, second)):
            told[verdict_beside(trial, first, second)] += 1
    return told[0], told[1]


# ---- quiet statements, and every first value


def quiet_beside(trial: Trial) -> None:
    """A quiet observation is an assignment to a variable that no target names."""
    numbers = trial.numbers
    head = f"var x : 0..2 := choose {{ {prior(numbers, 3)} }};\nvar hidden : 0..2 := 0;\nabout old x;\n"
    lines = [observation(numbers, 3) for _ in range(3)]
    told = []
    for begin, end in [(0, 0), (0, 1), (1, 2), (2, 3), (1, 3)]:
        hushed = [line.replace("observe", "hidden :=") if begin <= place < end else line for place, line in enumerate(lines)]
        trial.write(f"{begin}{end}.kf", head + "".join(hushed))
        if begin < end:
            trial.compare(["quiet", "00.kf", f"{begin}..{end}"], trial.answer("hyper", f"{begin}{end}.kf").splitlines())
        if end - begin < 2:
            inners = hyper(trial, f"{begin}{end}.kf")
            name = f"without {begin}" if begin < end else "all"
            told.append(f"{name} inners {len(inners)} bayes {expected(inners, partial(best_set, tries=1))}")
    trial.compare(["blame", "00.kf"], told)


def covers_beside(trial: Trial) -> None:
    """`covers` prints what `refine` prints of the programs whose first values are all alike."""
    numbers = trial.numbers
    for name in "ab":
        lines = observation(numbers, 3) + "x := choose { x : 3, 2 - x : 1 };\n"
        trial.write(f"{name}.kf", f"var x : 0..2 := choose {{ {prior(numbers, 3)} }};\n{lines}")
        trial.write(f"{name}_full.kf", f"var x : 0..2 := uniform 0..2;\nabout old x, x;\n{lines}")
    for a, b in (("a", "b"), ("a", "a")):
        trial.compare(["covers", f"{a}.kf", f"{b}.kf"], trial.answer("refine", f"{a}_full.kf", f"{b}_full.kf").splitlines())


def main(words: Sequence[str]) -> None:
    """Makes all comparisons, and says how many they were."""
    built, numbers = named(words), random.Random(1)
    examples_beside(Trial(built, TOP, numbers))
    with tempfile.TemporaryDirectory() as scratch:
        trial = Trial(built, Path(scratch), numbers)
        for _ in range(LEAKS):
            leaks_beside(trial)
        told = {kind: verdicts_beside(trial, kind) for kind in ("garbled", "near", "free", "other")}
        if told["garbled"][0] or any(min(told[kind]) < 10 for kind in ("near", "free")) or told["other"][0] < 100:
            sys.exit(f"of these pairs so many are separated and so many carried: {told}")
        for _ in range(ROUNDS):
            channels_beside(trial)
            attacks_beside(trial)
            quiet_beside(trial)
            covers_beside(trial)
    print(f"{ROUNDS} rounds, {LEAKS} leaks and {sum(no + yes for no, yes in told.values())} pairs: the program and the plain one agree")


if __name__ == "__main__":
    main(sys.argv[1:])
