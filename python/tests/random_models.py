"""Random models, as Python sources, and models of sources."""

import linecache
from itertools import count

from hypothesis import strategies as st

from kuifje.model import Model

NUMBERS = count()
HEAD = """
from kuifje.model import Noise, Public, Secret, choose, flip, hide, model, observe, one_of, uniform

table = [2, 0, 3, 1]


def plain(x, y=1):
    return (x + y) % 4


def early(x, y):
    for i in range(2):
        if (x >> i & 1) != (y >> i & 1):
            return i
    return 2


def noisy(x):
    kept = x % 2
    return choose((kept, 3), (1 - kept, 1))


def bump(cells, by):
    cells[0] = (cells[0] + by) % 4
    cells[by % 2] ^= 1


def turned(cells):
    return [cells[1], cells[0]]


def either(flag, a, b):
    if flag:
        return a
    observe(a == b)
    return b


def steps(x):
    found = 0
    while x > 0:
        x //= 2
        found += 1
    return found % 3

"""


def made(source: str, name: str = "it") -> Model:
    """The model of a source, which is kept so that its lines are found."""
    file = f"<random {next(NUMBERS)}>"
    linecache.cache[file] = (len(source), None, source.splitlines(keepends=True), file)
    names = {"__name__": "random_models"}
    exec(compile(source, file, "exec"), names)
    return names[name]


NUMBERS_OF = (
    "(A + B)|(A - B)|(A * B)|(A // K)|(A % K)|(A ^ B)|(A & B)|(A & M)|(A ^ M)|(~A)|(-A)|(A >> K)|(A << (B & 1))|min(A, B)|max(A, B, 1)|abs(A)"
    "|(A if P else B)|cells[A % 2]|plain(A)|int(P)|pair[K % 2]|len({A, B})|sum([A, B])|table[A % 4]"
).split("|") + ["(A | B)", "(A | M)"]
ARRAYS = (
    "bump(cells, A % 3)|cells = turned(cells)|cells[0], cells[1] = cells[1], cells[0]|cells = [(c + A) % 3 for c in cells]"
    "|cells = [A % 2, 1] if P else cells.copy()|z = either(P, A % 3, B % 3)|observe([c > A for c in cells])|y, z = z, y"
    "|observe(cells == [A, B])|observe(all(c < A for c in cells))"
).split("|")
DRAWS = "uniform(range(2))|choose((A % 3, 2), (1, 1))|uniform({0, 1, 3})|uniform({A % 3, 1})|uniform(range(A % 2 + 1))|noisy(A)".split("|")
TRUTHS_OF = (
    "(A == B)|(A != B)|(A < B)|(A <= B)|(A > B)|(A >= B)|(P and Q)|(P or Q)|(not P)|(P == Q)|(P ^ Q)"
    "|(A in range(-1, 3))|(A in {0, 1, B})|(0 <= A < B)"
).split("|")


class Body:
    """What makes the statements of one model: the names that have a value, and how many draws there may still be."""

    def __init__(self, draw, draws):
        self.draw, self.draws = draw, draws
        self.numbers, self.truths = ["x"], []

    def pick(self, *options):
        return self.draw(st.sampled_from(options))

    def number(self, depth=2):
        """An expression that is a number."""
        if depth == 0 or self.draw(st.integers(0, 3)) == 0:
            return self.pick(str(self.draw(st.integers(-2, 5))), *self.numbers)
        return self.filled(self.pick(*NUMBERS_OF), depth - 1)

    def truth(self, depth=1):
        """An expression that is a truth."""
        if self.truths and self.draw(st.integers(0, 2)) == 0:
            return self.pick(*self.truths)
        return self.filled(self.pick(*(TRUTHS_OF if depth else TRUTHS_OF[:6])), depth - 1)

    def filled(self, form, depth):
        """A form whose letters are filled: A and B by numbers, P and Q by truths, and K by constants."""
        found = ""
        for letter in form:
            if letter in "AB":
                found += self.number(max(depth, 0))
            elif letter in "PQ":
                found += self.truth(0) if depth >= 0 else self.pick(*self.truths)
            elif letter == "K":
                found += str(self.draw(st.integers(1, 3)))
            elif letter == "M":
                found += str(self.draw(st.integers(-3, 6)))
            else:
                found += letter
        return found

    def simple(self, indent, hidden):
        """An assignment, or where it isn't hidden an observation."""
        kinds = ["number", "truth", "entry", "augmented"] + ([] if hidden else ["observe", "observe", "pair", "draw", "call", "array"])
        match self.pick(*kinds):
            case "number":
                return [f"{indent}{self.pick('x', 'y', 'z')} = {self.number()} % {self.draw(st.integers(2, 5))}"]
            case "truth":
                return [f"{indent}b = {self.truth()}"]
            case "entry":
                return [f"{indent}cells[{self.number(1)} % 2] = {self.number(1)} % 4"]
            case "augmented":
                return [f"{indent}y {self.pick('+=', '^=', '|=', '-=')} {self.number(1)}", f"{indent}y %= 4"]
            case "pair":
                return [f"{indent}pair = ({self.number(1)} % 3, {self.number(1)} % 3)"]
            case "draw" if self.draws > 0:
                self.draws -= 1
                return [f"{indent}z = {self.drawn()}"]
            case "array":
                return [f"{indent}{self.filled(self.pick(*ARRAYS), 1)}"]
            case "call":
                return [f"{indent}z = {self.pick('early(x, y)', 'steps(x % 4)', 'early(y % 4, z % 4)', 'plain(x) + steps(y % 3)')}"]
        return [f"{indent}observe({self.filled(self.pick('A', 'P', 'pair', 'cells', '(A, b)'), 2)})"]

    def drawn(self):
        """A draw of a number."""
        return self.filled(self.pick(*DRAWS), 1)

    def block(self, indent, depth, hidden=False, most=3):
        """Statements."""
        found = []
        for _ in range(self.draw(st.integers(1, most))):
            kind = self.pick("simple", "simple", "simple", "if", "hide", "while", "for", "coin") if depth else "simple"
            if kind == "if" and not hidden:
                found += [f"{indent}if {self.truth()}:", *self.block(indent + "    ", depth - 1)]
                if self.draw(st.booleans()):
                    found += [f"{indent}else:", *self.block(indent + "    ", depth - 1)]
            elif kind == "hide":
                found += [f"{indent}if hide({self.truth()}):", *self.block(indent + "    ", depth - 1, True)]
                if self.draw(st.booleans()):
                    found += [f"{indent}else:", *self.block(indent + "    ", depth - 1, True)]
            elif kind == "while" and not hidden:
                found += [
                    f"{indent}n = {self.number(1)} % 3",
                    f"{indent}while n > 0:",
                    f"{indent}    n -= 1",
                    *self.block(indent + "    ", 0, most=2),
                ]
            elif kind == "for" and not hidden:
                found += [f"{indent}for i in range(2):", *self.block(indent + "    ", 0, most=2)]
                if self.draw(st.booleans()):
                    found += [
                        f"{indent}    if {self.truth(0)}:",
                        f"{indent}        {self.pick('break', 'continue', 'return')}",
                        *self.block(indent + "    ", 0, most=1),
                    ]
                if self.draw(st.booleans()):
                    found += [f"{indent}else:", *self.block(indent + "    ", 0, most=1), f"{indent}    {self.pick('pass', 'return')}"]
            elif kind == "coin" and not hidden and self.draws > 0:
                self.draws -= 1
                found += [f"{indent}if flip(1, 3):", *self.block(indent + "    ", 0)]
            else:
                found += self.simple(indent, hidden)
        return found


@st.composite
def sources(draw):
    """The source of a model called ``it``, with few choices."""
    body = Body(draw, 2)
    body.numbers, body.truths = ["x", "y", "z", "cells[0]", "key"], ["b", "on"]
    secret = draw(
        st.sampled_from(
            ["uniform(range(4))", "choose({0: 3, 1: 1, 3: 2})", "uniform(range(-1, 2))", "lambda key: choose((key, 1), (0, 1 + (key > 0)))"]
        )
    )
    lines = [
        "@model",
        f"def it(key: Secret = uniform(range(3)), x: Secret = {secret}, on: Noise = flip(1, 3)):",
        "    y = 0",
        "    z = x % 2",
        "    b = False",
        "    n = 0",
        "    cells = [0, key]",
        "    pair = (x % 3, 0)",
        *body.block("    ", 2, most=4),
        "    observe(y)",
    ]
    return HEAD + "\n".join(lines) + "\n"
