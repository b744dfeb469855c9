"""Pairs of hyper-distributions for tests of refinement, as whole weights by inner and value, and as programs."""

import json
from fractions import Fraction

from kuifje import Action, GainTable, Hyper, Inner, Program, parse_value
from kuifje.expressions import choose
from kuifje.texts import Item, Target

X = Target((Item("x", False),))


def program(inners, name="a.kf"):
    """A program whose hyper has these inners: it draws a pair of an inner and a value, shows the inner, and is about the value."""
    values = len(inners[0])
    weights = {i * values + x: weight for i, inner in enumerate(inners) for x, weight in enumerate(inner) if weight}
    return Program(
        f"var z : 0..{len(inners) * values - 1} := {choose(weights)};\nvar x : 0..{values - 1} := 0;\nabout x;\n"
        f"x := z mod {values};\nobserve z div {values};\n",
        name=name,
    )


def programs(a, b):
    return program(a, "a.kf"), program(b, "b.kf")


def hyper(inners):
    """A hyper with these inners in this order."""
    scale = sum(map(sum, inners))
    distributions = [{x: Fraction(weight, sum(inner)) for x, weight in enumerate(inner) if weight} for inner in inners]
    return Hyper(X, scale, tuple(Inner(Fraction(sum(inner), scale), d) for inner, d in zip(inners, distributions)))


def joint(random, inners, values, top=6, share=0.7, each=None):
    """Random weights up to ``top`` for a share of all values, or for so many of each inner. Each inner has at least one."""
    found = []
    for _ in range(inners):
        chosen = random.sample(range(values), each) if each else [x for x in range(values) if random.random() < share] or [random.randrange(values)]
        found.append([random.randint(1, top) if x in chosen else 0 for x in range(values)])
    return found


def times(inners, factor):
    return [[weight * factor for weight in inner] for inner in inners]


def carried(rows, a, columns):
    """What a matrix makes of A: each row has its whole weights by column, and those of all rows have one sum."""
    found = [[0] * len(a[0]) for _ in range(columns)]
    for row, inner in zip(rows, a):
        for j, weight in row.items():
            found[j] = [x + weight * y for x, y in zip(found[j], inner)]
    return [inner for inner in found if any(inner)]


def garbled(random, a, columns, over, most=None):
    """A random refinement of A, with A over the same scale: each inner goes to up to ``most`` columns, in parts of 1/over."""
    rows = []
    for _ in a:
        chosen = random.sample(range(columns), random.randint(1, min(most or columns, columns)))
        row = dict.fromkeys(chosen, 1)
        for _ in range(over - len(chosen)):
            row[random.choice(chosen)] += 1
        rows.append(row)
    return times(a, over), carried(rows, a, columns)


def dense(random, a, columns, over):
    """A random refinement of A, with A over the same scale: each inner goes to all columns, in parts of 1/over."""
    rows = []
    for _ in a:
        row = dict.fromkeys(range(columns), 1)
        for _ in range(over - columns):
            row[random.randrange(columns)] += 1
        rows.append(row)
    return times(a, over), carried(rows, a, columns)


def function(random, a, columns):
    """A refinement of A that merges inners."""
    return a, carried([{random.randrange(columns): 1} for _ in a], a, columns)


def moved(random, b, part):
    """B with this part of one weight, rounded down to a whole number above 0, in another inner."""
    b = [list(inner) for inner in b]
    if len(b) > 1:
        places = [(i, x) for i, inner in enumerate(b) for x, weight in enumerate(inner) if int(weight * part)]
        i, x = random.choice(places)
        amount = int(b[i][x] * part)
        b[i][x] -= amount
        b[random.choice([j for j in range(len(b)) if j != i])][x] += amount
    return [inner for inner in b if any(inner)]


def small(random):
    """A random pair with up to 7 inners and 6 values: a refinement, one with a weight moved, or two of one hyper."""
    values, inners, columns = random.randint(1, 6), random.randint(1, 7), random.randint(1, 7)
    base = joint(random, inners, values)
    a, b = garbled(random, base, columns, 7)
    kind = random.randrange(3)
    if kind == 1:
        b = moved(random, b, 1) if random.random() < 0.5 else moved(random, times(b, 10), 0.1)
        a = times(a, sum(map(sum, b)) // sum(map(sum, a)))
    if kind == 2:
        _, a = garbled(random, base, inners, 7)
    return a, b


def table_of(certificate):
    """The gain table of a certificate of a no."""
    read = json.loads(certificate.text)
    actions = [Action(action["name"], {parse_value(x): int(gain) for x, gain in action["gains"]}) for action in read["actions"]]
    return GainTable(int(read["over"]), int(read["rest"]), tuple(actions))
