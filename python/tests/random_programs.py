"""Small random programs with branches and loops in each other, random guards, tuples and a visible variable, and one observation that is kept."""

from __future__ import annotations

from random import Random

KEPT = "0 * 7"  # stands in the observation that is kept, and nowhere else
HEAD = """var x : 0..3 := uniform 0..3;
var y : 0..3 := x;
var n : 0..3 := {};
var z : 0..3 := 0;
var b : bool := false;
var t : (0..3, bool) := (x mod 2, true);
vis v : 0..1 := 0;
var c_0 : 0..3 := 0;
var c_1 : 0..3 := 0;
about old x;
"""


class Writer:
    """Writes a program; ``shows`` is how many observations it may still have."""

    def __init__(self, seed: int) -> None:
        self.rng = Random(seed)
        self.shows = self.rng.choice([0, 0, 1, 2])

    def number(self, depth: int = 0) -> str:
        if depth > 1 or self.rng.randrange(3) == 0:
            return self.rng.choice(["x", "y", "n", "z", "t.0", "0", "1", "2"])
        form = self.rng.choice(["({0} + {1}) mod 4", "({0} * {1}) mod 3", "min({0}, {1})", "cond({2}, {0}, {1})", "abs({0} - {1})", "max({0}, {1})"])
        return form.format(self.number(depth + 1), self.number(depth + 1), self.test(depth + 1))

    def test(self, depth: int = 0) -> str:
        kind = self.rng.randrange(8)
        if kind < 2 or depth > 1:
            return ["b", "t.1", "x = 1", "y < 2", "n = z", "z != 0", "y >= x", "x < n"][kind]
        if kind < 4:
            form = self.rng.choice(["({0} and {1})", "not ({0})"])
            return form.format(self.test(depth + 1), self.test(depth + 1))
        return f"{self.number(depth + 1)} {self.rng.choice(['=', '<', '!=', '>='])} {self.number(depth + 1)}"

    def guard(self) -> str:
        form = self.rng.choice(["flip 1/3", "choose {{ {0} : 1, {1} : 1 + {2} }}", *6 * ["{0}"]])
        return form.format(self.test(), self.test(), self.number(1))

    def assign(self) -> str:
        form = self.rng.choice(
            [
                "y := ({0}) mod 4;",
                "z := uniform 0..min(3, {0});",
                "z := uniform {{ ({0}) mod 4, 3 }};",
                "b := {1};",
                "b := flip 1/4;",
                "n := choose {{ ({0}) mod 4 : 1, 0 : 2 }};",
                "t := (({0}) mod 4, {1});",
                "v := ({0}) mod 2;",
            ]
        )
        return form.format(self.number(), self.test())

    def statement(self, depth: int) -> str:
        kind = self.rng.randrange(12)
        if kind == 0 and self.shows > 0:
            self.shows -= 1
            return f"observe {self.rng.choice([self.number(), self.test(), f'({self.number()}, {self.test()})'])};"
        if kind < 5 and depth < 3:
            return f"if {self.guard()} {{ {self.block(depth + 1)} }} else {{ {self.rng.choice(['skip;', self.block(depth + 1)])} }}"
        if kind == 5 and depth < 2:
            c, step = f"c_{depth}", self.rng.choice(["{0} - 1", "cond({1}, {0} - 1, 0)"])
            turn = f"{self.block(depth + 1)} {c} := {step.format(c, self.test())};"
            return f"{c} := {self.rng.choice('yzn')}; while {c} > 0 and {self.rng.choice(['true', self.test()])} {{ {turn} }}"
        return self.assign()

    def block(self, depth: int) -> str:
        return " ".join(self.statement(depth) for _ in range(self.rng.randrange(1, 3)))

    def program(self) -> str:
        lines = [self.statement(0) for _ in range(self.rng.randrange(1, 4))]
        kept = self.rng.choice([f"observe ({self.number()}) + {KEPT};", f"observe (({self.test()}), {KEPT});"])
        where = self.rng.randrange(8)
        if where == 0:
            kept = f"c_0 := y; while c_0 > 0 {{ {kept} {self.block(1)} c_0 := c_0 - 1; }}"
        elif where < 3:
            kept = f"if {self.guard()} {{ {self.block(1)} {kept} }} else {{ {self.block(1)} }}"
        lines.insert(self.rng.randrange(len(lines) + 1) if where < 5 else len(lines), kept)
        return HEAD.format(self.rng.choice(["0", "1", "uniform 0..2"])) + "\n".join(lines) + "\n"
