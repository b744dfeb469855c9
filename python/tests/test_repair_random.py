"""Repairs of random programs, judged once more by an enumeration of all runs in fractions."""

from __future__ import annotations

from collections.abc import Sequence
from fractions import Fraction
from random import Random

import pytest
from enumerated import Hyper, Runs, hyper, vulnerability
from random_programs import KEPT, Writer

from kuifje import Program
from kuifje.errors import Refusal
from kuifje.repair import BadPurpose, Repairs, repair
from kuifje.source import Observe, Tuple, every, read
from kuifje.texts import Hyper as Printed

pytestmark = pytest.mark.usefixtures("built")
CHANGES = (("structure",), ("structure", "drop"), ("structure", "drop", "hide"))


def of_printed(found: Printed) -> Hyper:
    return {frozenset(inner.distribution.items()): inner.outer for inner in found.inners}


def place_of(text: str) -> tuple[int, int]:
    source = read(text)
    (kept,) = (one for one in every(source.statements) if isinstance(one, Observe) and KEPT in text[one.at : one.end])
    return source.place(kept.at)


def ends(found: Runs, before: Runs) -> list[tuple[tuple[object, object, object], object, object, Fraction]]:
    """For each run the secret, how the first program's variables end and what was kept; what was seen; the secret once more; the probability."""
    secrets = [found.names.index(item.name) for item in before.source.target.items]
    places = [found.names.index(name) for name in before.names]
    new = [name for name in found.names if name not in before.names]
    held = {word: [found.names.index(name) for name in new if name.startswith(word)] for word in ("kept", "met", "seen")}
    tuples = [isinstance(one.type, Tuple) for name in found.names for one in found.source.declarations if one.name == name]
    rows = []
    for (first, last, seen, kept), p in found.runs.items():
        if held["seen"]:
            values = [v for i in held["seen"] for v in (last[i] if tuples[i] else (last[i],))]  # type: ignore[attr-defined]
            kept = tuple(values[: int(str(last[held["met"][0]]))])
        elif held["kept"]:
            kept = (last[held["kept"][0]],) if last[held["met"][0]] else ()
        secret = first[secrets[0]] if len(secrets) == 1 else tuple(first[i] for i in secrets)
        rows.append(((secret, tuple(last[i] for i in places), repr(kept)), seen, secret, p))
    return rows


def judged(text: str, changes: Sequence[str], rng: Random) -> Repairs:
    """The repairs of a program: each does the same, shows what is kept, and leaks no more under random gains, by all runs."""
    found = repair(Program(text), place_of(text), changes=changes, seconds=120)
    before = Runs(text, lambda statement: KEPT in statement)
    rows = ends(before, before)
    joint = hyper((0, all_of, p) for all_of, _, _, p in rows)
    least = hyper((all_of[2], x, p) for all_of, _, x, p in rows)
    most = hyper((seen, x, p) for _, seen, x, p in rows)
    assert of_printed(found.floor.floor) == least and of_printed(found.floor.hyper) == most
    secrets = list({x for _, _, x, _ in rows})
    for one in found.found:
        after = ends(Runs(one.program.text.decode(), lambda statement: KEPT in statement), before)
        assert hyper((0, all_of, p) for all_of, _, _, p in after) == joint
        assert len({seen for _, seen, _, _ in after}) == len({(seen, all_of[2]) for all_of, seen, _, _ in after})
        left = hyper((seen, x, p) for _, seen, x, p in after)
        assert left == of_printed(one.hyper) and one.at_floor == (left == least)
        for _ in range(40):
            gains = [{x: rng.randint(-3, 9) for x in secrets} for _ in range(rng.randint(1, 5))]
            assert vulnerability(least, gains) <= vulnerability(left, gains) <= vulnerability(most, gains)
    return found


def found_of(seed: int) -> int:
    """How many repairs of a random program were found and judged."""
    try:
        return len(judged(Writer(seed).program(), CHANGES[seed % 3], Random(seed)).found)
    except BadPurpose:
        return 0


def test_random_repairs_are_repairs() -> None:
    assert sum(found_of(seed) for seed in range(9, 24)) >= 5


@pytest.mark.whole
def test_many_random_repairs_are_repairs() -> None:
    assert sum(found_of(seed) for seed in range(1000, 1200)) >= 50


@pytest.mark.parametrize(
    "text",
    [
        # names that a repair would take
        "var on : 0..3 := uniform 0..3;\nvar yes : bool := false;\nvar turn : 0..3 := on;\nvar kept : 0..3 := 0;\nvar met : bool := true;\n"
        "var shown : 0..3 := 0;\nabout old on;\nif on = 1 { yes := true; } else { shown := 1; }\n"
        "while turn > 0 { turn := turn - 1; kept := max(kept, turn); }\nif on > 1 { observe 0 * 7; } else { met := false; }\n",
        # several items, a tuple and a set
        "var a : 0..1 := uniform 0..1;\nvar b : (0..2, bool) := uniform {(0, true), (1, false), (2, a = 1)};\n"
        "var c : set of 0..2 := {0, 2};\nabout old a, old b, old c;\n"
        "if b.0 in c { c := c less {b.0}; } else { b := (0, true); }\nobserve (b.0 in c and a = 1, 0 * 7);\n",
        # never shown
        "var x : 0..3 := uniform 0..3;\nvar y : 0..3 := 0;\nabout old x;\nif x = 1 { y := 1; } else { skip; }\n"
        "if y > 2 { observe 0 * 7; } else { skip; }\n",
        # faults in the branch that isn't taken
        "var x : 0..3 := uniform 0..3;\nvar y : 0..3 := 0;\nabout old x;\nif x > 0 { y := 3 div x; } else { y := uniform x..x + 1; }\n"
        "observe y = 1 or 0 * 7 = 1;\n",
        "var x : 0..3 := uniform 0..3;\nvar y : 0..3 := 0;\nabout old x;\nif x < 3 { y := x + 1; } else { y := choose { x : 3 - x, 0 : 1 }; }\n"
        "while x mod max(y, 1) > 0 { y := y - 1; }\nobserve 0 * 7 + cond(y = 0, 1, 6 div y);\n",
        # a visible variable beside the branch
        "var x : 0..3 := uniform 0..3;\nvis v : 0..3 := 0;\nvar y : 0..3 := 0;\nabout old x;\nv := 3;\nif x = 1 { y := 2; } else { y := x; }\n"
        "observe y = 2 and 0 * 7 = 0;\n",
    ],
)
def test_what_a_repair_could_stumble_over(text: str) -> None:
    found = judged(text, ("structure",), Random(7))
    assert found.best is not None and found.best.lines


NESTED = {
    "a loop in a branch in a loop, under a random guard": """var x : 0..3 := uniform 0..3;
var y : 0..3 := x;
var n : 0..3 := 0;
var k : 0..3 := 0;
about old x;
while y > 0 { if flip 1/3 { k := y; while k > 0 { k := k - 1; n := (n + k) mod 4; } } else { n := (n + 1) mod 4; } y := y - 1; }
observe n + 0 * 7;
""",
    "a loop with a random guard": """var x : 0..3 := uniform 0..3;
var n : 0..3 := 0;
var b : bool := false;
about old x;
while choose { n < x : 2, false : 1 } { n := n + 1; }
if n = x { b := true; } else { skip; }
observe (b, 0 * 7);
""",
    "what is kept stands in the inner loop": """var x : 0..3 := uniform 0..3;
var y : 0..3 := x;
var k : 0..2 := 0;
var s : 0..3 := 0;
about old x;
while y > 0 { k := 0; while k < 2 { if s < 2 { observe (x mod 2) + 0 * 7; s := s + 1; } else { skip; } k := k + 1; } y := y - 1; }
""",
    "a random observation under a random guard": """var x : 0..3 := uniform 0..3;
var y : 0..3 := x;
about old x;
while y > 1 { if choose { x = 3 : 1, false : 1 } { observe uniform 0..1; } else { observe 1; } y := y - 1; }
observe (x >= 2, 0 * 7);
""",
    "branches in each other with draws": """var x : 0..3 := uniform 0..3;
var n : 0..3 := 0;
var m : 0..3 := 0;
about old x;
if flip 1/2 {
  if x > 1 { n := uniform 0..x; } else { m := choose { x : 1, 2 : 2 }; } } else { if m = x { n := 3; } else { if n < x { n := 1; } else { skip; } } }
observe n + 0 * 7;
""",
    "three loops in each other": """var x : 0..3 := uniform 0..3;
var i : 0..3 := 0;
var j : 0..3 := 0;
var k : 0..3 := 0;
var s : 0..63 := 0;
about old x;
while i < x { j := 0; while j < i + 1 { k := 0; while k < j { s := s + 1; k := k + 1; } j := j + 1; } i := i + 1; }
observe (s > 1, 0 * 7);
""",
    "a visible variable in a branch in a loop": """var x : 0..3 := uniform 0..3;
vis v : 0..3 := 0;
var y : 0..3 := x;
var n : 0..3 := 0;
about old x;
while y > 0 { if n = 3 { v := n; } else { n := min(n + 1, 2); } y := y - 1; }
observe (n > 1) = (0 * 7 = 0);
""",
    "what is kept stands in a branch under a random guard in a loop": """var x : 0..3 := uniform 0..3;
var n : 0..3 := 0;
var c : bool := false;
about old x;
while n < 3 { c := flip 1/2; if c and n < x { skip; } else { observe choose { x mod 2 : 3, 1 - x mod 2 + 0 * 7 : 1 }; } n := n + 1; }
""",
    "a fault after a guard in a loop": """var x : 0..3 := uniform 0..3;
var y : 0..3 := x;
var n : 0..9 := 0;
about old x;
while y > 0 and 6 div y > 1 { if y != 2 { n := min(9, n + 6 div y); } else { n := uniform n..min(9, n + 1); } y := y - 1; }
observe (n > 4, 0 * 7);
""",
    "two secrets, a set and a tuple": """var x : 0..2 := uniform 0..2;
var z : bool := flip 1/3;
var s : set of 0..2 := {0};
var t : (0..2, bool) := (0, false);
var y : 0..2 := x;
about old x, old z;
while not (y in s) { if z { s := s less {0}; } else { t := (y, y = 1); } s := {y, 0}; y := max(y - 1, 0); }
observe (t.1, 0 * 7);
""",
}


@pytest.mark.parametrize("text", NESTED.values(), ids=NESTED)
def test_nested_loops_and_random_guards(text: str) -> None:
    found = judged(text, ("structure",), Random(10))
    assert not found.floor.is_reached and found.best is not None and found.best.at_floor


def test_fewer_turns_than_a_loop_takes_are_refused() -> None:
    text = "var x : 0..3 := uniform 0..3;\nvar y : 0..3 := x;\nabout old x;\nwhile y > 0 { y := y - 1; }\nobserve 0 * 7;\n"
    best = repair(Program(text, turns=3)).best
    assert best is not None and best.at_floor
    with pytest.raises(Refusal, match="LoopBound"):
        repair(Program(text, turns=2))


def test_without_statements_nothing_leaks() -> None:
    found = repair(Program("var x : 0..3 := uniform 0..3;\nabout old x;\n"))
    assert found.floor.is_reached and found.found == ()
