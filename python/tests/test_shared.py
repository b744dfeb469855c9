"""Programs that draw alike, put together as one: what of a trace of both is seen of which, and the matrix that this gives."""

import json
import random
import time
from fractions import Fraction

import pytest

from kuifje import Program, check
from kuifje.refinement import decide
from kuifje.refinement.problem import Deadline, Problem, Undecided
from kuifje.refinement.shared import _merged, shared_draws

pytestmark = pytest.mark.usefixtures("built")

HEAD = "var x : 0..5 := uniform 0..5;\nvar y : 0..2 := uniform 0..2;\nvis z : 0..3 := 0;\nvar n : 0..9 := 0;\nabout old x;\n"


def found(a, b):
    """The proof for two texts, with their programs and hypers; none where they can't be put together."""
    programs = Program(a, name="a.kf"), Program(b, name="b.kf")
    hypers = programs[0].hyper(), programs[1].hyper()
    return shared_draws(Problem.of(*hypers), Deadline(60), programs, hypers), programs, hypers


def nonce(shown):
    """A signature s = k - u d mod 13 with a nonce k that isn't 0: the key is d, and u and s are seen, with what the time to sign shows of k."""
    drawn = "var d : 0..12 := uniform 0..12;\nvar k : 1..12 := uniform 1..12;\nvar u : 1..12 := uniform 1..12;\nabout old d;\n"
    return Program(f"{drawn}observe u;\nobserve (k - u * d) mod 13;\n{shown}", name=f"nonce{len(shown)}.kf")


LENGTH = "observe cond(k < 2, 1, cond(k < 4, 2, cond(k < 8, 3, 4)));\n"


@pytest.mark.parametrize("fixed", ["", "observe 5;\n"])
def test_a_signature_in_constant_time_leaks_no_more(fixed):
    """The time is taken away, or is the same for all nonces. No way without the texts finds the matrix."""
    decision = decide(nonce(LENGTH), nonce(fixed), seconds=120)
    assert (decision.refines, decision.found, decision.checked) == (True, "shared draws", True)


def test_a_search_ends_in_its_seconds():
    """Of two hypers without programs a lattice takes a second or more. Measured is this process's processor, since others may be at work."""
    pytest.importorskip("scipy")
    first, second = nonce(LENGTH).hyper(), nonce("").hyper()
    decide(first, second, seconds=0.01)  # what it imports is there
    start, busy = time.monotonic(), time.process_time()
    found = decide(first, second, seconds=0.4)
    assert found.certificate is None and "no time is left" in found.reason
    assert time.process_time() - busy < 0.7 and time.monotonic() - start < 10


def test_a_look_less_by_hand():
    """A bit is seen twice, each time right with 3/4, and then once. Two equal looks are followed by that look, and of two different ones each half of
    the time by one of them, since the first is left out or the second."""
    look = "observe choose { x : 3, 1 - x : 1 };\n"
    head = "var x : 0..1 := uniform 0..1;\nabout old x;\n"
    proof, programs, (a, b) = found(head + look * 2, head + look)
    entries = {(int(i), int(j)): Fraction(entry) for i, j, entry in json.loads(proof.certificate.text)["entries"]}
    of_a = {inner.distribution[1]: i for i, inner in enumerate(a.inners)}
    of_b = {inner.distribution[1]: j for j, inner in enumerate(b.inners)}
    half, first, second = Fraction(1, 2), of_b[Fraction(1, 4)], of_b[Fraction(3, 4)]
    assert entries == {
        (of_a[Fraction(1, 10)], first): 1,
        (of_a[half], first): half,
        (of_a[half], second): half,
        (of_a[Fraction(9, 10)], second): 1,
    }
    assert check(proof.certificate, *programs).accepted


LOOP = "while n < 2 {{ {} n := n + 1; }}\n"
PAIRS = [
    ("an observation in a loop", LOOP.format("observe x mod 2; observe choose { y : 2, x mod 3 : 1 };"), LOOP.format("observe x mod 2;")),
    ("an observation in a branch", "if y = 0 { observe x; } else { skip; }\n", "if y = 0 { } else { }\n"),
    ("a conditional that only shows", "if x = 3 { observe 1; } else { skip; }\nz := y;\nobserve y + x;\n", "z := y;\nobserve y + x;\n"),
    ("a coarser value", "observe x + y;\nz := 2;\nobserve x div 2;\n", "observe (x + y) div 3;\nz := 2;\nobserve x div 4;\n"),
    ("another order of the same", "observe x mod 2;\nobserve x mod 3;\n", "observe x mod 3;\nobserve x mod 2;\n"),
    (
        "less after a guard that is drawn",
        "if flip 1/3 { observe x; observe y; } else { observe x + y; }\n",
        "if flip 1/3 { observe y; } else { observe x + y; }\n",
    ),
    ("a value that is shown by its variable", "z := uniform 0..3;\nobserve x + z;\nobserve y;\n", "z := uniform 0..3;\nobserve x + z;\n"),
]


@pytest.mark.parametrize("what, a, b", PAIRS, ids=[pair[0] for pair in PAIRS])
def test_what_is_taken_away(what, a, b):
    proof, programs, _ = found(HEAD + a, HEAD + b)
    assert proof is not None and check(proof.certificate, *programs).accepted


def test_a_variable_that_only_one_of_them_has():
    """The length is kept in a variable first, which the other one doesn't declare."""
    more = HEAD.replace("about", "var length : 0..3 := 0;\nabout")
    for a, b in ((f"{more}length := cond(x < 2, 1, 2);\nobserve length;\nobserve x + y;\n", f"{HEAD}observe x + y;\n"),):
        proof, programs, _ = found(a, b)
        assert proof is not None and check(proof.certificate, *programs).accepted


@pytest.mark.parametrize(
    "a, b",
    [
        ("y := 0;\nobserve x + y;\n", "y := 1;\nobserve x + y;\n"),
        ("while n < 2 { observe x; n := n + 1; }\n", "while n < 3 { observe x; n := n + 1; }\n"),
        ("if x = 0 { y := 1; } else { }\n", "if x = 1 { y := 1; } else { }\n"),
        ("y := 0;\nobserve x;\n", "observe x;\n"),
    ],
)
def test_programs_that_do_different_things_are_not_put_together(a, b):
    assert found(HEAD + a, HEAD + b)[0] is None


def test_programs_about_different_targets_or_with_other_draws_are_not_put_together():
    for other in (HEAD.replace("old x", "old y"), HEAD.replace("uniform 0..2", "uniform 0..1")):
        assert _merged(Program(HEAD), Program(other)) is None
    assert _merged(Program(HEAD), Program(HEAD)) is not None


def test_what_is_seen_of_b_alone_is_no_yes():
    """B shows more than A: what was found isn't a matrix that carries A to B."""
    proof, _, _ = found(f"{HEAD}observe x mod 2;\n", f"{HEAD}observe x mod 2;\nobserve x;\n")
    assert proof is None


def test_too_many_traces_are_not_gone_through():
    coins = "".join(f"observe choose {{ x mod 2 : {i + 1}, 1 - x mod 2 : 1 }};\n" for i in range(14))
    with pytest.raises(Undecided, match="there are 16384 traces, and at most 10000 are gone through"):
        found(HEAD + coins, HEAD)


STATEMENTS = (
    "observe x mod 2;", "observe x + y;", "observe choose { x mod 2 : 2, y mod 2 : 1 };", "observe flip 1/3;", "z := x div 2;", "y := uniform 0..2;",
    "z := uniform {0, 3};", "n := 0; while n < 2 { BLOCK n := n + 1; }", "if x < y { BLOCK } else { BLOCK }", "if flip 1/2 { BLOCK } else { }",
    "skip;",
)  # fmt: skip


def block(rng, depth=0):
    """Random statements, as a text, and the same with some observations taken away."""
    first, second = [], []
    for _ in range(rng.randint(1, 3)):
        one, *more = rng.choice(STATEMENTS[: 7 if depth else None]).split("BLOCK")
        both = [one, one]
        for after in more:
            both = [f"{text}{inside}{after}" for text, inside in zip(both, block(rng, depth + 1))]
        first.append(both[0])
        if not (both[0].startswith("observe") and rng.random() < 0.5):
            second.append(both[1])
    return " ".join(first), " ".join(second)


def test_random_programs_without_some_of_their_observations():
    """The matrix is found for each, and accepted; some have loops, branches and shown variables."""
    rng = random.Random(3)
    for _ in range(25):
        a, b = block(rng)
        proof, programs, _ = found(HEAD + a, HEAD + b)
        assert proof is not None and check(proof.certificate, *programs).accepted, (a, b)
