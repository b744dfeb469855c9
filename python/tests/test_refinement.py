"""Verdicts on larger programs: what is found by any means is what ``refine`` says, and nothing that isn't checked is a verdict."""

import json
import random
import sys
import time
from dataclasses import replace
from fractions import Fraction
from math import prod

import pytest
from hypothesis import given, settings
from hypothesis import strategies as st

import pairs
from kuifje import Certificate, Engine, KuifjeError, OutOfTime, Program, Refusal, TooLarge, certificate, check, deadlines, refine
from kuifje.refinement import decide, decisions, elimination, exact, proofs
from kuifje.refinement.problem import Deadline, Problem
from kuifje.refinement.proofs import Proof, Undecided
from kuifje.workers import too_late

pytestmark = [pytest.mark.usefixtures("built"), pytest.mark.filterwarnings("ignore::kuifje.questions.AsItIsLeft")]

SIX = "var x : 0..5 := uniform 0..5;\nabout old x;\n"
WHOLE, PARITY, HALF = (
    Program(f"{SIX}observe {shown};\n", name=f"{name}.kf") for name, shown in (("whole", "x"), ("parity", "x mod 2"), ("half", "x div 3"))
)
SEEDS = st.integers(0, 10**9)


def noisy(times):
    """The last bit of a number below 64, seen so many times, each time wrong with 1/4: the scale is 64 times 4 to the power of that."""
    return Program("var x : 0..63 := uniform 0..63;\n" + "observe choose { x mod 2 : 3, 1 - x mod 2 : 1 };\n" * times, name=f"noisy{times}.kf")


def wanting(name):
    return pytest.mark.skipif(not _is_there(name), reason=f"{name} isn't installed")


def _is_there(name):
    try:
        __import__(name)
    except ImportError:
        return False
    return True


def problem_of(a, b):
    return Problem.of(pairs.hyper(a), pairs.hyper(b))


def way(name):
    """A way by its name, whatever the problem's size."""
    return dict(decisions.ways(problem_of([[1]], [[1]])))[name]


NAMES = [name for name, _ in decisions.EXACT]
FLOATING = ["independent inners", "two values", "one inner of A", "one inner of B", "linear program", "mended middle"]


# ---- the verdicts


def test_a_yes_and_a_no_by_hand():
    """Parity is a function of the whole. Of parity and half, an adversary gains 1 for each right guess at what the other shows: 1 against 2/3."""
    found = decide(WHOLE, PARITY)
    assert (found.refines, found.checked, found.worth, found.certifiable) == (True, True, None, True)
    assert json.loads(found.certificate.text)["entries"] == [[str(x), str(x % 2), "1"] for x in range(6)]
    found = decide(PARITY, WHOLE)
    assert (found.refines, found.checked) == (False, True) and check(found.certificate, PARITY, WHOLE).accepted
    found = decide(PARITY, HALF)
    assert found.refines is False and found.worth[0] < found.worth[1]


def verdict(a, b):
    """What ``refine`` says; none where it meets one of its bounds."""
    try:
        return refine(a, b).refines
    except Refusal as refusal:
        assert refusal.status in (7, 8)
        return None


def is_decided_as_refine_does(a, b):
    """Decides a pair, whose worths are those that ``leak`` prints, and gives it with its programs."""
    first, second = pairs.programs(a, b)
    found = decide(first, second)
    assert found.refines is not None and verdict(first, second) in (found.refines, None)
    assert check(found.certificate, first, second).accepted
    if found.worth:
        table = pairs.table_of(found.certificate)
        assert found.worth == tuple(p.leak(table).posterior_vulnerability for p in (first, second))
    return found, first, second


@wanting("scipy")
@settings(max_examples=20)
@given(SEEDS)
def test_small_pairs_are_decided_as_refine_does(seed):
    is_decided_as_refine_does(*pairs.small(random.Random(seed)))


@wanting("scipy")
@pytest.mark.whole
def test_fifteen_hundred_small_pairs_are_decided_as_refine_does():
    decided = [is_decided_as_refine_does(*pairs.small(random.Random(seed)))[0].refines for seed in range(1500)]
    assert decided.count(True) > 500 and decided.count(False) > 400


def spoiled(text, rng):
    """A certificate with another number, another verdict or format, or less of what it has."""
    members = json.loads(text)
    key = "entries" if "entries" in members else "actions"
    rows = members[key] if key == "entries" or not rng.randrange(4) else next(a["gains"] for a in members[key] if a["gains"])
    kind = rng.randrange(6)
    if kind == 0:
        rows.pop(rng.randrange(len(rows)))
    elif kind == 1:
        rows.append(rng.choice(rows))
    elif kind == 2:
        members["verdict"] = "no" if members["verdict"] == "yes" else "yes"
    elif kind == 3 and isinstance(rows[0], list):
        row = rng.choice(rows)
        row[-1] = str(Fraction(row[-1]) + rng.choice((-1, 1, Fraction(1, 7)))) if key == "entries" else str(int(row[-1]) + rng.choice((-3, -1, 1, 3)))
    else:
        return bytes(rng.choice(b'0123456789"[]{},-/') if rng.random() < 1 / len(text) else byte for byte in text)
    return json.dumps(members).encode()


def no_spoiled_certificate_is_another_verdict(seeds):
    """Puts spoiled certificates where a way would have found them, and gives how many came out as no verdict."""
    undecided = 0
    for seed in seeds:
        found, first, second = is_decided_as_refine_does(*pairs.small(random.Random(seed)))
        proof = Proof(Certificate(spoiled(found.certificate.text, random.Random(seed + 1))))
        said = decisions._decided("spoiled", proof, first, second, None)
        assert said.refines in (None, found.refines) and said.checked == (said.refines is not None) == (said.reason is None)
        undecided += said.refines is None
    return undecided


@wanting("scipy")
def test_spoiled_certificates_are_no_other_verdict():
    assert no_spoiled_certificate_is_another_verdict(range(2000, 2015)) > 7


@wanting("scipy")
@pytest.mark.whole
def test_a_thousand_spoiled_certificates_are_no_other_verdict():
    assert no_spoiled_certificate_is_another_verdict(range(3000, 4000)) > 700


@pytest.mark.parametrize("name", [*NAMES, *(pytest.param(name, marks=wanting("scipy")) for name in FLOATING)])
def test_what_a_way_finds_is_what_refine_says(name):
    """Each way by itself, on pairs of which some are for it: whatever certificate it finds is accepted."""
    verdicts, rng = set(), random.Random(5)
    for _ in range(20):
        if name == "neighbours":
            base = pairs.joint(rng, rng.randint(1, 5), 2)
            a, b = pairs.garbled(rng, base, rng.randint(1, 4), 5)
        else:
            a, b = pairs.small(rng)
        if name == "another prior":
            b[0][0] += 1
        first, second = pairs.programs(a, b)
        try:
            proof = way(name)(Problem.of(first.hyper(), second.hyper()), Deadline(10))
        except Undecided:
            continue
        if proof and not proof.obstacle:
            assert check(proof.certificate, first, second).accepted
            verdicts.add(verdict(first, second))
    wanted = {
        "another prior": {False},
        "equal inners": {True},
        "neighbours": {True},
        "tries": {False},
        "two values": {False},
        "one inner of A": {False},
    }
    assert verdicts - {None} == wanted.get(name, {True, False})


# ---- what stands in an answer


def test_certificates_are_written_as_the_program_writes_them():
    for a, b in ((WHOLE, PARITY), (PARITY, WHOLE), (PARITY, HALF)):
        verdict = refine(a, b)
        if verdict.refines:
            entries = {(i, j): entry for i, row in enumerate(verdict.matrix.rows) for j, entry in enumerate(row)}
            written = Certificate.of_matrix(len(verdict.matrix.rows), len(verdict.matrix.rows[0]), entries)
        else:
            written = Certificate.of_table(verdict.table)
        assert written.text == certificate(a, b).text


@pytest.mark.parametrize(
    "a, b, name, worth",
    [
        ([[1, 1]], [[1, 0], [0, 1]], "bayes", (Fraction(1, 2), 1)),
        ([[2, 1, 1, 0], [0, 1, 1, 2]], [[2, 2, 0, 0], [0, 0, 2, 2]], "tries:2", (Fraction(6, 8), 1)),
        ([[2, 2, 1, 1, 0, 0], [0, 0, 1, 1, 2, 2]], [[2, 2, 2, 0, 0, 0], [0, 0, 0, 2, 2, 2]], "tries:3", (Fraction(10, 12), 1)),
    ],
)
def test_the_least_number_of_tries_is_named(a, b, name, worth):
    """Fewer tries are worth as much under A as under B."""
    proof = way("tries")(problem_of(a, b), Deadline(10))
    assert (proof.name, proof.worth) == (name, worth)


def test_two_printed_hypers_have_a_certificate_and_no_verdict():
    rng = random.Random(2)
    inners = pairs.joint(rng, 20, 5)
    found = decide(pairs.hyper(inners), pairs.hyper(rng.sample(inners, 20)))
    assert (found.refines, found.found, found.checked) == (None, "equal inners", False)
    assert "hypers" in found.reason and json.loads(found.certificate.text)["verdict"] == "yes" and str(found).startswith("not decided\n")
    found = decide(WHOLE.hyper(), PARITY)
    assert (found.refines, found.checked) == (None, False) and check(found.certificate, WHOLE, PARITY).accepted


def test_a_model_is_decided_as_its_program():
    class Model:
        def program(self):
            return PARITY

    assert decide(WHOLE, Model()).refines is True and decide(Model(), WHOLE).refines is False


def test_different_targets_have_no_verdict():
    other = Program("var y : 0..5 := uniform 0..5;\nabout old y;\nobserve y;\n")
    truth = Program("var x : bool := flip 1/2;\nabout old x;\nobserve x;\n", name="truth.kf")
    bit = Program("var x : 0..1 := uniform 0..1;\nabout old x;\nobserve x;\n", name="bit.kf")
    for a, b in ((WHOLE, other), (truth, bit)):
        with pytest.raises(Refusal) as caught:
            decide(a, b)
        assert caught.value.status == 10 and caught.value.kind.endswith("targets differ")
    with pytest.raises(KuifjeError, match="targets differ: old x, and old y"):
        decide(WHOLE.hyper(), other.hyper())


def test_a_program_that_is_refused_is_a_refusal():
    with pytest.raises(Refusal):
        decide(WHOLE, Program(f"{SIX}observe 1 div x;\n"))
    with pytest.raises(TooLarge):
        decide(WHOLE, PARITY, timeout=0.0)


def test_without_time_there_is_no_verdict():
    found = decide(WHOLE, PARITY, seconds=0)
    assert (found.refines, found.found, found.certificate, found.reason) == (None, None, None, "no time is left")
    assert str(found) == "not decided\nreason no time is left\n"


@pytest.fixture
def two_seconds_each(monkeypatch):
    """Each question takes two seconds, by a clock that nothing else moves. Gives the clock, and what each question might take."""
    clock, asked, given = [0.0], Engine._asked, []

    def slow(self, words, files, deadline):
        given.append((words[0], deadline.left))
        found = asked(self, words, files, Deadline(None))
        clock[0] += min(2.0, deadline.left)
        if deadline.passed:
            raise too_late(deadline)
        return found

    monkeypatch.setattr(deadlines, "monotonic", lambda: clock[0])
    monkeypatch.setattr(Engine, "_asked", slow)
    return clock, given


def test_the_seconds_of_a_decision_are_for_all_its_questions(two_seconds_each):
    """The check may take a fifth of them more."""
    clock, given = two_seconds_each
    assert decide(WHOLE, PARITY, seconds=10).refines is True
    assert given == [("hyper", 10), ("hyper", 8), ("check", 10 + 2 - 4)] and clock == [6]
    found = decide(WHOLE, PARITY, seconds=4.25)
    assert found.refines is None and "no answer within 1.1 seconds" in found.reason and clock[0] - 6 == pytest.approx(4.25 * 1.2)
    clock[0] = 0.0
    assert decide(WHOLE, PARITY, seconds=3).reason == "no time is left" and clock == [3]
    with pytest.raises(OutOfTime, match="no answer within 1 seconds"):
        decide(WHOLE, PARITY, seconds=10, timeout=1)


class Looked:
    """A deadline that is passed at its n-th look."""

    def __init__(self, looks):
        self.looks, self.seen, self.left = looks, 0, 60.0

    @property
    def passed(self):
        self.seen += 1
        return self.seen > self.looks

    def within(self, seconds):
        return self


def is_looked_at(step, least):
    """A step looks at its deadline so often at least, and ends at any of these looks."""
    whole = Looked(10**9)
    step(whole)
    assert whole.seen >= least
    for looks in (0, 1, least // 2, least - 1):
        early = Looked(looks)
        with pytest.raises(Undecided):
            step(early)
        assert early.seen == looks + 1


def test_each_step_over_whole_numbers_looks_at_the_time():
    """At least once for each inner, entry, equation or action."""
    rng = random.Random(9)
    a, b = pairs.garbled(rng, pairs.joint(rng, 12, 4, share=1), 8, 40)
    first, second = pairs.hyper(a), pairs.hyper(b)
    problem = Problem.of(first, second)
    places = [(i, j) for i in range(problem.m) for j in range(problem.n)]
    matrix = {(i, j): Fraction(1, problem.n) for i, j in places}
    actions = [{value: 1} for value in range(4)]
    is_looked_at(lambda deadline: Problem.of(first, second, deadline), 12 + 8 + 4)
    is_looked_at(lambda deadline: proofs.by_matrix(problem, matrix, deadline), len(places))
    is_looked_at(lambda deadline: proofs.by_table(problem, actions, deadline), 12 + 8)
    is_looked_at(lambda deadline: elimination.solution(problem, places, deadline), 2 * len(places))
    is_looked_at(lambda deadline: exact.tries(problem, deadline), 12 + 8)
    by_token = problem_of([[2, 1, 0, 0], [0, 0, 1, 2]], [[2, 0, 0, 0], [0, 1, 0, 0], [0, 0, 1, 2]])
    is_looked_at(lambda deadline: exact.peeling(by_token, deadline), 6)


@wanting("scipy")
def test_each_step_over_floats_looks_at_the_time():
    from kuifje.refinement import interior, lattice, numeric, rounded_matrix

    rng = random.Random(6)
    vectors = [[rng.randint(1, 10**6) for _ in range(4)] for _ in range(9)]
    is_looked_at(lambda deadline: lattice.Lattice(vectors, deadline), 9)
    a, b = pairs.dense(rng, pairs.joint(rng, 12, 4, share=1), 9, 40)
    problem = problem_of(a, b)
    is_looked_at(lambda deadline: interior.middle_of(problem, problem.allowed, deadline), 20)
    is_looked_at(lambda deadline: rounded_matrix.mended_middle(problem, deadline), 40)
    is_looked_at(lambda deadline: numeric.one_inner_of_a(problem, deadline), 12)


@wanting("scipy")
def test_what_would_take_longer_than_is_left_and_cannot_be_ended_is_not_begun():
    from kuifje.refinement import numeric

    done = []
    numeric.affords(Deadline(60), lambda: done.append(1), 96**3, "little")
    assert not done  # it isn't tried out for that
    numeric.affords(Deadline(60), lambda: done.append(1), 100 * 96**3, "more")
    assert len(done) == 3
    with pytest.raises(Undecided, match="^much would take about [0-9]+ seconds$"):
        numeric.affords(Deadline(1), lambda: time.sleep(0.01), 1000 * 96**3, "much")


def test_a_check_that_takes_too_long_is_no_verdict(monkeypatch):
    def too_long(*_):
        raise TooLarge("the question took longer than it may")

    monkeypatch.setattr(decisions, "check", too_long)
    found = decide(WHOLE, PARITY)
    assert (found.refines, found.checked) == (None, False) and "longer than it may" in found.reason and found.certificate is not None


def test_without_scipy_the_exact_ways_are_gone(monkeypatch):
    for name in [name for name in sys.modules if name.startswith(("kuifje.refinement.", "scipy"))]:
        if name.rpartition(".")[2] in ("numeric", "linear", "rounded_matrix", "interior", "lattice") or name.startswith("scipy"):
            monkeypatch.delitem(sys.modules, name)
    monkeypatch.setitem(sys.modules, "scipy", None)
    assert decide(WHOLE, PARITY).refines is True and decide(PARITY, WHOLE).refines is False
    a, b = pairs.garbled(random.Random(4), pairs.joint(random.Random(4), 5, 4, share=1), 4, 5)
    found = decide(*pairs.programs(a, b))
    assert found.refines is None and "scipy, which isn't installed" in found.reason.replace("scipy.optimize", "scipy")


def test_no_table_is_narrow_enough_for_a_scale_of_2_to_126():
    """The scale of `noisy(60)` is 64 · 4^60 = 2^126, and a gain of 1 takes twice as much: 2^127 - 1 is the most."""
    found = decide(noisy(59), noisy(60))
    assert (found.refines, found.checked, found.certifiable) == (None, False, False) and "and may have 127" in found.reason
    assert found.certificate is not None and found.worth[0] < found.worth[1]


def test_an_answer_is_json_and_lines():
    found = decide(PARITY, WHOLE)
    read = json.loads(found.to_json())
    assert read["refines"] is False and read["certificate"] == json.loads(found.certificate.text) and len(read["worth"]) == 2
    assert str(found).splitlines()[0] == "refines no" and f"worth {found.worth[0]} {found.worth[1]}" in str(found).splitlines()
    assert f"certificate {len(found.certificate.text)} bytes, accepted" in str(found).splitlines()


def test_a_weight_that_is_not_whole_is_refused():
    hyper = WHOLE.hyper()
    with pytest.raises(ValueError, match="scale of 5"):
        decide(replace(hyper, scale=5), replace(hyper, scale=5))


# ---- lattices


def determinant(rows):
    """By expansion along the first row."""
    if not rows:
        return 1
    return sum((-1) ** j * x * determinant([row[:j] + row[j + 1 :] for row in rows[1:]]) for j, x in enumerate(rows[0]))


@wanting("numpy")
@settings(max_examples=30)
@given(st.lists(st.lists(st.integers(-9, 9), min_size=4, max_size=4), min_size=4, max_size=4).filter(determinant))
def test_a_reduced_basis_spans_the_same_lattice_and_is_short(rows):
    """The volume stays, old rows are whole combinations of new ones (Cramer's rule), and the product of lengths is at most 2^(n(n-1)/4) volumes."""
    from kuifje.refinement.lattice import reduced

    found = reduced(rows)
    volume = determinant(found)
    assert abs(volume) == abs(determinant(rows))
    for row in rows:
        assert all(determinant([*found[:i], row, *found[i + 1 :]]) % volume == 0 for i in range(4))
    assert prod(sum(x * x for x in row) for row in found) <= 2**6 * volume**2


@wanting("numpy")
@settings(max_examples=30)
@given(SEEDS)
def test_a_combination_comes_to_its_vector_and_is_near(seed):
    from kuifje.refinement.lattice import Lattice

    rng = random.Random(seed)
    vectors = [[rng.randint(0, 9) for _ in range(3)] for _ in range(7)]
    if not any(map(any, vectors)):
        return
    lattice = Lattice(vectors)
    wanted = [rng.randint(0, 1000) for _ in vectors]
    vector = [sum(w * v[c] for w, v in zip(wanted, vectors)) for c in range(3)]
    assert lattice.denominator(vector) == 1
    numbers = lattice.near(vector, [w + rng.random() for w in wanted])
    assert [sum(x * v[c] for x, v in zip(numbers, vectors)) for c in range(3)] == vector
    assert max(abs(x - w) for x, w in zip(numbers, wanted)) < 50


# ---- the middle of all matrices


@wanting("scipy")
@pytest.mark.parametrize("sparse", [0.0, 2.0])
def test_the_middle_is_a_matrix_that_carries_or_a_table_that_separates(monkeypatch, sparse):
    """Whether the normal equations are put together at once or column by column. A is dense, so that all entries may be above 0."""
    from kuifje.refinement import interior

    monkeypatch.setattr(interior, "SPARSE", sparse)
    rng = random.Random(6)
    a, b = pairs.dense(rng, pairs.joint(rng, 12, 4, share=1), 9, 40)
    problem = problem_of(a, b)
    found = interior.middle_of(problem, problem.allowed, Deadline(60))
    assert abs(problem.floats.a @ found.matrix - problem.floats.b).max() < 1e-8 and abs(found.matrix.sum(axis=1) - 1).max() < 1e-8
    assert found.matrix.min() > 1e-4 and found.above.all() and found.over < 1e-8 and found.gap < 1e-8
    problem = problem_of(b, a)
    found = interior.middle_of(problem, problem.allowed, Deadline(60))
    worth_of_a = (found.table.T @ problem.floats.a).max(axis=0).sum()
    assert found.gap > 1e-6 and (found.table * problem.floats.b).sum() - worth_of_a == pytest.approx(found.gap * abs(found.table).max())


@wanting("scipy")
@pytest.mark.parametrize("very_many", [0, 10**6])
def test_a_middle_with_too_many_entries_is_made_of_fewer(monkeypatch, very_many):
    from kuifje.refinement import rounded_matrix

    for name, count in (("MANY", 500), ("VERY_MANY", very_many), ("CHOSEN", 800)):
        monkeypatch.setattr(rounded_matrix, name, count)
    rng = random.Random(8)
    first, second = pairs.programs(*pairs.dense(rng, pairs.joint(rng, 30, 3, top=9, share=1), 30, 2000))
    proof = way("mended middle")(Problem.of(first.hyper(), second.hyper()), Deadline(60))
    assert check(proof.certificate, first, second).accepted and len(json.loads(proof.certificate.text)["entries"]) < 800
