"""Questions to the program: by hand, from the first pages. They need a built program."""

import math
import os
import shutil
import signal
import subprocess
import sys
from fractions import Fraction
from pathlib import Path

import pytest

import kuifje
from kuifje import Action, Engine, GainTable, OutOfTime, Program, Refusal, TooLarge, channels, measures
from kuifje._protocol import PROGRAM
from kuifje.workers import too_late

pytestmark = pytest.mark.usefixtures("built")

PARITY = Program("var x : 0..3 := uniform 0..3;\nabout old x;\nobserve x mod 2;\n", name="parity.kf")
BRANCHES = Program("var a : 0..1 := uniform 0..1;\nvar b : 0..1 := uniform 0..1;\nabout old a, old b;\nif a = 1 { observe b; } else { observe a; }\n")
BITS = Program(
    "var x : 0..3 := uniform 0..3;\nvar n : 0..2 := 0;\nabout old x;\nwhile n < 2 {\n  observe x mod 2;\n  x := x div 2;\n  n := n + 1;\n}\n"
)
WHOLE = Program("var x : 0..3 := uniform 0..3;\nabout old x;\nobserve x;\n", name="whole.kf")


def test_a_hyper_by_hand():
    half = Fraction(1, 2)
    hyper = PARITY.hyper()
    assert [(inner.outer, inner.distribution) for inner in hyper.inners] == [(half, {0: half, 2: half}), (half, {1: half, 3: half})]
    assert hyper.prior == {x: Fraction(1, 4) for x in range(4)}


def test_leakage_by_hand():
    found = PARITY.leak("bayes")
    assert (found.prior_vulnerability, found.posterior_vulnerability) == (Fraction(1, 4), Fraction(1, 2))
    assert (found.multiplicative_leakage, found.additive_leakage) == (2, Fraction(1, 4))
    assert PARITY.leak("guessing").posterior_vulnerability == Fraction(3, 2)
    assert PARITY.capacity() == 2
    assert PARITY.reach(Fraction(9, 10)).tries == 2
    assert [line.bayes for line in PARITY.blame().without] == [Fraction(1, 4)]


def test_lines_by_hand():
    """The guard shows a, and b is seen where a is 1: without the guard nothing, without b its halves; that a is 0 the guard shows, too."""
    found = BRANCHES.lines()
    assert (found.all.inners, found.all.posterior, found.question) == (3, Fraction(3, 4), BRANCHES.question)
    assert [(line.place, line.inners, line.posterior) for line in found.without] == [
        ("4:1", 1, Fraction(1, 4)),
        ("4:12", 2, Fraction(1, 2)),
        ("4:32", 3, Fraction(3, 4)),
    ]
    guesses = BRANCHES.lines("guessing")
    assert [left.posterior for left in (guesses.all, *guesses.without)] == [Fraction(5, 4), Fraction(5, 2), Fraction(3, 2), Fraction(5, 4)]


def test_lines_of_a_loop_show_nothing_in_any_turn():
    """Two turns show both bits, and the guard shows nothing but for them; a table that asks for the upper bit alone is half right without them."""
    table = GainTable(1, 0, (Action("low", {0: 1, 1: 1}), Action("high", {2: 1, 3: 1})))
    for gain, most, least in (("bayes", Fraction(1), Fraction(1, 4)), (table, Fraction(1), Fraction(1, 2))):
        found = BITS.lines(gain)
        assert (found.all.inners, found.all.posterior) == (4, most)
        assert [(line.line, line.column, line.inners, line.posterior) for line in found.without] == [(4, 1, 1, least), (5, 3, 1, least)]


def test_neither_of_two_lines_is_to_blame():
    """What each of two equal observations shows, the other shows, too."""
    found = Program("var x : 0..3 := uniform 0..3;\nabout old x;\nobserve x;\nobserve x;\n").lines()
    assert [(line.line, line.inners, line.posterior) for line in found.without] == [(3, 4, 1), (4, 4, 1)]
    assert (found.all.inners, found.all.posterior) == (4, 1)


def test_measures_of_a_hyper_by_hand():
    hyper = PARITY.hyper()
    assert measures.posterior_vulnerability(hyper) == PARITY.leak().posterior_vulnerability
    assert 1 in measures.mutual_information(hyper) and 1 in measures.min_entropy_leakage(hyper)
    assert measures.additive_capacity(hyper) == Fraction(1, 2)


def test_refinement_and_its_certificate():
    assert kuifje.refine(WHOLE, PARITY).refines
    verdict = kuifje.refine(PARITY, WHOLE)
    assert not verdict.refines and verdict.table is not None
    proof = kuifje.certificate(PARITY, WHOLE)
    assert kuifje.check(proof, PARITY, WHOLE).accepted
    assert not kuifje.check(proof, WHOLE, PARITY).accepted
    gains = [p.leak(verdict.table).posterior_vulnerability for p in (PARITY, WHOLE)]
    assert gains[0] < gains[1]


def test_a_channel_is_written_as_a_program():
    rows = {0: (Fraction(1, 2), Fraction(1, 2), 0), 1: (0, Fraction(1, 3), Fraction(2, 3))}
    made = channels.from_rows(rows)
    back = Program(channels.to_program(made)).channel()
    assert list(back.rows.values()) == [tuple(map(Fraction, row)) for row in rows.values()]


def test_a_hyper_of_a_channel_is_the_programs():
    assert str(channels.hyper(PARITY.channel(), PARITY.hyper().prior)) == str(PARITY.hyper())


@pytest.mark.usefixtures("proved")
def test_a_refusal_has_its_place():
    with pytest.raises(Refusal) as caught:
        Program("var x : 0..3 := uniform 0..3;\n\tobserve x @ 2;\n", name="p.kf").hyper()
    refusal = caught.value
    assert (refusal.status, refusal.kind, refusal.file, refusal.line, refusal.column) == (5, "Char", "p.kf", 2, 12)
    assert refusal.caret == "\tobserve x @ 2;\n\t          ^"
    assert refusal.page == "docs/REFUSALS.md#characters"


SLOW = Program("var x : 0..65535 := uniform 0..65535;\nabout old x;\n" + "observe choose { x mod 2 : 3, 1 - x mod 2 : 1 };\n" * 30)


def test_a_question_that_takes_too_long_is_ended():
    with pytest.raises(TooLarge):
        SLOW.hyper(timeout=0.05)
    assert len(PARITY.hyper().inners) == 2


def test_a_question_that_takes_too_much_memory_is_ended():
    """Traces of sixteen shown coins for each of 4,096 secrets are more than the bound holds; the question that wants little is answered by it."""
    engine = Engine(memory=160 << 20)
    coins = "observe flip 1/2;\n" * 16
    with pytest.raises(TooLarge):
        Program(f"var x : 0..4095 := uniform 0..4095;\nabout old x;\n{coins}", engine=engine).traces(timeout=30)
    assert len(Program(PARITY.text, engine=engine).hyper().inners) == 2
    engine.close()


def test_comparisons_have_a_bound_where_nothing_is_said(monkeypatch):
    """A minute; the engine's, where that has one; and none where none is said. Other questions have none but the engine's."""

    def asked(self, words, files, deadline):
        raise too_late(deadline)

    monkeypatch.setattr(Engine, "_asked", asked)
    bounded = Program(PARITY.text, name="bounded.kf", engine=Engine(timeout=7))
    for question in (kuifje.refine, kuifje.certificate, kuifje.covers):
        with pytest.raises(OutOfTime, match="no answer within 60 seconds; give timeout=None for none$"):
            question(WHOLE, PARITY)
        for timeout, seconds in ((None, "inf"), (math.inf, "inf"), (5, "5"), (60, "60")):
            with pytest.raises(OutOfTime, match=f"no answer within {seconds} seconds$"):
                question(WHOLE, PARITY, timeout=timeout)
        for timeout, seconds in (({}, "7"), ({"timeout": None}, "7"), ({"timeout": 90}, "90"), ({"timeout": math.inf}, "inf")):
            with pytest.raises(OutOfTime, match=f"no answer within {seconds} seconds$"):
                question(bounded, PARITY, **timeout)
    for question in (PARITY.hyper, lambda: kuifje.parallel(WHOLE, PARITY)):
        with pytest.raises(OutOfTime, match="within inf seconds$"):
            question()


def test_an_interrupt_ends_the_question_alone():
    engine = Engine()
    slow = Program(SLOW.text, engine=engine)
    with pytest.raises(KeyboardInterrupt):
        previous = signal.signal(signal.SIGALRM, signal.default_int_handler)  # what SIGINT does, also where that is ignored
        try:
            signal.setitimer(signal.ITIMER_REAL, 0.5)
            slow.hyper(timeout=30)
        finally:
            signal.setitimer(signal.ITIMER_REAL, 0)
            signal.signal(signal.SIGALRM, previous)
    assert len(Program(PARITY.text, engine=engine).hyper().inners) == 2
    engine.close()


NOISY = Program("var y : 0..1 := uniform 0..1;\nabout old y;\nobserve choose { y : 3, 1 - y : 1 };\n", name="noisy.kf")


def test_compositions_by_hand():
    """Parity has the capacity 2, all four values have 4. Both show 4; each with probability 1/2 shows 3; a parity that is told rightly with
    probability 3/4 shows 3/4 + 3/4."""
    found = kuifje.parallel(PARITY, WHOLE)
    assert (found.rows, found.first, found.second, found.both) == (4, 2, 4, 4)
    found = kuifje.choice(PARITY, WHOLE, Fraction(1, 2))
    assert (found.rows, found.columns, found.both) == (4, 6, 3)
    found = kuifje.cascade(PARITY, NOISY)
    assert (found.rows, found.columns, found.first, found.second, found.both) == (4, 2, 2, Fraction(3, 2), Fraction(3, 2))
    assert found.question.startswith("By what factor can what noisy.kf makes of what parity.kf shows help an adversary?")


def test_verdicts_for_every_prior():
    found = kuifje.covers(WHOLE, PARITY)
    assert (
        found.refines and found.question == "Does parity.kf leak no more than whole.kf about initial and final values together, whatever the prior?"
    )
    assert not kuifje.covers(PARITY, WHOLE).refines


def test_questions_about_two_programs():
    question = kuifje.refine(WHOLE, PARITY).question
    assert question.startswith("Does parity.kf leak no more than whole.kf, to any adversary? What an observer learns about x, as it was")
    same = Program(PARITY.text, name="parity.kf")
    assert kuifje.refine(PARITY, same).matrix.rows == ((1, 0), (0, 1))
    with pytest.raises(kuifje.KuifjeError, match="1024 turns in one program, and 5"):
        kuifje.refine(PARITY, Program(PARITY.text, turns=5))
    with pytest.warns(UserWarning, match="no item of the target is old"):
        left = Program("var x : 0..1 := uniform 0..1;\n", name="left.kf")
        kuifje.refine(left, left)


def test_programs_and_gains_of_files(tmp_path):
    """A bet on an even number gains 1 where it is right: 1/2 before its parity is seen, and 1 with it, for two of four values."""
    (tmp_path / "parity.kf").write_bytes(PARITY.text)
    (tmp_path / "even.json").write_text(
        '{"actions":[{"gains":[["0",1],["2",1]],"name":"bet"},{"gains":[],"name":"pass"}],"format":"kuifje-gain-1","over":1,"rest":0}'
    )
    program = Program.from_file(tmp_path / "parity.kf")
    assert repr(program) == f"<Program parity.kf, {len(PARITY.text)} bytes>"
    found = program.leak(f"table:{tmp_path / 'even.json'}")
    assert (found.prior_vulnerability, found.posterior_vulnerability) == (Fraction(1, 2), Fraction(1, 2))
    assert [move.actions["bet"] for move in program.attack(f"table:{tmp_path / 'even.json'}").moves] == [1, 0]
    assert "bytes>" in repr(kuifje.certificate(WHOLE, PARITY))
    for name in ("", "--json", "..", "a/b", "gain.json", "certificate.json"):
        with pytest.raises(ValueError):
            Program("skip;", name=name)


def test_answers_that_have_one_row_or_several():
    """Of four equal values, of which two are left: the traces, and the least of the best guesses."""
    assert [(trace.shown, trace.probability, trace.joint) for trace in PARITY.traces().traces] == [
        ((bit,), Fraction(1, 2), {bit: Fraction(1, 4), bit + 2: Fraction(1, 4)}) for bit in (0, 1)
    ]
    assert [(move.outer, move.value, move.actions) for move in PARITY.attack("bayes").moves] == [
        (Fraction(1, 2), Fraction(1, 2), {str(bit): Fraction(1, 2)}) for bit in (0, 1)
    ]
    assert PARITY.trail().inners == (1, 2) and len(PARITY.quiet(0, 1).inners) == 1
    assert list(PARITY.channel().rows.values()) == [(1, 0), (0, 1)] * 2


def test_the_package_runs_the_program(tmp_path):
    """As its command does: the same words and files, what is printed, and the status; where there is none, how to get it."""
    (tmp_path / "parity.kf").write_bytes(PARITY.text)

    def run(*words, **environment):
        given = {"PYTHONPATH": os.pathsep.join(sys.path), "PATH": str(tmp_path), **environment}
        return subprocess.run([sys.executable, "-m", "kuifje", *words], cwd=tmp_path, env=given, capture_output=True, text=True, check=False)

    named = os.environ.get(PROGRAM) or shutil.which("kuifje")
    found = run("capacity", "parity.kf", **{PROGRAM: named})
    assert (found.returncode, found.stdout, found.stderr) == (0, "capacity 2\n", "")
    found = run("quiet", "parity.kf", "0..9", **{PROGRAM: named})
    assert (found.returncode, found.stdout, found.stderr) == (13, "", "kuifje: parity.kf: 1 statements\n")
    found = run("hyper", "parity.kf")
    assert (found.returncode, found.stdout) == (2, "") and "make" in found.stderr and PROGRAM in found.stderr


def test_the_version_is_that_of_the_repository():
    assert kuifje.__version__ == (Path(__file__).resolve().parents[2] / "VERSION").read_text().strip()
