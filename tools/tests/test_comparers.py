"""`gate.beside`, `gate.ways` and `gate.certificates` see a program that prints something else, command by command."""

from __future__ import annotations

import json
import random
from collections.abc import Callable
from fractions import Fraction
from pathlib import Path

import pytest
from conftest import PROGRAM
from gate import beside, certificates, ways
from gate.case_files import Case
from gate.certificates import PAIRS, Runs, Spoilt
from gate.plain import Program as Plain
from gate.program import Program
from kuifje.texts import Action, GainTable
from gate.trial import Trial
from liars import Liar

pytestmark = pytest.mark.skipif(not PROGRAM.is_file(), reason="there is no bin/kuifje, nor a program that KUIFJE_PROGRAM names")
Comparison = Callable[[Trial], object]


def trial_of(program: Program, folder: Path) -> Trial:
    return Trial(program, folder, random.Random(1))


def channels_and_attacks(trial: Trial) -> None:
    """Attacks are compared on the program that the channels left."""
    beside.channels_beside(trial)
    beside.attacks_beside(trial)


def some_verdicts(trial: Trial) -> None:
    """A yes, by a matrix that isn't the identity, and a no."""
    assert beside.verdict_beside(trial, [[2, 2], [2, 1]], [[1, 2], [3, 1]]) is False
    assert beside.verdict_beside(trial, [[4, 0], [0, 4]], [[3, 1], [1, 3]]) is True


def some_runs(trial: Trial) -> None:
    """Twenty programs, among which are some for each command."""
    for _ in range(20):
        ways.runs_beside(trial)


def some_pairs(trial: Trial) -> None:
    """Ten pairs, among which `covers` says yes and no."""
    assert len({ways.covers_beside(trial) for _ in range(10)}) == 2


BESIDE: list[tuple[Comparison, str, str, str]] = [
    (channels_and_attacks, "capacity", r"^capacity ", "capacity 1"),
    (channels_and_attacks, "parallel", r"^both ", "both 1"),
    (channels_and_attacks, "choice", r"^first .*\nsecond", "second"),
    (channels_and_attacks, "cascade", r"^columns \d", "columns 7"),
    (channels_and_attacks, "channel", r"^  0$", "  1/7"),
    (channels_and_attacks, "hyper", r"^inner 0 outer .*$", "inner 0 outer 1/9"),
    (channels_and_attacks, "attack", r" value ", " value 1"),
    (channels_and_attacks, "reach", r"^before ", "before 1"),
    (beside.leaks_beside, "leak", r"^prior ", "prior 1"),
    (beside.leaks_beside, "leak", r"^difference ", "difference 1"),
    (some_verdicts, "refine", r"^over 1\n", "over 2\n"),
    (some_verdicts, "refine", r"^matrix 2 2\n.*\n", "matrix 2 2\n1 0\n"),
    (some_verdicts, "check", r"^rejected cell$", "accepted"),
    (some_verdicts, "check", r"^rejected order$", "accepted"),
    (beside.quiet_beside, "quiet", r"^scale ", "scale 1"),
    (beside.quiet_beside, "blame", r"^without 1 inners (\d)", r"without 1 inners 1\1"),
    (beside.covers_beside, "covers", r"^refines (?s:.*)", "refines yes\nmatrix 1 1\n1\n"),
]
WAYS: list[tuple[Comparison, str, str, str]] = [
    (some_runs, "hyper", r"^scale (\d)", r"scale 1\1"),
    (some_runs, "hyper", r" 1/2$", " 1/3"),
    (some_runs, "traces", r"^trace \[(.*)\] weight", r"trace [\1, 7] weight"),
    (some_runs, "channel", r"^row true$", "row false"),
    (some_runs, "trail", r"^after 1 inners (\d)", r"after 1 inners 1\1"),
    (ways.quiet_beside, "quiet", r"^target old x, b$", "target old b, x"),
    (ways.quiet_beside, "blame", r" bayes ", " bayes 1"),
    (ways.lines_beside, "lines", r"^all inners ", "all inners 1"),
    (ways.lines_beside, "lines", r"^5:1 ", "5:2 "),
    (some_pairs, "covers", r"^rest ", "rest 1"),
]


@pytest.mark.parametrize("compare", [channels_and_attacks, beside.leaks_beside, some_verdicts, beside.quiet_beside, beside.covers_beside])
def test_nothing_is_found_beside_the_program_as_it_is(compare: Comparison, tmp_path: Path) -> None:
    compare(trial_of(Program(PROGRAM), tmp_path))


@pytest.mark.parametrize("compare, command, old, new", BESIDE)
def test_beside(compare: Comparison, command: str, old: str, new: str, tmp_path: Path) -> None:
    liar = Liar(PROGRAM, command, old, new)
    with pytest.raises(SystemExit, match="by the plain program|doesn't prove what it says|where trying all bases says"):
        compare(trial_of(liar, tmp_path))
    assert liar.told


@pytest.mark.parametrize("status", [1, 2, -11])
def test_an_answer_with_another_status(status: int, tmp_path: Path) -> None:
    with pytest.raises(SystemExit, match=f"capacity p.kf: status {status}"):
        beside.channels_beside(trial_of(Liar(PROGRAM, "capacity", "^capacity ", "capacity ", status), tmp_path))


def test_an_answer_of_another_form(tmp_path: Path) -> None:
    with pytest.raises(SystemExit, match="channel p.kf: line .* wanted 'rows'"):
        beside.channels_beside(trial_of(Liar(PROGRAM, "channel", r"^rows ", "lines "), tmp_path))
    with pytest.raises(SystemExit, match="hyper none.kf: status 3, kuifje: none.kf: read failed"):
        beside.hyper(trial_of(Program(PROGRAM), tmp_path), "none.kf")


@pytest.mark.parametrize("compare", [some_runs, ways.quiet_beside, ways.lines_beside, some_pairs])
def test_nothing_is_found_on_the_ways_through_programs(compare: Comparison, tmp_path: Path) -> None:
    compare(trial_of(Program(PROGRAM), tmp_path))


@pytest.mark.parametrize("compare, command, old, new", WAYS)
def test_ways(compare: Comparison, command: str, old: str, new: str, tmp_path: Path) -> None:
    liar = Liar(PROGRAM, command, old, new)
    with pytest.raises(SystemExit, match="by the plain program|doesn't separate"):
        compare(trial_of(liar, tmp_path))
    assert liar.told


# ---- verdicts for every prior, without the program


DECLARED = "var x : -1..1 := 0;\nvar b : bool := flip 1/2;\nabout old x, old b, x, b;\n"


class Silent(Program):
    """A program that isn't asked."""


def test_a_yes_where_a_prior_says_no(tmp_path: Path) -> None:
    """The second program shows x, and the first one nothing."""
    shows, hides = Plain(DECLARED + "observe x;\n"), Plain(DECLARED + "skip;\n")
    with pytest.raises(SystemExit, match="covers says yes, and the prior"):
        ways.yes_beside(trial_of(Silent(), tmp_path), hides, shows)
    ways.yes_beside(trial_of(Silent(), tmp_path), shows, hides)


def test_a_no_by_a_table_that_does_not_separate(tmp_path: Path) -> None:
    """A table that gains the same by every action, and one that gains by guessing x."""
    shows, hides = Plain(DECLARED + "observe x;\n"), Plain(DECLARED + "skip;\n")
    same = GainTable(1, 3, (Action("one", {}), Action("other", {})))
    guess = GainTable(1, 0, tuple(Action(f"b{x}", {(x, b, x, b): 1 for b in (False, True)}) for x in (-1, 0, 1)))
    with pytest.raises(SystemExit, match="covers says no by a table that doesn't separate"):
        ways.no_beside(trial_of(Silent(), tmp_path), hides, shows, same)
    ways.no_beside(trial_of(Silent(), tmp_path), hides, shows, guess)


@pytest.mark.parametrize(
    "case, question",
    [
        (Case("a", [b"kuifje", b"hyper", b"p.kf"], [(b"p.kf", b"var")], 0), ("hyper", [], "var")),
        (Case("b", [b"kuifje", b"trail", b"p.kf", b"--turns=5"], [(b"p.kf", b"var")], 6), ("trail", ["--turns", "5"], "var")),
        (Case("c", [b"kuifje", b"blame", b"p.kf"], [(b"p.kf", b"var")], 0), None),
        (Case("d", [b"kuifje", b"hyper", b"p.kf"], [(b"p.kf", b"var")], 5), None),
        (Case("e", [b"kuifje", b"hyper", b"p.kf"], [(b"q.kf", b"var")], 0), None),
        (Case("f", [b"kuifje", b"hyper", b"p.kf"], [(b"p.kf", b"\xff")], 0), None),
        (Case("g", [b"kuifje", b"hyper"], [], 0), None),
        (Case("h", [], [], 0), None),
    ],
)
def test_which_cases_the_plain_program_is_asked(case: Case, question: tuple[str, list[str], str] | None) -> None:
    assert ways.question_of(case) == question


def test_the_plain_program_by_hand() -> None:
    """A number from 0 to 3, of which the last bit is seen: two inners of two values each."""
    status, lines = Plain("var x : 0..3 := uniform 0..3;\nabout old x;\nobserve x mod 2;\n").answer("hyper")
    inners = ["inner 0 outer 1/2", "  0 1/2", "  2 1/2", "inner 1 outer 1/2", "  1 1/2", "  3 1/2"]
    assert (status, lines) == (0, ["target old x", "scale 4", "inners 2", *inners])
    assert Plain("var x : 0..1 := 0;\nobserve 1 div x;\n").answer("hyper") == (6, ["2:9: DivZero"])
    # 127 coins have the scale 2^127, which is one more than there may be; the traces aren't gone through.
    assert Plain("var x : bool := true;\n" + "x := flip 1/2;\n" * 127).answer("hyper") == (7, ["scale passes 2^127 - 1"])


@pytest.mark.parametrize(
    "a, b, solvable",
    [
        ([[1, 0], [0, 1]], [[1, 1], [0, 0]], True),
        ([[1, 0], [1, 2]], [[2, 0], [0, 2]], False),
        ([[2, 0], [0, 2]], [[1, 1], [1, 1]], True),
        ([[1, 1], [1, 1]], [[2, 0], [0, 2]], False),
        ([[1, 2], [3, 4]], [[4, 6], [0, 0]], True),
    ],
)
def test_trying_all_bases_by_hand(a: list[list[int]], b: list[list[int]], solvable: bool) -> None:
    """Columns are joined, can't be parted, are halved, can't be sharpened, and are joined again."""
    first, second = ([[Fraction(cell) for cell in column] for column in columns] for columns in (a, b))
    assert beside.is_solvable(beside.equations(first, second)) is solvable


# ---- certificates

YES = {
    "columns": "1",
    "entries": [["0", "0", "1"], ["1", "0", "1"]],
    "format": "kuifje-cert-2",
    "rows": "2",
    "verdict": "yes",
}
SHOWN, HIDDEN = "seldom.kf", "never.kf"


def certificate(**members: object) -> bytes:
    return json.dumps({**YES, **members}).encode()


SPOILT = [
    Spoilt("as it is", certificate(), SHOWN, HIDDEN),
    Spoilt("changed places", certificate(), HIDDEN, SHOWN),
    Spoilt("an entry of 2", certificate(entries=[["0", "0", "2"], ["1", "0", "1"]]), SHOWN, HIDDEN),
    Spoilt("an entry of 1/2", certificate(entries=[["0", "0", "1/2"], ["1", "0", "1"]]), SHOWN, HIDDEN),
    Spoilt("no JSON", b"{", SHOWN, HIDDEN),
]


def test_both_say_the_same_of_spoilt_certificates(tmp_path: Path) -> None:
    """A matrix that joins both inners of what shows x mod 2 proves that it leaks no less than what shows nothing."""
    runs = Runs(tmp_path, Program(PROGRAM))
    certificates.compare_all(runs, SPOILT)
    assert runs.faults == [] and runs.listed == 0
    said = [runs.kuifje("check", f"{number}.json", runs.path(case.a), runs.path(case.b)).out for number, case in enumerate(SPOILT)]
    assert said == ["accepted", "rejected shape", "rejected range", "rejected sum", ""]


@pytest.mark.parametrize(
    "old, new, status, what",
    [
        ("^rejected sum$", "accepted", 0, "an entry of 1/2"),
        ("^rejected range$", "rejected sum", 1, "an entry of 2"),
        ("^accepted$", "rejected cell", 1, "as it is"),
        ("^rejected shape$", "accepted", 0, "changed places"),
    ],
)
def test_a_program_that_says_something_else_of_a_certificate(old: str, new: str, status: int, what: str, tmp_path: Path) -> None:
    runs = Runs(tmp_path, Liar(PROGRAM, "check", old, new))
    certificates.compare_all(runs, SPOILT)
    assert [fault for fault in runs.faults if f"{what}: kuifje {status} {new}, the script" in fault] == runs.faults and len(runs.faults) == 1


def test_what_the_examples_certificates_are_spoilt_to(tmp_path: Path) -> None:
    """Each pair has its certificate as printed, and in the older format."""
    kinds = {case.what for case in certificates.cases(Runs(tmp_path, Program(PROGRAM)))}
    for a, b in PAIRS:
        assert {f"as printed, of {a} {b}", f"in the older format, of {a} {b}"} <= kinds
    assert {"without the last byte", "as printed, one row more", "as printed, no gain at all", "5000 lists before it"} <= kinds
