"""What was seen: labels of inners and attacks as trees, by hand and by examples of the pages."""

from fractions import Fraction

import pytest

from kuifje import Action, Engine, GainTable, KuifjeError, OutOfTime, Program, deadlines, labels, observations, plan
from kuifje.deadlines import Deadline
from kuifje.model import Noise, Secret, choose, flip, model, observe, uniform
from kuifje.observations import Fork, Leaf, drawn
from kuifje.workers import too_late

HALF, QUARTER = Fraction(1, 2), Fraction(1, 4)
LOCK = """var pin : 0..3 := uniform 0..3;
var tries : 0..2 := 0;
var open : bool := false;
about old pin;
while tries < 2 and not open { open := pin = tries; tries := tries + 1; }
observe open;
"""
# A server answers 401, and 429 from the third time on where the name exists; it takes long (2) where the name exists, and jitters once in five times.
LOGIN = """var exists : bool := flip 1/5;
var n : 0..3 := 0;
var fails : 0..3 := 0;
about old exists;
while n < 3 {
  observe cond(exists and fails >= 2, 429, 401);
  observe choose { cond(exists and fails < 2, 2, 1) : 4, cond(exists and fails < 2, 1, 2) : 1 };
  fails := fails + cond(exists, 1, 0);
  n := n + 1;
}
"""
COINS = """var x : bool := flip 1/2;
var i : 0..13 := 0;
about old x;
observe choose { x : 3, not x : 1 };
while i < 13 { observe flip 1/2; i := i + 1; }
"""
WORDS = {1: "fast", 2: "slow"}

pytestmark = pytest.mark.usefixtures("built")


@model
def noisy(x: Secret = flip(1, 2)):
    """A bit is shown by a device that lies once in four times, and then three coins: 2^4 traces."""
    observe(choose((x, 3), (not x, 1)))
    for _ in range(3):
        observe(choose((0, 1), (1, 1)))


@model
def silent(x: Secret = flip(1, 2)):
    pass


@model
def parity(x: Secret = uniform(range(4)), coin: Noise = flip(1, 2)):
    if coin:
        observe(x % 2)
    else:
        observe(x // 2)


def test_labels_of_a_lock():
    """A wrong first try leads to a second one, which is the guard; how many turns there were says which guess was right."""
    found = labels(Program(LOCK))
    assert [(label.outer, label.text, label.more) for label in found] == [
        (QUARTER, "false", 0), (QUARTER, "true, then true", 0), (HALF, "true, then false", 0)]  # fmt: skip
    assert str(found).splitlines()[2] == "inner 2 outer 1/2: true, then false" and found.cause is None
    assert found.records()[1] == {"inner": 1, "outer": QUARTER, "seen": "true, then true", "more": 0} and len(found) == 3


def test_the_shortest_comes_first():
    """A two shows that the guard is false, and then always the same; the others show themselves, and then a coin."""
    text = "var x : 0..2 := uniform 0..2;\nabout old x;\nif x < 2 { observe x; observe flip 1/2; } else { observe 0; }\n"
    assert [str(label) for label in labels(Program(text))] == [
        "true, then 0, then false, and 1 more",
        "true, then 1, then false, and 1 more",
        "false",
    ]


def test_a_program_that_shows_nothing():
    (label,) = labels(Program("var x : 0..1 := uniform 0..1;\nabout old x;\nobserve 3;\n"))
    assert (label.outer, str(label)) == (1, "nothing")


@pytest.mark.parametrize(
    ("gain", "lines"),
    [
        ("bayes", ["gain bayes, posterior vulnerability 3/4", "false: guess 0 (value 1, probability 1/4)", "guess 2 (value 1/2, probability 1/2)"]),
        ("tries:2", ["gain tries 2, posterior vulnerability 1", "guess 0 (value 1, probability 1/4)", "guess 2, then 3 (value 1, probability 1/2)"]),
        ("guessing", ["gain guessing, expected guesses 5/4", "guess 0 (value 1, probability 1/4)", "guess 2, then 3 (value 3/2, probability 1/2)"]),
    ],
)
def test_a_plan_by_hand(gain, lines):
    """After both guards were true either the second try was right, or two numbers are left: 1/4 + 1/4 + 1/2 · 1/2 is 3/4."""
    printed = str(plan(Program(LOCK), gain)).splitlines()
    assert printed[0] == lines[0] and printed[1].endswith(lines[1]) and printed[2] == "└─ true" and printed[3].endswith(lines[2])
    assert printed[1].startswith("├─ false: ") and printed[3].startswith("   ├─ false: ") and printed[4].startswith("   └─ true: guess 1 (")


def test_an_attack_on_a_login_says_what_was_seen():
    """Whether the third answer is 429 says all, so the time before it doesn't matter: no branch has it."""
    found = plan(Program(LOGIN), write=lambda value: WORDS.get(value, str(value)))
    assert str(found).splitlines()[1:] == ["├─ 401: guess false (value 1, probability 4/5)", "└─ 429: guess true (value 1, probability 1/5)"]


def test_the_time_decides_where_the_answer_does_not():
    """One request: 401 always. Slow has the probability 1/5 · 4/5 + 4/5 · 1/5 = 8/25, half of it where the name exists."""
    text = LOGIN.replace("n < 3", "n < 1")
    printed = str(plan(Program(text), write=lambda value: WORDS.get(value, str(value))))
    assert printed.splitlines()[1:] == ["├─ fast: guess false (value 16/17, probability 17/25)", "└─ slow: guess false (value 1/2, probability 8/25)"]


def test_branches_that_lead_to_the_same_are_one():
    text = "var x : 0..9 := uniform 0..9; var y : 0..9 := 0;\nabout old x;\ny := uniform 0..3;\nobserve x div 8 * 4 + y;\n"
    assert str(plan(Program(text))).splitlines()[1:] == [
        "├─ 0 or 1 or 2 or 1 more: guess 0 (value 1/8, probability 4/5)",
        "└─ 4 or 5 or 6 or 1 more: guess 8 (value 1/2, probability 1/5)",
    ]


def test_a_plan_of_a_gain_table():
    """To open gains 3 where the PIN is 0, and to wait 1 where it isn't."""
    table = GainTable(1, 0, (Action("open", {0: 3}), Action("wait", {1: 1, 2: 1, 3: 1})))
    assert str(plan(Program(LOCK), table)).splitlines()[1:] == [
        "├─ false: open (value 3, probability 1/4)",
        "└─ true",
        "   ├─ false: wait (value 1, probability 1/2)",
        "   └─ true: wait (value 1, probability 1/4)",
    ]


def test_many_traces_leave_a_program_without_labels():
    found = labels(Program(COINS))
    assert [label.text for label in found] == [None, None] and "there are 16384 traces" in str(found) and "no label" in str(found)
    printed = str(plan(Program(COINS)))
    assert "at most 10000 are gone through" in printed and "├─ inner 0: guess true (value 3/4, probability 1/2)" in printed


def test_a_table_of_traces_that_takes_too_long_leaves_no_labels(monkeypatch):
    monkeypatch.setattr(observations, "SECONDS", 0.0)
    found = labels(Program(LOCK))
    assert [label.text for label in found] == [None] * 3 and "too many traces: the question took longer than it may" in found.cause


def test_a_tree_with_too_many_leaves_is_a_line_for_each_inner():
    """The parity of a number is shown three times, right with 3/4: 8 traces, of which those with one number of ones lead to one inner. A trace with k
    ones has the probability (3^k + 3^(3 - k)) / 128."""
    noisy_parity = Program("var x : 0..3 := uniform 0..3;\nabout old x;\n" + "observe choose { x mod 2 : 3, 1 - x mod 2 : 1 };\n" * 3)
    assert str(plan(noisy_parity, leaves=8)).count("guess") == 8
    head, cause, *lines = str(plan(noisy_parity, leaves=7)).splitlines()
    assert head == "gain bayes, posterior vulnerability 27/64"  # 2 · 7/32 · 27/56 + 2 · 9/32 · 3/8
    assert cause == "the tree of 8 traces has more than 7 leaves: a line for each inner has the shortest trace that leads there"
    assert sorted(line[3:] for line in lines) == [
        "0, then 0, then 0: guess 0 (value 27/56, probability 7/32)",
        "0, then 0, then 1, and 2 more: guess 0 (value 3/8, probability 9/32)",
        "0, then 1, then 1, and 2 more: guess 1 (value 3/8, probability 9/32)",
        "1, then 1, then 1: guess 1 (value 27/56, probability 7/32)",
    ]
    few = str(plan(noisy_parity, leaves=3)).splitlines()
    assert len(few) == 6 and few[5] == "└─ and 1 more inners: the attack has what is done there"


def test_a_shown_number_of_many_values_is_not_printed_whole():
    """5,000 leaves, each an inner of its own: the first thousand are named."""
    lines = str(plan(Program("var x : 0..4999 := uniform 0..4999;\nabout old x;\nobserve x;\n"))).splitlines()
    assert len(lines) == 2 + 1000 + 1 and lines[2] == "├─ 0: guess 0 (value 1, probability 1/5000)"
    assert lines[1].startswith("the tree of 5000 traces has more than 1000 leaves") and lines[-1].startswith("└─ and 4000 more inners: ")


@pytest.fixture
def two_seconds_each(monkeypatch):
    """Each question takes two seconds, by a clock that nothing else moves. Gives the clock, and what each question might take."""
    clock, asked, given = [0.0], Engine._asked, []

    def slow(self, words, files, deadline):
        given.append((words[0], deadline.left))
        found = asked(self, words, files, Deadline(None))
        clock[0] += min(2.0, deadline.left)
        if deadline.passed:
            raise too_late(deadline)
        return found

    monkeypatch.setattr(deadlines, "monotonic", lambda: clock[0])
    monkeypatch.setattr(Engine, "_asked", slow)
    return clock, given


def test_the_seconds_of_a_plan_are_for_all_its_questions(two_seconds_each):
    clock, given = two_seconds_each
    assert plan(Program(LOCK), timeout=7).cause is None
    assert given == [("hyper", 7), ("attack", 5), ("traces", 3)] and clock == [6]
    found = plan(Program(LOCK), timeout=5)
    assert clock == [6 + 5] and found.vulnerability == Fraction(3, 4)
    assert found.cause == "no inner has a label: there are too many traces: the question took longer than it may: no answer within 1 seconds"
    with pytest.raises(OutOfTime, match="no answer within 3 seconds"):
        plan(Program(LOCK), timeout=3)
    assert clock == [11 + 3]


def test_the_seconds_of_labels_are_for_all_their_questions(two_seconds_each):
    clock, given = two_seconds_each
    assert labels(Program(LOCK), timeout=5).cause is None and given == [("hyper", 5), ("traces", 3)]
    assert "no answer within 1 seconds" in labels(Program(LOCK), timeout=3).cause and clock == [4 + 3]


def test_a_models_runs_have_the_time_that_its_traces_leave(two_seconds_each, monkeypatch):
    """Each run takes a quarter of a second. Hyper and attack leave 2.4 seconds, of which traces may take half. In the others end four of 16."""
    clock, given = two_seconds_each
    runs = type(noisy).runs

    def slow(self, **public):
        for run in runs(self, **public):
            clock[0] += 0.25
            yield run

    monkeypatch.setattr(type(noisy), "runs", slow)
    found = plan(noisy, timeout=6.4)
    assert [command for command, _ in given] == ["hyper", "attack", "traces"] and given[2][1] == pytest.approx(1.2)
    assert found.cause.endswith("4 runs in Python took 1.2 seconds, and there are more") and clock[0] < 6.4 + 0.25


def test_the_runs_of_a_model_label_what_traces_cannot(monkeypatch):
    """Each posterior has one of the first two values, and then any of 2^3 sequences of coins."""
    monkeypatch.setattr(observations, "MOST_TRACES", 15)
    found = labels(noisy)
    assert found.cause is None and [(label.outer, label.more) for label in found] == [(HALF, 2**3 - 1)] * 2
    assert {label.text.split(", ")[0] for label in found} == {"false", "true"}
    assert str(plan(noisy)).splitlines() == [
        "gain bayes, posterior vulnerability 3/4",
        "├─ false: guess false (value 3/4, probability 1/2)",
        "└─ true: guess true (value 3/4, probability 1/2)",
    ]
    monkeypatch.setattr(observations, "MOST_RUNS", 31)
    assert (
        labels(noisy).cause
        == "no inner has a label: there are 16 traces, and at most 15 are gone through; there are more than 31 runs in Python, too"
    )


def test_runs_that_leave_another_posterior_are_an_error(monkeypatch):
    """A model whose runs aren't those of its program: there is none, so the runs of another one stand in."""
    monkeypatch.setattr(observations, "MOST_TRACES", 15)
    runs = type(noisy).runs
    monkeypatch.setattr(type(noisy), "runs", lambda self, **public: runs(silent, **public))
    with pytest.raises(KuifjeError, match="^nothing is seen before a posterior that isn't one of the program's inners"):
        labels(noisy)


def test_a_model_is_labelled_by_its_traces():
    """The coin is seen, and then one bit of two; of both bits of 0..3 each says what two numbers have."""
    assert {label.text: label.outer for label in labels(parity)} == {
        "true, then 0": QUARTER, "true, then 1": QUARTER, "false, then 0": QUARTER, "false, then 1": QUARTER}  # fmt: skip
    with pytest.raises(TypeError):
        labels(parity, {"y": 1})
    with pytest.raises(TypeError):
        labels(Program(LOCK), {"y": 1})


def test_cells_and_the_command_plan(tmp_path):
    testing = pytest.importorskip("click.testing")
    from kuifje.lab import main
    from kuifje.notebook import answer

    assert len(answer("labels", LOCK)) == 3 and str(answer("plan --gain tries:2", LOCK)).startswith("gain tries 2, posterior vulnerability 1\n")
    (tmp_path / "lock.kf").write_text(LOCK)
    found = testing.CliRunner().invoke(main, ["plan", str(tmp_path / "lock.kf"), "--gain", "guessing"])
    assert answer("plan", LOCK)._repr_html_().startswith("<pre>gain bayes, ") and "<td>true, then true</td>" in answer("labels", LOCK)._repr_html_()
    assert found.exit_code == 0 and found.output.startswith("gain guessing, expected guesses 5/4\n├─ false: guess 0 ")


def test_trees_are_drawn():
    tree = Fork((("a", Fork((("b", Leaf("1")), ("c", Leaf("2"))), "ask")), ("d", Leaf("3"))))
    assert list(drawn(tree)) == ["├─ a: ask", "│  ├─ b: 1", "│  └─ c: 2", "└─ d: 3"] and list(drawn(Leaf("x"))) == ["x"]
