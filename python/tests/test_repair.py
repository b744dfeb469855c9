"""Floors and repairs: numbers worked out by hand, what is refused, and proposals that must not be let through."""

from __future__ import annotations

import warnings
from fractions import Fraction
from itertools import product
from pathlib import Path

import pytest

from kuifje import Program, check
from kuifje.errors import OutOfTime, Refusal
from kuifje.measures import posterior_vulnerability
from kuifje.repair import BadPurpose, floor, repair
from kuifje.repair.kinds import type_of
from kuifje.repair.purposes import marked, quietly
from kuifje.repair.search import _Search
from kuifje.repair.structure import Change, Even, compounds
from kuifje.source import Range, read

TOP = Path(__file__).resolve().parents[2]
pytestmark = pytest.mark.usefixtures("built")


def program_of(path: str) -> Program:
    return Program((TOP / path).read_bytes(), name=Path(path).name)


# Each guess is right for one value of each class of what is kept, all values being equally likely: of 27 passwords 2 classes, and so on.
FLOORS = [
    ("examples/password/early.kf", 10, Fraction(2, 27)),
    ("examples/password/loop.kf", 11, Fraction(2, 27)),
    ("examples/exponent/bits.kf", None, Fraction(1, 8)),
    ("examples/exponent/length.kf", None, Fraction(1, 8)),
    ("examples/padding_oracle/oracle.kf", None, Fraction(1, 64)),
    ("examples/binary_search/halving.kf", None, Fraction(1, 16)),
    ("examples/countdown.kf", None, Fraction(1, 4)),
    ("examples/guard.kf", None, Fraction(1, 4)),
    ("course/password.kf", 6, Fraction(1, 2)),
    # Shown is whether x is 2, with 1/4, and then a number of its own; of the others x is 1 with 2/4.
    ("examples/channel_matrix/guards.kf", (5, 63), Fraction(3, 4)),
]


@pytest.mark.parametrize("path, keep, value", FLOORS)
def test_repairs_reach_the_floor_by_structure_alone(path: str, keep: int | tuple[int, int] | None, value: Fraction) -> None:
    program = program_of(path)
    found = repair(program, keep)
    assert posterior_vulnerability(found.floor.floor) == value < posterior_vulnerability(found.floor.hyper)
    assert found.best is not None and found.best.at_floor and found.best.kinds == ("structure",)
    assert posterior_vulnerability(found.best.hyper) == value
    assert found.best.certificate is not None and check(found.best.certificate, program, found.best.program).accepted
    assert found.best.diff.startswith("---") and all(value < left for left in found.best.needed.values())
    assert found.best.program.hyper() == found.best.hyper


def test_nothing_to_repair() -> None:
    found = floor(program_of("examples/password/whole.kf"))
    assert found.is_reached
    assert repair(program_of("examples/password/whole.kf")).found == ()


def test_what_is_dropped_is_listed_apart_and_is_never_the_best() -> None:
    program = program_of("examples/survey.kf")
    with pytest.raises(BadPurpose, match="in lines 5, 6"):
        repair(program)
    assert repair(program, 6).found == ()
    found = repair(program, 6, changes=("structure", "drop"))
    # Of two people one answer is kept: the other's bit is guessed with 1/2, this one's with 3/4.
    assert found.best is None and [one.kinds for one in found.found] == [("drop",)]
    assert found.found[0].at_floor and posterior_vulnerability(found.found[0].hyper) == Fraction(3, 8)


def test_a_visible_variable_in_a_branch_is_shown_on_both_sides() -> None:
    """v takes 0 where x is 1, and had 0 before, so only the guard shows something: two classes of four values, and then one."""
    text = "var x : 0..3 := uniform 0..3;\nvis v : 0..3 := 0;\nvar n : 0..3 := 0;\nabout old x;\nif x = 1 { v := n; } else { skip; }\n"
    found = repair(Program(text))
    assert posterior_vulnerability(found.floor.hyper) == Fraction(1, 2)
    assert found.best is not None and found.best.at_floor and posterior_vulnerability(found.best.hyper) == Fraction(1, 4)
    other = repair(
        Program(text.replace("n : 0..3 := 0", "n : 0..3 := 3"))
    )  # now v shows whether it was taken, and is only hidden as a kind of its own
    assert other.found == () and not other.floor.is_reached


def test_what_both_branches_show_is_shown_once() -> None:
    """Shown are whether x is above 1, x mod 2, and whether x is 0: x is known. Without the guard 1 and 3 aren't told apart: 3/4."""
    text = "var x : 0..3 := uniform 0..3;\nvar n : 0..1 := 0;\nabout old x;\n"
    text += "if x > 1 { n := 1; observe x mod 2; } else { observe x mod 2; n := 0; }\nobserve x = 0;\n"
    best = repair(Program(text), 5).best
    assert best is not None and not best.at_floor and posterior_vulnerability(best.hyper) == Fraction(3, 4)
    visible = (
        text.replace("var n", "vis n").replace("observe x mod 2", "skip").replace("n := 1", "n := x div 4").replace("uniform 0..3", "uniform 0..2")
    )
    even = repair(Program(visible), 5).best  # n is 0 whatever x is
    assert even is not None and even.at_floor and posterior_vulnerability(even.hyper) == Fraction(2, 3)
    inner = text.replace("if x > 1", "if x < 3 { if x > 1").replace("n := 0; }", "n := 0; } } else { skip; }")
    assert posterior_vulnerability(repair(Program(inner), 5).floor.hyper) == 1
    # In a branch 0 stands where nothing was shown: 0 is known, 1 has 1, and 2 and 3 have 0.
    within = repair(Program(inner), 5).best
    assert within is not None and posterior_vulnerability(within.hyper) == Fraction(3, 4)


def test_names_are_told_by_an_answer_and_by_a_branch() -> None:
    """Accepted, with 1/16, the name exists; refused, the guess that it doesn't is right with 3/4: 13/16. Either way to tell it tells all."""
    program = program_of("examples/names/telling.kf")
    by_structure = repair(program, 10)
    assert by_structure.found == () and posterior_vulnerability(by_structure.floor.floor) == Fraction(13, 16)
    (one,) = repair(program, 10, changes=("structure", "drop")).found
    assert one.at_floor and one.kinds == ("structure", "drop") and one.needed == {(8, 1): 1, (9, 1): 1}


def test_hidden_variables_are_a_kind_of_their_own() -> None:
    # Nothing is observed, so nothing is kept: what is published by visible variables would all have to be hidden.
    found = repair(program_of("examples/auction.kf"), changes=("structure", "drop", "hide"))
    assert found.best is None and [one.kinds for one in found.found] == [("hide",)]
    assert len(found.found[0].hyper.inners) == 1 and "\n-vis " in found.found[0].diff


NESTED = """var x : 0..3 := uniform 0..3;
var y : 0..3 := x;
var n : 0..9 := 0;
about old x;
while y > 0 {
  if flip 1/2 { y := y - 1; } else { if y = 3 { y := uniform 1..2; } else { y := 0; } }
  while n < y { n := choose { n + 1 : 1, n + 2 : x }; }
}
observe n > 3;
"""


def test_nested_loops_and_random_guards() -> None:
    # What is kept is a truth value, so that one guess of four is right with at most 1/2; each branch and each turn tells more today.
    program = Program(NESTED)
    found = repair(program, seconds=120)
    assert found.best is not None and found.best.at_floor
    text = found.best.program.text.decode()
    assert text.count("while") == 2 and "if flip" not in text and "if y" not in text
    with quietly():
        about = marked(program)
        assert about.joint(
            text.replace("about", "var kept : bool := false;\nvar met : bool := false;\nabout").replace(
                "observe n > 3;", "kept := n > 3; met := true; observe kept;"
            )
        ) == about.joint(about.with_marks())


def test_a_loop_with_a_turn_too_few_does_something_else() -> None:
    program = program_of("examples/countdown.kf")
    with quietly():
        about = marked(program)
        loop = next(compounds(about.source.statements))
        joint = about.joint(about.with_marks())
        texts = [Even(about, Change(frozenset([loop.at])), {loop.at: turns}).text(True) for turns in (3, 2)]
        assert [about.joint(text) == joint for text in texts] == [True, False]


def test_a_pad_without_its_observations_does_not_show_what_is_kept() -> None:
    program = program_of("examples/one_time_pad/twice.kf")
    lines = [i for i, text in enumerate(program.text.decode().splitlines(), 1) if text.startswith("observe")]
    with quietly():
        about = marked(program, lines[-1])
        silent = about.with_marks().replace(f"observe {about.keeps[0].value};", "skip;").replace("observe a + key mod 4;", "skip;")
        assert about.is_told(about.with_marks()) and not about.is_told(silent)
        assert about.joint(silent) == about.joint(about.with_marks())


def test_a_branch_made_even_the_wrong_way_leaks_more() -> None:
    # The second bit is shown on the other side, too: then all is known.
    from kuifje.refinement import decide

    text = (TOP / "course/password.kf").read_text()
    even = text.replace("else { skip; }", "else { observe b = 0; }") if "observe b = 0" in text else text
    if even == text:
        even = text.replace("{ skip; }", text[text.index("{", text.index("if ")) : text.index("}", text.index("if ")) + 1])
    assert even != text and decide(Program(text), Program(even)).refines is False


@pytest.mark.parametrize(
    "text, keep, words",
    [
        ("var x : 0..3 := uniform 0..3;\nobserve x;\n", None, "write about old"),
        ("var x : 0..3 := uniform 0..3;\nabout x;\nobserve x;\n", None, "write about old"),
        ("var x : 0..3 := uniform 0..3;\nabout old x;\nobserve x;\n", 2, "no observation begins in line 2"),
        ("var x : 0..3 := uniform 0..3;\nabout old x;\nif x = 0 { observe x; } else { observe 1; }\n", 3, "in columns 12, 32"),
        ("var x : 0..3 := uniform 0..3;\nabout old x;\nif x = 0 { observe x; } else { observe 1; }\n", None, "none of them at the top level"),
    ],
)
def test_what_cannot_be_kept_is_refused(text: str, keep: int | None, words: str) -> None:
    with pytest.raises(BadPurpose, match=words):
        floor(Program(text), keep)


def test_a_text_with_a_fault_is_refused_as_always() -> None:
    for text, kind in (("var x : 0..3 := uniform 0..3\n", "Syntax"), (DOWN.replace("y - 1", "3 div (y - 1)"), "DivZero"), (DOWN, "LoopBound")):
        for asked in (floor, repair):
            with pytest.raises(Refusal) as refused:
                asked(Program(text, turns=2))
            assert refused.value.kind == kind


def test_wrong_arguments() -> None:
    program = program_of("examples/guard.kf")
    with pytest.raises(TypeError, match="keep has lines"):
        floor(program, "5")  # type: ignore[arg-type]
    with pytest.raises(ValueError, match="'coarse' was given"):
        repair(program, changes=("coarse",))
    with pytest.raises(BadPurpose, match="no variable z"):
        repair(program, finals=["z"])
    with pytest.raises(TypeError, match="finals is a list of names"):
        repair(program, finals="h")
    for asked in (lambda: repair(Program(NESTED), seconds=0), lambda: floor(Program(NESTED), timeout=0)):
        with pytest.raises(OutOfTime):
            asked()


def test_the_commands(tmp_path: Path) -> None:
    testing = pytest.importorskip("click.testing")
    from kuifje.lab import main

    file = str(TOP / "examples/password/early.kf")
    run = testing.CliRunner().invoke
    said = run(main, ["floor", file, "--keep", "10"])
    assert said.exit_code == 1
    assert "one guess is right with 4/27, before a run with 1/27, and with 2/27 by what is kept alone\nabove the floor by 2/27\n" in said.output
    written = tmp_path / "repaired.kf"
    said = run(main, ["repair", file, "--keep", "10:1", "-o", str(written)])
    assert (
        said.exit_code == 0 and "repair 1 (structure): one guess is right with 2/27; at the floor" in said.output and "+yes := same;" in said.output
    )
    assert posterior_vulnerability(Program(written.read_bytes()).hyper()) == Fraction(2, 27)
    assert run(main, ["floor", str(written), "--keep", str(len(written.read_text().splitlines()))]).exit_code == 0
    said = run(main, ["repair", str(TOP / "examples/names/telling.kf"), "--keep", "10"])
    assert said.exit_code == 1 and "no repair was found by structure; that is a search, and another kind of change may do: --changes\n" in said.output
    assert run(main, ["floor", file, "--keep", "ten"]).exit_code == 2
    assert run(main, ["repair", file, "--changes", "coarse"]).exit_code == 2
    assert run(main, ["floor", str(tmp_path / "nothing.kf")]).exit_code == 2


def test_an_observation_in_a_branch_by_its_column() -> None:
    text = "var x : 0..3 := uniform 0..3;\nabout old x;\nif x = 0 { observe x; } else { observe 1; }\n"
    with warnings.catch_warnings():
        warnings.simplefilter("error")
        found = floor(Program(text), (3, 12))
    # It is shown where x is 0, and nothing else is: one class of one value, one of three.
    assert [inner.outer for inner in found.floor.inners] == [Fraction(1, 4), Fraction(3, 4)] and found.is_reached


def test_a_loop_that_stands_twice() -> None:
    """Both loops count down what is 3 or less, and each is as the other one: without them one guess of four is right with the two values of y = 0."""
    loop = "while y > 0 { y := y - 1; }"
    text = f"var x : 0..3 := uniform 0..3;\nvar y : 0..3 := x;\nabout old x;\nif x = 1 {{ {loop} }} else {{ skip; }}\n{loop}\nobserve x = 3;\n"
    found = repair(Program(text))
    assert found.best is not None and found.best.at_floor and posterior_vulnerability(found.best.hyper) == Fraction(1, 2)


TWO = """var x : 0..3 := uniform 0..3; # four values
var y : 0..3 := 0;            # what is shown
about old x;
if x = 0 { y := 1; } else { skip; } if x = 1 { y := 1; } else { skip; }
observe y;
"""


def test_an_observation_that_is_named_twice_is_kept_once() -> None:
    program = Program(TWO)
    assert floor(program, [5, (5, 1), 5]) == floor(program, 5)
    assert repair(program, [5, 5]).best is not None


def test_two_changes_in_one_line_are_told_apart() -> None:
    """Shown is whether x is below 2: 2/4. With either branch seen, too, there are three classes: 3/4."""
    found = repair(Program(TWO)).best
    assert found is not None and found.needed == {(4, 1): Fraction(3, 4), (4, 37): Fraction(3, 4)}


def test_comments_and_ends_of_lines_stay_as_they_are() -> None:
    best = repair(Program(TWO)).best
    assert best is not None
    text = best.program.text.decode()
    assert "uniform 0..3; # four values\nvar y : 0..3 := 0;            # what is shown\nvar yes" in text
    ended = repair(Program(TWO.replace("\n", "\r\n"))).best
    assert ended is not None and ended.program.text.decode() == text.replace("\n", "\r\n")


def test_a_column_counts_bytes_as_lines_does() -> None:
    text = "var äö : 0..3 := uniform 0..3;\nabout old äö;\nif äö = 0 { observe äö; } else { observe 1; }\n"
    places = {silent.column for silent in Program(text).lines().without}
    assert 15 in places and floor(Program(text), (3, 15)).is_reached
    with pytest.raises(BadPurpose, match="line 3, column 13"):
        floor(Program(text), (3, 13))


DOWN = "var x : 0..3 := uniform 0..3;\nvar y : 0..3 := x;\nabout old x;\nwhile y > 0 { observe y; y := y - 1; }\n"


def test_all_values_that_are_shown_are_kept(tmp_path: Path) -> None:
    """x turns show x, .., 1: what is kept is x, so that nothing more can leak."""
    found = floor(Program(DOWN))
    assert found.repeated == {4: 3} and found.is_reached and posterior_vulnerability(found.floor) == 1
    assert floor(Program(TWO)).repeated == {}
    file = tmp_path / "down.kf"
    file.write_text(DOWN)
    said = pytest.importorskip("click.testing").CliRunner().invoke(lab(), ["floor", str(file)])
    assert "line 4 shows up to 3 values in a run, and all of them are kept, in their order\n" in said.output


def test_a_sequence_without_room_is_refused_and_two_places_of_one_line_are_named() -> None:
    with pytest.raises(BadPurpose, match="line 4 shows up to 99 values in a run, and no 32 variables hold so many"):
        floor(Program(DOWN.replace("0..3", "0..99").replace("observe y", "observe y * 1000")))
    with pytest.raises(BadPurpose, match="held in variables of its own: StoreTooWide"):
        floor(Program(DOWN.replace("0..3", "0..50").replace("observe y", "observe y > 1")))
    with pytest.raises(BadPurpose, match="at the top level, in lines 4:1, 4:12: say by keep="):
        floor(Program(DOWN.replace("while y > 0 { observe y; y := y - 1; }", "observe y; observe 1;")))


def test_a_loop_of_noisy_answers_keeps_all_of_them() -> None:
    """Three answers on a bit, each right with 3/4, and a branch that shows the bit. Of the answers alone the majority is right with 27/32."""
    text = "var x : bool := flip 1/2;\nvar n : 0..3 := 0;\nvar z : 0..3 := 0;\nabout old x;\n"
    text += "while n < 3 {\n  if x { z := n; } else { skip; }\n  observe choose { x : 3, not x : 1 };\n  n := n + 1;\n}\n"
    found = repair(Program(text))
    assert found.floor.repeated == {7: 3} and posterior_vulnerability(found.floor.floor) == Fraction(27, 32)
    assert found.best is not None and found.best.at_floor and found.best.lines == (6,)


def test_a_sequence_comes_out_of_its_loop() -> None:
    """Two noisy answers on whether x is even, each right with 3/4, in a loop that takes x + 2 turns and shows x thereby.

    Of both answers alone, one guess of three is right with (9 + 3 + 3 + 9)/16 / 3 = 1/2: both say even (guess 0), they differ, or both say odd (1).
    """
    text = "var x : 0..2 := uniform 0..2;\nvar n : 0..4 := 0;\nabout old x;\nwhile n < x + 2 {\n"
    text += "  if n < 2 { observe choose { x mod 2 = 0 : 3, x mod 2 = 1 : 1 }; } else { skip; }\n  n := n + 1;\n}\n"
    found = repair(Program(text))
    assert found.floor.repeated == {5: 2} and posterior_vulnerability(found.floor.hyper) == 1
    assert found.best is not None and found.best.at_floor and posterior_vulnerability(found.best.hyper) == Fraction(1, 2)
    assert "\n}\nobserve seen;\n" in found.best.program.text.decode()


def test_the_order_of_what_is_shown_is_kept() -> None:
    """The last value and the number of values are the same in both programs, and the first value isn't."""
    head = "var x : bool := flip 1/2;\nvar n : 0..2 := 0;\nabout old x;\n"
    texts = [head + f"while n < 2 {{ observe cond(n = 0, {first}, true); n := n + 1; }}\n" for first in ("x", "not x")]
    with quietly():
        joints = [marked(Program(text)).distributed for text in texts]
    assert joints[0] != joints[1]
    assert {values[-2][0] for values in joints[0] if values[0] is True} == {True}  # type: ignore[index]


def lab() -> object:
    from kuifje.lab import main

    return main


def test_an_observation_that_cannot_be_moved_stays_dropped() -> None:
    """A pair of a million values has no type, so the branch is made even only where it isn't shown: undone alone that can't be.

    With the guard alone undone it is seen which of the two values x has.
    """
    text = "var x : 0..999 := uniform 0..1;\nvar y : 0..999 := 0;\nvar z : bool := false;\nabout old x;\n"
    text += "if x = 0 { observe (x, y); z := true; } else { skip; }\nobserve false;\n"
    found = repair(Program(text), 6, changes=("structure", "drop"))
    (one,) = found.found
    assert one.kinds == ("structure", "drop") and one.at_floor and one.needed == {(5, 1): 1}


def test_32_variables_are_named() -> None:
    more = "".join(f"var v_{i} : bool := false;\n" for i in range(25))
    ifs = "".join(f"if x = {i} {{ v_{i} := true; }} else {{ skip; }}\n" for i in range(8))
    text = f"var x : 0..7 := uniform 0..7;\n{more}about old x;\n{ifs}observe x = 0;\n"
    found = repair(Program(text))
    # 26 variables and the secret once more, and two for what is kept: one branch alone takes another one, and not all eight do.
    assert any("TooManyVariables" in why for _, why in found.uncovered)
    with pytest.raises(BadPurpose, match="held in variables of its own: TooManyVariables"):
        floor(Program(text.replace("about", "".join(f"var w_{i} : bool := false;\n" for i in range(4)) + "about")))


EARLY = """var a : 0..2 := uniform 0..2;
var b : 0..2 := uniform 0..2;
var same : bool := a = 0;
about old a, old b;
if same { same := b = 1; } else { skip; }
observe same;
"""


@pytest.mark.parametrize(
    "right, wrong, is_accepted",
    [
        ("same := same and b = 1;", "", True),
        ("same := same and b = 1;", "observe a;", False),  # leaks more
        ("same := same and b = 2;", "", False),  # shows another value
        ("same := same and b = 1; a := 0;", "", False),  # ends otherwise
        ("same := same and b = 1;", "same := same;", True),
    ],
)
def test_the_judgement_lets_no_wrong_proposal_through(right: str, wrong: str, is_accepted: bool) -> None:
    with quietly():
        search = _Search(marked(Program(EARLY)))
        about = search.about
        texts = [text.replace("if same { same := b = 1; } else { skip; }", right) + wrong for text in (about.with_marks(), EARLY)]
        assert (search._judged(*texts) is not None) == is_accepted
        silent = about.with_marks().replace("observe kept;", "skip;").replace("if same { same := b = 1; } else { skip; }", right)
        assert search._judged(silent, silent) is None  # what is kept isn't shown


@pytest.mark.parametrize(
    "path, keep, repaired",
    [
        ("password/early.kf", 10, "repair/flags.kf"),
        ("padding_oracle/oracle.kf", None, "repair/oracle.kf"),
        ("names/one_answer.kf", None, "names/even.kf"),
    ],
)
def test_the_gallery_has_the_repairs_that_are_proposed(path: str, keep: int | None, repaired: str) -> None:
    def without_comments(text: bytes) -> list[bytes]:
        return [line for line in text.splitlines() if not line.startswith(b"#")]

    best = repair(program_of(f"examples/{path}"), keep).best
    assert best is not None and without_comments(best.program.text) == without_comments((TOP / "examples" / repaired).read_bytes())


def test_the_type_of_a_quotient_holds_each_of_its_values():
    """Of div and mod the remainder is from 0 to below the divisor's absolute value, so (0 - 7) div (0 - 2) is 4."""
    ends = [(a, b) for a in range(-5, 6) for b in range(a, 6)]
    for (a, b), (c, d) in product(ends, [(c, d) for c, d in ends if (c, d) != (0, 0)]):
        types = {"x": Range(a, b), "y": Range(c, d)}
        remainders = [(x, y, x % abs(y)) for x in range(a, b + 1) for y in range(c, d + 1) if y]
        for operator, values in (("mod", {r for _, _, r in remainders}), ("div", {(x - r) // y for x, y, r in remainders})):
            found = type_of(read(f"var z : 0..1 := x {operator} y;").declarations[0].value, types)
            assert isinstance(found, Range) and found.low <= min(values) and max(values) <= found.high
            assert operator == "mod" or (found.low, found.high) == (min(values), max(values))
