"""Hints on texts: the page that has a section for each rule runs as it stands, and what is counted is worked out by hand."""

import re
from fractions import Fraction
from pathlib import Path

import pytest
from hypothesis import given, settings
from hypothesis import strategies as st

from kuifje import Engine, Program, Refusal, lint
from kuifje.liveness import forgotten, with_lines
from kuifje.model import Secret, model, uniform
from kuifje.source import Call, Choose, Literal, Name, Part, Range, Source, edited, every, read
from kuifje.texts import Item

TOP = Path(__file__).resolve().parents[2]
PAGE = (TOP / "docs" / "LINT.md").read_text(encoding="utf-8")
EXAMPLES = sorted((TOP / "examples").glob("**/*.kf"))
WHOLE = """var a : 0..3 := uniform 0..3;
var b : 0..3 := uniform 0..3;
var c : 0..3 := uniform 0..3;
var gc : 0..3 := 0;
var tries : 0..3 := 0;
var open : bool := false;
about old a, old b, old c;
while tries < 3 and not open {
  open := a = 0 and b = 0 and c = gc;
  gc := (gc + 1) mod 4;
  tries := tries + 1;
}
"""


NEVER = 3600  # seconds that none of these programs takes, so that how long one takes doesn't matter


def rules(*programs, **asked):
    return [(hint.rule, hint.line) for hint in lint(*programs, **{"slow": NEVER, **asked})]


# ---- the page


def commands():
    """Each command of the page with what it prints."""
    for block in re.findall(r"^```text\n(.*?)^```$", PAGE, flags=re.MULTILINE | re.DOTALL):
        command, _, printed = block.partition("\n")
        yield command.removeprefix("kuifje-lab "), printed


@pytest.mark.usefixtures("built")
@pytest.mark.parametrize(("command", "printed"), list(commands()))
def test_the_page_runs(command, printed, tmp_path, monkeypatch):
    click_testing = pytest.importorskip("click.testing")
    from kuifje.lab import main

    monkeypatch.chdir(tmp_path)
    for name, text in re.findall(r"`([\w.]+)`:\n\n```kuifje\n(.*?)^```$", PAGE, flags=re.MULTILINE | re.DOTALL):
        Path(name).write_text(text)
    found = click_testing.CliRunner().invoke(main, command.split())
    assert (found.output, found.exit_code) == (printed, 1 if printed else 0)


def test_each_rule_has_a_section_with_both_texts():
    sections = re.split(r"^## ", PAGE, flags=re.MULTILINE)[1:]
    listed = re.findall(r"^\| \[([\w-]+)\]\(#\1\)", PAGE, flags=re.MULTILINE)
    assert [section.split("\n")[0] for section in sections] == listed and len(listed) == 9
    for rule, section in zip(listed, sections):
        hints = [block for block in section.split("```") if block.startswith("text\nkuifje-lab lint")]
        assert len(hints) == 2 and f": {rule}: " in hints[0] and hints[1].count("\n") == 2, rule


# ---- rules


@pytest.mark.usefixtures("built")
@pytest.mark.parametrize(
    ("text", "found"),
    [
        ("var x : 0..3 := 2;\nabout old x;\nx := uniform 0..3;\nobserve x;\n", ["old x has one value, 2, "]),
        ("var x : 0..3 := 2; var y : bool := true;\nabout old x, old y;\nobserve x;\n", ["old x, old y has one value, (2, true), "]),
        ("var x : 0..3 := choose { 1 : 4 }; var y : bool := flip 1/2;\nabout old x;\nobserve x = 1 and y;\n", ["old x has one value, 1, "]),
        ("var x : 0..3 := 2; var y : bool := flip 1/2;\nabout old x, old y;\nobserve x;\n", []),
        ("var x : 0..3 := uniform 0..3;\nabout old x;\nobserve x;\nx := 0;\n", []),
    ],
)
def test_a_secret_with_one_value(text, found):
    """What is known before is known: the prior vulnerability is 1 where there is one value, and only there."""
    hints = [hint.text for hint in lint(Program(text), slow=NEVER)]
    assert len(hints) == len(found) and all(text.startswith(begins) for text, begins in zip(hints, found))
    assert (Program(text).leak().prior_vulnerability == 1) == bool(found)


@pytest.mark.usefixtures("built")
@pytest.mark.parametrize(
    ("about", "found"),
    [
        ("old x, y", "y is asked about as it is left, and x as before the first statement; for what it was, write 'old y'"),
        ("y, old x, z", "y and z are asked about as they are left, and x as before the first statement; for what they were, write 'old y, old z'"),
        ("old x, x", None),
        ("old x, old y, x", None),
        ("old x, old y", None),
    ],
)
def test_a_target_of_which_one_item_is_not_old(about, found):
    text = "".join(f"var {name} : 0..1 := uniform 0..1;\n" for name in "xyz") + f"about {about};\nobserve x;\n"
    hints = [(hint.rule, hint.line, hint.text) for hint in lint(Program(text), slow=NEVER)]
    assert hints == ([("mixed-target", 4, found)] if found else [])


@pytest.mark.usefixtures("built")
def test_a_whole_comparison_without_its_last_turn():
    """Three tries of 64 are three posteriors in place of four: the third try is never seen. With it an open lock is one of 4 outcomes."""
    program = Program(WHOLE)
    assert program.leak().posterior_vulnerability == Fraction(3, 64)
    (hint,) = lint(program, slow=NEVER)
    assert (hint.rule, hint.line) == ("unseen-last-turn", 8) and "'observe open;'" in hint.text
    mended = Program(WHOLE + "observe open;\n")
    assert mended.leak().posterior_vulnerability == Fraction(4, 64) and not lint(mended, slow=NEVER)


@pytest.mark.usefixtures("built")
def test_a_guard_in_a_block_and_one_that_is_shown():
    """The inner loop hides ``b``, which is then shown by the outer guard, so that nothing is lost."""
    text = """var x : 0..3 := uniform 0..3; var i : 0..2 := 0; var b : bool := false;
about old x;
if x < 3 {
  while i < 1 and not b { b := x = 0; i := i + 1; }
} else { skip; }
"""
    assert rules(Program(text)) == [("unseen-last-turn", 4)]
    assert rules(Program(text + "if b { skip; } else { skip; }\n")) == []
    assert rules(Program(text.replace("var b", "vis b"))) == []


@pytest.mark.usefixtures("built")
def test_two_flags_that_only_together_say_something():
    """Each of two flags is a fair coin whatever ``x`` is; both together are ``x``."""
    text = """var x : bool := flip 1/2; var a : bool := false; var b : bool := false; var n : 0..1 := 0;
about old x;
while n < 1 and not (a and not a) and not (b and not b) { a := flip 1/2; b := a xor x; n := 1; }
"""
    (hint,) = lint(Program(text), slow=NEVER)
    assert hint.rule == "unseen-last-turn" and "reads a and b" in hint.text and "'observe a; observe b;'" in hint.text


@pytest.mark.usefixtures("built")
def test_an_attacker_who_draws_a_guess_at_random():
    """A guess that is drawn and not seen is kept from the attacker itself; one that is drawn alike for all is no secret of the system's."""
    hidden = "var x : 0..1 := uniform 0..1; var g : 0..1 := uniform 0..1;\nabout old x;\nobserve x = g;\n"
    assert rules(Program(hidden), attacker=["g"]) == [("attacker-knows-more", 1)]
    assert rules(Program(hidden.replace("observe", "observe g; observe")), attacker=["g"]) == []
    with pytest.raises(ValueError, match="'h'"):
        lint(Program(hidden), attacker=["h"])


@pytest.mark.usefixtures("built")
@pytest.mark.parametrize(
    "choice",
    [
        "choose { 2 : cond(x = 0, 1, 0), 3 : cond(x = 0, 0, 1) }",  # a table
        "choose { 0 : 1 - x, 1 : x }",  # a weight of 0 the other way round
        "choose { x : 3, 1 - x : 1 }",
        "choose { 1 : 2, 2 : 1 }",
        "choose { true : x + 1, false : 1 }",
    ],
)
def test_choices_that_are_what_they_seem(choice):
    assert rules(Program(f"var x : 0..1 := uniform 0..1;\nabout old x;\nobserve {choice};\n")) == []


@pytest.mark.usefixtures("built")
def test_an_exchange_that_is_refused_is_none():
    """The other way round ``y`` would be 4 where ``x`` is 4, and isn't in 1..3."""
    text = "var x : 1..4 := uniform 1..4; var y : 1..3 := 1;\nabout old x;\ny := choose { 3 : x, 1 : 5 - x };\nobserve y;\n"
    assert rules(Program(text)) == []
    assert rules(Program(text.replace("y : 1..3", "y : 1..4"))) == [("exchanged-weights", 3)]


@pytest.mark.usefixtures("built")
def test_priors_of_what_is_left_and_targets_that_differ():
    first = "var x : 0..3 := uniform 0..3; var y : 0..1 := 0;\nabout old x;\nobserve x;\n"
    assert ("priors-differ", 1) in rules(Program(first), Program(first.replace("old x", "x")), refine=True)
    left = first.replace("about old x;\n", "about x;\n")
    even, odd = left + "x := x - x mod 2;\n", left + "x := x - x mod 2 + 1;\n"
    (hint,) = [hint for hint in lint(Program(even, name="even.kf"), Program(odd), refine=True) if hint.rule == "priors-differ"]
    assert hint.text.endswith("differ, so refine says no, and nothing of which leaks more: 0 has the probability 1/2 in even.kf, and 0 here")


@pytest.mark.usefixtures("built")
def test_a_target_that_names_a_helper_and_one_that_is_set():
    text = "var x : 0..1 := uniform 0..1; var y : 0..1 := 0;\nabout old x, y;\ny := x;\n"
    assert rules(Program(text), covers=True) == [("mixed-target", 2)]
    helper = text.replace(", y;", ";")
    assert rules(Program(helper), covers=True) == [("covers-helper", 1)]
    assert rules(Program(helper + "y := 1;\n"), covers=True) == []


@pytest.mark.usefixtures("built")
def test_an_unread_variable_in_a_loop():
    """Each turn draws a salt of 4 and shows the parity of both: of 8 pairs of a bit and the last salt each posterior has half, and without salts
    the bit is known: 2 turns show the parity of the bit and two salts, 4 posteriors with 4 stores each, or two with one each once it is forgotten."""
    text = """var x : 0..1 := uniform 0..1; var salt : 0..3 := 0; var n : 0..2 := 0;
about old x;
while n < 2 {
  salt := uniform 0..3;
  observe (x + salt) mod 2;
  n := n + 1;
}
observe n;
"""
    (hint,) = lint(Program(text), slow=0)
    assert (hint.rule, hint.line) == ("unread-variable", 5)
    assert hint.text == "nothing reads salt again: 'salt := 0;' after this statement leaves 2 stores of 8, and spares 6"
    assert rules(Program(text)) == []


@pytest.mark.usefixtures("built")
def test_what_takes_too_long_says_so():
    text = (
        "var x : 0..3 := uniform 0..3; var y : 0..3 := uniform 0..3; var b : bool := false;\nabout old x;\nobserve y;\nwhile not b { b := true; }\n"
    )
    hints = lint(Program(text, engine=Engine(timeout=0)), slow=-1)
    unread = [("unread-variable", 2), ("unread-variable", 3)]
    assert [(hint.rule, hint.line) for hint in hints] == [("constant-secret", 1), ("unseen-last-turn", 1), *unread]
    assert all("isn't known" in hint.text for hint in hints) and "took longer than it may" in str(hints)


@pytest.mark.usefixtures("built")
def test_hints_are_rows_and_a_refusal_is_raised():
    found = lint(Program("var x : 0..1 := uniform 0..1;\n", name="a.kf"), Program("var x : bool := flip 1/2;\nabout old x;\n"))
    assert [row["file"] for row in found.records()] == ["a.kf"] and '"rule": "no-secret"' in found.to_json()
    assert repr(found).startswith("<Hints>\na.kf:1: no-secret: ") and "<td>no-secret</td>" in found._repr_html_()
    with pytest.raises(Refusal):
        lint(Program("var x : 0..1 := y;\n"))


@pytest.mark.usefixtures("built")
def test_a_cell_and_the_command_lint():
    from kuifje.notebook import answer

    text = "var x : 0..1 := uniform 0..1; var g : 0..1 := 0;\nabout old x;\ng := x;\n"
    assert len(answer("lint", text)) == 0 and [hint.line for hint in answer("lint --attacker g", text)] == [1]


@model
def swallowed(pin: Secret = uniform(range(4))):
    tries, is_open = 0, False
    while tries < 2 and not is_open:
        is_open = pin == tries
        tries += 1


@pytest.mark.usefixtures("built")
def test_hints_on_a_template_and_on_a_model_have_their_lines():
    """The loop stands in the fourth line of the template, and in the second below the name of the function."""
    templates = pytest.importorskip("kuifje.templates")
    text = (
        "{# two tries #}\nvar pin : 0..3 := uniform 0..3; var tries : 0..{{ n }} := 0; var open : bool := false;\nabout old pin;\n"
        "while tries < {{ n }} and not open { open := pin = tries; tries := tries + 1; }\n"
    )
    (hint,) = lint(templates.Template(text, "lock.kf.j2").program({"n": 2}), slow=NEVER)
    assert (hint.rule, hint.file, hint.line) == ("unseen-last-turn", "lock.kf.j2", 4)
    (hint,) = lint(swallowed.program(), slow=NEVER)
    assert list(lint(swallowed, slow=NEVER)) == [hint]
    begins = Path(__file__).read_text(encoding="utf-8").split("\n").index("def swallowed(pin: Secret = uniform(range(4))):") + 1
    assert hint.rule == "unseen-last-turn" and Path(hint.file).name == "test_lint.py" and hint.line == begins + 2


# ---- trees


def test_a_tree_by_hand():
    text = "var x : (0..-1, set of bool) := (0, {true}); # one\nvis y : 0..2 := uniform 1..2;\nabout old x, y;\ny := choose { -x.0 : 1 };\n"
    source = read(text)
    assert isinstance(source, Source) and source.names == ("x", "y") and [d.visible for d in source.declarations] == [False, True]
    assert source.about == (Item("x", True), Item("y", False)) and source.declarations[1].type == Range(0, 2)
    (assign,) = source.statements
    assert (source.line(assign.at), text[assign.at : assign.end]) == (4, "y := choose { -x.0 : 1 };")
    assert text[source.declared : source.begin] == "\nabout old x, y;"
    (case,) = assign.value.cases
    at = dict(at=0, end=0)
    assert case.value == Call("-", (Part(Name("x", **at), 0, **at),), **at) and case.weight == Literal(1, **at) and case.value_text == "-x.0"


@pytest.mark.parametrize(
    ("text", "grouped"),
    [
        ("a or b and not c = d + e * -f", "(or a (and b (not (= c (+ d (* e (- f)))))))"),
        ("a implies b implies c", "(implies (implies a b) c)"),
        ("a - b - c mod d", "(- (- a b) (mod c d))"),
        ("not a and b xor c", "(xor (and (not a) b) c)"),
        ("- a + b < c", "(< (+ (- a) b) c)"),
        ("(a - (b - c)) * d", "(* (- a (- b c)) d)"),
        ("min(a, cond(b, c, d)) in {a, b} union {c}", "(in (min a (cond b c d)) (union (set a b) (set c)))"),
    ],
)
def test_operators_bind_as_the_language_says(text, grouped):
    def written(part):
        return part.name if isinstance(part, Name) else f"({' '.join([part.operator, *map(written, part.arguments)])})"

    (statement,) = read(f"observe {text};").statements
    assert written(statement.value.value) == grouped


@pytest.mark.parametrize("text", ["var x 0..1 := 0;", "observe", "if x { skip; }", "observe @;", "observe " + "(" * 2000])
def test_what_is_no_program_is_refused(text):
    with pytest.raises(ValueError):
        read(text)


@pytest.mark.parametrize("path", EXAMPLES, ids=lambda path: path.stem)
def test_each_part_of_an_example_stands_where_it_says(path):
    text = path.read_text(encoding="utf-8")
    source = read(text)
    for part in [*source.declarations, *every(source.statements)]:
        assert text[part.end - 1] in ";}" and not text[part.at].isspace()
    names = re.findall(r"^\s*v(?:ar|is) (\w+) :", re.sub("#.*", "", text), flags=re.MULTILINE)
    assert list(source.names) == names or text.count("var") > len(names)


@pytest.mark.usefixtures("built")
@pytest.mark.parametrize("path", [path for path in EXAMPLES if forgotten(read(path.read_text(encoding="utf-8")))], ids=lambda path: path.stem)
@pytest.mark.filterwarnings("ignore::kuifje.questions.AsItIsLeft")
def test_lines_that_forget_change_no_answer(path):
    source = read(path.read_text(encoding="utf-8"))
    assert Program(source.text).hyper().inners == Program(with_lines(source, forgotten(source))).hyper().inners


NAMES = "xyz"
EXPRESSIONS = st.recursive(
    st.sampled_from(["0", "1", *NAMES]), lambda inner: st.tuples(inner, inner).map(lambda two: f"({two[0]} + {two[1]}) mod 2"), max_leaves=3
)
CHOICES = st.one_of(EXPRESSIONS, st.just("uniform 0..1"), EXPRESSIONS.map(lambda e: f"choose {{ {e} : 3, 1 - {e} : 1 }}"))
SIMPLE = st.one_of(CHOICES.map(lambda c: f"observe {c};"), st.tuples(st.sampled_from(NAMES), CHOICES).map(lambda two: f"{two[0]} := {two[1]};"))


def blocks(inner):
    lines = st.lists(inner, min_size=1, max_size=3).map(" ".join)
    branch = st.tuples(EXPRESSIONS, lines, lines).map(lambda b: f"if {b[0]} = 1 {{ {b[1]} }} else {{ {b[2]} }}")
    loop = st.tuples(EXPRESSIONS, lines).map(lambda b: f"n := 0; while n < 2 and {b[0]} = 1 {{ {b[1]} n := n + 1; }}")
    return st.one_of(branch, loop)


@pytest.mark.usefixtures("built")
@settings(max_examples=60)
@given(st.lists(st.one_of(SIMPLE, blocks(SIMPLE)), min_size=2, max_size=6))
def test_lines_that_forget_change_no_answer_of_made_programs(statements):
    declared = "".join(f"var {name} : 0..1 := uniform 0..1;\n" for name in NAMES)
    source = read(f"{declared}var n : 0..3 := 0;\nabout old x, z;\n" + "\n".join(statements))
    assert Program(source.text).hyper().inners == Program(with_lines(source, forgotten(source))).hyper().inners


def test_edits_stand_where_they_are_put():
    assert edited("abc", [(0, 0, "x"), (1, 2, "yy"), (3, 3, "z")]) == "xayycz"
    choice = next(d for d in [read("observe choose { 3 : x };").statements[0].value])
    assert isinstance(choice, Choose) and (choice.at, choice.end) == (8, 24)
