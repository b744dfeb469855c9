"""What a text says of the question: its target, and where its statements begin."""

import pytest

from kuifje.questions import sentence, statement_lines, target_of

TEXT = """# if this were a statement;
var x : set of 0..1 := uniform {{0}, {1}}; var y : 0..1 := 0;
about old x;

while y < 1 { y := 1; skip; }
if x = {0} { skip; }   # one branch
else { y := choose { 0 : 1, 1 : 1 }; }
observe choose { y : 3,
  1 : 1 }; y :=
  0;
while x = {0} or choose_y = (1) # not yet
{ skip; }
skip;
"""


def test_statements_begin_on_their_lines():
    assert statement_lines(TEXT) == [4, 5, 7, 8, 10, 12]
    assert statement_lines("var x : 0..1 := 0;\n") == [] == statement_lines("")


@pytest.mark.parametrize(
    ("text", "target"),
    [
        ("var x : 0..1 := 0; about old x;", "old x"),
        ("var x : 0..1 := 0; vis y : bool := true; # about x;\n", "x, y"),
        ("about  old  x ,y;", "old x, y"),
    ],
)
def test_a_target_is_read(text, target):
    assert str(target_of(text)) == target


def test_a_question_says_which_secret_is_meant():
    assert sentence("var x : 0..1 := 0; var y : 0..1 := 0; about old x, y;") == (
        "What an observer learns about x, as it was before the first statement; and about y, as it is after the last statement, where all variables "
        "are drawn as the program declares them."
    )
    assert sentence("") is None
