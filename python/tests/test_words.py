"""Questions in words: which there are, what each takes, and which method is asked."""

from __future__ import annotations

from fractions import Fraction

import pytest

from kuifje import Program
from kuifje.vocabulary import CALLS, COMMANDS, LEVELS, RESERVED, SIGNS
from kuifje.words import ASKED, read

TEXT = "var x : 0..3 := uniform 0..3;\nabout old x;\nobserve x mod 2;\n"


def test_every_command_on_one_file_is_a_question_with_a_method_of_its_name() -> None:
    asked = [word for word, (files, _, _) in COMMANDS.items() if files == 1]
    assert asked and set(asked) <= set(ASKED) and not {"refine", "check", "make"} & set(ASKED)
    for word in asked:
        assert callable(getattr(Program, word.replace("-", "_"))), word


@pytest.mark.parametrize(
    "line, cause",
    [
        ("reach", "reach takes a probability like 9/10"),
        ("quiet", "quiet takes a block like 0..1"),
        ("hyper 1/2", "hyper takes no value"),
        ("lint 1/2", "lint takes no value"),
        ("hyper --gain bayes", "hyper takes no --gain"),
        ("labels --gain bayes", "labels takes no --gain"),
        ("reach 1/2 --gain bayes", "reach takes no --gain"),
        ("hyper --attacker x", "hyper takes no --attacker"),
        ("leak --gain bay", "gain is bayes, tries:K"),
        ("refine", "invalid choice: 'refine'"),
        ("", "there is no question"),
    ],
)
def test_what_is_no_question(line: str, cause: str) -> None:
    with pytest.raises(ValueError, match=cause):
        read(line)


def test_what_stands_after_a_command_comes_to_its_method() -> None:
    """The parity of four numbers leaves two of each: one guess is right with probability 1/2, two with 1, and without the line with 1/4."""
    program = Program(TEXT)
    assert read("leak")(program) == program.leak("bayes") and program.leak("bayes").posterior_vulnerability == Fraction(1, 2)
    assert read("leak --gain tries:2")(program) == program.leak("tries:2") and program.leak("tries:2").posterior_vulnerability == 1
    assert read("reach 1/1")(program) == program.reach(Fraction(1)) and program.reach(Fraction(1)).tries == 2
    assert read("quiet 0..1 --timeout 60")(program) == program.quiet(0, 1) and len(program.quiet(0, 1).inners) == 1


def test_the_words_of_the_language() -> None:
    assert LEVELS[0] == ("or", "xor", "implies") and LEVELS[5] == ("*", "div", "mod", "inter") and "min" in CALLS
    assert {"var", "while", "union", "cond"} <= RESERVED and not RESERVED & set(SIGNS)
    assert all(not sign.startswith(before) for at, sign in enumerate(SIGNS) for before in SIGNS[:at])
