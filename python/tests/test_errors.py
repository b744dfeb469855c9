"""Refusals: what their lines say, and what the page explains."""

import json
import re
from pathlib import Path

import pytest

from kuifje.errors import refusal_of

TOP = Path(__file__).resolve().parents[2]
KINDS = json.loads((TOP / "python" / "src" / "kuifje" / "refusals.json").read_text())


def refusal(status, line, **files):
    return refusal_of(status, f"kuifje: {line}\n", {name.replace("_", "."): text for name, text in files.items()})


@pytest.mark.parametrize(
    ("status", "line", "kind", "begins"),
    [
        (5, "p.kf:1:5: Char", "Char", "Char is a character with which no token begins."),
        (6, "p.kf:1:1: LoopBound", "LoopBound", "A loop has at most 1,024 turns"),
        (7, "p.kf: scale passes 2^127 - 1", "scale passes 2^127 - 1", "All probabilities of a program have one denominator"),
        (7, "tableau passes 2^62 after 17 pivots", "tableau passes 2^62 after 17 pivots", "tableau passes 2^62 after P pivots: a number"),
        (8, "tableau has 4000001 cells", "tableau has 4000001 cells", "tableau has C cells: the equations"),
        (8, "p.kf: 5000 stores", "5000 stores", "C stores comes of covers"),
        (9, "p.kf: Twice", "Twice", "The line names the file and the first rule"),
        (5, "p.kf:1:2: Twice", "Twice", "Twice: a name is declared again"),
        (9, "p.kf: Form 3", "Form 3", "The line names the file and the first rule"),
        (13, "p.kf: 3 statements", "3 statements", "C statements (status 13) comes of quiet"),
        (2, "usage: kuifje COMMAND", "usage: kuifje COMMAND", "The usage line (status 2): there is no such command"),
    ],
)
def test_a_refusal_is_explained(status, line, kind, begins):
    found = refusal(status, line, p_kf=b"var x")
    assert found.kind == kind
    assert found.explanation.startswith(begins)
    assert found.file == ("p.kf" if line.startswith("p.kf") else None)
    assert begins in str(found)


def test_every_refusal_of_the_page_on_commands_is_explained():
    """Each fault and each line that docs/COMMANDS.md has, with numbers for its letters."""
    page = (TOP / "docs" / "COMMANDS.md").read_text()
    table = page[page.index("## Statuses") : page.index("## Order of refusals")]
    lines = re.findall(r"^\| ([0-9]+) \|.*`kuifje: ((?:NAME: )?(?!NAME)[^`]+)`", table, flags=re.MULTILINE)
    assert len(lines) > 15
    for status, line in lines:
        if "RULE" not in line:
            made = line.replace("NAME", "p.kf").replace("after P", "after 9").replace(" C ", " 9 ")
            assert refusal(int(status), made, p_kf=b"").explanation, line


def test_no_refusal_says_more_than_it_has():
    found = refusal(99, "nothing of the kind")
    assert (found.kind, found.explanation, found.page, found.caret) == ("nothing of the kind", None, None, None)
    assert str(found) == "nothing of the kind"


def test_explanations_are_plain_text():
    assert len(KINDS) == 47
    for entry in KINDS.values():
        assert not re.search(r"\*\*|`|\]\(|:$", entry["text"])
