"""Texts whose lines are coloured: which number and which colour stands where, by hand, and that nothing of a text becomes markup."""

import json
import re

import pytest

from kuifje import Program
from kuifje.listings import COLOURS, listing
from kuifje.texts import Lines

TEXT = "var a : 0..1 := uniform 0..1;\nabout old a;\nif a = 1 { observe flip 1/2; } else { skip; }\nobserve a < 1 or a > 1; # <b>&\nobserve 0;\n"
ANSWER = "all inners 2 posterior 1\n3:1 inners 1 posterior 1/2\n3:12 inners 2 posterior 1\n4:1 inners 2 posterior 7/8\n5:1 inners 2 posterior 1\n"


def rows(text):
    """Of each line its colour, what stands beside it, and its text as it stands in the page."""
    found = []
    for row in re.findall(r"<tr.*?</tr>", text)[1:]:
        colour = re.match(r"<tr style=\"background:(.*?);", row)
        cells = [re.sub(r"<.*?>", "", cell) for cell in re.findall(r"<td.*?>(.*?)</td>", row)]
        found.append((colour[1] if colour else "", *cells))
    return found


def test_lines_have_their_colours_and_numbers():
    """Without the `if` 1/2 is lost, the most; without line 4 1/8, a quarter of that; without the others nothing."""
    found = rows(listing(TEXT, Lines.parse(ANSWER)))
    assert found[:2] == [("", "", "var a : 0..1 := uniform 0..1;"), ("", "", "about old a;")]
    assert found[2] == (COLOURS[4], "−1/2 (0.5), 0 ▮▮▮▮", "if a = 1 { observe flip 1/2; } else { skip; }")
    assert found[3] == (COLOURS[1], "−1/8 (0.125) ▮▯▯▯", "observe a &lt; 1 or a &gt; 1; # &lt;b&gt;&amp;")
    assert found[4] == ("", "0 ▯▯▯▯", "observe 0;")


def test_a_legend_says_what_colours_mean():
    items = [re.sub(r"<.*?>", "", item) for item in re.findall(r"<li.*?</li>", listing(TEXT, Lines.parse(ANSWER)))]
    assert items == [
        "▯▯▯▯ 0: worth nothing to this adversary beside the other lines, though it may show something",
        "▮▯▯▯ up to 1/8 (0.125) less",
        "▮▮▯▯ up to 1/4 (0.25) less",
        "▮▮▮▯ up to 3/8 (0.375) less",
        "▮▮▮▮ up to 1/2 (0.5) less, the most",
    ]
    assert len(re.findall("<li", listing("observe 0;\n", Lines.parse("all inners 1 posterior 1\n1:1 inners 1 posterior 1\n")))) == 1


def test_guesses_grow():
    found = listing("observe x;\n", Lines.parse("all inners 2 posterior 1\n1:1 inners 1 posterior 3/2\n"))
    assert rows(found) == [(COLOURS[4], "+1/2 (0.5) ▮▮▮▮", "observe x;")] and "so many more guesses without it" in found


def test_a_text_alone_has_no_colours():
    assert rows(listing("skip;\n")) == [("", "", "skip;")] and "<li" not in listing("skip;\n")


def test_an_answer_about_another_text_is_refused():
    with pytest.raises(ValueError, match="no line 5"):
        listing(TEXT.removesuffix("observe 0;\n"), Lines.parse(ANSWER))


def test_long_texts_are_cut():
    assert rows(listing("skip;\n" * 1003))[-1][1] == ".. and 3 more lines"


@pytest.mark.usefixtures("built")
def test_a_notebook_shows_the_text_of_an_answer():
    """A bit is shown: without that one guess is right half of the time."""
    found = Program("var x : 0..1 := uniform 0..1;\nabout old x;\nobserve x; # <i>\n").lines()
    shown = found._repr_html_()
    assert (COLOURS[4], "−1/2 (0.5) ▮▮▮▮", "observe x; # &lt;i&gt;") in rows(shown) and "<td>3:1</td>" in shown
    assert "source" not in json.loads(found.to_json()) and found == Lines.parse(str(found))
    assert "<ul" not in Lines.parse(str(found))._repr_html_()
