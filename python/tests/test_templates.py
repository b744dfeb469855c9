"""Templates: what they write, and where their refusals stand."""

from fractions import Fraction

import pytest

pytest.importorskip("jinja2")

from kuifje import Program, Refusal, refine  # noqa: E402
from kuifje.errors import refusal_of  # noqa: E402
from kuifje.expressions import choose, lookup  # noqa: E402
from kuifje.templates import BadTemplate, Template  # noqa: E402

LOCK = """{# Some tries at a lock. #}
{% set last = n - 1 %}
var x : 0..{{ last }} := uniform 0..{{ last }};
about old x;
{% for guess in range(tries) %}
if x = {{ guess }} { skip; } else { skip; }
{% endfor %}
"""


def test_constants_and_repeated_lines():
    assert Template(LOCK).expand(n=4, tries=2).text == (
        "var x : 0..3 := uniform 0..3;\nabout old x;\nif x = 0 { skip; } else { skip; }\nif x = 1 { skip; } else { skip; }\n"
    )


def test_values_and_tables_are_written_in_the_language():
    template = Template('{{ a }} {{ b }} {{ c }} {{ d }}\n{{ [3, 1, 1, 2] | lookup("x") }}\n{{ {0: 3, true: 1} | choose }}\n')
    assert template.expand(a=True, b=(1, False), c=frozenset({2, 0}), d=Fraction(1, 3)).text == (
        "true (1, false) {0, 2} 1/3\ncond(x < 1, 3, cond(x < 3, 1, 2))\nchoose { 0 : 3, true : 1 }\n"
    )


def test_a_value_may_have_any_name():
    assert Template("{{ values }} {{ text }}").program({"values": 1, "text": 2, "self": 3}).text == b"1 2"


def test_a_table_halves():
    """256 numbers: 8 brackets deep, and each at its place."""
    numbers = [n * 7 % 256 for n in range(256)]
    text = lookup("x", numbers)
    deepest = max(text.count("(", 0, at) - text.count(")", 0, at) for at in range(len(text)))
    assert deepest == 8 and text.count("cond") == 255
    python = text.replace("cond(", "pick(")
    assert [eval(python, {"pick": lambda c, a, b: a if c else b, "x": x}) for x in range(256)] == numbers
    for wrong in (lambda: lookup("x", []), lambda: choose({})):
        with pytest.raises(ValueError):
            wrong()


def refused(template, line, column, kind="Char", **values):
    """The refusal of a template's text at this place, placed in the template."""
    expansion = template.expand(**values)
    return expansion.placed(refusal_of(5, f"kuifje: p.kf:{line}:{column}: {kind}", {"p.kf": expansion.text.encode()}))


@pytest.mark.parametrize(
    ("place", "placed"),
    [
        ((1, 1), (3, 1)),
        ((1, 12), (3, 12)),
        ((1, 13), (3, 22)),
        ((1, 20), (3, 29)),
        ((1, 27), (3, 36)),
        ((1, 28), (3, 37)),
        ((1, 29), (3, 47)),
        ((2, 7), (4, 7)),
        ((3, 4), (6, 4)),
        ((4, 8), (6, 8)),
        ((4, 9), (6, 19)),
        ((4, 30), (6, 40)),
    ],
)
def test_a_refusal_is_placed_in_the_template(place, placed):
    """In the text at its letter, and in a value at the braces that write it: line 1 of the expansion is line 3 of the template."""
    found = refused(Template(LOCK), *place, n=4, tries=2)
    assert (found.file, found.line, found.column, found.source) == ("template.kf.j2", *placed, LOCK.splitlines()[placed[0] - 1])


def test_a_place_in_a_macro_of_another_file(tmp_path):
    (tmp_path / "tries.j2").write_text("{% macro guess(i) %}\n  if é = {{ i }} { skip; }\n{% endmacro %}\n")
    (tmp_path / "lock.kf.j2").write_text('{% from "tries.j2" import guess %}\nvar é : 0..1 := 0;\n{{ guess(1) }}')
    template = Template.from_file(tmp_path / "lock.kf.j2")
    assert template.expand().text == "var é : 0..1 := 0;\n  if é = 1 { skip; }\n"
    found = refused(template, 2, 13)
    assert (found.file, found.line, found.column, found.source) == ("tries.j2", 2, 19, "  if é = {{ i }} { skip; }")


def test_a_place_that_is_not_known_stays_as_it_is():
    """A filter that sees the marks changes the text; and a refusal may have no place."""
    template = Template("{% set line %}skip;{% endset %}\nskip; {{ line | upper | length }}\n")
    assert template.expand().text.endswith("skip; 5\n")
    assert refused(template, 2, 1).file == "p.kf"
    whole = Refusal(7, "scale passes 2^127 - 1", "p.kf")
    assert Template(LOCK).expand(n=2, tries=1).placed(whole) is whole


@pytest.mark.parametrize(
    ("text", "line"),
    [
        ("skip;\n{% if %}\n", 2),
        ("skip;\n\n{{ n }}\n", 3),
        ("{{ 1 / 0 }}", 1),
        ('{% include "x" %}', None),
        ("{{ [] | lookup('x') }}", None),
        ("{{ ''.__class__.__mro__ }}", 1),
    ],
)
def test_what_is_no_template(text, line):
    with pytest.raises(BadTemplate) as caught:
        Template(text).expand()
    assert caught.value.file == "template.kf.j2" and (line is None or caught.value.line == line)
    assert str(caught.value).startswith("template.kf.j2:")


@pytest.mark.usefixtures("built")
def test_a_program_of_a_template(tmp_path):
    (tmp_path / "lock.kf.j2").write_text(LOCK)
    template = Template.from_file(tmp_path / "lock.kf.j2")
    program = template.program({"n": 5, "tries": 2})
    assert program.name == "lock.kf" and program.leak().posterior_vulnerability == Fraction(3, 5)
    assert refine(program, template.program({"n": 5, "tries": 1})).refines


@pytest.mark.usefixtures("proved")
def test_a_refusal_of_the_program_is_placed_in_the_template():
    template = Template(LOCK.replace("{ skip; } else", "{ skip } else"))
    with pytest.raises(Refusal) as caught:
        template.program({"n": 4, "tries": 2}).hyper()
    refusal = caught.value
    assert (refusal.status, refusal.kind, refusal.file, refusal.line) == (5, "Syntax", "template.kf.j2", 6)
    assert refusal.caret == "if x = {{ guess }} { skip } else { skip; }\n                          ^"
    with pytest.raises(Refusal) as caught:
        refine(Program("observe 1;\n", name="a.kf"), template.program({"n": 4, "tries": 2}))
    assert caught.value.file in ("a.kf", "template.kf.j2")


def test_the_names_that_a_template_asks_for(tmp_path):
    """What it declares itself and what jinja2 has, like ``range``, isn't asked for; what an included file asks for is."""
    (tmp_path / "part.kf.j2").write_text("{{ inner }}{% set own = 1 %}{{ own }}")
    (tmp_path / "a.kf.j2").write_text("{% for i in range(n) %}{{ i + t }}{% endfor %}{% include 'part.kf.j2' %}{% if debug is defined %}{% endif %}")
    template = Template.from_file(tmp_path / "a.kf.j2")
    assert template.names() == {"n", "t", "inner", "debug"}
    template.check_names(["n", "debug"])
    with pytest.raises(ValueError, match="a.kf.j2 doesn't ask for 'm': it asks for debug, inner, n, t"):
        template.check_names(["n", "m"])
    with pytest.raises(ValueError, match="it asks for nothing"):
        Template("skip;").check_names(["n"])


@pytest.mark.parametrize("text", ["{% include name %}", "{% include 'none.kf.j2' %}", "{% if %}"])
def test_where_the_names_are_not_known_none_is_refused(tmp_path, text):
    template = Template(text, folder=tmp_path)
    assert template.names() is None
    template.check_names(["whatever"])


def test_a_template_whose_text_has_no_end_in_sight_is_refused():
    """10^10 lines: what is written is bounded, and not made whole first."""
    with pytest.raises(BadTemplate, match="the text passes 1048576 bytes"):
        Template("{% for i in range(100000) %}{% for j in range(100000) %}observe {{ i }};\n{% endfor %}{% endfor %}").expand()
    with pytest.raises(BadTemplate, match="the text passes 1048576 bytes"):
        Template("{% for i in values %}observe {{ i }};\n{% endfor %}").expand(values=range(10**12))
