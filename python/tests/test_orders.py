"""The refinement order of programs, by hand."""

import json

import pytest

from kuifje import Engine, Program, Refusal, TooLarge, certificate, check, covers, order, refine
from kuifje.engine import Answer
from kuifje.model import Public, Secret, model, observe, one_of, uniform
from kuifje.orders import Order, Pair


def about_x(name, shown):
    return Program(f"var x : 0..3 := uniform 0..3;\nabout old x;\nobserve {shown};\n", name=f"{name}.kf")


SHOWN = {"parity": "x mod 2", "whole": "x", "half": "x div 2", "odd": "x mod 2 = 1", "nothing": "0"}


@pytest.mark.usefixtures("built")
def test_an_order_of_five():
    programs = {name: about_x(name, shown) for name, shown in SHOWN.items()}
    found = order(*programs.values())
    assert found.nodes == (("parity", "odd"), ("whole",), ("half",), ("nothing",))
    whole, parity, half, nothing = ("whole",), ("parity", "odd"), ("half",), ("nothing",)
    assert set(found.edges) == {(whole, parity), (whole, half), (parity, nothing), (half, nothing)}
    assert list(found.levels()) == [(whole,), (parity, half), (nothing,)]
    assert found.open == () and found.refines("parity", "half") is False
    for (a, b), pair in found.pairs.items():
        assert check(pair.proof, programs[a], programs[b]).accepted
    assert found.records()[3] == {"program": "odd", "parity": "yes", "whole": "no", "half": "no", "odd": "yes", "nothing": "yes"}


def made(names, yes, unknown=()):
    """An order of which these pairs are known."""
    pairs = {
        (a, b): Pair(None if (a, b) in unknown else (a, b) in yes, cause=TooLarge("long") if (a, b) in unknown else None)
        for a in names
        for b in names
        if a != b
    }
    return Order(tuple(names), pairs)


def test_a_pair_without_a_verdict_is_open():
    found = made("abc", {("a", "b"), ("a", "c")}, {("b", "c")})
    assert found.open == (("b", "c"),) and found.refines("b", "c") is None
    assert found.records()[1] == {"program": "b", "a": "no", "b": "yes", "c": "?"}
    assert "it isn't known whether c leaks no more than b: long\n" in str(found)
    assert "<td>?</td>" in found._repr_html_() and repr(found) == f"<Order>\n{found}".rstrip()


def test_what_follows_from_other_verdicts_is_known():
    found = made("abc", {("a", "b"), ("b", "c")}, {("a", "c")})
    assert found.open == () and found.edges == ((("a",), ("b",)), (("b",), ("c",)))
    circle = made("abc", {("a", "b"), ("b", "c"), ("c", "a")}, {("b", "a"), ("c", "b"), ("a", "c")})
    assert circle.nodes == (("a", "b", "c"),) and circle.edges == () and list(circle.levels()) == [(("a", "b", "c"),)]


@pytest.mark.usefixtures("built")
def test_a_pair_that_takes_too_long_has_no_verdict():
    found = order(about_x("whole", "x"), about_x("half", "x div 2"), timeout=0.0)
    assert len(found.open) == 2 and all(isinstance(pair.cause, TooLarge) for pair in found.pairs.values())


@pytest.mark.usefixtures("built")
def test_names_differ():
    whole, nothing = about_x("whole", "x"), about_x("whole", "0")
    with pytest.raises(ValueError, match="two are called 'whole': give names="):
        order(whole, nothing)
    assert order(whole, nothing, names=["all", "none"]).edges == ((("all",), ("none",)),)
    for names in (["all"], ["all", "none", "more"]):
        with pytest.raises(ValueError, match="2 programs and"):
            order(whole, nothing, names=names)
    with pytest.raises(ValueError, match="at least one program"):
        order()


@pytest.mark.usefixtures("built")
def test_another_prior_is_said_to_be_one():
    """Neither is safer: the first shows nothing of a value that is 0 half the time, the second all of one that is uniform."""
    skewed = Program("var x : 0..3 := choose { 0 : 3, 1 : 1, 2 : 1, 3 : 1 };\nabout old x;\nobserve 0;\n", name="skewed.kf")
    found = order(skewed, about_x("whole", "x"), about_x("half", "x div 2"))
    assert found.apart == (("skewed", "whole"), ("skewed", "half")) and found.edges == ((("whole",), ("half",)),)
    text = "skewed and whole have other priors, so nothing is said of which leaks more: 0 has the probability 1/2 in skewed, and 1/4 in whole\n"
    assert text in str(found) and "leaks less than skewed" not in str(found)
    assert found.records()[0] == {"program": "skewed", "skewed": "yes", "whole": "another prior", "half": "another prior"}
    assert found.records()[2] == {"program": "half", "skewed": "another prior", "whole": "no", "half": "yes"}
    read = json.loads(found.to_json())
    assert read["apart"] == [["skewed", "whole"], ["skewed", "half"]]
    assert {(v["of"], v["by"]): v["another_prior"] is None for v in read["verdicts"]}[("half", "whole")] is True
    assert all(v["another_prior"] for v in read["verdicts"] if "skewed" in (v["of"], v["by"]))


@model
def shifted(x: Secret = uniform(range(8)), by: Public = one_of(range(4))):
    observe(x >> by)


@model
def parity(x: Secret = uniform(range(8))):
    observe(x & 1)


@pytest.mark.usefixtures("built")
def test_programs_of_one_model_are_called_by_their_inputs():
    """A shift by one more shows a function of what the shift shows; the last bit is another one."""
    found = order(shifted.program(by=1), shifted.program(by=2), parity)
    assert found.names == ("shifted(by=1)", "shifted(by=2)", "parity") and found.edges == ((("shifted(by=1)",), ("shifted(by=2)",)),)


@pytest.mark.usefixtures("built")
def test_a_model_with_several_programs_is_named():
    for asked in (order, refine, certificate, covers):
        with pytest.raises(TypeError, match=r"shifted has a program for each of its public inputs: .* shifted\.program\(by=0\)"):
            asked(parity, shifted)
    assert refine(parity, parity).refines and order(parity).nodes == (("parity",),)


class Answering(Engine):
    """An engine that gives one answer to all questions."""

    timeout = None

    def __init__(self, status, line):
        self.answer = Answer(status, b"", f"kuifje: {line}\n".encode())

    def ask(self, words, files, timeout=None):
        return self.answer


def test_a_refusal_of_one_program_is_raised_and_one_of_both_is_a_pair_without_a_verdict():
    names = ("a.kf", "b.kf")
    with pytest.raises(Refusal) as caught:
        order(*(Program("", name=name, engine=Answering(6, "b.kf:1:1: LoopBound")) for name in names))
    assert caught.value.kind == "LoopBound"
    found = order(*(Program("", name=name, engine=Answering(8, "tableau has 4000001 cells")) for name in names))
    assert len(found.open) == 2 and found.pairs["a", "b"].cause.kind == "tableau has 4000001 cells"


def test_the_lines_of_an_order_are_its_transitive_reduction():
    """As networkx has it, of the order by divisors of 60: an edge where the quotient is prime."""
    networkx = pytest.importorskip("networkx")
    numbers = [n for n in range(1, 61) if 60 % n == 0]
    found = made([str(n) for n in numbers], {(str(a), str(b)) for a in numbers for b in numbers if a % b == 0})
    graph = found.to_networkx()
    whole = networkx.DiGraph((a, b) for a in found.nodes for b in found.nodes if a != b and int(a[0]) % int(b[0]) == 0)
    assert set(graph.edges) == set(networkx.transitive_reduction(whole).edges)
    assert set(graph.edges) == {((str(a),), (str(b),)) for a in numbers for b in numbers if a % b == 0 and a // b in (2, 3, 5)}
    assert set(graph.nodes) == {(str(n),) for n in numbers}


def test_an_order_is_json_and_a_data_frame():
    found = made("ab", {("a", "b")})
    read = json.loads(found.to_json())
    assert read == {"nodes": [["a"], ["b"]], "edges": [[["a"], ["b"]]], "open": [], "apart": [], "verdicts": []}
    pytest.importorskip("pandas")
    assert found.to_pandas().to_dict("records") == [{"program": "a", "a": "yes", "b": "yes"}, {"program": "b", "a": "no", "b": "yes"}]
