"""The command kuifje-lab: what it writes, and how it ends."""

import csv
import io
import json
import sys
from pathlib import Path

import pytest

pytest.importorskip("click")

from click.testing import CliRunner  # noqa: E402

from kuifje.lab import main  # noqa: E402

EXAMPLES = Path(__file__).resolve().parents[2] / "examples"
PIN, WHOLE = str(EXAMPLES / "pin.kf"), str(EXAMPLES / "pin_whole.kf")
LOCK = """var x : 0..{{ n - 1 }} := uniform 0..{{ n - 1 }};
about old x;
{% for i in range(t) %}
if x = {{ i }} { skip; } else { skip; }
{% endfor %}
"""

pytestmark = pytest.mark.usefixtures("built")


def lab(*words):
    return CliRunner(mix_stderr=False).invoke(main, list(map(str, words)))


@pytest.fixture
def lock(tmp_path):
    (tmp_path / "lock.kf.j2").write_text(LOCK)
    return tmp_path / "lock.kf.j2"


MODEL = """from kuifje.model import Public, Secret, model, observe, one_of, uniform

@model
def half(x: Secret = uniform(range(4))):
    observe(x % 2)

@model
def asked(x: Secret = uniform(range(4)), guess: Public = one_of([0, 1])):
    observe(x == guess)

other = 3
"""


def test_a_leakage_in_the_book_s_words(tmp_path):
    """Of 9 PINs one guess is right for 3 after the door, log2 3 = 1.585; a parity leaves 2 of 4 values."""
    found = lab("leak", PIN)
    assert found.exit_code == 0 and [line.split() for line in found.output.splitlines()] == [
        ["gain", "bayes", "bits", "of", "min-entropy,", "rounded"],
        ["prior", "vulnerability", "1/9", "(0.1111)", "3.170"],
        ["posterior", "vulnerability", "1/3", "(0.3333)", "1.585"],
        ["multiplicative", "leakage", "3", "1.585"],
        ["additive", "leakage", "2/9", "(0.2222)"],
    ]
    assert lab("leak", PIN, "--printed").output == "gain bayes\nprior 1/9\nposterior 1/3\nquotient 3\ndifference 2/9\n"
    (tmp_path / "parity.py").write_text(MODEL)
    assert lab("leak", f"{tmp_path / 'parity.py'}:half", "--gain", "tries:2", "--printed").output.splitlines()[2] == "posterior 1"


def test_a_report_of_a_model(tmp_path):
    pytest.importorskip("matplotlib")
    pytest.importorskip("jinja2")
    (tmp_path / "parity.py").write_text(MODEL)
    found = lab("report", f"{tmp_path / 'parity.py'}:half", "-o", tmp_path / "report.html")
    assert found.exit_code == 0 and "line 5 of parity.py (<code>observe(x % 2)</code>)" in (tmp_path / "report.html").read_text()


@pytest.mark.parametrize(
    "text, name, said",
    [
        (MODEL, "none", "has no model none"),
        (MODEL, "other", "has no model other"),
        (MODEL, "asked", "has a program for each of its public inputs"),
        ("1 / 0", "half", "can't be run: ZeroDivisionError"),
        ("def", "half", "can't be run: SyntaxError"),
        (None, "half", "No such file or directory"),
    ],
)
def test_no_such_model_ends_with_2(tmp_path, text, name, said):
    if text is not None:
        (tmp_path / "parity.py").write_text(text)
    found = lab("leak", f"{tmp_path / 'parity.py'}:{name}")
    assert found.exit_code == 2 and said in found.stderr and found.stderr.count("\n") == 1 and found.output == ""


def test_an_order_is_printed_and_drawn(tmp_path):
    pytest.importorskip("matplotlib")
    found = lab("order", PIN, WHOLE, "-o", tmp_path / "order.svg")
    assert (found.exit_code, found.output) == (0, "pin\npin_whole\npin_whole leaks less than pin\n")
    assert "pin_whole" in (tmp_path / "order.svg").read_text()
    read = json.loads(lab("order", "--json", PIN, WHOLE).output)
    assert read["nodes"] == [["pin"], ["pin_whole"]] and read["edges"] == [[["pin"], ["pin_whole"]]] and read["open"] == []
    assert [(v["of"], v["by"], v["refines"], v["certificate"]["verdict"]) for v in read["verdicts"]] == [
        ("pin", "pin_whole", True, "yes"), ("pin_whole", "pin", False, "no")]  # fmt: skip


def test_two_programs_are_decided(tmp_path):
    """A bet on (0, 0) that loses as much at (1, 0): these are told apart digit by digit alone, which makes it worth the probability of (0, 0)."""
    found = lab("decide", PIN, WHOLE)
    priors = "It holds for every prior on the secret, since each of its values is possible.\n"
    assert (found.exit_code, found.output) == (0, "refines yes\nfound peeling\ncertificate 122 bytes, accepted\n" + priors)
    found = lab("decide", WHOLE, PIN, "--json", "-o", tmp_path / "no.json")
    read = json.loads(found.output)
    assert (found.exit_code, read["refines"], read["worth"]) == (1, False, ["0", "1/9"])
    assert read["priors"] == "It holds for every prior under which each value of the secret is possible."
    assert json.loads((tmp_path / "no.json").read_text()) == read["certificate"]
    found = lab("decide", PIN, WHOLE, "--seconds", "0", "-o", tmp_path / "none.json")
    assert (found.exit_code, found.output) == (2, "not decided\nreason no time is left\n") and not (tmp_path / "none.json").exists()


UNIFORM = "var x : 0..3 := uniform 0..3;\nabout old x;\nobserve %s;\n"
SKEWED = UNIFORM.replace("uniform 0..3;", "choose { 0 : 3, 1 : 1 };")
LEFT = UNIFORM.replace("old x", "x")


@pytest.mark.parametrize(
    ("a", "b", "status", "sentence"),
    [
        (SKEWED % "x", SKEWED % "0", 0, "It holds for every prior on the secret's values that are possible here; 2 isn't."),
        (SKEWED % "0", SKEWED % "x", 1, "It holds for every prior under which the same values are possible as here; 2 isn't."),
        (
            UNIFORM % "x",
            SKEWED % "0",
            1,
            "The priors differ: 0 has the probability 1/4 in a.kf, and 3/4 in b.kf. So it says nothing of which program leaks more.",
        ),
        (
            LEFT % "x",
            LEFT % "0",
            0,
            "It holds for the prior that the programs have, and says nothing of others: x isn't old in the target of b.kf, so ",
        ),
    ],
)
def test_a_decision_says_for_which_priors_it_holds(tmp_path, a, b, status, sentence):
    for name, text in (("a.kf", a), ("b.kf", b)):
        (tmp_path / name).write_text(text)
    found = lab("decide", tmp_path / "a.kf", tmp_path / "b.kf")
    assert found.exit_code == status and found.output.splitlines()[-1].startswith(sentence)


@pytest.mark.parametrize("kind", ["bars", "blame", "channel", "lines", "trail"])
def test_a_picture_is_drawn(tmp_path, kind):
    pytest.importorskip("matplotlib")
    for ending, begins in ((".svg", b"<?xml"), (".png", b"\x89PNG")):
        assert lab("plot", kind, PIN, "-o", tmp_path / f"drawn{ending}").exit_code == 0
        assert (tmp_path / f"drawn{ending}").read_bytes().startswith(begins)


def test_pictures_of_few_values(tmp_path):
    pytest.importorskip("matplotlib")
    (tmp_path / "bit.kf").write_text("var x : 0..1 := uniform 0..1;\nabout old x;\nobserve choose { x : 3, 1 - x : 1 };\n")
    for kind in ("triangle", "vulnerability"):
        assert lab("plot", kind, tmp_path / "bit.kf", "-o", tmp_path / f"{kind}.svg").exit_code == 0
        assert (tmp_path / f"{kind}.svg").exists()


def test_a_template_is_expanded(tmp_path, lock):
    wanted = "var x : 0..3 := uniform 0..3;\nabout old x;\nif x = 0 { skip; } else { skip; }\n"
    assert lab("expand", lock, "--set", "n=4", "--set", "t=1").output == wanted
    assert lab("expand", lock, "--set", "n=4", "--set", "t=1", "-o", tmp_path / "lock.kf").exit_code == 0
    assert (tmp_path / "lock.kf").read_text() == wanted
    (tmp_path / "values.kf.j2").write_text("{{ a }} {{ b }} {{ c }} {{ d }}")
    values = ["--set", "a=true", "--set", "b=(1, {0})", "--set", "c=2/6", "--set", "d=two words"]
    assert lab("expand", tmp_path / "values.kf.j2", *values).output == "true (1, {0}) 1/3 two words"


def test_a_sweep_is_a_table(tmp_path, lock):
    """Of n values t are told, and one of the others is guessed: (t + 1) / n."""
    pytest.importorskip("pandas")
    words = ["sweep", lock, "leak --gain bayes", "--set", "n=4..6", "--set", "t=1", "--set", "t=2", "--workers", "2", "--cache", tmp_path / "kept"]
    for _ in range(2):
        rows = list(csv.DictReader(io.StringIO(lab(*words).output)))
        assert [(row["n"], row["t"], row["posterior_vulnerability"], row["refusal"]) for row in rows] == [
            ("4", "1", "1/2", ""), ("4", "2", "3/4", ""), ("5", "1", "2/5", ""), ("5", "2", "3/5", ""), ("6", "1", "1/3", ""), ("6", "2", "1/2", "")
        ]  # fmt: skip
    assert len(list((tmp_path / "kept").iterdir())) == 6
    assert lab("sweep", lock, "capacity", "--set", "n=4", "--set", "t=1", "-o", tmp_path / "out.csv").exit_code == 0
    assert (tmp_path / "out.csv").read_text() == "n,t,value,status,refusal\n4,1,2,,\n"


def test_a_sweep_over_a_cluster(lock):
    distributed = pytest.importorskip("distributed")
    with distributed.LocalCluster(n_workers=1, threads_per_worker=1, dashboard_address=None) as cluster:
        found = lab("sweep", lock, "capacity", "--set", "n=4", "--set", "t=1", "--scheduler", cluster.scheduler_address)
    assert found.output == "n,t,value,status,refusal\n4,1,2,,\n"


def test_what_cannot_be_done_ends_with_2(tmp_path, lock):
    (tmp_path / "bad.kf").write_text("var x : 0..3 := uniform 0..3;\nobserve x @ 2;\n")
    (tmp_path / "four.kf").write_text("var x : 0..3 := uniform 0..3;\nobserve x;\n")
    for words, cause in [
        (["report", tmp_path / "none.kf"], "none.kf"),
        (["plot", "bars", tmp_path / "bad.kf", "-o", tmp_path / "x.svg"], "Char"),
        (["plot", "bars", PIN, "-o", tmp_path / "x.pdf"], "x.pdf"),
        (["plot", "triangle", tmp_path / "four.kf", "-o", tmp_path / "x.svg"], "three corners"),
        (["plot", "blame", PIN, "-o", tmp_path / "x.svg", "--timeout", "0"], "longer"),
        (["expand", lock], "undefined"),
        (["expand", lock, "--set", "n"], "NAME=VALUE"),
        (["expand", lock, "--set", "n=1..3", "--set", "t=1"], "3 values"),
        (["expand", lock, "--set", "n=4", "--set", "t=1", "--set", "nope=1"], "lock.kf.j2 doesn't ask for 'nope': it asks for n, t"),
        (["sweep", lock, "colour", "--set", "n=4", "--set", "t=1"], "colour"),
        (["sweep", lock, "leak --gain bays", "--set", "n=4", "--set", "t=1"], "gain is bayes, tries:K with K from 1 to 65535"),
        (["sweep", lock, "capacity --gain bayes", "--set", "n=4", "--set", "t=1"], "capacity takes no --gain"),
        (["sweep", lock, "reach 3/2", "--set", "n=4", "--set", "t=1"], "the probability lies above 0"),
        (["sweep", lock, "leak", "--set", "n=4", "--set", "t=1", "--set", "nope=1"], "lock.kf.j2 doesn't ask for 'nope': it asks for n, t"),
        (["gate", tmp_path / "none.toml"], "none.toml"),
    ]:
        found = lab(*words)
        assert found.exit_code == 2 and found.stderr.startswith("kuifje-lab: ") and cause in found.stderr, words
    assert not list(tmp_path.glob("x.*"))


@pytest.mark.usefixtures("proved")
def test_an_order_with_a_program_that_is_refused_ends_with_2(tmp_path):
    (tmp_path / "bad.kf").write_text("var x : 0..3 := uniform 0..3;\nobserve x @ 2;\n")
    found = lab("order", PIN, tmp_path / "bad.kf")
    assert found.exit_code == 2 and "bad.kf:2:11: Char\nobserve x @ 2;\n          ^\n" in found.stderr


def test_a_package_that_is_not_there_is_named(monkeypatch):
    monkeypatch.setitem(sys.modules, "jinja2", None)
    monkeypatch.delitem(sys.modules, "kuifje.reports", raising=False)
    monkeypatch.delitem(sys.modules, "kuifje.templates", raising=False)
    found = lab("expand", "x.kf.j2")
    assert (found.exit_code, found.stderr) == (2, "kuifje-lab: jinja2 isn't installed; the package's page names the Debian packages\n")
