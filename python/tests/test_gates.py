"""Policies: statuses, and what the reports say."""

import json
import math
import os
import subprocess
import sys
from pathlib import Path
from xml.etree import ElementTree

import pytest

pytest.importorskip("click")

from click.testing import CliRunner  # noqa: E402

from kuifje.errors import OutOfTime  # noqa: E402
from kuifje.lab import main  # noqa: E402

EXAMPLES = Path(__file__).resolve().parents[2] / "examples"
SOURCES = str(Path(__file__).resolve().parents[1] / "src")
PIN, WHOLE = ((EXAMPLES / name).read_text() for name in ("pin.kf", "pin_whole.kf"))
REFINEMENT = '[[refinement]]\nfile = "pin.kf"\nof = "pin_whole.kf"\n'


def gate(folder, policy, *words, **files):
    for name, text in files.items():
        (folder / f"{name}.kf").write_text(text)
    (folder / "policy.toml").write_text(policy)
    return CliRunner().invoke(main, ["gate", str(folder / "policy.toml"), *words])


@pytest.mark.usefixtures("built")
def test_a_pin_that_leaks_more_fails_and_the_reverse_holds(tmp_path):
    reports = ["--sarif", str(tmp_path / "r.sarif"), "--junit", str(tmp_path / "r.xml")]
    found = gate(tmp_path, REFINEMENT, *reports, pin=PIN, pin_whole=WHOLE)
    text = "pin.kf:5: refinement of pin_whole.kf: does not hold: it leaks more than pin_whole.kf under some gain function\n"
    assert (found.exit_code, found.output) == (1, text)
    report = json.loads((tmp_path / "r.sarif").read_text())
    assert report["version"] == "2.1.0"
    (run,) = report["runs"]
    (result,) = run["results"]
    assert run["tool"]["driver"]["name"] == "kuifje-lab" and run["invocations"] == [{"executionSuccessful": True}]
    assert result["ruleId"] == "refinement" and result["message"]["text"] and result["level"] == "error"
    place = {"artifactLocation": {"uri": "pin.kf", "uriBaseId": "%SRCROOT%"}, "region": {"startLine": 5}}
    assert result["locations"] == [{"physicalLocation": place}]
    suite = ElementTree.parse(tmp_path / "r.xml").getroot()
    assert (suite.get("tests"), suite.get("failures"), suite.get("errors")) == ("1", "1", "0")
    assert suite.find("testcase/failure") is not None
    assert gate(tmp_path, REFINEMENT, pin=WHOLE, pin_whole=PIN).exit_code == 0


@pytest.mark.usefixtures("built")
def test_bounds_are_the_greatest_values_that_hold(tmp_path):
    """The whole comparison of the PIN: 2/9 against 1/9 before."""
    bounds = '[[program]]\nfile = "pin.kf"\nposterior_vulnerability = "2/9"\nmultiplicative_leakage = 2\nadditive_leakage = "1/9"\ncapacity = 2\n'
    assert gate(tmp_path, bounds, pin=WHOLE).exit_code == 0
    found = gate(tmp_path, bounds, pin=PIN)
    assert found.exit_code == 1 and "pin.kf:5: posterior_vulnerability under bayes: does not hold: 1/3, at most 2/9\n" in found.output
    assert found.output.count("does not hold") == 4


@pytest.mark.usefixtures("built")
@pytest.mark.parametrize("text", ["var x : 0..3 := uniform 0..3;\nobserve x @ 2;\n", None])
def test_a_question_without_an_answer_never_holds(tmp_path, text):
    bounds = '[[program]]\nfile = "bad.kf"\ncapacity = 1000\n' + REFINEMENT
    found = gate(tmp_path, bounds, "--sarif", str(tmp_path / "r.sarif"), pin=PIN, pin_whole=WHOLE, **({"bad": text} if text else {}))
    assert found.exit_code == 2 and "bad.kf" in found.output and "no answer" in found.output
    assert json.loads((tmp_path / "r.sarif").read_text())["runs"][0]["invocations"] == [{"executionSuccessful": False}]


@pytest.mark.usefixtures("built")
def test_a_bound_under_a_table_and_one_that_is_undefined(tmp_path):
    """An action that gains nothing: the prior vulnerability is 0, and the leakage by a factor has no value. One that gains 1 learns nothing."""
    table = '{"actions":[{"gains":[],"name":"a"}],"format":"kuifje-gain-1","over":1,"rest":%d}'
    (tmp_path / "one.json").write_text(table % 1)
    (tmp_path / "nothing.json").write_text(table % 0)
    policy = '[[program]]\nfile = "pin.kf"\ngain = "table:%s.json"\n%s = 1\n'
    assert gate(tmp_path, policy % ("one", "multiplicative_leakage"), pin=PIN).exit_code == 0
    found = gate(tmp_path, policy % ("nothing", "multiplicative_leakage"), pin=PIN)
    assert found.exit_code == 2 and "it is undefined" in found.output
    assert gate(tmp_path, policy % ("nothing", "additive_leakage"), pin=PIN).exit_code == 0


# ---- the line of a finding


@pytest.mark.usefixtures("built")
def test_a_place_is_where_most_leaks(tmp_path):
    """The second statement shows one of four values, the first nothing; where a statement leaks no less alone, no line is named."""
    text = "var x : 0..3 := uniform 0..3;\nabout old x;\nobserve 0;\nobserve x;\n"
    bound = '[[program]]\nfile = "x.kf"\ncapacity = 1\n'
    assert "x.kf:4: capacity: does not hold: 4, at most 1" in gate(tmp_path, bound, x=text).output
    assert gate(tmp_path, bound, x=text + "observe x;\n").output == "x.kf: capacity: does not hold: 4, at most 1\n"


TURNS = """var x : 0..7 := uniform 0..7;
var n : 0..2 := 0;
about old x;
observe x mod 4;
while n < 2 {
  n := n + 1;
  observe x div 4;
}
"""
HIGH = """{"actions": [
  {"gains": [["0", 0], ["1", 0], ["2", 0], ["3", 0]], "name": "high"},
  {"gains": [["4", 0], ["5", 0], ["6", 0], ["7", 0]], "name": "low"}
], "format": "kuifje-gain-1", "over": 1, "rest": 1}"""


@pytest.mark.usefixtures("built")
def test_a_line_belongs_to_the_gain_of_its_rule(tmp_path):
    """All of x is shown: its last two bits in line 4, its first one in each turn of the loop, by line 7. One guess finds it with 8/8; without line 4
    with 2/8, and without line 7 with 4/8. To guess the first bit alone line 4 is worth nothing, and without line 7 it is right with 1/2."""
    (tmp_path / "high.json").write_text(HIGH)
    bound = '[[program]]\nfile = "x.kf"\ngain = "%s"\nposterior_vulnerability = "1/8"\n'
    assert gate(tmp_path, bound % "bayes", x=TURNS).output == "x.kf:4: posterior_vulnerability under bayes: does not hold: 1, at most 1/8\n"
    found = gate(tmp_path, bound % "table:high.json", x=TURNS).output
    assert found == "x.kf:7: posterior_vulnerability under table:high.json: does not hold: 1, at most 1/8\n"
    refinement = '[[refinement]]\nfile = "x.kf"\nof = "low.kf"\n'
    low = TURNS.replace("  observe x div 4;\n", "")
    assert gate(tmp_path, refinement, x=TURNS, low=low).output.startswith("x.kf:7: refinement of low.kf: does not hold: ")


@pytest.mark.usefixtures("built")
def test_a_line_of_a_bound_on_the_prior_is_the_secret_s(tmp_path):
    bound = '[[program]]\nfile = "x.kf"\nprior_vulnerability = "1/9"\n'
    assert gate(tmp_path, bound, x="# eight values\n" + TURNS).output == "x.kf:2: prior_vulnerability under bayes: does not hold: 1/8, at most 1/9\n"


# ---- guesses, of which fewer are worse

SHUT = "var pin : 0..9 := uniform 0..9;\nabout old pin;\nobserve 0;\n"
OPEN = SHUT.replace("observe 0", "observe pin")
GUESSES = '[[program]]\nfile = "%s.kf"\ngain = "guessing"\nleast_guesses = 4\nleast_prior_guesses = "11/2"\n'


@pytest.mark.usefixtures("built")
def test_few_guesses_are_worse(tmp_path):
    """A digit that isn't known takes (1 + .. + 10) / 10 = 11/2 guesses, and one that is shown takes 1."""
    found = gate(tmp_path, GUESSES % "open", open=OPEN, shut=SHUT)
    held = "open.kf: least_prior_guesses: holds: 11/2, at least 11/2\n"
    assert (found.exit_code, found.output) == (1, "open.kf:3: least_guesses: does not hold: 1, at least 4\n" + held)
    reports = ["--sarif", str(tmp_path / "r.sarif"), "--junit", str(tmp_path / "r.xml"), "--json"]
    found = gate(tmp_path, GUESSES % "shut", *reports)
    assert found.exit_code == 0 and [(row["found"], row["bound"], row["held"]) for row in json.loads(found.output)] == [
        ("11/2", "at least 4", True),
        ("11/2", "at least 11/2", True),
    ]
    gate(tmp_path, GUESSES % "open", *reports)
    (result,) = json.loads((tmp_path / "r.sarif").read_text())["runs"][0]["results"]
    assert result["message"]["text"] == "open.kf:3: least_guesses: does not hold: 1, at least 4"
    assert [failure.get("message") for failure in ElementTree.parse(tmp_path / "r.xml").getroot().iter("failure")] == ["1, at least 4"]


@pytest.mark.parametrize(
    ("key", "advice"),
    [
        ("prior_vulnerability", "least_prior_guesses"),
        ("posterior_vulnerability", "least_guesses"),
        ("multiplicative_leakage", "least_guesses"),
        ("additive_leakage", "least_guesses"),
    ],
)
def test_a_greatest_number_of_guesses_is_no_rule(tmp_path, key, advice):
    found = gate(tmp_path, f'[[program]]\nfile = "open.kf"\ngain = "guessing"\n{key} = 4\n', open=OPEN)
    assert found.exit_code == 2 and f"{key} is a greatest value" in found.output and found.output.endswith(f"write {advice}\n")


@pytest.mark.parametrize("gain", ["", 'gain = "bayes"\n', 'gain = "tries:2"\n', 'gain = "table:gain.json"\n'])
@pytest.mark.parametrize("key", ["least_guesses", "least_prior_guesses"])
def test_a_least_number_of_guesses_is_one_under_guessing_alone(tmp_path, key, gain):
    found = gate(tmp_path, f'[[program]]\nfile = "open.kf"\n{gain}{key} = 4\n', open=OPEN)
    assert found.exit_code == 2 and f"{key} is a number of guesses" in found.output and 'write gain = "guessing"' in found.output


# ---- programs without a secret

ERASED = "var pin : 0..9 := uniform 0..9;\nobserve pin;\npin := pin mod 2;\n"
CONSTANT = "var x : 0..3 := 0;\nabout old x;\nx := uniform 0..3;\nobserve x;\n"
NO_LEAK = '[[program]]\nfile = "%s.kf"\nmultiplicative_leakage = %s\n'


@pytest.mark.usefixtures("built")
def test_a_program_that_does_not_ask_about_its_secret_gets_no_answer(tmp_path):
    """The digit is shown, and then a bit of it is left, of which all is known: 1 after 1/2."""
    found = gate(tmp_path, NO_LEAK % ("erased", 2), erased=ERASED)
    assert found.exit_code == 2 and found.output.startswith(
        "erased.kf:1: multiplicative_leakage under bayes: no answer: no item of the target is old"
    )
    assert "as_it_is_left = true" in found.output
    found = gate(tmp_path, NO_LEAK % ("erased", 2) + "as_it_is_left = true\n")
    assert (found.exit_code, found.output) == (0, "erased.kf: multiplicative_leakage under bayes: holds: 2, at most 2\n")
    refinement = '[[refinement]]\nfile = "erased.kf"\nof = "erased.kf"\n'
    assert gate(tmp_path, refinement).exit_code == 2 and gate(tmp_path, refinement + "as_it_is_left = true\n").exit_code == 0


@pytest.mark.usefixtures("built")
def test_a_secret_with_one_value_gets_no_answer(tmp_path):
    found = gate(tmp_path, NO_LEAK % ("constant", 1), constant=CONSTANT)
    assert found.exit_code == 2 and "constant.kf:1: " in found.output and "no answer: the secret has one value, 0, in every run" in found.output
    assert "constant_secret = true" in found.output
    assert gate(tmp_path, NO_LEAK % ("constant", 1) + "constant_secret = true\n").exit_code == 0
    refinement = '[[refinement]]\nfile = "constant.kf"\nof = "constant.kf"\n'
    assert gate(tmp_path, refinement).exit_code == 2 and gate(tmp_path, refinement + "constant_secret = true\n").exit_code == 0
    last = ERASED.replace("pin mod 2", "0")
    found = gate(tmp_path, NO_LEAK % ("last", 1) + "as_it_is_left = true\n", last=last)
    assert found.exit_code == 2 and "constant_secret = true" in found.output


# ---- other priors, and every prior

ROUND = "var pin : 0..9 := choose { 0 : 4, 1 : 3, 2 : 3 };\nabout old pin;\nobserve 0;\n"
EVERY = '[[refinement]]\nfile = "%s.kf"\nof = "%s.kf"\npriors = "all"\n'


@pytest.mark.usefixtures("built")
def test_another_prior_is_no_leak(tmp_path):
    """It shows nothing, of a digit that is drawn differently; of one that is drawn alike it is said to leak more."""
    refinement = '[[refinement]]\nfile = "%s.kf"\nof = "%s.kf"\n'
    found = gate(tmp_path, refinement % ("round", "open"), round=ROUND, open=OPEN, shut=SHUT)
    text = "another prior than open.kf, so nothing is said of which leaks more: 0 has the probability 1/10 in open.kf, and 2/5 here"
    assert (found.exit_code, found.output) == (1, f"round.kf:1: refinement of open.kf: does not hold: {text}\n")
    found = gate(tmp_path, refinement % ("open", "shut"))
    assert "open.kf:3: refinement of shut.kf: does not hold: it leaks more than shut.kf under some gain function\n" == found.output


@pytest.mark.usefixtures("built")
def test_a_refinement_for_every_prior_is_asked_of_the_channels(tmp_path):
    found = gate(tmp_path, EVERY % ("shut", "open"), open=OPEN, shut=SHUT)
    assert found.exit_code == 0 and found.output.startswith(
        "shut.kf: refinement of open.kf for every prior: holds: it leaks no more than open.kf, for "
    )
    assert "every prior on the secret, since it is old and each of its values is possible" in found.output
    found = gate(tmp_path, EVERY % ("open", "shut"))
    assert found.exit_code == 1 and "for every prior under which each value of the secret is possible" in found.output


@pytest.mark.usefixtures("built")
@pytest.mark.parametrize(
    ("text", "of", "cause"),
    [
        (ROUND, ROUND, "3 is a value of the secret, and has the probability 0"),
        (ROUND, SHUT, "the priors differ: 0 has the probability 1/10 in "),
        (SHUT, SHUT.replace("var pin : 0..9", "var pin : 0..10"), "targets differ"),
        (ERASED, ERASED, "pin isn't old in the target of a.kf"),
        (SHUT.replace("about", "var b : bool := flip 1/2;\nabout b,"),) * 2 + ("b isn't old in the target of a.kf",),
        (SHUT, OPEN.replace("old pin", "pin"), "targets differ"),
    ],
)
def test_where_refine_says_nothing_of_every_prior_there_is_no_answer(tmp_path, text, of, cause):
    policy = EVERY % ("a", "b") + "as_it_is_left = true\n"
    found = gate(tmp_path, policy, a=text, b=of)
    assert found.exit_code == 2 and "no answer: " in found.output and cause in found.output


# ---- revisions


@pytest.mark.usefixtures("built")
def test_a_file_is_compared_with_itself_at_a_revision(tmp_path):
    def git(*words):
        subprocess.run(["git", "-C", tmp_path, "-c", "user.name=a", "-c", "user.email=a@b", *words], check=True, capture_output=True)

    git("init", "-q")
    (tmp_path / "pin.kf").write_text(WHOLE)
    git("add", "pin.kf")
    git("commit", "-qm", "one")
    policy = '[[refinement]]\nfile = "pin.kf"\nrevision = "HEAD"\n'
    assert gate(tmp_path, policy).exit_code == 0
    assert gate(tmp_path, policy, pin=PIN).exit_code == 1
    for wrong, cause in [
        (policy.replace("HEAD", "nowhere"), "no answer: the repository has no revision 'nowhere'"),
        (policy.replace("pin.kf", "new.kf"), "no answer: the revision 'HEAD' has no new.kf: where it had another name, "),
    ]:
        found = gate(tmp_path, wrong, new=PIN)
        assert found.exit_code == 2 and cause in found.output


@pytest.mark.usefixtures("built")
def test_a_revision_wants_git_and_a_repository(tmp_path, monkeypatch):
    policy = '[[refinement]]\nfile = "pin.kf"\nrevision = "HEAD"\n'
    monkeypatch.setenv("GIT_CEILING_DIRECTORIES", str(tmp_path.parent))
    found = gate(tmp_path, policy, pin=PIN)
    assert found.exit_code == 2 and f"no answer: git finds no repository for {tmp_path}" in found.output
    monkeypatch.setenv("PATH", "")
    found = gate(tmp_path, policy)
    assert found.exit_code == 2 and "no answer: a revision wants git, which isn't installed" in found.output


# ---- what is no policy


@pytest.mark.parametrize(
    "policy",
    [
        "",
        "x = ",
        "[[programs]]\n",
        "[program]\nfile = 'a.kf'\n",
        "[[program]]\nfile = 'a.kf'\n",
        "[[program]]\ncapacity = 1\n",
        "[[program]]\nfile = 'a.kf'\ncapacity = 0.5\n",
        "[[program]]\nfile = 'a.kf'\ncapacity = 'much'\n",
        "[[program]]\nfile = 'a.kf'\ncapacity = '1/0'\n",
        "[[program]]\nfile = 'a.kf'\ncolour = 1\n",
        "[[refinement]]\nfile = 'a.kf'\n",
        "[[refinement]]\nfile = 'a.kf'\nof = 'b.kf'\nrevision = 'HEAD'\n",
        "[[refinement]]\nfile = 'a.kf'\nrevision = '--output=x'\n",
    ],
)
def test_what_is_no_policy_ends_with_2(tmp_path, policy):
    assert gate(tmp_path, policy).exit_code == 2


@pytest.mark.parametrize(
    ("policy", "cause"),
    [
        (
            "[[program]]\nfile = 'a.kf'\ngain = 'bays'\nposterior_vulnerability = 1\n",
            "of a.kf: gain is bayes, tries:K with K from 1 to 65535, guessing",
        ),
        ("[[program]]\nfile = 'a.kf'\ngain = 'tries:0'\nadditive_leakage = 1\n", "of a.kf: gain is "),
        ("[[program]]\nfile = 'a.kf'\ngain = 'table:'\nadditive_leakage = 1\n", "of a.kf: gain is "),
        ("[[program]]\nfile = 'a.kf'\ngain = 2\nadditive_leakage = 1\n", "of a.kf: gain is 2, and has to be a text"),
        ("[[program]]\nfile = 'a.kf'\ngain = 'bayes'\ncapacity = 1\n", "of a.kf: capacity has no gain"),
        ("[[program]]\nfile = 'a.kf'\ncapacity = 'much'\n", "of a.kf: the bound capacity is 'much'"),
        ("[[program]]\nfile = 'a.kf'\ncapacity = '1e999999999'\n", "of a.kf: the bound capacity is '1e999999999'"),
        ("[[program]]\nfile = 'a.kf'\ncapacity = 1\nas_it_is_left = 'yes'\n", "of a.kf: as_it_is_left is 'yes', and may be true or false"),
        ("[[program]]\nfile = 'a.kf'\ncapacity = 1\nconstant_secret = 1\n", "of a.kf: constant_secret is 1, and may be true or false"),
        ("[[program]]\nfile = 'a.kf'\ncapacity = 1\npriors = 'all'\n", "of a.kf has no 'priors': there are additive_leakage, "),
        ("[[program]]\nfiel = 'a.kf'\ncapacity = 1\n", "[[program]] has no 'fiel'"),
        ("[[refinement]]\nfile = 'a.kf'\nof = 'b.kf'\npriors = 'some'\n", "of a.kf: priors is 'some', and may be \"all\""),
        ("[[program]]\nfile = 'a.kf'\ncapacity = 1\n" * 2, "two rules of a.kf are 'capacity'"),
        ("[[refinement]]\nfile = 'a.kf'\nof = 'b.kf'\n" * 2, "two rules of a.kf are 'refinement of b.kf'"),
    ],
)
def test_what_is_wrong_in_a_policy_is_named_before_anything_is_asked(tmp_path, policy, cause):
    """There is no file a.kf: the policy alone is at fault."""
    found = gate(tmp_path, policy)
    assert found.exit_code == 2 and found.output.startswith("kuifje-lab: ") and cause in found.output and "Errno" not in found.output


# ---- reports


@pytest.mark.usefixtures("built")
def test_no_two_testcases_have_one_name(tmp_path):
    """Gains, rules and what is compared with make the names."""
    gains = "".join(f'[[program]]\nfile = "pin.kf"\ngain = "{gain}"\nposterior_vulnerability = 1\ncapacity = {n}\n' for n, gain in [(9, "bayes")])
    gains += '[[program]]\nfile = "pin.kf"\ngain = "tries:2"\nposterior_vulnerability = 1\n'
    others = "".join(f'[[refinement]]\nfile = "pin.kf"\nof = "{of}"\n' for of in ("pin.kf", "pin_whole.kf"))
    every = '[[refinement]]\nfile = "pin.kf"\nof = "pin.kf"\npriors = "all"\n'
    gate(tmp_path, gains + others + every, "--junit", str(tmp_path / "r.xml"), pin=PIN, pin_whole=WHOLE)
    cases = [case.get("name") for case in ElementTree.parse(tmp_path / "r.xml").getroot().iter("testcase")]
    assert cases == [
        "capacity",
        "posterior_vulnerability under bayes",
        "posterior_vulnerability under tries:2",
        "refinement of pin.kf",
        "refinement of pin_whole.kf",
        "refinement of pin.kf for every prior",
    ]


@pytest.mark.usefixtures("built")
def test_sarif_names_files_from_the_top_of_the_repository(tmp_path):
    """Of a policy in a folder of a repository, of one outside of any, and a file that lies outside."""
    for folder in ("repository/ci", "free"):
        (tmp_path / folder).mkdir(parents=True)
    (tmp_path / "repository" / ".git").mkdir()
    (tmp_path / "out.kf").write_text(PIN)
    policy = '[[program]]\nfile = "pin 1.kf"\ncapacity = 1\n[[program]]\nfile = "%s/out.kf"\ncapacity = 1\n'
    uris = {}
    for folder, up in (("repository/ci", "../.."), ("free", "..")):
        gate(tmp_path / folder, policy % up, "--sarif", str(tmp_path / "r.sarif"), **{"pin 1": PIN})
        (run,) = json.loads((tmp_path / "r.sarif").read_text())["runs"]
        uris[folder] = [result["locations"][0]["physicalLocation"]["artifactLocation"] for result in run["results"]]
        assert all(rule["shortDescription"]["text"].endswith(".") for rule in run["tool"]["driver"]["rules"])
        (meaning,) = [base["description"]["text"] for base in run["originalUriBaseIds"].values()]
        assert meaning == ("The top of the repository" if folder != "free" else "The folder of the policy")
    outside = {"uri": (tmp_path / "out.kf").as_uri()}
    assert uris["repository/ci"] == [{"uri": "ci/pin%201.kf", "uriBaseId": "%SRCROOT%"}, outside]
    assert uris["free"] == [{"uri": "pin%201.kf", "uriBaseId": "%SRCROOT%"}, outside]


@pytest.mark.usefixtures("built")
def test_a_report_that_cannot_be_written_ends_with_2(tmp_path):
    policy = '[[program]]\nfile = "pin.kf"\ncapacity = 9\n'
    found = gate(tmp_path, policy, "--junit", str(tmp_path / "none" / "r.xml"), pin=PIN)
    assert found.exit_code == 2 and f"kuifje-lab: {tmp_path}/none/r.xml: No such file" in found.output
    if Path("/dev/full").exists():
        for report in ("--junit", "--sarif"):
            found = gate(tmp_path, policy, report, "/dev/full")
            assert found.exit_code == 2 and "kuifje-lab: /dev/full: No space left on device" in found.output
        gated = [sys.executable, "-m", "kuifje.lab", "gate", str(tmp_path / "policy.toml")]
        with open("/dev/full", "w") as full:
            ended = subprocess.run(gated, stdout=full, stderr=subprocess.PIPE, env={**os.environ, "PYTHONPATH": SOURCES}, check=False)
        assert (ended.returncode, ended.stderr) == (2, b"kuifje-lab: standard output: No space left on device\n")
        closed = subprocess.run(["sh", "-c", '"$@" >&-', "sh", *gated], capture_output=True, env={**os.environ, "PYTHONPATH": SOURCES}, check=False)
        assert (closed.returncode, closed.stderr) == (2, b"kuifje-lab: standard output is closed\n")


# Which class of the model each object of a SARIF file is, by the property that holds it.
CLASSES = {
    "runs": "Run", "tool": "Tool", "driver": "ToolComponent", "rules": "ReportingDescriptor", "invocations": "Invocation", "results": "Result",
    "message": "Message", "locations": "Location", "physicalLocation": "PhysicalLocation", "artifactLocation": "ArtifactLocation", "region": "Region",
    "shortDescription": "MultiformatMessageString", "description": "Message", "%SRCROOT%": "ArtifactLocation",
}  # fmt: skip


def check_object(model, name, found):
    """Compares an object with the class that is made of the schema of SARIF 2.1.0: it has what is required, and nothing that isn't known."""
    known = {a.metadata["schema_property_name"]: a.default for a in getattr(model, name).__attrs_attrs__}
    required = {key for key, default in known.items() if repr(default) == "NOTHING"}
    assert required <= found.keys() <= known.keys(), name
    members = {**found, **found.get("originalUriBaseIds", {})}
    for key, value in members.items():
        for member in value if isinstance(value, list) else [value] if key != "originalUriBaseIds" else []:
            if isinstance(member, dict):
                check_object(model, CLASSES[key], member)


@pytest.mark.usefixtures("built")
@pytest.mark.parametrize("of", ["pin_whole.kf", "nothing.kf", "pin.kf"])
def test_sarif_has_what_its_version_requires(tmp_path, of):
    """By the classes that Debian's python3-sarif-python-om has of the schema of version 2.1.0: of a rule that doesn't hold, of one without an
    answer, and of none; a message has a text, too, which the schema requires of it as one of two."""
    model = pytest.importorskip("sarif_om")
    gate(tmp_path, REFINEMENT.replace("pin_whole.kf", of), "--sarif", str(tmp_path / "r.sarif"), pin=PIN, pin_whole=WHOLE)
    report = json.loads((tmp_path / "r.sarif").read_text())
    check_object(model, "SarifLog", report)
    (run,) = report["runs"]
    assert len(run["results"]) == (of != "pin.kf") and all(result["message"]["text"] for result in run["results"])
    assert {result["ruleId"] for result in run["results"]} <= {rule["id"] for rule in run["tool"]["driver"]["rules"]}
    assert report["version"] == "2.1.0" and report["$schema"].endswith("sarif-2.1.0.json")


@pytest.mark.parametrize("seconds", ["-1", "nan"])
def test_a_bound_on_time_is_a_number_of_seconds(tmp_path, seconds):
    found = gate(tmp_path, '[[program]]\nfile = "a.kf"\ncapacity = 1\n', "--timeout", seconds)
    assert found.exit_code == 2 and found.output.startswith("kuifje-lab: timeout is a number of seconds from 0 on")


def test_a_policy_that_is_not_there_ends_with_2(tmp_path):
    assert CliRunner().invoke(main, ["gate", str(tmp_path / "none.toml")]).exit_code == 2


@pytest.mark.usefixtures("built")
@pytest.mark.parametrize("words, given", [([], 60), (["--timeout", "5"], 5), (["--timeout", "inf"], math.inf)])
def test_a_comparison_of_the_gate_has_a_bound_where_none_is_given(tmp_path, monkeypatch, words, given):
    asked = []

    def refine(a, b, timeout):
        asked.append(timeout)
        raise OutOfTime("no answer within so many seconds")

    monkeypatch.setattr("kuifje.gates.refine", refine)
    found = gate(tmp_path, REFINEMENT, *words, pin=PIN, pin_whole=WHOLE)
    assert found.exit_code == 2 and "no answer within so many seconds" in found.output and asked == [given]


EARLY = (EXAMPLES / "password" / "early.kf").read_text()
KEEPING = '[[program]]\nfile = "early.kf"\nkeep = [10]\n'


@pytest.mark.usefixtures("built")
def test_a_bound_that_does_not_hold_names_the_floor_and_the_repair_where_the_policy_says_what_is_kept(tmp_path):
    """Of 27 passwords four classes are seen, and by the answer alone two: 4/27 and 2/27. What the two branches show is made good by a repair."""
    rule = KEEPING + 'posterior_vulnerability = "2/27"\nmultiplicative_leakage = 1\nprior_vulnerability = 0\n'
    found = gate(tmp_path, rule, "--json", "--sarif", str(tmp_path / "r.sarif"), early=EARLY)
    said = {row["rule"]: row for row in json.loads(found.output)}
    kept = "what is kept, line 10, comes to {0} alone; a repair of lines 8, 9 comes to so much, which {1}: kuifje-lab repair early.kf --keep 10"
    assert said["posterior_vulnerability"]["advice"] == kept.format("2/27", "holds")
    assert (said["posterior_vulnerability"]["floor"], said["posterior_vulnerability"]["repaired"]) == ("2/27", "2/27")
    assert said["multiplicative_leakage"]["advice"] == kept.format("2", "does not hold either")
    assert said["prior_vulnerability"]["advice"] == "" and said["prior_vulnerability"]["floor"] is None
    (run,) = json.loads((tmp_path / "r.sarif").read_text())["runs"]
    assert any(result["message"]["text"].endswith("; " + kept.format("2/27", "holds")) for result in run["results"])
    # Where nothing is said to be kept, nothing is searched, and where the rule holds neither.
    for other in (rule.replace("keep = [10]\n", ""), KEEPING + 'posterior_vulnerability = "4/27"\n'):
        assert "kept" not in gate(tmp_path, other, early=EARLY).output


@pytest.mark.usefixtures("built")
def test_guesses_capacities_and_tables_at_the_floor(tmp_path):
    """One password and 26: it is found with (1 + 1 + .. + 26)/27 = 352/27 guesses. The answer shows two columns."""
    (tmp_path / "first.json").write_text(
        '{"actions":[{"gains":[["(0, 1, 2)",1]],"name":"bet"},{"gains":[],"name":"pass"}],"format":"kuifje-gain-1","over":1,"rest":0}'
    )
    assert "comes to 352/27 alone" in gate(tmp_path, KEEPING + 'gain = "guessing"\nleast_guesses = 14\n', early=EARLY).output
    assert "comes to 2 alone" in gate(tmp_path, KEEPING + "capacity = 1\n", early=EARLY).output
    found = gate(tmp_path, KEEPING + 'gain = "table:first.json"\nposterior_vulnerability = 0\n', early=EARLY)
    assert "comes to 1/27 alone; a repair of lines 8, 9 comes to so much, which does not hold either" in found.output


@pytest.mark.usefixtures("built")
def test_where_no_repair_helps_that_is_said(tmp_path):
    """The answer alone leaks 2/9 of nine PINs. Of two people's bits one is kept: 1/2 · 3/4, and the other one's answer isn't structure."""
    found = gate(tmp_path, '[[program]]\nfile = "pin.kf"\nkeep = [5]\nposterior_vulnerability = 0\n', pin=WHOLE)
    assert found.output.endswith("what is kept, line 5, comes to as much alone: no program that keeps it leaks less\n")
    survey = (EXAMPLES / "survey.kf").read_text()
    found = gate(tmp_path, '[[program]]\nfile = "survey.kf"\nkeep = ["6:1"]\nposterior_vulnerability = 0\n', survey=survey)
    assert found.output.endswith("what is kept, line 6:1, comes to 3/8 alone; no repair by structure was found\n") and found.exit_code == 1
    found = gate(tmp_path, '[[program]]\nfile = "pin.kf"\nkeep = [4]\nposterior_vulnerability = 0\n', pin=WHOLE)
    assert found.output.endswith("no repair is known: no observation begins in line 4\n") and found.exit_code == 1


@pytest.mark.parametrize("keep", ["5", "[]", "[0]", "[true]", '["five"]', '["5"]', "[1.5]"])
def test_what_is_kept_is_a_list_of_places(tmp_path, keep):
    found = gate(tmp_path, f'[[program]]\nfile = "pin.kf"\nkeep = {keep}\nposterior_vulnerability = 0\n', pin=WHOLE)
    assert found.exit_code == 2 and "has to be a list of lines" in found.output


NOTHING = "var x : 0..7 := uniform 0..7;\nabout old x;\n"
RARE = NOTHING + "if flip 1/100 {\n  observe x;\n} else { skip; }\n"
WITHIN = '[[refinement]]\nfile = "rare.kf"\nof = "nothing.kf"\n'


def test_at_most_so_much_more(tmp_path):
    """Of eight values one run in a hundred shows all: one guess is right with 107/800 in place of 1/8, 107/100 times as often, and 7/800 more."""
    for limits, held in (
        ('times = "107/100"\n', True),
        ('times = "106/100"\n', False),
        ('plus = "7/800"\n', True),
        ('plus = "7/801"\n', False),
        ('times = "106/100"\nplus = "1/100"\n', True),
        ('times = "107/100"\npriors = "all"\n', True),
    ):
        found = gate(tmp_path, WITHIN + limits, rare=RARE, nothing=NOTHING)
        assert found.exit_code == (0 if held else 1), found.output


def test_who_gains_more_and_by_which_line(tmp_path):
    found = gate(tmp_path, WITHIN + 'times = "21/20"\n', rare=RARE, nothing=NOTHING)
    text = (
        "rare.kf:4: refinement of nothing.kf, times 21/20: does not hold: it leaks more than 21/20 times as much as nothing.kf, to an adversary who "
    )
    bets = "gains 1 by a bet that the secret is 0 or that the secret is 1 or that the secret is 2, or by one of 5 more: "
    assert (found.exit_code, found.output) == (1, f"{text}{bets}107/800 after a run, and 1/8 in nothing.kf\n")
    found = gate(tmp_path, WITHIN + 'times = "11/10"\n', rare=RARE, nothing=NOTHING)
    assert found.output == "rare.kf: refinement of nothing.kf, times 11/10: holds: it leaks at most 11/10 times as much as nothing.kf\n"


@pytest.mark.parametrize(
    "limits, text",
    [
        ("times = 0\n", "times is above 0"),
        ('times = "1/0"\n', "denominator 0"),
        ("times = 1.05\n", "times is 1.05"),
        ('plus = "3/2"\n', "plus is from 0 to 1"),
        ('plus = "1/100"\npriors = "all"\n', "plus depends on the prior"),
    ],
)
def test_limits_that_are_none(tmp_path, limits, text):
    found = gate(tmp_path, WITHIN + limits, rare=RARE, nothing=NOTHING)
    assert found.exit_code == 2 and text in found.output
