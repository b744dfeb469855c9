"""The command kuifje-lab measure: what it prints and writes, how it ends; and the rules for measured code in a policy."""

import json
import subprocess
from fractions import Fraction
from pathlib import Path
from xml.etree import ElementTree

import pytest
from measured_code import EXAMPLES, need

pytest.importorskip("click")

from click.testing import CliRunner

from kuifje import Program
from kuifje.lab import main
from kuifje.measured import policy

pytestmark = pytest.mark.usefixtures("built")
HARNESS, EARLY, WHOLE = (str(EXAMPLES / f"comparison{name}.c") for name in ("_harness", "", "_whole"))


@pytest.fixture(autouse=True)
def tools():
    need("gcc", "qemu-x86_64")


def lab(*words):
    return CliRunner(mix_stderr=False).invoke(main, ["measure", *map(str, words)])


def test_a_bound_that_is_broken_is_reported_at_the_line(tmp_path):
    words = [
        "--model",
        "control-flow",
        "--at-most",
        "1/5000",
        "--sarif",
        tmp_path / "r.sarif",
        "--junit",
        tmp_path / "r.xml",
        "--report",
        tmp_path / "r.html",
    ]
    found = lab(HARNESS, EARLY, *words, "-o", tmp_path / "text.kf", "--table", tmp_path / "t.tsv")
    assert found.exit_code == 1
    assert "gain bayes: prior 1/10000, posterior 1/2000; capacity 5\n" in found.output
    assert "posterior_vulnerability: does not hold: gcc -O2, seen: control-flow: 1/2000, at most 1/5000\n" in found.output
    assert Program.from_file(tmp_path / "text.kf").leak().posterior_vulnerability == Fraction(1, 2000)
    assert (tmp_path / "t.tsv").read_text().splitlines()[3142] == "3141\tpin = [3, 1, 4, 1]\t4"
    suite = ElementTree.parse(tmp_path / "r.xml").getroot()
    assert (suite.get("tests"), suite.get("failures"), suite.get("errors")) == ("1", "1", "0")
    page = (tmp_path / "r.html").read_text()
    assert "capacity 5" in page and "if (a[i] != b[i])" in page and "0.521 bits" in page
    (run,) = json.loads((tmp_path / "r.sarif").read_text())["runs"]
    assert {result["ruleId"] for result in run["results"]} == {"first-told", "posterior_vulnerability"}
    for result in run["results"]:
        (place,) = result["locations"]
        assert place["physicalLocation"]["artifactLocation"]["uri"].endswith("comparison.c") and place["physicalLocation"]["region"] == {
            "startLine": 7
        }
    told = next(result for result in run["results"] if result["ruleId"] == "first-told")
    assert len(told["relatedLocations"]) == 2 and told["partialFingerprints"] and told["level"] == "error"


# Which class of the model each object of a SARIF file is, by the property that holds it.
CLASSES = {
    "runs": "Run", "tool": "Tool", "driver": "ToolComponent", "rules": "ReportingDescriptor", "invocations": "Invocation", "results": "Result",
    "message": "Message", "locations": "Location", "relatedLocations": "Location", "physicalLocation": "PhysicalLocation",
    "artifactLocation": "ArtifactLocation", "region": "Region",
}  # fmt: skip


def check_sarif(model, name, found):
    """Compares an object with the class that is made of the schema of SARIF 2.1.0: it has what is required, and nothing that isn't known."""
    known = {a.metadata["schema_property_name"]: a.default for a in getattr(model, name).__attrs_attrs__}
    required = {key for key, default in known.items() if repr(default) == "NOTHING"}
    assert required <= found.keys() <= known.keys(), name
    for key, value in found.items():
        for member in value if isinstance(value, list) else [value]:
            if isinstance(member, dict) and key != "partialFingerprints":
                check_sarif(model, CLASSES[key], member)


def test_sarif_is_what_the_schema_has(tmp_path):
    model = pytest.importorskip("sarif_om")
    lab(HARNESS, EARLY, "--model", "control-flow", "--capacity", "1", "--sarif", tmp_path / "r.sarif")
    check_sarif(model, "SarifLog", json.loads((tmp_path / "r.sarif").read_text()))


def test_a_patch_holds_and_back_it_does_not(tmp_path):
    found = lab(HARNESS, WHOLE, "--against", EARLY, "--model", "control-flow", "--capacity", 1)
    assert found.exit_code == 0 and "leaks no more than before, to any adversary: the proved program confirms it" in found.output
    found = lab(HARNESS, EARLY, "--against", WHOLE, "--model", "control-flow")
    assert found.exit_code == 1 and "newly told apart: at comparison.c:7 pin = [" in found.output
    assert lab(HARNESS, EARLY, "--against", WHOLE, "--revision", "main").exit_code == 2


def test_code_is_compared_with_itself_at_a_revision(tmp_path):
    def git(*words):
        subprocess.run(["git", "-C", tmp_path, "-c", "user.name=a", "-c", "user.email=a@b", *words], check=True, capture_output=True)

    for name, source in (("harness.c", HARNESS), ("code.c", WHOLE)):
        (tmp_path / name).write_text(Path(source).read_text())
    git("init", "-q")
    git("add", "harness.c", "code.c")
    git("commit", "-qm", "one")
    words = [tmp_path / "harness.c", tmp_path / "code.c", "--revision", "HEAD", "--model", "control-flow"]
    assert lab(*words).exit_code == 0
    (tmp_path / "code.c").write_text(Path(EARLY).read_text())
    assert lab(*words).exit_code == 1
    assert lab(*words[:2], "--revision", "nowhere").exit_code == 2


def test_several_levels_and_models_make_a_table():
    found = lab(HARNESS, EARLY, "-O0", "-O2", "--model", "control-flow", "--model", "sent")
    assert found.output.splitlines()[:3] == ["classes  control-flow  sent", "gcc -O0             5     1", "gcc -O2             5     1"]


def test_no_answer_ends_with_2(tmp_path):
    (tmp_path / "code.c").write_text('#include "kuifje_measure.h"\nKUIFJE_SECRET(int, x, 1, 0, 7);\nKUIFJE_MEASURE { return 5 / x[0]; }\n')
    found = lab(tmp_path / "code.c", "--sarif", tmp_path / "r.sarif", "--junit", tmp_path / "r.xml")
    assert found.exit_code == 2 and "no answer: code.c:3: Crash: a run is ended by signal 8 (secret: x = 0)" in found.output
    assert json.loads((tmp_path / "r.sarif").read_text())["runs"][0]["invocations"] == [{"executionSuccessful": False}]
    assert ElementTree.parse(tmp_path / "r.xml").getroot().get("errors") == "1"
    assert lab(tmp_path / "nowhere.c").exit_code == 2 and lab(HARNESS, EARLY, "--model", "colours").exit_code == 2
    assert lab(HARNESS, EARLY, "--at-most", "much").exit_code == 2


def test_rules_for_measured_code_in_a_policy():
    entry = {"harness": "comparison_harness.c", "sources": ["comparison.c"], "model": "control-flow", "capacity": 1, "against": "comparison_whole.c"}
    policy.check(entry)
    found = policy.findings(EXAMPLES, [entry])
    assert [(f.rule, f.held, f.line) for f in found] == [("capacity", False, 7), ("refinement", False, 7)]
    found = policy.findings(EXAMPLES, [{**entry, "sources": ["comparison_whole.c"], "against": "comparison.c"}])
    assert [f.held for f in found] == [True, True]
    found = policy.findings(EXAMPLES, [{**entry, "sources": ["nowhere.c"]}])
    assert [f.held for f in found] == [None]


@pytest.mark.parametrize(
    "entry",
    [
        {"capacity": 1},
        {"harness": "a.c"},
        {"harness": "a.c", "capacity": 0.5},
        {"harness": "a.c", "capacity": "1/0"},
        {"harness": "a.c", "capacity": 1, "colour": 1},
        {"harness": "a.c", "capacity": 1, "model": "colours"},
        {"harness": "a.c", "gain": "guessing", "posterior_vulnerability": 1},
        {"harness": "a.c", "least_guesses": 1},
        {"harness": "a.c", "capacity": 1, "compilers": ["gcc"]},
        {"harness": "a.c", "capacity": 1, "sources": "b.c"},
        {"harness": "a.c", "capacity": 1, "snapshot": 1},
        {"harness": "a.c", "against": "b.c", "revision": "main"},
    ],
)
def test_what_is_no_rule_for_measured_code(entry):
    with pytest.raises(ValueError):
        policy.check(entry)


def test_a_policy_has_rules_for_measured_code(tmp_path):
    rule = f'[[measured]]\nharness = "{HARNESS}"\nsources = ["{WHOLE}"]\nmodel = "control-flow"\ncapacity = 1\n'
    (tmp_path / "policy.toml").write_text(rule)
    found = CliRunner().invoke(main, ["gate", str(tmp_path / "policy.toml")])
    assert found.exit_code == 0 and "capacity" in found.output and "holds: gcc -O2, seen: control-flow: 1, at most 1" in found.output
    (tmp_path / "policy.toml").write_text(rule.replace(WHOLE, EARLY))
    assert CliRunner().invoke(main, ["gate", str(tmp_path / "policy.toml")]).exit_code == 1
    (tmp_path / "policy.toml").write_text(rule.replace("capacity", "colour"))
    assert CliRunner().invoke(main, ["gate", str(tmp_path / "policy.toml")]).exit_code == 2


def test_fewer_guesses_are_worse():
    """Of the classes with 9,000, 900, 90, 9 and 1 PINs (n + 1)/2 guesses are expected in each."""
    expected = sum(Fraction(n, 10000) * Fraction(n + 1, 2) for n in (9000, 900, 90, 9, 1))
    words = [HARNESS, EARLY, "--model", "control-flow", "--gain", "guessing"]
    found = lab(*words, "--at-least", expected)
    assert found.exit_code == 0 and f"posterior {expected}; capacity 5" in found.output
    assert lab(*words, "--at-least", expected + 1).exit_code == 1
    assert lab(*words, "--at-most", 1).exit_code == 2 and lab(HARNESS, EARLY, "--at-least", 1).exit_code == 2
