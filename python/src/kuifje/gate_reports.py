"""What a gate found, for machines: JSON, JUnit XML and SARIF 2.1.0."""

from __future__ import annotations

import json
import os
from dataclasses import asdict
from pathlib import Path
from urllib.parse import quote
from xml.etree import ElementTree

from .gates import Finding, status

__all__ = ["as_json", "junit", "sarif"]

SCHEMA = "https://json.schemastore.org/sarif-2.1.0.json"
ROOT = "%SRCROOT%"  # what SARIF calls the folder from which files are named
DESCRIPTIONS = {
    "prior_vulnerability": "What an adversary gains at best before a run is seen is at most the bound.",
    "posterior_vulnerability": "What an adversary gains at best after a run is seen is at most the bound.",
    "multiplicative_leakage": "The posterior vulnerability divided by the prior one is at most the bound.",
    "additive_leakage": "The posterior vulnerability less the prior one is at most the bound.",
    "capacity": "The Bayes capacity of the program's channel is at most the bound.",
    "least_prior_guesses": "The expected number of guesses that find the secret before a run is seen is at least the bound.",
    "least_guesses": "The expected number of guesses that find the secret after a run is seen is at least the bound.",
    "refinement": "The program leaks no more than another one, to any adversary.",
}


def as_json(findings: list[Finding]) -> str:
    """The findings as JSON: a list with a member for each, whose fractions are texts; ``held`` is null where a question got no answer."""

    def numbers(finding: Finding) -> dict[str, object]:
        found = {"found": finding.found, "floor": finding.floor, "repaired": finding.repaired}
        return {key: None if number is None else str(number) for key, number in found.items()}

    rows: list[dict[str, object]] = [{**asdict(f), "name": f.name, **numbers(f)} for f in findings]
    return json.dumps(rows, indent=1, ensure_ascii=False) + "\n"


def junit(findings: list[Finding]) -> str:
    """The findings as JUnit XML: a rule that doesn't hold is a failure, and one without an answer an error. No two testcases have one name."""
    counts = {"tests": len(findings), "failures": sum(f.held is False for f in findings), "errors": sum(f.held is None for f in findings)}
    suite = ElementTree.Element("testsuite", {"name": "kuifje", **{key: str(count) for key, count in counts.items()}})
    for finding in findings:
        case = ElementTree.SubElement(suite, "testcase", classname=finding.file, name=finding.name)
        if not finding.held:
            ElementTree.SubElement(case, "error" if finding.held is None else "failure", message=finding.text).text = str(finding)
    ElementTree.indent(suite)
    return ElementTree.tostring(suite, encoding="unicode", xml_declaration=True) + "\n"


def _root(folder: Path) -> tuple[Path, str]:
    """The folder from which a report names files, and what it is: the top of the repository, or where there is none the policy's folder."""
    top = next((above for above in (folder, *folder.parents) if (above / ".git").exists()), None)
    return (folder, "The folder of the policy") if top is None else (top, "The top of the repository")


def sarif(findings: list[Finding], folder: Path) -> str:
    """The rules that don't hold or got no answer as SARIF 2.1.0, with the place that leaks or is refused.

    ``folder`` is the policy's. Files are named from the top of the repository that it lies in, or where it lies in none from itself.
    """
    folder = Path(os.path.abspath(folder))
    root, meaning = _root(folder)

    def location(file: str) -> dict[str, object]:
        path = Path(os.path.normpath(folder / file))
        if path.is_relative_to(root):
            return {"uri": quote(path.relative_to(root).as_posix()), "uriBaseId": ROOT}
        return {"uri": path.as_uri()}

    def result(finding: Finding) -> dict[str, object]:
        place: dict[str, object] = {"artifactLocation": location(finding.file)}
        if finding.line is not None:
            place["region"] = {"startLine": finding.line}
        return {"ruleId": finding.rule, "level": "error", "message": {"text": str(finding)}, "locations": [{"physicalLocation": place}]}

    rules = [{"id": rule, "shortDescription": {"text": DESCRIPTIONS[rule]}} for rule in sorted({finding.rule for finding in findings})]
    run = {
        "tool": {"driver": {"name": "kuifje-lab", "rules": rules}},
        "invocations": [{"executionSuccessful": status(findings) != 2}],
        "originalUriBaseIds": {ROOT: {"description": {"text": meaning}}},
        "results": [result(finding) for finding in findings if not finding.held],
    }
    return json.dumps({"$schema": SCHEMA, "version": "2.1.0", "runs": [run]}, indent=1, ensure_ascii=False) + "\n"
