"""The checks that ask the program see a program that prints something else, and a script that takes too much."""

from pathlib import Path

import pytest
from conftest import Repository

SCRIPT = "examples/check_certificate.py"


@pytest.fixture
def liar(built: Repository, tmp_path: Path) -> str:
    """A program that prints 1/3 wherever 1/2 is right."""
    path = tmp_path / "kuifje"
    path.write_text(f'#!/bin/bash\nset -o pipefail\n{built.top.resolve()}/bin/kuifje "$@" | sed "s|\\b1/2\\b|1/3|"\n')
    path.chmod(0o755)
    return str(path)


@pytest.mark.parametrize(
    "check, naming",
    [
        (".ci/beside {0}", "by the plain program"),
        (".ci/ways {0}", "by the plain program"),
        (".ci/pages {0} README.md", "kuifje leak examples/guard.kf --gain bayes"),
    ],
)
def test_a_program_that_prints_another_number(built: Repository, liar: str, check: str, naming: str) -> None:
    built.refuses(check.format(liar), naming)


def test_a_script_that_takes_hypers_which_are_not_printed_so_or_loses_its_answer(built: Repository) -> None:
    built.spoil(SCRIPT, '    require(text.endswith("\\n"))\n', "")
    built.spoil(SCRIPT, "chances[value] = above_0(probability)", "chances[value] = number(ABOVE_0, probability)")
    built.spoil(SCRIPT, '        stop("write failed")\n', "        pass\n")
    lines = built.refuses(".ci/certificates", "a hyper, without the last LF: the script doesn't end with 2")
    assert any("'2/12' for '1/6'" in line for line in lines) and any(line.startswith("accepted >/dev/full ") for line in lines)
