"""`.ci/pages` sees what a page shows and the program doesn't print, and links that lead nowhere; notebooks are run by the Python package's tests."""

import json
import os

import pytest
from conftest import Repository

BOOK = "python/notebooks/first_steps.ipynb"


@pytest.mark.parametrize(
    "page, old, new, naming",
    [
        ("README.md", "posterior 1/2\n", "posterior 1/3\n", "$ kuifje leak examples/guard.kf --gain bayes"),
        ("README.md", "  2 1\n", "  2 1/1\n", "$ kuifje hyper examples/guard.kf"),
        ("docs/TRUST.md", "$ echo $?\n1\n", "$ echo $?\n0\n", "$ echo $?"),
        ("README.md", "](docs/LIBRARY.md)", "](docs/LIBRARIES.md)", "there is no docs/LIBRARIES.md"),
        ("docs/TRUST.md", "(#trusted)", "(#believed-in)", "TRUST.md has no heading #believed-in"),
        ("crates/kf_run/README.md", "(../kf_push/README.md)", "(../kf_pushes/README.md)", "there is no ../kf_pushes/README.md"),
        ("docs/TRUST.md", "```console\n", "```shell\n", "a block of the kind 'shell'"),
        ("docs/TRUST.md", "```sh\nsha256sum", "```sh\n$ sha256sum", "a command that isn't run"),
        ("docs/TRUST.md", "```sh\nsha256sum", "sha256sum", "a block without an end"),
        ("docs/LANGUAGE.md", "y := cond(h = 2, 1, 0);\n", "y := cond(h = 3, 1, 0);\n", "examples/cond.kf is another text in the tree"),
        (
            BOOK,
            '"outputs": []',
            '"outputs": [{"name": "stdout", "output_type": "stream", "text": ["1/5"]}]',
            "an output or a number of runs is stored",
        ),
        (BOOK, '"execution_count": null', '"execution_count": 3', "an output or a number of runs is stored"),
        (BOOK, '"# First steps', '"# First [steps](STEPS.md)', "cell 1: there is no STEPS.md"),
        (BOOK, '"cells":', '"cell":', "is no notebook"),
    ],
)
def test_a_page_that_says_something_else(built: Repository, page: str, old: str, new: str, naming: str) -> None:
    built.spoil(page, old, new)
    built.refuses(f".ci/pages bin/kuifje {page}", page, naming.removeprefix("$ "))


def test_nothing_is_found_where_nothing_is_wrong(built: Repository) -> None:
    built.passes(".ci/pages", "bin/kuifje", "README.md", "docs/TRUST.md", BOOK)


def test_all_pages_and_what_no_page_has(built: Repository) -> None:
    built.write("examples/more.kf", "var x : bool := true;\n")
    built.spoil("crates/kuifje/data/first.kf", "var", "var ")
    built.spoil(BOOK, '"outputs": []', '"outputs": [{"name": "stdout", "output_type": "stream", "text": ["1/5"]}]')
    lines = built.refuses(".ci/pages", "examples/more.kf: no page runs it")
    assert "the gate's first.kf isn't that of examples/" in lines and any(line.startswith(f"{BOOK}: cell ") for line in lines)


def test_a_notebook_whose_source_says_something_else(built: Repository) -> None:
    """Its cells assert what is worked out by hand."""
    pytest.importorskip("nbclient")
    old, new = "if pin = 7", "if pin < 7"
    book = json.loads((built.top / BOOK).read_text())
    assert any(old in line for cell in book["cells"] for line in cell["source"])
    words = ["/usr/bin/python3", "-m", "pytest", "-q", "-p", "no:cacheprovider", "python/tests/test_notebooks.py", "-k", "first_steps"]
    environment = {"KUIFJE_PROGRAM": str((built.top / "bin/kuifje").resolve()), "PYTHONPATH": os.environ.get("PYTHONPATH", "")}
    built.spoil(BOOK, old, new)
    status, printed = built.run(*words, **environment)
    assert status == 1 and "AssertionError" in printed and "1 failed" in printed
