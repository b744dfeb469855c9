"""The notebooks of notebooks/ run whole, in a kernel of their own; and a question never takes the notebook with it."""

import os
from pathlib import Path

import pytest

nbformat = pytest.importorskip("nbformat")
nbclient = pytest.importorskip("nbclient")
pytest.importorskip("ipykernel")
pytest.importorskip("matplotlib")
pytest.importorskip("pandas")

PYTHON = Path(__file__).resolve().parents[1]
BOOKS = sorted((PYTHON / "notebooks").glob("*.ipynb"))
pytestmark = pytest.mark.usefixtures("built")


@pytest.fixture(autouse=True)
def kernel(monkeypatch, tmp_path):
    """A kernel that finds the package, and keeps nothing."""
    monkeypatch.setenv("PYTHONPATH", os.pathsep.join([str(PYTHON / "src"), os.environ.get("PYTHONPATH", "")]))
    monkeypatch.setenv("IPYTHONDIR", str(tmp_path))


def run(book):
    """The outputs of each code cell of a notebook that is run whole. A cell that raises ends it."""
    nbclient.NotebookClient(book, timeout=300, kernel_name="python3", resources={"metadata": {"path": str(PYTHON)}}).execute()
    return [cell.outputs for cell in book.cells if cell.cell_type == "code"]


def test_there_are_three_and_they_are_stored_without_outputs():
    assert [book.stem for book in BOOKS] == ["channels_and_capacities", "first_steps", "refinement_and_certificate"]
    for path in BOOKS:
        book = nbformat.read(path, as_version=4)
        nbformat.validate(book)
        assert not any(cell.outputs or cell.execution_count for cell in book.cells if cell.cell_type == "code")


@pytest.mark.parametrize("path", BOOKS, ids=lambda path: path.stem)
def test_a_notebook_runs_whole(path):
    """Its own cells assert what is worked out by hand; nothing is written to standard error, and each picture is shown."""
    book = nbformat.read(path, as_version=4)
    pictures = sum("pictures.show(" in cell.source for cell in book.cells)
    outputs = [output for outputs in run(book) for output in outputs]
    assert [output.text for output in outputs if output.get("name") == "stderr"] == []
    assert sum("image/svg+xml" in output.get("data", {}) for output in outputs) == pictures > 0
    assert any("text/html" in output.get("data", {}) for output in outputs)


def cells(*sources):
    return nbformat.v4.new_notebook(cells=[nbformat.v4.new_code_cell(source) for source in sources])


PEAK = "next(line.split()[1] for line in open('/proc/self/status') if line.startswith('VmHWM'))"
LOCK = "Program('var x : 0..3 := uniform 0..3; about old x; observe x;').leak().posterior_vulnerability"


@pytest.mark.whole
def test_a_program_that_wants_all_memory_leaves_the_notebook_alive():
    """The sums of two numbers below 65,536 are more stores than 4 GB hold. The peak is the kernel's own, which begins anew with its program."""
    hungry = "var x : 0..65535 := uniform 0..65535;\nvar y : 0..65535 := uniform 0..65535;\nabout old x;\nobserve x + y;\n"
    outputs = run(cells(
        "import os\nfrom kuifje import Program, TooLarge\nprint(os.getpid())",
        f"try:\n    Program({hungry!r}).hyper()\nexcept TooLarge:\n    print('TooLarge', {PEAK})",
        f"print(os.getpid(), {LOCK})",
    ))  # fmt: skip
    first, second, third = (output[0].text.split() for output in outputs)
    assert second[0] == "TooLarge" and int(second[1]) < 300_000
    assert third == [*first, "1"]
