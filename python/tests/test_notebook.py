"""Cells of notebooks."""

from fractions import Fraction

import pytest

from kuifje import Hyper, Program
from kuifje.notebook import answer, load_ipython_extension

TEXT = "var x : 0..3 := uniform 0..3;\nabout old x;\nobserve x mod 2;\n"


@pytest.mark.usefixtures("built")
def test_cells_by_hand():
    assert isinstance(answer("hyper", TEXT), Hyper) and len(answer("hyper", TEXT).inners) == 2
    assert answer("leak --gain tries:2", TEXT).posterior_vulnerability == 1
    assert answer("leak", TEXT).posterior_vulnerability == Fraction(1, 2)
    assert answer("lines --gain guessing", TEXT).all.posterior == Fraction(3, 2)
    assert answer("capacity", TEXT) == 2
    assert answer("reach 9/10", TEXT).tries == 2
    assert len(answer("quiet 0..1", TEXT).inners) == 1


def test_a_cell_is_kept_as_a_variable():
    variables = {}
    assert answer("--name parity", TEXT, variables) is None
    assert isinstance(variables["parity"], Program) and variables["parity"].text == TEXT.encode()


@pytest.mark.parametrize("line", ["colour", "hyper 3", "reach", "reach much", "quiet 1", "hyper --colour", "--name 3x", "hyper --turns x"])
def test_other_lines_are_refused(line):
    with pytest.raises(ValueError):
        answer(line, TEXT, {})


@pytest.mark.usefixtures("built")
def test_a_notebook_runs_cells(capsys):
    pytest.importorskip("IPython")
    from IPython.core.interactiveshell import InteractiveShell

    shell = InteractiveShell()
    load_ipython_extension(shell)
    shell.run_cell(f"%%kuifje hyper --name parity\n{TEXT}")
    assert len(shell.user_ns["_"].inners) == 2 and isinstance(shell.user_ns["parity"], Program)
    capsys.readouterr()
    shell.run_cell("%%kuifje hyper\nobserve x;\n")
    printed = capsys.readouterr()
    assert "cell.kf" in printed.err and "Traceback" not in printed.out + printed.err
