"""The command kuifje-lab as it is installed, where what its commands want isn't there."""

import subprocess
import sys
from pathlib import Path

SOURCES = Path(__file__).parents[1] / "src"


def test_one_line_says_what_to_install():
    """Without the folders of installed packages there is no click."""
    words = [sys.executable, "-S", "-c", "from kuifje.command import main; main()"]
    run = subprocess.run(words, env={"PYTHONPATH": str(SOURCES)}, capture_output=True, text=True, check=False)
    assert run.returncode == 2 and run.stdout == ""
    assert run.stderr.startswith("kuifje-lab: click isn't installed.") and run.stderr.count("\n") == 1
    assert "apt install python3-click" in run.stderr and "pip install 'kuifje[lab]'" in run.stderr
