"""A built program for the tests: the environment's, else the one on the path, else bin/kuifje; and its library, where lib/ has it."""

import os
import shutil
from pathlib import Path

import pytest
from hypothesis import settings

from kuifje._protocol import PROGRAM
from kuifje._worker import program

# A machine that is shared is slow at times, and the gate finds the same each time.
settings.register_profile("gate", deadline=None, derandomize=True)
settings.load_profile("gate")

TOP = Path(__file__).resolve().parents[2]
if not os.environ.get(PROGRAM) and shutil.which("kuifje") is None and (TOP / "bin" / "kuifje").exists():
    os.environ[PROGRAM] = str(TOP / "bin" / "kuifje")


@pytest.fixture
def built():
    """Skips where there is no built program."""
    if program() is None:
        pytest.skip("there is no built program")


@pytest.fixture
def proved(built):
    """Skips where what answers isn't the proved program: an independent one gives the same answers, and no places of refusals."""
    from kuifje import Engine

    engine = Engine()
    answer = engine.ask(["hyper", "p.kf"], {"p.kf": b"@"})
    engine.close()
    if answer.err != b"kuifje: p.kf:1:1: Char\n":
        pytest.skip("another program answers")
