"""What tests of measured code share: whether the tools are there, and code that is written into a folder."""

import shutil
from functools import cache
from pathlib import Path

import pytest

from kuifje.measured import Build, Limits
from kuifje.measured.measurement import Measurement
from kuifje.measured.tools import default_tools

EXAMPLES = Path(__file__).resolve().parents[2] / "examples" / "measured"
HEAD = '#include "kuifje_measure.h"\n'


def need(*tools):
    """Skips where a tool isn't there."""
    for tool in tools:
        if shutil.which(tool) is None:
            pytest.skip(f"there is no {tool}")
    if not default_tools().has_stepper:
        pytest.skip("there is no Zydis")


@cache
def example(harness, code, compiler="gcc", level="2", **limits):
    """The measurement of a harness and a source of the gallery, made once."""
    need(compiler, "qemu-x86_64")
    return Measurement(Build((EXAMPLES / f"{harness}_harness.c", EXAMPLES / f"{code}.c"), compiler, level), Limits(**{"seconds": 0.3, **limits}))


def written(folder, text, name="code.c", **options):
    """The measurement of a harness that holds its own code."""
    need("gcc", "qemu-x86_64")
    (folder / name).write_text(HEAD + text)
    limits = {"seconds": 0.3, **options.pop("limits", {})}
    return Measurement(Build((folder / name,), **{"compiler": "gcc", "level": "2", **options}), Limits(**limits))
