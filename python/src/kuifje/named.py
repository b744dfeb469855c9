"""Programs as commands name them: a file with a text, or a model in a Python file."""

from __future__ import annotations

from importlib.util import module_from_spec, spec_from_file_location
from pathlib import Path

from .program import Program, program_of

__all__ = ["program_named"]


def program_named(file: Path, turns: int) -> Program:
    """The program in a file, or of a model in a Python file, ``FILE.py:NAME``, which is run. Raises ``ValueError`` where there is no such model."""
    name, is_model, function = str(file).rpartition(":")
    if not (is_model and name.endswith(".py")):
        return Program.from_file(file, turns=turns)
    from .model import Model

    spec = spec_from_file_location(Path(name).stem, name)
    assert spec is not None and spec.loader is not None  # of a file that ends with .py
    module = module_from_spec(spec)
    try:
        spec.loader.exec_module(module)
    except OSError as cause:
        raise OSError(f"{name}: {cause.strerror}") from None
    except Exception as cause:
        raise ValueError(f"{name} can't be run: {type(cause).__name__}: {cause}") from None
    found = getattr(module, function, None)
    if not isinstance(found, Model):
        raise ValueError(f"{name} has no model {function}")
    try:
        return program_of(function, found)
    except TypeError as cause:
        raise ValueError(f"{name}: {cause}") from None
