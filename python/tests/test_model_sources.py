"""A model is about the function that is loaded: what was edited and loaded again is the new one, and what was only edited is refused."""

import builtins
import doctest
import importlib
import os
import py_compile
import subprocess
import sys
import zipfile
from fractions import Fraction
from itertools import count
from pathlib import Path

import pytest
from random_models import made

from kuifje.model import BadModel

HEAD = "from kuifje.model import *\n"
LOCK = HEAD + "@model\ndef lock(pin: Secret = uniform(range(10))):\n    observe(pin // 1)\n"
FIXED = LOCK.replace("pin // 1", "pin // 5")
HELPED = "import {helper}\nfrom {helper} import shown\n" + HEAD + "@model\ndef lock(pin: Secret = uniform(range(10))):\n    observe({shown}(pin))\n"
NUMBERS = count()


@pytest.fixture
def load(tmp_path, monkeypatch):
    """Writes a module of its own name and imports it; called with a module, it edits that one's file."""
    monkeypatch.syspath_prepend(str(tmp_path))
    monkeypatch.setattr(sys, "dont_write_bytecode", True)

    def loaded(text, module=None):
        if module is not None:
            Path(module.__file__).write_text(text)
            return module
        name = f"loaded_{next(NUMBERS)}"
        (tmp_path / f"{name}.py").write_text(text)
        importlib.invalidate_caches()
        return importlib.import_module(name)

    return loaded


def worth(asked, **public):
    """The posterior Bayes vulnerability by the program; the runs in Python leave the same hyper-distribution."""
    program = asked.program(**public)
    assert str(program.hyper()) == str(asked.hyper_of_runs(**public)), asked.text(**public)
    return program.leak().posterior_vulnerability


def refused(asked, name, line):
    """That each question is refused, since the source of a function was changed; the place is on this line."""
    for ask in (asked.text, asked.program, asked.hyper_of_runs, lambda: list(asked.runs()), asked.blame, asked.target):
        with pytest.raises(BadModel) as caught:
            ask()
        assert caught.value.reason == f"the source of {name} was changed after it was loaded" and "load it again" in caught.value.form
        assert (caught.value.place.function, caught.value.place.line) == (name, line)
    return caught.value


# Edited and loaded again


@pytest.mark.usefixtures("built")
@pytest.mark.parametrize("before, after", [(LOCK, FIXED), (FIXED, LOCK)], ids=["a leak taken out", "a leak put in"])
def test_a_file_that_is_edited_and_loaded_again(load, before, after):
    """All ten values of the pin are told apart by pin // 1, and two halves by pin // 5."""
    worths = {LOCK: 1, FIXED: Fraction(1, 5)}
    module = load(before)
    assert worth(module.lock) == worths[before]
    load(after, module)
    refused(module.lock, "lock", 3)
    importlib.reload(module)
    assert worth(module.lock) == worths[after]


@pytest.mark.usefixtures("built")
def test_an_edit_that_changes_neither_the_size_nor_the_time_of_a_file(load):
    module = load(LOCK)
    assert worth(module.lock) == 1
    times = os.stat(module.__file__).st_atime_ns, os.stat(module.__file__).st_mtime_ns
    load(FIXED, module)
    os.utime(module.__file__, ns=times)
    importlib.reload(module)
    assert worth(module.lock) == Fraction(1, 5)


def test_a_bytecode_file_that_python_takes_for_a_later_source(load, tmp_path):
    """Python loads the old program, since its size and its second are those of the new one; the source is the new one."""
    (tmp_path / "stale_code.py").write_text(LOCK)
    py_compile.compile(str(tmp_path / "stale_code.py"))
    times = os.stat(tmp_path / "stale_code.py").st_atime_ns, os.stat(tmp_path / "stale_code.py").st_mtime_ns
    (tmp_path / "stale_code.py").write_text(FIXED)
    os.utime(tmp_path / "stale_code.py", ns=times)
    with pytest.raises(BadModel, match="the source of lock was changed after it was loaded"):
        importlib.import_module("stale_code")


@pytest.fixture
def shell(tmp_path):
    pytest.importorskip("IPython")
    from IPython.core.interactiveshell import InteractiveShell

    shell = InteractiveShell()
    yield shell
    shell.history_manager.end_session()


@pytest.mark.usefixtures("built")
def test_a_file_that_ipython_runs_again(shell, tmp_path):
    file = tmp_path / "run_again.py"
    file.write_text(LOCK)
    shell.run_line_magic("run", str(file))
    assert worth(shell.user_ns["lock"]) == 1
    file.write_text(FIXED)
    shell.run_line_magic("run", str(file))
    assert worth(shell.user_ns["lock"]) == Fraction(1, 5)


@pytest.mark.usefixtures("built")
def test_a_file_that_ipython_loads_again_by_itself(shell, load):
    """A module's model is the new one; one that was imported by its name is still the old one, and is refused."""
    module = load(LOCK)
    shell.run_line_magic("load_ext", "autoreload")
    shell.run_line_magic("autoreload", "2")
    shell.run_cell(f"import {module.__name__} as m\nfrom {module.__name__} import lock").raise_error()
    assert worth(shell.user_ns["m"].lock) == 1 == worth(shell.user_ns["lock"])
    load(FIXED, module)
    os.utime(module.__file__, ns=(0, os.stat(module.__file__).st_mtime_ns + 2 * 10**9))
    shell.run_cell("pass").raise_error()
    assert worth(shell.user_ns["m"].lock) == Fraction(1, 5)
    refused(shell.user_ns["lock"], "lock", 3)


@pytest.mark.usefixtures("built")
def test_a_cell_that_is_run_again(shell):
    for text, posterior in ((LOCK, 1), (FIXED, Fraction(1, 5)), (LOCK, 1)):
        shell.run_cell(text).raise_error()
        assert worth(shell.user_ns["lock"]) == posterior
    shell.run_cell(LOCK + "import asyncio\nawait asyncio.sleep(0)\n").raise_error()
    assert worth(shell.user_ns["lock"]) == 1


# Edited and not loaded again


@pytest.mark.usefixtures("built")
@pytest.mark.parametrize("shown", ["shown", "{helper}.shown"])
def test_a_function_that_is_edited_on_the_disk_alone(load, shown):
    """Python's function gives x % 2: two columns, each with one guess of five. The text on the disk says x % 5."""
    helper = load("def shown(x):\n    return x % 2\n")
    module = load(HELPED.format(helper=helper.__name__, shown=shown.format(helper=helper.__name__)))
    assert worth(module.lock) == Fraction(1, 5)
    load("# One more line.\ndef shown(x):\n    return x % 5\n", helper)
    found = refused(module.lock, "shown", 2)
    assert found.place.file == helper.__file__
    with pytest.raises(BadModel, match="called at .*:6:13"):
        module.lock.text()
    load("# One more line.\ndef shown(x):\n    return x % 2\n", helper)
    assert worth(module.lock) == Fraction(1, 5)


@pytest.mark.usefixtures("built")
def test_lines_that_only_moved(load):
    """The places are those of the lines as they are now, for a refusal too."""
    module = load(LOCK.replace("pin // 1", "8 // (pin + 1)"))
    before = worth(module.lock)
    assert [place.line for place, _ in module.lock.lines()] == [4]
    load(
        HEAD + "\n# A comment above.\n\n@model\ndef lock(pin: Secret = uniform(range(10))):\n    # And one inside.\n    observe(8 // (pin + 1))\n",
        module,
    )
    assert worth(module.lock) == before
    assert [(place.line, place.source.strip()) for place, _ in module.lock.lines()] == [(8, "observe(8 // (pin + 1))")]


@pytest.mark.parametrize(
    "edited, line",
    [
        (LOCK.replace("range(10)", "range(12)"), 3),
        (LOCK.replace("pin // 1", "pin // True"), 3),
        (LOCK.replace("pin // 1", "pin // 1.0"), 3),
        (LOCK.replace("pin", "pen"), 3),
        (LOCK.replace("observe(pin", "print(pin"), 3),
        (LOCK.replace("def lock", "def look"), 2),
        (LOCK.replace(")):", "), n: Public = 1):"), 3),
        (LOCK.replace("    observe", "    n: range(3) = 0\n    observe"), 3),
        (LOCK + "    observe(0)\n", 3),
        (LOCK + "    )\n", 2),
        ("pass\n", 2),
    ],
    ids=["a default", "a kind of constant", "a float", "a variable", "a name", "its name", "a parameter", "more", "after", "no text", "gone"],
)
def test_any_change_is_refused_until_it_is_loaded(load, edited, line):
    """The place is that of the function as it stands there now, and else the line that it was loaded from."""
    module = load(LOCK)
    module.lock.text()
    load(edited, module)
    refused(module.lock, "lock", line)
    load(LOCK, module)
    module.lock.text()


def test_a_range_in_the_body_that_is_changed(load):
    """It isn't in the code, so that only the text can tell."""
    module = load(HEAD + "@model\ndef lock(pin: Secret = flip(1, 2)):\n    n: range(3) = 0\n    observe(n)\n")
    assert "var n : 0..2" in module.lock.text()
    load(HEAD + "@model\ndef lock(pin: Secret = flip(1, 2)):\n    n: range(9) = 0\n    observe(n)\n", module)
    refused(module.lock, "lock", 3)
    importlib.reload(module)
    assert "var n : 0..8" in module.lock.text()


def test_a_drawing_function_that_is_changed(load):
    """Of two lambdas on one line the second one is another one now."""
    text = HEAD + "@model\ndef lock(x: Noise = flip(1, 2),\n"
    text += "    y: Secret = lambda x: choose((x, 1), (False, 1)), z: Secret = lambda x: choose((x, 1), (True, 3))):\n"
    text += "    observe(x)\n"
    module = load(text)
    assert (
        "var y : bool := choose { x : 1, false : 1 };" in module.lock.text() and "var z : bool := choose { x : 1, true : 3 };" in module.lock.text()
    )
    load(text.replace("(True, 3)", "(True, 2)"), module)
    refused(module.lock, "lock", 3)


def test_a_function_that_is_changed_in_place(load):
    """As some tools do that load a module again: the model was made of its old defaults."""
    text = HEAD + "def lock_(pin: Secret = uniform(range({}))):\n    observe(pin // 5)\nlock = model(lock_)\n"
    old, new = load(text.format(10)), load(text.format(20))
    old.lock.text()
    old.lock_.__code__, old.lock_.__defaults__ = new.lock_.__code__, new.lock_.__defaults__
    refused(old.lock, "lock_", 2)


# Which function it is


@pytest.mark.usefixtures("built")
def test_functions_of_one_name(load):
    text = HEAD + "import sys\nif sys.maxsize < 0:\n    def shown(x):\n        return x\nelse:\n    def shown(x):\n        return x % 2\n"
    text += "def made(n):\n    def shown(x):\n        return x % n\n    return shown\nby_two, by_five = made(2), made(5)\n"
    text += "@model\ndef first(pin: Secret = uniform(range(10))):\n    observe(shown(pin))\n"
    text += "@model\ndef second(pin: Secret = uniform(range(10))):\n    observe(by_five(pin))\n"
    text += "def third(pin: Secret = uniform(range(10))):\n    observe(0)\nold = model(third)\n"
    text += "@model\ndef third(pin: Secret = uniform(range(10))):\n    observe(pin)\n"
    module = load(text)
    assert [worth(asked) for asked in (module.first, module.second, module.old, module.third)] == [Fraction(1, 5), Fraction(1, 2), Fraction(1, 10), 1]
    load("# Moved.\n" + text, module)
    assert [worth(asked) for asked in (module.first, module.second, module.old, module.third)] == [Fraction(1, 5), Fraction(1, 2), Fraction(1, 10), 1]


def test_equal_functions_that_moved_can_not_be_told_apart(load):
    text = HEAD + "if uniform:\n    def shown(x):\n        return x\nelse:\n    def shown(x):\n        return x\n"
    text += "@model\ndef lock(pin: Secret = uniform(range(10))):\n    observe(shown(pin))\n"
    module = load(text)
    module.lock.text()
    load("# Moved.\n" + text, module)
    refused(module.lock, "shown", 4)


@pytest.mark.usefixtures("built")
def test_names_of_a_drawing_lambda_mean_what_they_mean_there():
    """n is 2 in the function around, and 10 in the module: a guess of y is right with probability 1/2."""
    text = (
        "def made(n):\n    @model\n    def it(x: Noise = flip(1, 2), y: Secret = lambda x: uniform(range(n))):\n        observe(x)\n    return it\n"
    )
    assert worth(made(HEAD + "n = 10\n" + text + "it = made(2)\n")) == Fraction(1, 2)


@pytest.mark.usefixtures("built")
def test_guards_in_a_function_of_a_module_are_in_the_runs(load):
    """Which of three a pin is, is seen by the two guards: 0, 1, or more."""
    helper = load(HEAD + "def seen(x):\n    if x == 0:\n        return 0\n    if x == 1:\n        observe(7)\n    return 0\n")
    module = load(f"import {helper.__name__} as h\n" + HEAD + "@model\ndef lock(pin: Secret = uniform(range(10))):\n    observe(h.seen(pin))\n")
    assert worth(module.lock) == Fraction(3, 10)


def test_a_name_with_underscores_in_a_class_is_another_one():
    """Python reads the parameter _T__x, and not the module's __x."""
    with pytest.raises(BadModel, match="a name with __ before it is another one in a class"):
        made(HEAD + "__x = 3\nclass T:\n    @model\n    def it(__x: Secret = uniform(range(4))):\n        observe(__x)\nit = T.it\n")


# Where sources come from


@pytest.mark.usefixtures("built")
def test_a_module_in_an_archive(load, tmp_path):
    with zipfile.ZipFile(tmp_path / "models.zip", "w") as archive:
        archive.writestr("in_archive.py", FIXED)
    sys.path.insert(0, str(tmp_path / "models.zip"))
    try:
        assert worth(importlib.import_module("in_archive").lock) == Fraction(1, 5)
    finally:
        sys.path.remove(str(tmp_path / "models.zip"))


@pytest.mark.parametrize("present", [False, True], ids=["no source", "another file of that name"])
def test_bytecode_without_its_source(load, tmp_path, present):
    name = f"bytecode_{present}"
    (tmp_path / f"{name}.py").write_text(LOCK)
    py_compile.compile(str(tmp_path / f"{name}.py"), cfile=str(tmp_path / "only" / f"{name}.pyc"))
    (tmp_path / f"{name}.py").unlink()
    if present:
        (tmp_path / f"{name}.py").write_text(FIXED)
    sys.path.insert(0, str(tmp_path / "only"))
    try:
        with pytest.raises(BadModel, match="was changed after" if present else "the source of lock isn't there"):
            importlib.import_module(name)
    finally:
        sys.path.remove(str(tmp_path / "only"))


@pytest.mark.usefixtures("built")
def test_a_file_that_is_gone_is_answered_as_it_was_read(load):
    module = load(FIXED)
    Path(module.__file__).unlink()
    assert worth(module.lock) == Fraction(1, 5)


@pytest.mark.parametrize("flags", ["", "-O", "-OO", "-Xno_debug_ranges"])
@pytest.mark.parametrize("future", ["", "from __future__ import annotations, barry_as_FLUFL\n", "from __future__ import division\n"])
def test_how_python_compiles(tmp_path, flags, future):
    text = future + HEAD + '@model\ndef lock(pin: Secret = uniform(range(10))):\n    """A lock."""\n    observe(pin // 5)\n'
    (tmp_path / "compiled.py").write_text(text + "print(lock.text())\n")
    environment = os.environ | {"PYTHONPATH": os.pathsep.join(sys.path)}
    done = subprocess.run([sys.executable, *flags.split(), "compiled.py"], cwd=tmp_path, env=environment, capture_output=True, text=True)
    assert "observe pin div 5;" in done.stdout, done.stderr


def test_what_is_typed_or_executed_has_no_source():
    done = subprocess.run(
        [sys.executable, "-"], input=LOCK, env=os.environ | {"PYTHONPATH": os.pathsep.join(sys.path)}, capture_output=True, text=True
    )
    assert "the source of lock isn't there" in done.stderr and "a function is written by def, in a file or a cell" in done.stderr


def test_the_examples_of_a_docstring(monkeypatch):
    """What an example gives is kept by Python as ``_``, which is taken away again."""
    monkeypatch.setattr(builtins, "_", None, raising=False)
    lines = LOCK.splitlines()
    shown = f">>> {lines[0]}\n>>> {lines[1]}\n... {lines[2]}\n... {lines[3]}\n>>> print('observe pin div 1;' in lock.text())\nTrue\n"
    test = doctest.DocTestParser().get_doctest(shown, {}, "shown", "shown", 0)
    assert doctest.DocTestRunner().run(test).failed == 0


# Functions that aren't what they seem


def test_a_function_under_a_decorator_that_wraps_it(load):
    wraps = (
        HEAD + "from functools import wraps\ndef twice(f):\n    @wraps(f)\n    def inner(*given):\n        return 2 * f(*given)\n    return inner\n"
    )
    module = load(wraps + "@twice\ndef shown(x):\n    return x\n@model\ndef lock(pin: Secret = flip(1, 2)):\n    observe(shown(pin))\n")
    with pytest.raises(BadModel) as caught:
        module.lock.text()
    assert caught.value.reason == "shown is wrapped by a decorator, and what that does can't be translated"
    assert caught.value.place.line == 9 and caught.value.place.caller.line == 13 and "functools.wraps" in caught.value.form
    with pytest.raises(BadModel, match="lock is wrapped by a decorator"):
        load(wraps + "@model\n@twice\ndef lock(pin: Secret = flip(1, 2)):\n    observe(pin)\n")


def test_a_function_that_is_not_the_same_twice(load):
    module = load(HEAD + "times = []\n@model\ndef lock(pin: Secret = flip(1, 2)):\n    observe(seen(pin))\ndef seen(x):\n    return x\n")
    assert len(module.lock.hyper_of_runs().inners) == 2
    module = load(HEAD + "times = []\n@model\ndef lock(pin: Secret = flip(1, 2)):\n    observe(times.append(0) or len(times))\n")
    with pytest.raises(BadModel, match="lock doesn't draw and show the same, run once more"):
        module.lock.hyper_of_runs()


def test_a_lambda_and_an_async_function_are_not_called(load):
    module = load(HEAD + "f = lambda x: x\nasync def g(x):\n    pass\n@model\ndef lock(pin: Secret = flip(1, 2)):\n    observe(f(pin))\n")
    with pytest.raises(BadModel, match="a lambda can't be called here"):
        module.lock.text()
    with pytest.raises(BadModel, match="lock is async"):
        load(HEAD + "@model\nasync def lock(pin: Secret = flip(1, 2)):\n    observe(pin)\n")


def test_a_model_is_called_and_named_as_its_function(load):
    module = load(HEAD + '@model\ndef lock(pin: Secret = flip(1, 2), n: Public = 3):\n    """A lock that shows nothing."""\n    n = n + 1\n')
    lock = module.lock
    assert (lock.__name__, lock.__doc__, lock.__module__) == ("lock", "A lock that shows nothing.", module.__name__)
    assert lock(True) is None and lock(pin=True, n=2) is None and repr(lock) == "<Model lock(pin, n)>"
    with pytest.raises(TypeError, match="unexpected keyword"):
        lock(pen=True)
