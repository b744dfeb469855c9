"""Programs in parts: the same numbers as whole ones, by the proved program and by hand."""

import os
import signal
from collections.abc import Callable
from concurrent.futures import Executor, Future, ThreadPoolExecutor
from dataclasses import replace
from fractions import Fraction
from pathlib import Path
from typing import Any

import pytest
from random_programs import Writer

from kuifje import Program, Refusal, TooLarge
from kuifje import shards as module
from kuifje.shards import shards

LOCK = Program("var x : 0..63 := uniform 0..63;\nvar n : 0..3 := uniform 0..3;\nabout old x;\nobserve (x + n) div 8;\n")
WEIGHED = Program("vis v : 0..1 := 1;\nvar x : 0..7 := choose { 3 : 4, 7 : 1, 0 : 0, 1 : 2 };\nabout old x, old v;\nv := 0;\nobserve x < 3;\n")


class Here(Executor):
    """Does each task at once, in this process."""

    def submit(self, fn: Callable[..., Any], /, *args: Any, **kwargs: Any) -> Future[Any]:
        future: Future[Any] = Future()
        try:
            future.set_result(fn(*args, **kwargs))
        except Exception as error:
            future.set_exception(error)
        return future


@pytest.mark.parametrize("parts", [1, 2, 7, 64, 1000])
@pytest.mark.parametrize("gain", ["bayes", "tries:3", "tries:200", "guessing"])
def test_as_the_whole(parts: int, gain: str) -> None:
    found = shards(LOCK, parts, executor=Here())
    assert found.parts == min(parts, 64)
    assert found.leak(gain) == replace(LOCK.leak(gain), question=None)
    assert found.capacity == LOCK.capacity()


def test_weights_and_a_visible_variable_by_hand() -> None:
    """3 with 4/7, 1 with 2/7, 7 with 1/7; whether it is below 3 is seen, so one guess is right of 3 and of 1."""
    for parts in (1, 2, 3):
        found = shards(WEIGHED, parts, executor=Here())
        assert dict(found.prior) == {Fraction(4, 7): 1, Fraction(2, 7): 1, Fraction(1, 7): 1}
        assert found.probabilities == {"[0, true]": Fraction(2, 7), "[0, false]": Fraction(5, 7)}
        assert found.leak().posterior_vulnerability == Fraction(6, 7)
        assert found.leak("guessing").posterior_vulnerability == Fraction(4 + 2 + 2, 7)
    with pytest.raises(ValueError, match="equally likely"):
        shards(WEIGHED, 2, executor=Here()).capacity


def test_random_programs() -> None:
    here = Here()
    for seed in range(40):
        program = Program(Writer(seed).program())
        whole = {gain: replace(program.leak(gain), question=None) for gain in ("bayes", "tries:2", "guessing")}
        found = shards(program, 2 + seed % 6, executor=here)
        assert {gain: found.leak(gain) for gain in whole} == whole, program.text.decode()


def test_processes_and_threads_agree() -> None:
    with ThreadPoolExecutor(2) as pool:
        assert shards(LOCK, 5, executor=pool) == shards(LOCK, 5) == shards(LOCK, 5, executor=Here())


def test_a_cache_answers_again(tmp_path: Path) -> None:
    first = shards(LOCK, 4, executor=Here(), cache=tmp_path)
    kept = sorted(it.name for it in tmp_path.iterdir())
    assert len(kept) == 4
    assert shards(LOCK, 4, executor=Here(), cache=tmp_path) == first and sorted(it.name for it in tmp_path.iterdir()) == kept


def test_a_process_that_ends_takes_nothing_with_it(tmp_path: Path, monkeypatch: pytest.MonkeyPatch) -> None:
    """The first process that comes to the third part ends in the middle of it."""
    marker, asked = tmp_path / "ended", module._Part.__call__

    def once(part: module._Part) -> module._Answer:
        if "uniform 32..47" in part.text and not marker.exists():
            marker.touch()
            os.kill(os.getpid(), signal.SIGKILL)
        return asked(part)

    monkeypatch.setattr(module._Part, "__call__", once)
    assert shards(LOCK, 4).leak() == replace(LOCK.leak(), question=None)
    assert marker.exists()


def test_a_process_that_always_ends_is_told(monkeypatch: pytest.MonkeyPatch) -> None:
    monkeypatch.setattr(module._Part, "__call__", lambda part: os.kill(os.getpid(), signal.SIGKILL))
    with pytest.raises(TooLarge, match="processes ended"):
        shards(LOCK, 2)


@pytest.mark.parametrize(
    "text, over, word",
    [
        ("var x : 0..3 := uniform 0..3;\nabout x;\n", None, "item of its target is old"),
        ("var x : 0..3 := 2;\nabout old x;\n", None, "no item of the target is drawn"),
        ("var n : 0..3 := 2;\nvar x : 0..3 := uniform 0..n;\nabout old x;\n", None, "no item of the target is drawn"),
        ("var n : 0..3 := 2;\nvar x : 0..3 := choose { n : 1, 0 : 1 };\nabout old x;\n", None, "no item of the target is drawn"),
        ("var x : 0..3 := uniform 0..3;\nvar n : 0..3 := uniform 0..3;\nabout old x;\n", "n", "'n' is no item of the target"),
        ("var x : 0..3 := uniform 0..3;\nabout old x;\n", "y", "'y' is no item of the target"),
    ],
)
def test_what_has_no_parts(text: str, over: str | None, word: str) -> None:
    with pytest.raises(ValueError, match=word):
        shards(Program(text), 2, over=over)


def test_gains_that_tell_values_apart() -> None:
    found = shards(LOCK, 2, executor=Here())
    for gain in ("table:x.json", "often"):
        with pytest.raises(ValueError, match="gain is bayes"):
            found.leak(gain)


def test_a_part_that_is_refused() -> None:
    with pytest.raises(Refusal, match="DivZero") as caught:
        shards(Program("var x : 0..3 := uniform 0..3;\nabout old x;\nobserve 1 div (x - 3);\n"), 4, executor=Here())
    assert (caught.value.line, caught.value.column) == (3, 9)
    with pytest.raises(ValueError, match="parts is a whole number"):
        shards(LOCK, 0)
