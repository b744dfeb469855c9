"""Programs and what can be asked of them. Each method is a question to the proved program, and its answer is what that prints."""

from __future__ import annotations

import json
import os
from collections.abc import Mapping
from dataclasses import replace
from fractions import Fraction
from itertools import islice
from pathlib import Path
from types import MappingProxyType
from typing import Any, Protocol, TypeVar

from .arguments import Probability, probability as probability_of, text_of, whole
from .channels import Channel
from .engine import Answer, Engine, default_engine
from .errors import KuifjeError, Origin, OutOfTime, refusal_of
from .gains import TABLE, Gain, gain_of
from .questions import sentence, warn_of
from .texts import (
    Attack,
    Blame,
    Capacity,
    Composition,
    GainTable,
    Hyper,
    Leakage,
    Lines,
    Mark,
    Printed,
    Reach,
    TraceTable,
    Trail,
    Verdict,
)
from .values import format_value

__all__ = [
    "COMPARING",
    "Certificate",
    "Gain",
    "Program",
    "Writable",
    "cascade",
    "certificate",
    "check",
    "choice",
    "covers",
    "parallel",
    "program_of",
    "refine",
]

CERTIFICATE = "certificate.json"
FORMAT = "kuifje-cert-2"  # the format of certificates that is written
MOST_TURNS = 65_535
MOST_STATEMENTS = 99_999  # the greatest number of a statement that `quiet` takes
NO_FILES: Mapping[str, bytes] = MappingProxyType({})
P = TypeVar("P", bound=Printed)


class Comparing(float):
    """The seconds of a comparison for which none are given; those of its engine, where that has a bound."""


COMPARING = Comparing(60)
"""What ``refine``, ``certificate`` and ``covers`` may take where nothing is said: before they refuse, they may go on for minutes."""


class Writable(Protocol):
    """What can be written as a program, as a model in Python."""

    def program(self) -> Program:
        """The program."""


def program_of(name: str, asked: Any) -> Program:
    """The program that an argument is, or that a model is written as. Raises ``TypeError`` where it is neither, or a model with several programs."""
    if isinstance(asked, Program):
        return asked
    if callable(written := getattr(asked, "program", None)) and not isinstance(asked, type):
        found = written(**_only_inputs(asked))
        if isinstance(found, Program):
            return found
    raise TypeError(f"{name} is a Program or a model, and {'None' if asked is None else f'a value of type {type(asked).__name__}'} was given")


def _only_inputs(model: Any) -> dict[str, Any]:
    """The public inputs with which a model has its one program. Raises ``TypeError`` where it has several, by its inputs."""
    if not callable(inputs := getattr(model, "inputs", None)):
        return {}
    found: list[dict[str, Any]] = list(islice(inputs(), 2))
    if len(found) == 1:
        return found[0]
    given = ", ".join(f"{name}={value!r}" for name, value in found[0].items()) if found else ""
    raise TypeError(f"{model.name} has a program for each of its public inputs: ask one of them, as {model.name}.program({given})")


def _asked(
    engine: Engine | None, words: list[str], programs: Mapping[str, Program], timeout: float | None, files: Mapping[str, bytes] = NO_FILES
) -> Answer:
    """The answer to a question about programs, by the names that the words have for them, and other files. Raises ``Refusal`` where there is none."""
    texts = {name: program.text for name, program in programs.items()} | dict(files)
    answer = (engine or default_engine()).ask(words, texts, timeout)
    if answer.status <= 1:
        return answer
    refusal = refusal_of(answer.status, answer.err.decode(errors="replace"), texts)
    program = programs.get(refusal.file or "")
    if program is None or program.expansion is None:
        raise refusal
    raise program.expansion.placed(refusal)


class Program:
    """A program, by its text (docs/LANGUAGE.md).

    ``name`` is what refusals call it, ``turns`` how many turns a loop may take each time it is entered, from 1 to 65,535, ``engine`` what answers
    (the default engine where none is given), and ``expansion`` what the text was made of: a template, or a model in Python.

    Each question takes ``timeout`` seconds at most. None means as many as the engine says, which has no bound where none was given to it; with
    ``math.inf`` there is none in any case. A question raises ``Refusal`` where the program gives no answer, ``TooLarge`` where that takes too much
    memory, and ``OutOfTime``, which is a ``TooLarge``, where it takes too much time. ``TypeError`` and ``ValueError`` name an argument that isn't
    what it may be, before anything is asked. ``Program(..)`` itself raises them, too, also where the name can't be a file's.
    """

    def __init__(
        self, text: str | bytes, *, name: str = "program.kf", turns: int = 1024, engine: Engine | None = None, expansion: Origin | None = None
    ) -> None:
        if not isinstance(name, str) or engine is not None and not isinstance(engine, Engine):
            raise TypeError("name is a str, and engine an Engine or None")
        if name.startswith("-") or "/" in name or "\0" in name or name in ("", ".", "..", TABLE, CERTIFICATE):
            raise ValueError(f"{name!r} can't be the name of a program")
        self.text, self.turns = text_of("text", text), whole("turns", turns, 1, MOST_TURNS)
        self.name, self.engine, self.expansion = name, engine, expansion

    @classmethod
    def from_file(cls, path: str | os.PathLike[str], *, turns: int = 1024, engine: Engine | None = None) -> Program:
        """The program in a file, under the last part of its path as a name. Raises ``OSError`` where it can't be read."""
        return cls(Path(path).read_bytes(), name=Path(path).name, turns=turns, engine=engine)

    def __repr__(self) -> str:
        return f"<Program {self.name}, {len(self.text)} bytes>"

    @property
    def question(self) -> str | None:
        """A sentence that says which secret the program is about, as it was or as it is left, and at which prior."""
        return sentence(self.text.decode(errors="replace"))

    def hyper(self, timeout: float | None = None) -> Hyper:
        """The hyper-distribution that a run leaves (the book, chapter 4): the posteriors on the target that there may be, and how likely each is.

        The outers of its inners sum to 1, and so do the probabilities of each inner.
        """
        return self._answer(Hyper, ["hyper", self.name], timeout)

    def traces(self, timeout: float | None = None) -> TraceTable:
        """The joint matrix, trace by trace: each trace with its probability, and with the joint probabilities of the target's values (chapter 4)."""
        return self._answer(TraceTable, ["traces", self.name], timeout)

    def channel(self, timeout: float | None = None) -> Channel:
        """The channel matrix from the target's values to traces, given the declarations (the book, chapter 4): each row sums to 1.

        Each item of the target must be ``old``, else it is a ``Refusal``.
        """
        return self._answer(Channel, ["channel", self.name], timeout)

    def leak(self, gain: Gain = "bayes", timeout: float | None = None) -> Leakage:
        """Prior and posterior vulnerability under a gain function, and multiplicative and additive leakage (the book, chapters 3 and 5).

        ``gain`` is ``"bayes"`` (one guess), ``"tries:3"`` (so many), ``"guessing"`` (the expected number of guesses, where less is worse for the
        secret), a ``GainTable``, or ``"table:"`` and the path of one. Raises ``OSError`` where that file can't be read.
        """
        word, files = gain_of(gain)
        return self._answer(Leakage, ["leak", self.name, "--gain", word], timeout, files)

    def attack(self, gain: Gain = "bayes", timeout: float | None = None) -> Attack:
        """What an adversary with this gain function does best at each inner; ``gain`` is as for ``leak``."""
        word, files = gain_of(gain)
        return self._answer(Attack, ["attack", self.name, "--gain", word], timeout, files)

    def reach(self, probability: Probability, timeout: float | None = None) -> Reach:
        """The least number of tries that guess the target with at least this probability once a run is seen.

        ``probability`` is a ``Fraction`` or a text like ``"9/10"``. It lies above 0 and is at most 1, with a numerator and a denominator below 10^9.
        """
        wanted = probability_of("probability", probability, one=True)
        return self._answer(Reach, ["reach", self.name, f"{wanted.numerator}/{wanted.denominator}"], timeout)

    def capacity(self, timeout: float | None = None) -> Fraction:
        """The Bayes capacity of the channel: the sum of its columns' greatest cells (the book, chapter 7).

        No prior on the target's possible values makes the multiplicative leakage greater, under gains that aren't below 0. Each item of the target
        must be ``old``, else it is a ``Refusal``.
        """
        return self._answer(Capacity, ["capacity", self.name], timeout).capacity

    def blame(self, timeout: float | None = None) -> Blame:
        """How many inners there are and their posterior Bayes vulnerability: as it is, and where each top-level statement alone shows nothing."""
        return self._answer(Blame, ["blame", self.name], timeout)

    def lines(self, gain: Gain = "bayes", timeout: float | None = None) -> Lines:
        """How many inners there are and their posterior vulnerability: as it is, and where each statement alone shows nothing, wherever it stands.

        Each observation, conditional, loop and assignment to a visible variable has its place; in a loop it shows nothing in any turn. ``gain`` is as
        for ``leak``.
        """
        word, files = gain_of(gain)
        found = self._answer(Lines, ["lines", self.name, "--gain", word], timeout, files)
        return replace(found, source=self.text.decode(errors="replace"))

    def quiet(self, start: int, end: int, timeout: float | None = None) -> Hyper:
        """The hyper-distribution where the top-level statements from ``start`` up to but not with ``end`` show nothing, both counted from 0.

        ``start`` is below ``end``. It is a ``Refusal`` where there are fewer statements than ``end``.
        """
        start, end = whole("start", start, 0, MOST_STATEMENTS - 1), whole("end", end, 1, MOST_STATEMENTS)
        if start >= end:
            raise ValueError(f"start is below end, and {start} and {end} were given")
        return self._answer(Hyper, ["quiet", self.name, f"{start}..{end}"], timeout)

    def trail(self, timeout: float | None = None) -> Trail:
        """How many inners about all variables there are before the first top-level statement and after each."""
        return self._answer(Trail, ["trail", self.name], timeout)

    def _answer(self, kind: type[P], words: list[str], timeout: float | None, files: Mapping[str, bytes] = NO_FILES) -> P:
        """The answer to a question about this program, which goes along with it."""
        words = [*words, "--turns", str(self.turns)]
        found = kind.parse(_asked(self.engine, words, {self.name: self}, timeout, files).out.decode())
        warn_of(self.text.decode(errors="replace"))
        return replace(found, question=self.question)


class Certificate:
    """A certificate of a verdict, as the program writes it: a file that ``check`` accepts, and that anybody can check without this program.

    ``text`` is the file (docs/FORMATS.md, "Certificates"); whether it is one is for ``check`` to say.
    """

    def __init__(self, text: str | bytes) -> None:
        self.text = text_of("text", text)

    @classmethod
    def of_matrix(cls, rows: int, columns: int, entries: Mapping[tuple[int, int], Fraction]) -> Certificate:
        """The certificate of a yes by a matrix with so many rows and columns, whose entries that aren't named are 0."""
        named = [[str(i), str(j), str(entry)] for (i, j), entry in sorted(entries.items()) if entry]
        return cls._of({"columns": str(columns), "entries": named, "format": FORMAT, "rows": str(rows), "verdict": "yes"})

    @classmethod
    def of_table(cls, table: GainTable) -> Certificate:
        """The certificate of a no by a gain table."""
        actions = [{"gains": [[format_value(x), str(gain)] for x, gain in action.gains.items()], "name": action.name} for action in table.actions]
        return cls._of({"actions": actions, "format": FORMAT, "over": str(table.over), "rest": str(table.rest), "verdict": "no"})

    @classmethod
    def _of(cls, members: Mapping[str, object]) -> Certificate:
        return cls(json.dumps(members, separators=(",", ":")) + "\n")

    def __repr__(self) -> str:
        return f"<Certificate, {len(self.text)} bytes>"


def _two(
    words: list[str], a: Program, b: Program, timeout: float | None, files: Mapping[str, bytes] = NO_FILES, last: tuple[str, ...] = ()
) -> Answer:
    """The answer to a question about two programs, which are called ``a-`` and ``b-`` and their names where these are one."""
    if a.turns != b.turns:
        raise KuifjeError(f"loops may take {a.turns} turns in one program, and {b.turns} in the other")
    first, second = (a.name, b.name) if a.name != b.name else (f"a-{a.name}", f"b-{b.name}")
    command, *others = words
    words = [command, *others, first, second, *last, "--turns", str(a.turns)]
    return _asked(a.engine, words, {first: a, second: b}, timeout, files)


def _compared(words: list[str], a: Program, b: Program, timeout: float | None, last: tuple[str, ...] = ()) -> Answer:
    """The answer to a question about two programs that may go on for minutes."""
    engine = a.engine or default_engine()
    if not isinstance(timeout, Comparing) or engine.timeout is not None:
        return _two(words, a, b, None if isinstance(timeout, Comparing) else timeout, last=last)
    try:
        return _two(words, a, b, float(timeout), last=last)
    except OutOfTime:
        raise OutOfTime(f"the question took longer than it may: no answer within {timeout:g} seconds; give timeout=None for none") from None


def _of_two(kind: type[P], asked: str, answer: Answer, a: Program, b: Program) -> P:
    """The answer to a question about two programs, which goes along with it: ``{a}`` and ``{b}`` stand for their names."""
    for text in (a.text, b.text):
        warn_of(text.decode(errors="replace"))
    question = f"{asked.format(a=a.name, b=b.name)} {a.question or ''}".strip()
    return replace(kind.parse(answer.out.decode()), question=question)


def refine(a: Program | Writable, b: Program | Writable, timeout: float | None = COMPARING) -> Verdict:
    """Whether ``b`` leaks no more than ``a`` under any gain function, with the matrix or the table that proves it.

    In the book (chapter 9): whether b refines a, written A ⊑ B. Both are programs or models, and need one target, and the same prior on it for a yes.
    Its run may go on for minutes before it says that there is no verdict: so it has 60 seconds where nothing is said and the engine has no bound.
    Raises ``Refusal`` and ``TooLarge`` as a question to a program does, and ``KuifjeError`` where their loops may take different numbers of turns.
    """
    a, b = program_of("a", a), program_of("b", b)
    return _of_two(Verdict, "Does {b} leak no more than {a}, to any adversary?", _compared(["refine"], a, b, timeout), a, b)


def certificate(a: Program | Writable, b: Program | Writable, timeout: float | None = COMPARING) -> Certificate:
    """The certificate of ``refine(a, b)``, as ``kuifje refine --json`` writes it (docs/FORMATS.md); ``timeout`` is as there."""
    return Certificate(_compared(["refine"], program_of("a", a), program_of("b", b), timeout, last=("--json",)).out)


def covers(a: Program | Writable, b: Program | Writable, timeout: float | None = COMPARING) -> Verdict:
    """Whether ``b`` leaks no more than ``a`` about initial and final values together, for every prior on the initial stores.

    ``timeout`` is as for ``refine``.
    """
    a, b = program_of("a", a), program_of("b", b)
    found = Verdict.parse(_compared(["covers"], a, b, timeout).out.decode())
    return replace(found, question=f"Does {b.name} leak no more than {a.name} about initial and final values together, whatever the prior?")


def check(proof: Certificate, a: Program | Writable, b: Program | Writable, timeout: float | None = None) -> Mark:
    """Whether a certificate proves what it says of ``a`` and ``b``, or the first rule that it breaks (docs/FORMATS.md)."""
    if not isinstance(proof, Certificate):
        raise TypeError(f"proof is a Certificate, and a value of type {type(proof).__name__} was given")
    a, b = program_of("a", a), program_of("b", b)
    answer = _two(["check", CERTIFICATE], a, b, timeout, {CERTIFICATE: proof.text})
    return _of_two(Mark, "Does the certificate prove its verdict on {a} and {b}?", answer, a, b)


def cascade(a: Program | Writable, b: Program | Writable, timeout: float | None = None) -> Composition:
    """The Bayes capacities of two channels, and of what ``b`` makes of what ``a`` shows. Each item of their targets must be ``old``."""
    a, b = program_of("a", a), program_of("b", b)
    answer = _two(["cascade"], a, b, timeout)
    return _of_two(Composition, "By what factor can what {b} makes of what {a} shows help an adversary?", answer, a, b)


def parallel(a: Program | Writable, b: Program | Writable, timeout: float | None = None) -> Composition:
    """The Bayes capacities of two channels, and of both seen together. Each item of their targets must be ``old``."""
    a, b = program_of("a", a), program_of("b", b)
    answer = _two(["parallel"], a, b, timeout)
    return _of_two(Composition, "By what factor can what {a} and {b} show together help an adversary?", answer, a, b)


def choice(a: Program | Writable, b: Program | Writable, probability: Probability, timeout: float | None = None) -> Composition:
    """The Bayes capacities of two channels, and of ``a`` with this probability and else ``b``, where it is seen which.

    ``probability`` is a ``Fraction`` or a text like ``"1/2"``, above 0 and below 1. Each item of their targets must be ``old``.
    """
    a, b = program_of("a", a), program_of("b", b)
    wanted = probability_of("probability", probability, one=False)
    answer = _two(["choice"], a, b, timeout, last=(f"{wanted.numerator}/{wanted.denominator}",))
    return _of_two(Composition, f"By what factor can {{a}} with probability {wanted} and else {{b}} help an adversary?", answer, a, b)
