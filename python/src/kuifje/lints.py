"""Hints: the lines of a program where it may not mean what its author meant (docs/LINT.md has a section for each rule).

Where the proved program can say whether something is so, it is asked: about the same text with one more statement, or with two parts exchanged. What
the text alone shows (names, constants, what is read again) is read here.
"""

from __future__ import annotations

import json
import time
from collections.abc import Callable, Iterator, Sequence
from dataclasses import asdict, dataclass
from itertools import groupby
from typing import TYPE_CHECKING

from .engine import default_engine
from .errors import KuifjeError, Refusal, TooLarge
from .liveness import Forgotten, first_value, forgotten, needed_before
from .model import Model
from .priors import Prior, difference
from .program import Program, _asked, program_of
from .questions import warning_of
from .source import Assign, Choose, Declaration, Literal, Source, Sure, While, assigned_in, distributions_in, edited, every, names_in, read
from .texts import Hyper, html_table

if TYPE_CHECKING:
    import pandas

__all__ = ["Hint", "Hints", "lint"]

INNERS = "\ninners "  # in a printed hyper, after the target and the scale
SLOW = 1.0  # seconds: a program that takes longer is also looked at for what it could forget
Edit = tuple[int, int, str]


@dataclass(frozen=True)
class Hint:
    """What a rule says of a line, from 1, of a file."""

    rule: str
    file: str
    line: int
    text: str

    def __str__(self) -> str:
        return f"{self.file}:{self.line}: {self.rule}: {self.text}"


@dataclass(frozen=True, repr=False)
class Hints:
    """All hints of some programs, by file and line; none where no rule has anything to say."""

    hints: tuple[Hint, ...]

    def __iter__(self) -> Iterator[Hint]:
        return iter(self.hints)

    def __len__(self) -> int:
        return len(self.hints)

    def __str__(self) -> str:
        return "".join(f"{hint}\n" for hint in self.hints)

    def __repr__(self) -> str:
        return f"<Hints>\n{self}".rstrip()

    def records(self) -> list[dict[str, object]]:
        """A row for each hint: ``rule``, ``file``, ``line``, ``text``."""
        return [asdict(hint) for hint in self.hints]

    def to_json(self) -> str:
        """The hints as JSON."""
        return json.dumps(self.records(), ensure_ascii=False)

    def to_pandas(self) -> pandas.DataFrame:
        """The table of ``records`` as a data frame."""
        import pandas

        return pandas.DataFrame(self.records())

    def _repr_html_(self) -> str:
        return html_table(self.records(), "Hints" if self.hints else "No rule has a hint")


class _Asking:
    """A program, its tree and its hyper, and the same text with other parts, asked again."""

    def __init__(self, program: Program, timeout: float | None) -> None:
        self.program, self.timeout = program, timeout
        self._whole: str | TooLarge
        _ = (program.engine or default_engine()).version  # a worker has started before the time is taken
        start = time.monotonic()
        try:
            self._whole = self._asked(program)
        except TooLarge as cause:
            self._whole = cause
        self.seconds = time.monotonic() - start
        self.source: Source = read(program.text.decode())

    @property
    def whole(self) -> str:
        """The program's hyper, as it is printed. Raises ``TooLarge`` where that took too much time or memory."""
        if isinstance(self._whole, TooLarge):
            raise self._whole
        return self._whole

    def hyper(self, text: str) -> str:
        """The hyper of another text in the place of the program's, as it is printed: some have millions of lines, and aren't read."""
        return self._asked(Program(text, name=self.program.name))

    def _asked(self, program: Program) -> str:
        words = ["hyper", program.name, "--turns", str(self.program.turns)]
        return _asked(self.program.engine, words, {program.name: program}, self.timeout).out.decode()

    def prior(self) -> Prior:
        """The prior of the target: of one about first values by the declarations alone."""
        return Hyper.parse(self.hyper(self.source.text[: self.source.begin]) if self.source.target.is_initial else self.whole).prior

    def changed(self, edits: Sequence[Edit]) -> bool:
        """Whether the hyper has other inners where the text has these parts."""
        found = self.hyper(edited(self.source.text, edits))
        return found[found.index(INNERS) :] != self.whole[self.whole.index(INNERS) :]

    def telling(self, names: Sequence[str], shown: Callable[[str], list[Edit]]) -> tuple[str, ...]:
        """The variables that change the hyper where they are shown: those that do so alone, else some that only together do."""

        def change(some: Sequence[str]) -> bool:
            return bool(some) and self.changed([edit for name in some for edit in shown(name)])

        if not change(names):
            return ()
        if alone := tuple(name for name in names if len(names) == 1 or change([name])):
            return alone
        together = list(names)
        for name in names:
            if change(fewer := [other for other in together if other != name]):
                together = fewer
        return tuple(together)

    def hint(self, rule: str, place: int, text: str) -> Hint:
        """A hint at a place of the text; of a template or a model, at the place that it comes from."""
        file, line = self.program.name, self.source.line(place)
        if self.program.expansion is not None:
            begins = self.source.text.rfind("\n", 0, place) + 1
            column = len(self.source.text[begins:place].encode()) + 1
            found = self.program.expansion.placed(Refusal(0, rule, file, line, column))
            file, line = found.file or file, found.line or line
        return Hint(rule, file, line, text)


def _listed(names: Sequence[str]) -> str:
    return names[0] if len(names) == 1 else f"{', '.join(names[:-1])} and {names[-1]}"


def _no_secret(asked: _Asking) -> Iterator[Hint]:
    """There is no line ``about``, or none of its items is ``old``."""
    if (text := warning_of(asked.source.text)) is not None:
        begins = asked.source.begin if asked.source.about is not None else 0
        yield asked.hint("no-secret", begins, text)


def _constant_secret(asked: _Asking) -> Iterator[Hint]:
    """The prior vulnerability is 1: one inner has one value, and there is no other."""
    if asked.whole.count("\n  ") == 1:
        value = asked.whole.removesuffix("\n").rpartition("\n  ")[2].rpartition(" ")[0]
        text = f"{asked.source.target} has one value, {value}, in every run: the prior vulnerability is 1, so nothing can leak"
        yield asked.hint("constant-secret", _declared(asked.source).at, text)


def _mixed_target(asked: _Asking) -> Iterator[Hint]:
    """Some items of the target are ``old`` and others aren't, apart from variables that are asked about both ways."""
    items = asked.source.target.items
    old = [item.name for item in items if item.old]
    later = [item.name for item in items if not item.old and item.name not in old]
    if old and later:
        left, were = ("as it is left", "it was") if len(later) == 1 else ("as they are left", "they were")
        text = f"{_listed(later)} {'is' if len(later) == 1 else 'are'} asked about {left}, and {_listed(old)} as before the first statement"
        yield asked.hint("mixed-target", asked.source.begin, f"{text}; for what {were}, write '{', '.join(f'old {name}' for name in later)}'")


def _unseen_last_turn(asked: _Asking) -> Iterator[Hint]:
    """The guard of a loop reads what the body changes, and to show that after the loop changes the hyper."""
    visible = {declared.name for declared in asked.source.declarations if declared.visible}
    for loop in every(asked.source.statements):
        if not isinstance(loop, While):
            continue
        changed = names_in(loop.guard) & assigned_in(loop.body) - visible
        names = [name for name in asked.source.names if name in changed]
        after = loop.end
        if telling := asked.telling(names, lambda name: [(after, after, f" observe {name};")]):
            lines = " ".join(f"observe {name};" for name in telling)
            yield asked.hint(
                "unseen-last-turn",
                loop.at,
                f"the guard reads {_listed(telling)}, which the last turn may change, and nothing shows that; if an observer sees it, "
                f"'{lines}' belongs after the loop, and changes what is learned",
            )


def _attacker_knows_more(asked: _Asking, attacker: Sequence[str]) -> Iterator[Hint]:
    """A variable of the attacker's, declared by ``vis`` and shown as it is first drawn, changes the hyper."""
    declared = {declared.name: declared for declared in asked.source.declarations}

    def shown(name: str) -> list[Edit]:
        at, begin = declared[name].at, asked.source.begin
        return [(at, at + len("var"), "vis"), (begin, begin, f" observe {name};")]

    for name in asked.telling(attacker, shown):
        text = f"{name} is the attacker's, and to show it changes what is learned: it depends on something that the attacker doesn't see"
        yield asked.hint("attacker-knows-more", declared[name].at, text)


def _is_number(value: object, least: int) -> bool:
    return isinstance(value, Literal) and not isinstance(value.value, bool) and value.value >= least


def _exchanged_weights(asked: _Asking) -> Iterator[Hint]:
    """All values of a ``choose`` are numbers and its weights read variables, and the other way round it is another program."""
    for choice in distributions_in(asked.source):
        if not isinstance(choice, Choose) or not all(_is_number(case.value, 1) for case in choice.cases):
            continue
        if any(case.weight_text.startswith("cond") for case in choice.cases) or not all(names_in(case.weight) for case in choice.cases):
            continue
        mended = f"choose {{ {', '.join(f'{case.weight_text} : {case.value_text}' for case in choice.cases)} }}"
        try:
            other = asked.changed([(choice.at, choice.end, mended)])
        except Refusal:
            continue
        if other:
            text = f"a case is a value and then its weight; here the values are numbers and the weights read variables: is '{mended}' meant?"
            yield asked.hint("exchanged-weights", choice.at, text)


def _last_constant(source: Source, name: str) -> bool:
    """Whether the last top-level statement that changes a variable gives it a constant."""
    last = next((s for s in reversed(source.statements) if name in assigned_in((s,))), None)
    return isinstance(last, Assign) and isinstance(last.value, Sure) and not names_in(last.value)


def _covers_helper(asked: _Asking) -> Iterator[Hint]:
    """A variable that no target names has a first value that is read, or is left with a value that isn't constant; ``covers`` asks about both."""
    source = asked.source
    named = {item.name for item in source.target.items}
    read_first = needed_before(source.statements, frozenset())
    for declared in source.declarations:
        name, line = declared.name, f"'{declared.name} := {first_value(declared.type)};'"
        if name in named:
            continue
        places = ["the first statement"] if name in read_first else []
        places += [] if _last_constant(source, name) else ["the last one" if places else "the last statement"]
        if places:
            text = f"covers asks about {name} from each first value, as about a secret, and no target names it; {line} as {' and as '.join(places)}"
            yield asked.hint("covers-helper", declared.at, f"{text} takes it out of the question")


def _unread_variable(asked: _Asking, slow: float) -> Iterator[Hint]:
    """A variable that nothing reads again, in a program that takes long, where a line that forgets it leaves fewer stores."""
    if asked.seconds <= slow:
        return
    for number, of_statement in groupby(forgotten(asked.source), lambda line: line.statement):
        lines = list(of_statement)
        try:
            found = _spared(asked, number, lines)
        except KuifjeError as cause:
            found = [(line, f"forgets it; how many stores that spares isn't known: {_first(cause)}") for line in lines]
        for line, text in found:
            where = "after this statement" if number >= 0 else "before the first statement"
            yield asked.hint("unread-variable", line.place - 1, f"nothing reads {line.name} again: '{line.line}' {where} {text}")


def _spared(asked: _Asking, statement: int, lines: list[Forgotten]) -> list[tuple[Forgotten, str]]:
    """The lines of a top-level statement that leave fewer stores after it, each with how many."""
    before = _stores(asked, statement, [])
    if _stores(asked, statement, lines) == before:
        return []
    counted = [(line, _stores(asked, statement, [line])) for line in lines]
    return [(line, f"leaves {after} stores of {before}, and spares {before - after}") for line, after in counted if after < before]


def _stores(asked: _Asking, statement: int, lines: list[Forgotten]) -> int:
    """How many stores the posteriors have together after a top-level statement, with these lines in it or after it."""
    source = asked.source
    end = source.begin if statement < 0 else source.statements[statement].end
    items = [*(str(item) for item in source.target.items if item.old), *source.names]
    edits = [(source.declared, source.begin, f" about {', '.join(items)};")]
    edits += [(line.place, line.place, f" {line.line}") for line in lines]
    return asked.hyper(edited(source.text[:end], edits)).count("\n  ")


def _first(cause: KuifjeError) -> str:
    return str(cause).partition("\n")[0]


def _answered(asked: _Asking, rule: str, hints: Iterator[Hint]) -> list[Hint]:
    """The hints of a rule; where a question gets no answer, that."""
    found: list[Hint] = []
    try:
        for hint in hints:
            found.append(hint)
    except KuifjeError as cause:
        found.append(asked.hint(rule, 0, f"whether it applies isn't known, since a question got no answer: {_first(cause)}"))
    return found


def _priors_differ(a: _Asking, b: _Asking) -> Iterator[Hint]:
    """The target has different priors in two programs; where they are about different targets, they can't be compared."""
    if a.source.target != b.source.target:
        text = f"the target is {b.source.target}, and in {a.program.name} it is {a.source.target}: refine compares programs about one target"
        yield b.hint("priors-differ", b.source.declared, text)
        return
    apart = difference(a.prior(), b.prior(), (f"in {a.program.name}", "here"))
    if apart is not None:
        text = f"the priors of {b.source.target} differ, so refine says no, and nothing of which leaks more: {apart}"
        yield b.hint("priors-differ", _declared(b.source).at, text)


def _declared(source: Source) -> Declaration:
    """The declaration of the target's first item."""
    return next(declared for declared in source.declarations if declared.name == source.target.items[0].name)


def lint(
    *programs: Program | Model,
    attacker: Sequence[str] = (),
    refine: bool = False,
    covers: bool = False,
    slow: float = SLOW,
    timeout: float | None = None,
) -> Hints:
    """Where some programs may not mean what their author meant, with the lines.

    ``attacker`` names variables that are the attacker's, each of them in every program that declares one. ``refine`` also compares each program with
    the first, as for ``refine``, and ``covers`` also looks at what that asks. A program that takes more than ``slow`` seconds is looked at for what
    it could forget. Each question takes ``timeout`` seconds at most. A model with one program is asked by that. Raises ``Refusal`` where a program is
    refused, ``TypeError`` where a model has several programs, and ``ValueError`` where no program has one of the attacker's variables.
    """
    asked = [_Asking(program_of(f"program {number}", program), timeout) for number, program in enumerate(programs, 1)]
    declared = {name for one in asked for name in one.source.names}
    if unknown := [name for name in attacker if name not in declared]:
        raise ValueError(f"there is no variable {unknown[0]!r}")
    found: list[Hint] = []
    for one in asked:
        own = [name for name in attacker if name in one.source.names]
        rules = {
            "no-secret": _no_secret(one),
            "constant-secret": _constant_secret(one),
            "mixed-target": _mixed_target(one),
            "unseen-last-turn": _unseen_last_turn(one),
            "attacker-knows-more": _attacker_knows_more(one, own),
            "exchanged-weights": _exchanged_weights(one),
            **({"covers-helper": _covers_helper(one)} if covers else {}),
            "unread-variable": _unread_variable(one, slow),
            **({"priors-differ": _priors_differ(asked[0], one)} if refine else {}),
        }
        hints = [hint for rule, of_rule in rules.items() for hint in _answered(one, rule, of_rule)]
        found += sorted(hints, key=lambda hint: hint.line)
    return Hints(tuple(found))
