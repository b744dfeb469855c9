"""The search for repairs, and the judgement of each: the search isn't trusted, the judgement is the proved program's."""

from __future__ import annotations

from collections.abc import Callable, Iterable, Sequence
from dataclasses import dataclass, replace
from difflib import unified_diff
from fractions import Fraction

from ..arguments import seconds as bound_of
from ..deadlines import Deadline
from ..errors import KuifjeError, OutOfTime, Refusal
from ..measures import posterior_vulnerability
from ..model.models import Model
from ..model.write import Translation
from ..program import Certificate, Program, Writable, program_of
from ..refinement import decide
from ..source import Observe, While, every
from ..texts import Hyper
from .purposes import BadPurpose, Floor, Keep, Marked, Place, floor_of, marked, quietly, same
from .rewritten import rewritten
from .structure import Change, Even, Instead, Moved, Uncovered, compounds, parents

__all__ = ["Repair", "Repairs", "repair"]

CHANGES = ("structure", "drop", "hide")
INSTEAD: tuple[Instead, ...] = ("first", "carried", "own")
HOW = (Moved(), Moved(met=True), Moved(each=True, met=True))  # the ways to show what is kept, in the order in which they are tried


@dataclass(frozen=True)
class Repair:
    """A changed program that was judged: it does the same, still shows what the program is for, and leaks no more.

    ``certificate`` proves that the changed program refines the first one; ``kinds`` are the kinds of its changes, and ``lines`` those of the first
    text that they are in; ``needed`` has for each change that can be undone alone, by its line and column in the first text, the posterior Bayes
    vulnerability where it is undone. ``diff`` is the change of the text. Of a model lines are those of its Python. Where the change can be written
    there, ``model`` is the changed model, ``program`` its program, and ``diff`` the change of the Python source; else ``diff`` is one of the text.
    """

    program: Program
    diff: str
    hyper: Hyper
    certificate: Certificate | None
    at_floor: bool
    kinds: tuple[str, ...]
    lines: tuple[int, ...]
    needed: dict[tuple[int, int], Fraction]
    model: Model | None = None


@dataclass(frozen=True)
class Repairs:
    """What a program leaks, its floor, the repairs that were found, and what wasn't changed, by its line, with the reason.

    Repairs that change the structure alone come first. No other is called the best: it shows less, or hides what was published.
    """

    floor: Floor
    found: tuple[Repair, ...]
    uncovered: tuple[tuple[int, str], ...]

    @property
    def best(self) -> Repair | None:
        """The repair that changes the structure alone, where one was found."""
        return next((one for one in self.found if one.kinds == ("structure",)), None)


class _Search:
    """One program's search: judged changes are kept, so that none is asked twice."""

    def __init__(self, about_it: Marked) -> None:
        self.about = about_it
        self.floor = floor_of(about_it)
        self.judged: dict[Change, tuple[str, Hyper, Certificate | None] | None] = {}
        self.uncovered: dict[int, str] = {}
        self.refused: dict[int, str] = {}
        self.inner = parents(about_it.source.statements)
        self.others = {one.at for one in every(about_it.source.statements) if isinstance(one, Observe)} - set(about_it.kept_places)
        self.groups: dict[tuple[int, int], frozenset[int]] = {}
        for one in compounds(about_it.source.statements):
            place = about_it.place(one.at)
            self.groups[place] = self.groups.get(place, frozenset()) | {one.at}
        self.turns = {one.at: self._turns(one) for one in compounds(about_it.source.statements) if isinstance(one, While)}

    def _turns(self, loop: While) -> int:
        """The greatest number of turns that a loop takes, as the proved program says of a text that counts them."""
        turn, most = self.about.counters
        body = loop.body[0].at if loop.body else loop.end - 1
        edits = [(loop.at, loop.at, f"{turn} := 0; "), (body, body, f"{turn} := {turn} + 1; {most} := max({most}, {turn}); ")]
        return self.about.most(most, edits)

    # ---- judgement

    def judge(self, change: Change) -> tuple[str, Hyper, Certificate | None] | None:
        """The changed text with its hyper and certificate, where the proved program says that it does the same, shows the same and leaks no more."""
        if change not in self.judged:
            self.judged[change] = self._judge(change)
        return self.judged[change]

    def _judge(self, change: Change) -> tuple[str, Hyper, Certificate | None] | None:
        for how in HOW:
            try:
                watched, text = (Even(self.about, change, self.turns).text(marks, how) for marks in (True, False))
                found = self._judged(watched, text)
            except OutOfTime:
                raise
            except KuifjeError as cause:
                why = (
                    f"a program changed here is refused: {cause.kind}"
                    if isinstance(cause, Refusal)
                    else "a program changed here is too large to judge"
                )
                self.refused |= {at: why for at in change.even if at not in self.refused}
                return None
            if found is not None:
                return found
        return None

    def _judged(self, watched: str, text: str) -> tuple[str, Hyper, Certificate | None] | None:
        if not self.about.is_told(watched) or self.about.joint(watched) != self.about.distributed:
            return None
        program = self.about.like(text)
        hyper = program.hyper(self.about.left)
        if not same(hyper, self.about.like(watched).hyper(self.about.left)):
            return None
        decision = decide(self.about.program, program, seconds=min(10.0, self.about.left))
        return (text, hyper, decision.certificate) if decision.refines else None

    # ---- changes

    def can_be_even(self, wished: Change) -> frozenset[int]:
        """The conditionals and loops that can be made even once this is changed, each with all that stands in it."""
        found: set[int] = set()
        statements = list(compounds(self.about.source.statements))
        for statement in reversed(statements):
            if not self.inner[statement.at] - {statement.at} <= found:
                continue
            try:
                Even(self.about, replace(wished, even=self.inner[statement.at]), self.turns).text(True)
            except Uncovered as cause:
                self.uncovered.setdefault(statement.at, str(cause))
                continue
            found.add(statement.at)
            self.uncovered.pop(statement.at, None)
        return frozenset(found)

    def least(self, change: Change) -> Change:
        """The change with all given back that costs nothing: the hyper stays as it is."""
        judged = self.judge(change)
        assert judged is not None
        for smaller in self._undone(change):
            change = self._kept(change, smaller, judged[1])
        return change

    def _undone(self, change: Change) -> Iterable[Callable[[Change], Change]]:
        """Each part that may be given back, what stands outside before what stands in it."""
        for group in self.groups.values():
            if group & change.even:
                yield lambda whole, group=group: replace(whole, even=whole.even - group)  # type: ignore[misc]
        for at in sorted(change.dropped):
            yield lambda whole, at=at: replace(whole, dropped=whole.dropped - {at})  # type: ignore[misc]
        for name in sorted(change.hidden):
            yield lambda whole, name=name: replace(whole, hidden=whole.hidden - {name})  # type: ignore[misc]

    def _kept(self, change: Change, undo: Callable[[Change], Change], hyper: Hyper) -> Change:
        smaller = undo(change)
        if any(not self.inner[at] <= smaller.even for at in smaller.even):
            return change
        if not smaller.kinds:
            return change
        judged = self.tried(smaller)
        return smaller if judged is not None and same(judged[1], hyper) else change

    def repair_of(self, change: Change) -> Repair:
        """The repair that a judged change is."""
        judged = self.judge(change)
        assert judged is not None
        text, hyper, certificate = judged
        program = self.about.program
        before = program.text.decode()
        lines = unified_diff(before.splitlines(keepends=True), text.splitlines(keepends=True), program.name, f"{program.name} (repaired)")
        changed = tuple(sorted({place[0] for place, _ in self._parts(change)}))
        at_floor = same(hyper, self.floor.floor)
        found = Repair(self.about.like(text), "".join(lines), hyper, certificate, at_floor, change.kinds, changed, self._needed(change))
        return self._in_python(change, found) or found

    def _in_python(self, change: Change, found: Repair) -> Repair | None:
        """The repair in the Python of the program's model, judged once more: it has the hyper of the one that was found. None where it isn't one."""
        of, made = self.about.program.expansion, rewritten(self.about.program, change, self.turns)
        if made is None or not isinstance(of, Translation):
            return None
        places: list[Place] = [self.about.place(shown.statements[0].at) for shown in self.about.keeps]
        try:
            program = made.model.program(**of.inputs)
            after = marked(program, [made.place(place) for place in places], self.about.finals, self.about.until)
            if after.distributed != self.about.distributed or not same(hyper := program.hyper(self.about.left), found.hyper):
                return None
            decision = decide(self.about.program, program, seconds=min(10.0, self.about.left))
        except OutOfTime:
            raise
        except (KuifjeError, BadPurpose):
            return None
        if not decision.refines:
            return None
        return replace(found, program=program, diff=made.diff, hyper=hyper, certificate=decision.certificate, model=made.model)

    def _parts(self, change: Change) -> list[tuple[tuple[int, int], Change]]:
        """The place of each part of a change, with the change where this part alone is undone."""
        place = self.about.place
        found = [(at, replace(change, even=change.even - group)) for at, group in self.groups.items() if group & change.even]
        dropped = {place(at): frozenset(other for other in change.dropped if place(other) == place(at)) for at in change.dropped}
        found += [(at, replace(change, dropped=change.dropped - group)) for at, group in dropped.items()]
        hidden = [one for one in self.about.source.declarations if one.name in change.hidden]
        found += [(place(one.at), replace(change, hidden=change.hidden - {one.name})) for one in hidden]
        return sorted(found, key=lambda part: part[0])

    def _needed(self, change: Change) -> dict[tuple[int, int], Fraction]:
        found = {}
        for place, smaller in self._parts(change):
            if any(not self.inner[one] <= smaller.even for one in smaller.even):
                continue
            judged = self.tried(smaller)
            if judged is not None or not smaller.kinds:
                found[place] = posterior_vulnerability(self.floor.hyper if judged is None else judged[1])
        return found

    def best_of(self, changes: Sequence[Change]) -> Change | None:
        """The first judged change at the floor; else that which leaks least to one guess, of several that with the fewest inners, else the first."""
        found = []
        for i, change in enumerate(changes):
            if (judged := self.tried(change)) is not None:
                if same(judged[1], self.floor.floor):
                    return change
                found.append((posterior_vulnerability(judged[1]), len(judged[1].inners), i, change))
        return min(found)[-1] if found else None

    def structures(self) -> list[Change]:
        """All that can be made even, and then the conditionals and loops of each place alone, with all that stands in them."""
        able = self.can_be_even(Change())
        wholes = [able, *(self.within(group) for group in self.groups.values() if group <= able)]
        return [Change(even, instead=instead) for even in dict.fromkeys(wholes) for instead in self.instead(even)]

    def within(self, group: frozenset[int]) -> frozenset[int]:
        """Conditionals and loops with all those that stand in them."""
        return frozenset().union(*(self.inner[at] for at in group))

    def instead(self, even: frozenset[int]) -> tuple[Instead, ...]:
        """What can be shown where a branch would have shown nothing: it makes no difference where all observations in them are kept."""
        spans = [(one.at, one.end) for one in compounds(self.about.source.statements) if one.at in even]
        return INSTEAD if any(at <= other < end for other in self.others for at, end in spans) else INSTEAD[:1]

    def grown(self, change: Change) -> Change:
        """The change with those of each place made even, too, as far as that leaks less: where all of them at once weren't accepted."""
        able = self.can_be_even(Change())
        for group in self.groups.values():
            if not group <= able:
                continue
            more = replace(change, even=change.even | self.within(group))
            before = self.judge(change)
            assert before is not None
            if same(before[1], self.floor.floor) or more == change or (judged := self.tried(more)) is None:
                continue
            if not same(judged[1], before[1]) and posterior_vulnerability(judged[1]) <= posterior_vulnerability(before[1]):
                change = more
        return change

    def tried(self, change: Change) -> tuple[str, Hyper, Certificate | None] | None:
        """As ``judge``; none, too, where nothing is changed or the change can't be made."""
        try:
            return self.judge(change) if change.kinds else None
        except Uncovered:
            return None


def _others(search: _Search, changes: Sequence[str]) -> list[Change]:
    """All structure, and all other observations dropped, and visible variables hidden, as far as it is wished."""
    dropped, hidden = frozenset(search.others), frozenset(one.name for one in search.about.source.declarations if one.visible)
    wished = Change(dropped=dropped if "drop" in changes else frozenset(), hidden=hidden if "hide" in changes else frozenset())
    if not wished.kinds:
        return []
    return [*([replace(wished, even=search.can_be_even(wished))] if "structure" in changes else []), wished]


def repair(
    program: Program | Writable,
    keep: Keep = None,
    finals: Sequence[str] | None = None,
    changes: Sequence[str] = ("structure",),
    seconds: float = 10.0,
) -> Repairs:
    """Programs that do what this one does, still show what it is for, and leak less.

    ``keep`` are the observations that the program is for, by their lines, from 1, or lines and columns; without it, its one observation at the top
    level. What counts are all values that a run shows at each of these places, in their order. ``finals`` are the variables that have to end as they
    do, all where none are named. ``changes`` are the kinds that are tried: ``"structure"`` makes branches and loops even and keeps every observation,
    ``"drop"`` leaves other observations out, ``"hide"`` makes visible variables hidden.

    Of a model, or of its program with public inputs, lines are those of its Python; what is observed there in each turn of a ``for`` is one place,
    and no variable has to end as it does unless it is named, since they end with the function.

    Each repair is judged by the proved program: the joint distribution of secret, final values and what is kept is the same; whoever observes a run
    knows what is kept; and the repair refines the program, with a certificate. That none leaks less is said where ``at_floor`` is true, by the law of
    ``Floor``; else a better one may exist that wasn't found.

    Raises ``BadPurpose`` as ``floor`` does, a ``Refusal`` where the program has no answer, and ``OutOfTime`` after so many ``seconds``.
    """
    if wrong := [kind for kind in changes if kind not in CHANGES]:
        raise ValueError(f"changes are of {', '.join(CHANGES)}, and {wrong[0]!r} was given")
    with quietly():
        search = _Search(marked(program_of("program", program), keep, finals, Deadline(bound_of("seconds", seconds))))
        chosen = [] if search.floor.is_reached else _found(search, changes)
        found = [search.repair_of(change) for change in chosen]
    useful = tuple(one for one in found if not same(one.hyper, search.floor.hyper))
    made = {at for change in chosen for at in change.even}
    refused = {} if any(one.at_floor for one in found) else {at: why for at, why in search.refused.items() if at not in made}
    why = {(search.about.place(at)[0], why) for at, why in {**refused, **search.uncovered}.items()}
    return Repairs(search.floor, useful, tuple(sorted(why)))


def _found(search: _Search, changes: Sequence[str]) -> list[Change]:
    """The change of structure alone that leaks least, and where it isn't at the floor that of all changes that are wished."""
    found = []
    if "structure" in changes and (best := search.best_of(search.structures())) is not None:
        found.append(search.least(search.grown(best)))
    judged = search.judge(found[0]) if found else None
    if (judged is None or not same(judged[1], search.floor.floor)) and (other := search.best_of(_others(search, changes))) is not None:
        found.append(search.least(other))
    return found
