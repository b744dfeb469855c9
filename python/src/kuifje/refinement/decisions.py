"""Whether one program leaks no more than another, found by any means and checked by the proved program."""

from __future__ import annotations

import json
from collections.abc import Callable, Iterable, Iterator
from dataclasses import dataclass, replace
from fractions import Fraction
from functools import partial
from math import inf
from typing import Any

from ..arguments import seconds as seconds_of
from ..errors import KuifjeError, OutOfTime, Refusal, TooLarge
from ..priors import scope
from ..program import Certificate, Program, Writable, check, program_of
from ..texts import Hyper
from .exact import another_prior, equal_inners, neighbours, peeling, tries
from .problem import Deadline, Problem, Undecided
from .proofs import Proof
from .shared import shared_draws

__all__ = ["Decision", "Way", "decide", "ways"]

Way = Callable[[Problem, Deadline], Proof | None]
"""A way to a proof by a deadline. It gives none where it isn't one for these hypers, and raises ``Undecided`` where it ended for another reason."""

EXACT: tuple[tuple[str, Way], ...] = (
    ("another prior", another_prior),
    ("equal inners", equal_inners),
    ("peeling", peeling),
    ("tries", tries),
    ("neighbours", neighbours),
)
CELLS = 20_000_000  # of matrices of floats, at most
SMALL = 3000  # pairs of inners up to which the linear program comes before the interior point method
CHECKING = 0.2  # of the seconds of a decision, which a check may take beyond them: what was found just in time is checked, too
TARGETS_DIFFER = 10  # a status of the program (docs/COMMANDS.md)


@dataclass(frozen=True)
class Decision:
    """What is known of whether B leaks no more than A, to any adversary.

    - ``refines`` is the verdict, and none where it isn't decided. It is said only where the proved program accepted the certificate (``checked``).
    - ``found`` names the way that found the certificate. What isn't checked was only found, by code that isn't proved.
    - ``worth`` is what the gain table of a no is worth under A and under B: its posterior vulnerabilities.
    - ``priors`` says of a verdict for which priors it holds, and of a no between two priors that it says nothing of which leaks more.
    - ``reason`` says why there is no verdict, and ``certifiable`` whether any certificate could be short and narrow enough for ``check``: false where
      none could, and none where that isn't known.
    """

    refines: bool | None
    found: str | None = None
    checked: bool = False
    certificate: Certificate | None = None
    worth: tuple[Fraction, Fraction] | None = None
    reason: str | None = None
    certifiable: bool | None = None
    priors: str | None = None

    def __str__(self) -> str:
        lines = [f"refines {'yes' if self.refines else 'no'}" if self.checked else "not decided"]
        lines += [f"reason {self.reason}"] if self.reason is not None else []
        lines += ["certifiable no"] if self.certifiable is False else []
        lines += [f"found {self.found}"] if self.found is not None else []
        if self.certificate is not None:
            lines.append(f"certificate {len(self.certificate.text)} bytes, {'accepted' if self.checked else 'not checked'}")
        lines += [f"worth {self.worth[0]} {self.worth[1]}"] if self.worth is not None else []
        return "".join(f"{line}\n" for line in lines)

    def to_json(self) -> str:
        """The answer as JSON, with the certificate; fractions are texts."""
        proof = None if self.certificate is None else json.loads(self.certificate.text)
        worth = None if self.worth is None else list(map(str, self.worth))
        members = {"refines": self.refines, "priors": self.priors, "found": self.found, "checked": self.checked, "certificate": proof, "worth": worth}
        return json.dumps({**members, "reason": self.reason, "certifiable": self.certifiable}, ensure_ascii=False)


def ways(problem: Problem, more: Iterable[tuple[str, Way]] = ()) -> Iterator[tuple[str, Way]]:
    """The ways to a proof, each with its name, in the order in which they are tried: what is exact and cheap first, then ``more``, then the others.

    Those over floats want ``numpy`` and ``scipy``. Raises ``Undecided`` before them where these aren't installed, or floats would be too many.
    """
    yield from EXACT
    yield from more
    cells = problem.k * (problem.m + problem.n) + problem.m * problem.n
    if cells > CELLS:
        raise Undecided(f"the other ways would take {cells:,} numbers, and may take {CELLS:,}")
    try:
        from .linear import linear_program
        from .rounded_matrix import mended_middle
        from .numeric import independent_inners, one_inner_of_a, one_inner_of_b, two_values
    except ImportError as cause:
        raise Undecided(f"the other ways want {cause.name}, which isn't installed") from None
    yield "independent inners", independent_inners
    yield "two values", two_values
    yield "one inner of A", one_inner_of_a
    yield "one inner of B", one_inner_of_b
    last: list[tuple[str, Way]] = [("linear program", linear_program), ("mended middle", mended_middle)]
    yield from last if problem.m * problem.n <= SMALL else reversed(last)


def _found(problem: Problem, more: Iterable[tuple[str, Way]], deadline: Deadline, reasons: list[str]) -> Iterator[tuple[str, Proof]]:
    """The proofs that are found, each with the name of its way; ``reasons`` gets why others found none."""
    try:
        for name, way in ways(problem, more):
            if deadline.passed:
                reasons.append("no time is left")
                return
            try:
                proof = way(problem, deadline)
            except Undecided as cause:
                reasons.append(f"{name}: {cause}")
                continue
            if proof is not None:
                yield proof.name or name, proof
    except Undecided as cause:
        reasons.append(str(cause))


def _refusal(certificate: Certificate, a: Program, b: Program, timeout: float | None) -> str | None:
    """Why the proved program doesn't accept a certificate; none where it does. Raises ``Refusal`` of programs, and where their targets differ."""
    try:
        mark = check(certificate, a, b, timeout)
    except TooLarge as cause:
        return f"the check ends without an answer: {cause}"
    except Refusal as cause:
        if cause.status == TARGETS_DIFFER or cause.file in (a.name, b.name):
            raise
        return f"the check refuses the certificate: {cause.kind}"
    return None if mark.accepted else f"the check rejects the certificate: {mark.rejected}"


def _says_yes(certificate: Certificate) -> bool:
    return bool(json.loads(certificate.text)["verdict"] == "yes")


def _decided(name: str, proof: Proof, a: Program, b: Program, timeout: float | None) -> Decision:
    """What the proved program says of a proof. The verdict is what the certificate says that it accepted, and nothing else."""
    refusal = proof.obstacle or _refusal(proof.certificate, a, b, timeout)
    decision = Decision(None, name, False, proof.certificate, proof.worth, refusal, False if proof.obstacle and proof.final else None)
    return decision if refusal else replace(decision, refines=_says_yes(proof.certificate), checked=True, certifiable=True)


def _unchecked(name: str, proof: Proof) -> Decision:
    reason = proof.obstacle or "a certificate is checked for programs, and not for printed hypers"
    return Decision(None, name, False, proof.certificate, proof.worth, reason, False if proof.obstacle and proof.final else None)


def hyper_of(of: Program | Hyper, timeout: float | None) -> Hyper:
    return of.hyper(timeout) if isinstance(of, Program) else of


def asked_for(name: str, of: Any) -> Program | Hyper:
    """What an argument is, or is written as. Raises ``TypeError`` where it is none of what it may be."""
    if isinstance(of, Hyper):
        return of
    try:
        return program_of(name, of)
    except TypeError as cause:
        raise TypeError(str(cause).replace("a Program or a model", "a Program, a model or a Hyper")) from None


def _at_most(timeout: float | None, left: float) -> float | None:
    """What a question may take: no more than is left of all. Without a bound it is what its engine says."""
    return timeout if left == inf else left if timeout is None else min(timeout, left)


def decide(a: Program | Writable | Hyper, b: Program | Writable | Hyper, seconds: float | None = 10.0, timeout: float | None = None) -> Decision:
    """Whether ``b`` leaks no more than ``a`` under any gain function, past the bounds of ``refine``. In the book (chapter 9): whether A ⊑ B.

    The programs' hypers and the search for a certificate end after ``seconds``, and the check of what was found has up to a fifth of them more; with
    None there is no such bound. Each question to the program takes at most ``timeout`` seconds. The search isn't proved, and only what the proved
    program accepts is a verdict: of two hypers, of which no program is known, there is a certificate and no verdict. Raises ``Refusal`` and
    ``TooLarge`` as questions to programs do, ``KuifjeError`` where two hypers have different targets, and ``ValueError`` where a hyper's weights
    aren't whole over its scale.
    """
    bound, question = seconds_of("seconds", seconds), seconds_of("timeout", timeout)
    deadline, last = Deadline(bound), Deadline(None if bound is None else bound * (1 + CHECKING))
    first, second = asked_for("a", a), asked_for("b", b)
    try:
        hypers = hyper_of(first, _at_most(question, deadline.left)), hyper_of(second, _at_most(question, deadline.left))
        problem = Problem.of(*hypers, deadline) if hypers[0].target == hypers[1].target else None
    except (OutOfTime, Undecided):
        if not deadline.passed:
            raise
        return Decision(None, reason="no time is left")
    programs = (first, second) if isinstance(first, Program) and isinstance(second, Program) else None
    if problem is None:
        if programs:
            _refusal(Certificate.of_matrix(1, 1, {(0, 0): Fraction(1)}), *programs, question)
        raise KuifjeError(f"targets differ: {hypers[0].target}, and {hypers[1].target}")
    reasons: list[str] = []
    kept: Decision | None = None
    more = [("shared draws", partial(shared_draws, programs=programs, hypers=hypers))] if programs else []
    for name, proof in _found(problem, more, deadline, reasons):
        decision = _decided(name, proof, *programs, _at_most(question, last.left)) if programs else _unchecked(name, proof)
        if programs and decision.refines is not None:
            return replace(decision, priors=scope(*programs, hypers[0].prior, hypers[1].prior, decision.refines))
        if decision.checked or not proof.obstacle and not programs or decision.certifiable is False:
            return decision
        reasons.append(f"{name}: {decision.reason}")
        kept = kept or decision
    reason = "; ".join(reasons) or "no way found a proof"
    return replace(kept, reason=reason) if kept else Decision(None, reason=reason)
