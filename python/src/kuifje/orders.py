"""The refinement order of several programs: who leaks no more than whom, with a certificate for each verdict.

Each verdict is the proved program's. What is put together of them here (equal programs, the order without its shortcuts) isn't proved. A no between
programs that draw the target differently says nothing of which leaks more, and is called another prior.
"""

from __future__ import annotations

import json
from collections.abc import Iterator, Sequence
from dataclasses import dataclass
from functools import cached_property
from itertools import combinations, permutations
from typing import TYPE_CHECKING

from .errors import KuifjeError, Refusal, TooLarge
from .model import Model, Translation
from .priors import Prior, difference, prior_of
from .program import COMPARING, Certificate, Program, certificate, program_of, refine
from .texts import html_table

if TYPE_CHECKING:
    import networkx
    import pandas

__all__ = ["Order", "Pair", "order"]


@dataclass(frozen=True)
class Pair:
    """What is known of whether the second of two programs leaks no more than the first.

    ``refines`` is none where the program gave no verdict, and ``cause`` says why; else ``proof`` is the certificate. ``apart`` says of a no where the
    priors of the two differ, if they do: then it says nothing of which leaks more.
    """

    refines: bool | None
    proof: Certificate | None = None
    cause: KuifjeError | None = None
    apart: str | None = None


@dataclass(frozen=True, repr=False)
class Order:
    """The refinement order of programs, by their names; ``pairs[a, b]`` says whether ``b`` leaks no more than ``a``."""

    names: tuple[str, ...]
    pairs: dict[tuple[str, str], Pair]

    @cached_property
    def _known(self) -> frozenset[tuple[str, str]]:
        """The pairs whose second leaks no more than the first: by a verdict, or since refinement goes on from one to the next."""
        found = {(name, name) for name in self.names} | {pair for pair, known in self.pairs.items() if known.refines}
        for middle in self.names:
            found |= {(a, b) for a in self.names for b in self.names if (a, middle) in found and (middle, b) in found}
        return frozenset(found)

    def refines(self, a: str, b: str) -> bool | None:
        """Whether ``b`` leaks no more than ``a``; none where neither a verdict of theirs nor those of others say so."""
        return True if (a, b) in self._known else self.pairs[a, b].refines

    @cached_property
    def nodes(self) -> tuple[tuple[str, ...], ...]:
        """The programs, those together that refine each other both ways: their hyper-distributions are one."""
        found: list[list[str]] = []
        for name in self.names:
            for node in found:
                if self.refines(node[0], name) and self.refines(name, node[0]):
                    node.append(name)
                    break
            else:
                found.append([name])
        return tuple(map(tuple, found))

    @cached_property
    def edges(self) -> tuple[tuple[tuple[str, ...], tuple[str, ...]], ...]:
        """From each node to those that leak less, without what follows by way of a node between: the lines of a Hasse diagram."""
        below = {(a, b) for a, b in permutations(self.nodes, 2) if self.refines(a[0], b[0])}
        return tuple(
            (a, b) for a, b in permutations(self.nodes, 2) if (a, b) in below and not any((a, c) in below and (c, b) in below for c in self.nodes)
        )

    @cached_property
    def open(self) -> tuple[tuple[str, str], ...]:
        """The pairs of which nothing is known: there is no verdict, and none follows from others."""
        return tuple(pair for pair in self.pairs if self.refines(*pair) is None)

    @cached_property
    def apart(self) -> tuple[tuple[str, str], ...]:
        """The pairs that draw the target differently, each once: neither leaks more than the other, and neither less."""
        return tuple((a, b) for a, b in combinations(self.names, 2) if self.pairs[a, b].apart is not None)

    def levels(self) -> Iterator[tuple[tuple[str, ...], ...]]:
        """The nodes in rows, those that leak most first; each edge goes to a later row."""
        depth: dict[tuple[str, ...], int] = {}

        def depth_of(node: tuple[str, ...]) -> int:
            if node not in depth:
                depth[node] = max((1 + depth_of(a) for a, b in self.edges if b == node), default=0)
            return depth[node]

        for row in range(1 + max(map(depth_of, self.nodes))):
            yield tuple(node for node in self.nodes if depth[node] == row)

    def records(self) -> list[dict[str, object]]:
        """A row for each program, and a column for each: whether the column's program leaks no more than the row's."""
        marks = {True: "yes", False: "no", None: "?"}

        def mark(a: str, b: str) -> str:
            return "another prior" if a != b and self.pairs[a, b].apart is not None else marks[self.refines(a, b)]

        return [{"program": a, **{b: mark(a, b) for b in self.names}} for a in self.names]

    def __str__(self) -> str:
        lines = [" = ".join(node) for node in self.nodes]
        lines += [f"{' = '.join(b)} leaks less than {' = '.join(a)}" for a, b in self.edges]
        lines += [f"{a} and {b} have other priors, so nothing is said of which leaks more: {self.pairs[a, b].apart}" for a, b in self.apart]
        lines += [f"it isn't known whether {b} leaks no more than {a}: {self.pairs[a, b].cause}" for a, b in self.open]
        return "".join(f"{line}\n" for line in lines)

    def __repr__(self) -> str:
        return f"<Order>\n{self}".rstrip()

    def to_pandas(self) -> pandas.DataFrame:
        """The table of ``records`` as a data frame."""
        import pandas

        return pandas.DataFrame(self.records())

    def to_networkx(self) -> networkx.DiGraph:
        """The order as a graph: ``nodes`` are its nodes, and an edge goes from each to those that leak less, as ``edges`` has it."""
        import networkx

        graph = networkx.DiGraph()
        graph.add_nodes_from(self.nodes)
        graph.add_edges_from(self.edges)
        return graph

    def to_json(self) -> str:
        """The order as JSON: ``nodes``, ``edges``, ``open`` and ``apart`` as here, and the certificate of each pair that has a verdict.

        Of a pair that is apart ``another_prior`` says where the priors differ.
        """
        proofs = [
            {"of": a, "by": b, "refines": pair.refines, "another_prior": pair.apart, "certificate": json.loads(pair.proof.text)}
            for (a, b), pair in self.pairs.items()
            if pair.proof is not None
        ]
        members = {"nodes": self.nodes, "edges": self.edges, "open": self.open, "apart": self.apart, "verdicts": proofs}
        return json.dumps(members, ensure_ascii=False)

    def _repr_html_(self) -> str:
        return html_table(self.records(), "Does the column's program leak no more than the row's?")


class _Comparing:
    """Compares programs by their names, and knows their priors once they were asked for."""

    def __init__(self, programs: dict[str, Program], timeout: float | None) -> None:
        self.programs, self.timeout = programs, timeout
        self.comparing = COMPARING if timeout is None else timeout
        self._priors: dict[str, Prior] = {}

    def pair(self, a: str, b: str) -> Pair:
        """What is known of whether ``b`` leaks no more than ``a``."""
        first, second = self.programs[a], self.programs[b]
        try:
            refines = refine(first, second, self.comparing).refines
            return Pair(refines, certificate(first, second, self.comparing), apart=None if refines else self._apart(a, b))
        except (Refusal, TooLarge) as cause:
            if isinstance(cause, Refusal) and cause.file is not None:
                raise
            return Pair(None, cause=cause)

    def _apart(self, a: str, b: str) -> str | None:
        return difference(self._prior(a), self._prior(b), (f"in {a}", f"in {b}"))

    def _prior(self, name: str) -> Prior:
        if name not in self._priors:
            self._priors[name] = prior_of(self.programs[name], self.timeout)
        return self._priors[name]


def _name(program: Program) -> str:
    """What an order calls a program: by its model and the public inputs, ``early(tries=3)``, or by its name without ``.kf``."""
    call = program.expansion.call if isinstance(program.expansion, Translation) else ""
    return call or program.name.removesuffix(".kf")


def order(*programs: Program | Model, names: Sequence[str] | None = None, timeout: float | None = None) -> Order:
    """The refinement order of programs about one target; each pair is asked both ways, with ``timeout`` seconds for a question.

    Programs are called by ``names``. Where these aren't given, one of a model is called by that and its public inputs, ``early(tries=3)``, and any
    other by its name without ``.kf``. A model with one program is asked by that. Raises ``ValueError`` where there is no program, names aren't as
    many or two are one, ``TypeError`` where a model has several programs, and ``Refusal`` where the program refuses one of them; a pair that is
    refused for what both are together, or takes too long, has no verdict.
    """
    asked = [program_of(f"program {number}", program) for number, program in enumerate(programs, 1)]
    called = [_name(program) for program in asked] if names is None else list(names)
    if not asked or len(called) != len(asked):
        raise ValueError(f"an order is of at least one program, and of as many names: there are {len(asked)} programs and {len(called)} names")
    if double := [name for name in called if called.count(name) > 1]:
        raise ValueError(f"an order is of programs that have different names, and two are called {double[0]!r}: give names=[..] for them")
    comparing = _Comparing(dict(zip(called, asked)), timeout)
    return Order(tuple(called), {(a, b): comparing.pair(a, b) for a, b in permutations(called, 2)})
