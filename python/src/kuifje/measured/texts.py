"""What was measured as a text in the language: the secrets as in the code, or numbered anew by their classes. Before each question the proved program
gives the partition back, and it is compared whole.

In **natural order** a secret is what it is in the code. **By classes** the secrets are numbered by the size of their class, and then by class: a
class of those of one size is ``c + (x - a) div size``, so that any partition of 65,536 secrets has at most 362 cases. The table beside it says which
secret has which number.
"""

from __future__ import annotations

import re
from collections.abc import Iterable, Mapping, Sequence
from dataclasses import dataclass
from fractions import Fraction
from typing import TypeVar

from ..channels import GREATEST, LENGTH
from ..expressions import choose
from ..program import Program
from ..texts import Printed, TraceTable
from ..values import Value
from .domains import Domain
from .refusals import Unmeasured

__all__ = ["MeasuredProgram", "Numbering", "Partition", "by_classes", "measured_program", "natural", "posterior"]

P = TypeVar("P", bound=Printed)
QUICK = 200_000  # bytes of a text in natural order that is still quickly answered
LEAVES = 150  # of an expression: 5 nodes for each, and some for what stands in it, of 1,000
MOST_LEAVES = 60_000  # beyond which no text keeps within a megabyte
MOST_CELLS = 30  # of 32 variables
MOST_WEIGHTED = 240  # values of an entry that has weights
MOST_VALUES = 65_536
MOST_STORES = 1 << 63  # that all variables may have together
RESERVED = set(
    "var vis bool set of about old skip observe if else while uniform choose flip and or not in mod div min max union inter minus subset size cond"
    " true false at seen x".split()
)


@dataclass(frozen=True)
class Partition:
    """What a model sees of each secret with each noise: the number of a class, by first occurrence, and how many classes there are.

    ``classes`` has an entry for each secret and, within it, for each assignment of the noise.
    """

    secrets: Domain
    noise: Domain
    classes: Sequence[int]
    count: int

    @property
    def is_function(self) -> bool:
        """Whether each secret has one class."""
        return self.noise.size == 1

    def refines_to(self, other: Partition) -> tuple[int, int] | None:
        """Two secrets that are in one class here and in two of the other's; none where the other's class is a function of the class here."""
        first: dict[int, int] = {}
        for secret, (mine, others) in enumerate(zip(self.classes, other.classes)):
            before = first.setdefault(mine, secret)
            if other.classes[before] != others:
                return before, secret
        return None


def _names(domains: Iterable[Domain]) -> list[str]:
    """A name of the language for each entry: the array's own, with the entry's number where there are several."""
    found: list[str] = []
    for domain in domains:
        for variable, place in domain.cells:
            name = variable.name if variable.count == 1 else f"{variable.name}_{place}"
            name = re.sub("[^A-Za-z0-9_]", "_", name)
            name = f"v{name}" if not name[:1].isalpha() else name
            while name in RESERVED or name in found:
                name += "_"
            found.append(name)
    return found


@dataclass(frozen=True)
class _Case:
    """Numbers from ``start`` on that are in one class, or in classes that follow one another: ``text`` is the class."""

    start: int
    text: str


def _cases(index: str, classes: Sequence[int]) -> list[_Case]:
    """The classes as few cases: runs of one class, and runs of which each number has the class after that of the one before."""
    found, at, count = [], 0, len(classes)
    while at < count:
        end, step = at + 1, 0
        if end < count and classes[end] - classes[at] in (0, 1):
            step = classes[end] - classes[at]
            while end < count and classes[end] - classes[end - 1] == step:
                end += 1
        if step == 1 and end - at < 3:
            end, step = at + 1, 0
        away = at - classes[at]
        moved = index if away == 0 else f"{index} - {away}" if away > 0 else f"{index} + {-away}"
        found.append(_Case(at, moved if step else str(classes[at])))
        at = end
    return found


def _tree(index: str, cases: Sequence[_Case]) -> str:
    if len(cases) == 1:
        return cases[0].text
    middle = len(cases) // 2
    return f"cond({index} < {cases[middle].start}, {_tree(index, cases[:middle])}, {_tree(index, cases[middle:])})"


def _assigned(index: str, cases: Sequence[_Case], leaves: int = LEAVES) -> list[str]:
    """Statements that set ``seen`` by the index, each with an expression within the limit, and with a value of its type for every index."""
    lines = []
    for first in range(0, len(cases), leaves):
        later = [_Case(cases[first + leaves].start, "0")] if first + leaves < len(cases) else []
        tree = _tree(index, [*cases[first : first + leaves], *later])
        lines.append(f"seen := {tree};" if first == 0 else f"seen := cond({index} < {cases[first].start}, seen, {tree});")
    return lines


def _declaration(name: str, domain: Domain, place: int) -> str:
    variable = domain.cells[place][0]
    if variable.weights is None:
        drawn = f"uniform {variable.low}..{variable.high}"
    else:
        drawn = choose({variable.low + i: weight for i, weight in enumerate(variable.weights) if weight})
    return f"var {name} : {variable.low}..{variable.high} := {drawn};"


def _expressible(partition: Partition) -> str | None:
    """Why there is no text in natural order; none where there may be one."""
    cells = [v for domain in (partition.secrets, partition.noise) for v, _ in domain.cells]
    if len(cells) > MOST_CELLS:
        return f"there are {len(cells)} entries, and a text may have {MOST_CELLS}"
    if len(partition.classes) > MOST_VALUES:
        return f"there are {len(partition.classes)} runs, and a variable may have {MOST_VALUES} values"
    if any(v.weights is not None and v.radix > MOST_WEIGHTED for v in cells):
        return f"an entry has weights for more than {MOST_WEIGHTED} values"
    if any(max(abs(v.low), abs(v.high), *(v.weights or ())) > GREATEST for v in cells):
        return "a value or a weight passes 1,000,000,000"
    return None


def natural(partition: Partition, notes: str = "") -> str | None:
    """The text in which the secrets are as in the code; none where it would pass a limit of the language."""
    if _expressible(partition) is not None:
        return None
    domains = (partition.secrets, partition.noise)
    names = _names(domains)
    cells = [(domain, place) for domain in domains for place in range(len(domain.cells))]
    head = [_declaration(name, domain, place) for name, (domain, place) in zip(names, cells)]
    index, body, last = names[0], [], []
    if len(names) > 1 or cells[0][0].cells[0][0].low != 0:
        index = "at"
        head.append(f"var at : 0..{len(partition.classes) - 1} := 0;")
        number = ""
        for name, (domain, place) in zip(names, cells):
            variable = domain.cells[place][0]
            moved = name if variable.low == 0 else f"({name} - {variable.low})" if variable.low > 0 else f"({name} + {-variable.low})"
            number = f"({number}) * {variable.radix} + {moved}" if number else moved
        body, last = [f"at := {number};"], ["at := 0;"]
    cases = _cases(index, partition.classes)
    about = f"about {', '.join(f'old {name}' for name in names[: len(partition.secrets.cells)])};"
    if len(cases) <= LEAVES:
        lines = [*head, about, *body, f"observe {_tree(index, cases)};"]
    else:
        stores = partition.secrets.size * len(partition.classes) * max(partition.count, 2) * (len(partition.classes) if body else 1)
        if len(cases) > MOST_LEAVES or stores > MOST_STORES:
            return None
        head.append(f"var seen : 0..{max(partition.count - 1, 1)} := 0;")
        lines = [*head, about, *body, *_assigned(index, cases), *last, "observe seen;"]
    text = notes + "\n".join(lines) + "\n"
    return text if len(text) <= LENGTH else None


@dataclass(frozen=True)
class Numbering:
    """How a text numbers the secrets and the classes anew: for each number the secret, and for each class its number."""

    secrets: Sequence[int]
    classes: Sequence[int]


def by_classes(partition: Partition, notes: str = "") -> tuple[str, Numbering]:
    """The text in which the secrets are numbered by the sizes of their classes, and this numbering.

    Raises ``Unmeasured`` of code with noise, and of secrets with weights, whose texts are in natural order.
    """
    if not partition.is_function or partition.secrets.is_weighted:
        why = _expressible(partition) or "the text has more than a megabyte"
        raise Unmeasured("Large", f"what was measured can't be written as a text: {why}")
    members: list[list[int]] = [[] for _ in range(partition.count)]
    for secret, number in enumerate(partition.classes):
        members[number].append(secret)
    cases: list[_Case] = []
    order: list[int] = []
    numbers = [0] * partition.count
    seen, before = 0, 0
    for group in sorted(members, key=len):
        numbers[partition.classes[group[0]]] = seen
        if len(group) != before:
            start, before = len(order), len(group)
            moved = f"x - {start}" if start else "x"
            part = f"({moved}) div {before}" if before > 1 else f"({moved})"
            cases.append(_Case(start, f"{seen} + {part}" if seen else part))
        order += group
        seen += 1
    head = [f"var x : 0..{len(order) - 1} := uniform 0..{len(order) - 1};", f"var seen : 0..{max(partition.count - 1, 1)} := 0;", "about old x;"]
    lines = _assigned("x", cases, LEAVES // 2)
    return notes + "\n".join([*head, *lines, "observe seen;"]) + "\n", Numbering(order, numbers)


def _one(value: Value) -> tuple[int, ...]:
    return tuple(int(v) for v in value if isinstance(v, int)) if isinstance(value, tuple) else (int(value),) if isinstance(value, int) else ()


class MeasuredProgram(Program):
    """A program that says what was measured. Before a question the proved program gives the traces of its text, and these are compared with what was
    measured: each secret's probability together with each class. The text may be compared once, as long as it stays the same.

    ``numbering`` is none where the secrets are in natural order.
    """

    def __init__(self, text: str, partition: Partition, numbering: Numbering | None = None, name: str = "measured.kf") -> None:
        super().__init__(text, name=name)
        self.partition, self.numbering = partition, numbering
        self._compared: bytes | None = None

    def secret(self, value: Value) -> int:
        """The number of the secret that a value of the text stands for."""
        return self.numbering.secrets[_one(value)[0]] if self.numbering else self.partition.secrets.number(_one(value))

    def shown(self, number: int) -> int:
        """What the text shows of a class."""
        return self.numbering.classes[number] if self.numbering else number

    def compare(self, timeout: float | None = None) -> None:
        """Compares the text with what was measured, unless it was compared before. Raises ``Unmeasured`` where they differ."""
        if self.text == self._compared:
            return
        table = super()._answer(TraceTable, ["traces", self.name], timeout)
        if self._joint(table) != self._measured():
            raise Unmeasured("Text", "the proved program doesn't give the measured partition back from the text")
        self._compared = self.text

    def _measured(self) -> dict[tuple[int, int], int]:
        """How much each secret with each class weighs, of the weight of all runs."""
        found: dict[tuple[int, int], int] = {}
        each, noise = self.partition.noise.size, self.partition.noise.weights
        for secret, weight in enumerate(self.partition.secrets.weights):
            for other in range(each):
                if weight and noise[other]:
                    key = secret, self.shown(self.partition.classes[secret * each + other])
                    found[key] = found.get(key, 0) + weight * noise[other]
        return found

    def _joint(self, table: TraceTable) -> dict[tuple[int, int], int]:
        """The same of the program's traces, whose class is what they show."""
        total = self.partition.secrets.total * self.partition.noise.total
        found: dict[tuple[int, int], int] = {}
        if not all(item.old for item in table.target.items):
            raise Unmeasured("Text", "the text is about something else than the secrets as they were")
        for trace in table.traces:
            if len(trace.shown) != 1 or not isinstance(trace.shown[0], int):
                raise Unmeasured("Text", "a trace of the text shows something else than a class")
            for value, joint in trace.joint.items():
                weight = joint * total
                if weight.denominator != 1:
                    raise Unmeasured("Text", "a probability of the text isn't one that was measured")
                found[self.secret(value), trace.shown[0]] = weight.numerator
        return found

    def _answer(self, kind: type[P], words: list[str], timeout: float | None, files: Mapping[str, bytes] = {}) -> P:
        if self.numbering is not None and any(word.startswith("table:") for word in words):
            raise Unmeasured("Text", "the secrets are numbered by their classes, and a table of gains names them as they are in the code")
        self.compare(timeout)
        return super()._answer(kind, words, timeout, files)

    def table(self) -> str:
        """The table beside the text, as tab-separated values: for each number of the text the secret, and its class."""
        order = self.numbering.secrets if self.numbering else range(self.partition.secrets.size)
        each = self.partition.noise.size
        lines = ["number\tsecret\tclass\n"]
        for number, secret in enumerate(order):
            classes = sorted({self.shown(c) for c in self.partition.classes[secret * each : (secret + 1) * each]})
            lines.append(f"{number}\t{self.partition.secrets.text(secret)}\t{', '.join(map(str, classes))}\n")
        return "".join(lines)


def measured_program(partition: Partition, notes: str = "", longest: int = LENGTH) -> MeasuredProgram:
    """The program of what was measured: in natural order where that keeps within the limits and so many bytes, else by classes where there may be
    such a text."""
    text = natural(partition, notes)
    if text is not None and (len(text) <= longest or not partition.is_function or partition.secrets.is_weighted):
        return MeasuredProgram(text, partition)
    text, numbering = by_classes(partition, notes)
    return MeasuredProgram(text, partition, numbering)


def posterior(partition: Partition) -> Fraction:
    """The probability that one guess after what is seen is right, worked out from the classes: for a comparison with the proved program's."""
    best: dict[int, dict[int, int]] = {}
    each, noise = partition.noise.size, partition.noise.weights
    for secret, weight in enumerate(partition.secrets.weights):
        for other in range(each):
            column = best.setdefault(partition.classes[secret * each + other], {})
            column[secret] = column.get(secret, 0) + weight * noise[other]
    return Fraction(sum(max(column.values()) for column in best.values()), partition.secrets.total * partition.noise.total)
