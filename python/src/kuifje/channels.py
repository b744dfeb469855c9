"""Channel matrices: as the program prints them, made from rows, put together, and with a prior a hyper-distribution.

What isn't an answer of the program is computed here, exactly, and not proved. The columns of a channel are labelled by what is shown: a tuple of
values.
"""

from __future__ import annotations

import numbers
from collections.abc import Iterable, Mapping, Sequence
from dataclasses import dataclass
from decimal import Decimal
from fractions import Fraction
from functools import cmp_to_key
from math import gcd, lcm
from typing import Any

from .expressions import choose, lookup
from .texts import Hyper, Inner, Item, Printed, Reader, Target, read_fraction, read_number
from .values import Value, ascending, compare, format_value, parse_value, split_values

__all__ = [
    "Channel",
    "cascade",
    "from_hyper",
    "from_rows",
    "hidden_choice",
    "hyper",
    "parallel",
    "product",
    "reduced",
    "to_program",
    "visible_choice",
]

Label = tuple[Value, ...]
Rational = Fraction | int
NODES = 1000  # of an expression, at most
GREATEST = 10**9  # the greatest number in a text
LENGTH = 1 << 20  # bytes of a text, at most
SCALE = 2**127 - 1  # the greatest scale
CELLS = 1 << 24  # of a channel that is put together here


@dataclass(frozen=True, repr=False)
class Channel(Printed):
    """A channel matrix (the book, chapter 4): for each value of the target (row) the conditional probability of each trace (column).

    ``rows[x][j]`` is the probability that the values ``columns[j]`` are shown where the target is ``x``; each row sums to 1.
    """

    target: Target
    columns: tuple[Label, ...]
    rows: Mapping[Value, tuple[Fraction, ...]]

    @classmethod
    def _read(cls, lines: Reader) -> Channel:
        target, columns = Target.parse(lines.take("target")), []
        for j in range(read_number(lines.take("columns"))):
            number, blank, shown = lines.take("column").partition(" ")
            if number != str(j) or not blank:
                raise ValueError(f"column {number} stands where column {j} should")
            columns.append(split_values(shown))
        rows: dict[Value, tuple[Fraction, ...]] = {}
        for _ in range(read_number(lines.take("rows"))):
            value = parse_value(lines.take("row"))
            rows[value] = tuple(map(read_fraction, lines.indented()))
            if len(rows[value]) != len(columns):
                raise ValueError(f"row {format_value(value)} has {len(rows[value])} cells for {len(columns)} columns")
        return cls(target, tuple(columns), rows)

    @classmethod
    def from_rows(cls, rows: Mapping[Value, Sequence[Rational]], columns: Sequence[Label] | None = None, target: str = "x") -> Channel:
        """The channel whose row of a secret has these probabilities, one for each column.

        Columns are labelled ``(0,)``, ``(1,)`` and so on where no labels are given. A probability is a ``Fraction``, a whole number or a text,
        ``"1/3"``. Raises ``TypeError`` where one isn't, as a float, and ``ValueError`` where one is below 0, a row doesn't sum to 1 or has another
        length than the others, or there are more than 16,777,216 cells.
        """
        lengths = {len(row) for row in rows.values()}
        if len(lengths) != 1:
            raise ValueError("a channel has rows, all of one length")
        (width,) = lengths
        if columns is not None and len(columns) != width:
            raise ValueError(f"there are {len(columns)} labels for {width} columns")
        cells = {secret: _row(secret, row) for secret, row in rows.items()}
        _bounded(len(rows) * width, "the channel")
        labels = tuple(columns) if columns is not None else tuple((j,) for j in range(width))
        if len(set(labels)) != len(labels):
            raise ValueError("two columns have one label")
        ordered = ascending(cells)
        return cls(Target((Item(target, True),)), labels, {secret: cells[secret] for secret in ordered})

    def to_program(self, prior: Mapping[Value, Rational] | None = None) -> str:
        """A program without guards whose channel this is, with secrets and columns numbered from 0, at this prior (uniform where none is given).

        A value to which the prior gives 0 is no secret of the program. Raises ``ValueError`` where the text would pass a limit of the language
        (docs/LANGUAGE.md, "Limits"), and says which: 1,000 nodes of an expression, 1,000,000,000 for a number, 1,048,576 bytes, or 2^127 - 1 for
        the scale; or where the prior is no distribution on the channel's secrets.
        """
        secrets = list(self.rows)
        weights = _distribution(self, prior) if prior is not None else {x: Fraction(1, len(secrets)) for x in secrets}
        rows = [_whole(self.rows[x]) for x in secrets]
        starts = _whole([weights.get(x, Fraction(0)) for x in secrets])
        scale = sum(starts) * lcm(*(sum(row) for row, weight in zip(rows, starts) if weight))
        if scale > SCALE:
            raise ValueError(f"the scale is {scale}, and may be 2^127 - 1")
        start = f"uniform 0..{len(secrets) - 1}" if prior is None else choose(dict(enumerate(starts)))
        cases = [lookup("x", [row[j] for row in rows]) for j in range(len(self.columns))]
        if (nodes := max(5 * case.count("(") + 1 for case in cases)) > NODES:
            raise ValueError(f"{len(secrets)} secrets make an expression of {nodes} nodes, and it may have {NODES}")
        text = f"var x : 0..{len(secrets) - 1} := {start};\nabout old x;\nobserve {choose(dict(enumerate(cases)))};\n"
        if len(text) > LENGTH:
            raise ValueError(f"the text has {len(text)} bytes, and may have {LENGTH}")
        return text

    def records(self) -> list[dict[str, object]]:
        """A row for each value: ``value``, and a column for each trace."""
        names = [f"[{', '.join(map(format_value, shown))}]" for shown in self.columns]
        return [{"value": format_value(value), **dict(zip(names, cells))} for value, cells in self.rows.items()]

    def __str__(self) -> str:
        head = f"target {self.target}\ncolumns {len(self.columns)}\n"
        head += "".join(f"column {j} [{', '.join(map(format_value, shown))}]\n" for j, shown in enumerate(self.columns))
        rows = (f"row {format_value(value)}\n" + "".join(f"  {cell}\n" for cell in cells) for value, cells in self.rows.items())
        return f"{head}rows {len(self.rows)}\n{''.join(rows)}"


from_rows = Channel.from_rows
to_program = Channel.to_program


def rational(number: object, name: str) -> Fraction:
    """An exact number. Raises ``TypeError`` where it is no ``Fraction``, whole number or text of one, and ``ValueError`` for other texts."""
    if type(number) is Fraction:
        return number
    if isinstance(number, numbers.Rational):
        return Fraction(int(number.numerator), int(number.denominator))
    if not isinstance(number, (str, Decimal)):
        raise TypeError(f"{name} is {number!r}, and has to be exact: a Fraction, a whole number, or a text as '1/3'")
    try:
        return Fraction(number)
    except (ValueError, OverflowError, ZeroDivisionError):
        raise ValueError(f"{name} is {number!r}, and has to be a Fraction, a whole number, or a text as '1/3'") from None


def distribution(weights: Mapping[Value, Any], name: str) -> dict[Value, Fraction]:
    """A distribution: exact probabilities from 0 on that sum to 1. Raises ``TypeError`` where one isn't exact, else ``ValueError``."""
    if not isinstance(weights, Mapping):
        raise TypeError(f"{name} has to be a mapping of values to probabilities, and is of type {type(weights).__name__}")
    found = {x: rational(p, f"{name}: the probability of {x!r}") for x, p in weights.items()}
    for x, p in found.items():
        if p < 0:
            raise ValueError(f"{name}: the probability of {x!r} is {p}, and may not be below 0")
    if (whole := sum(found.values())) != 1:
        raise ValueError(f"{name}: the probabilities sum to {whole}, and have to sum to 1")
    return found


def wanted(value: object, kind: type, name: str) -> None:
    """Raises ``TypeError`` where an argument isn't of a kind."""
    if not isinstance(value, kind):
        raise TypeError(f"{name} has to be a {kind.__name__}, and is of type {type(value).__name__}")


def _bounded(cells: int, name: str) -> None:
    if cells > CELLS:
        raise ValueError(f"{name} would have {cells} cells, and {CELLS} are allowed")


def _row(secret: Value, row: Sequence[Rational]) -> tuple[Fraction, ...]:
    """The probabilities of a row, looked at up to the first one by which it is no distribution."""
    cells, left = list[Fraction](), Fraction(1)
    for cell in row:
        cells.append(rational(cell, f"cell {len(cells)} in the row of {format_value(secret)}"))
        left -= cells[-1]
        if cells[-1] < 0:
            raise ValueError(f"cell {len(cells) - 1} in the row of {format_value(secret)} is {cells[-1]}, and may not be below 0")
        if left < 0 or len(cells) > CELLS:
            break
    if left:
        raise ValueError(f"the row of {format_value(secret)} is no distribution: its first {len(cells)} cells sum to {1 - left}")
    return tuple(cells)


def _distribution(channel: Channel, prior: Mapping[Value, Rational]) -> dict[Value, Fraction]:
    """A prior without its zeros. Raises as ``distribution`` does, and ``ValueError`` where it has a value without a row."""
    weights = {x: p for x, p in distribution(prior, "prior").items() if p}
    if lacking := [x for x in weights if x not in channel.rows]:
        raise ValueError(f"the channel has no row for {format_value(lacking[0])}")
    return weights


def _lowest(row: Sequence[Fraction]) -> list[int]:
    """The least whole numbers in the ratios of a row."""
    over = lcm(*(cell.denominator for cell in row))
    numbers = [int(cell * over) for cell in row]
    common = gcd(*numbers)
    return [number // common for number in numbers]


def _whole(row: Sequence[Fraction]) -> list[int]:
    """The least whole numbers in the ratios of a row. Raises ``ValueError`` where one is too great for a text."""
    numbers = _lowest(row)
    if max(numbers) > GREATEST:
        raise ValueError(f"a row needs the number {max(numbers)}, and no number of a text may pass {GREATEST}")
    return numbers


def _of_joint(target: Target, labels: Sequence[Label], rows: Mapping[Value, Mapping[Label, Fraction]]) -> Channel:
    return Channel(target, tuple(labels), {x: tuple(row.get(label, Fraction(0)) for label in labels) for x, row in rows.items()})


def hyper(channel: Channel, prior: Mapping[Value, Rational]) -> Hyper:
    """The hyper-distribution that a prior and a channel make (the book, chapter 4): one inner for each posterior, columns in proportion merged.

    Inners stand in the program's order: by their values and whole weights without a common factor. Raises ``ValueError`` where the prior is no
    distribution, or gives a probability above 0 to a value without a row, and ``TypeError`` where a probability isn't exact, as a float.
    """
    wanted(channel, Channel, "channel")
    weights = _distribution(channel, prior)
    columns = [{x: weights[x] * channel.rows[x][j] for x in weights if channel.rows[x][j]} for j in range(len(channel.columns))]
    return hyper_of_columns(channel.target, columns)


def hyper_of_columns(target: Target, columns: Iterable[Mapping[Value, Fraction]], scales: Iterable[int] = ()) -> Hyper:
    """The hyper-distribution of the columns of a joint matrix, each with the probabilities above 0 of values together with one trace.

    Its scale is the least common multiple of these scales, and where none is given the least over which all probabilities are whole.
    """
    outers: dict[tuple[tuple[Value, int], ...], Fraction] = {}
    for column in columns:
        if column:
            joint = {x: column[x] for x in ascending(column)}
            inner = tuple(zip(joint, _lowest(list(joint.values()))))
            outers[inner] = outers.get(inner, Fraction(0)) + sum(joint.values())

    def by_values(a: tuple[tuple[Value, int], ...], b: tuple[tuple[Value, int], ...]) -> int:
        for (x, v), (y, w) in zip(a, b):
            if decided := compare(x, y) or v - w:
                return decided
        return len(a) - len(b)

    inners = []
    for inner in sorted(outers, key=cmp_to_key(by_values)):
        whole = sum(weight for _, weight in inner)
        inners.append(Inner(outers[inner], {x: Fraction(weight, whole) for x, weight in inner}))
    common = lcm(*scales) if (scales := list(scales)) else lcm(*((i.outer * p).denominator for i in inners for p in i.distribution.values()))
    return Hyper(target, common, tuple(inners))


def from_hyper(found: Hyper) -> Channel:
    """The channel that a hyper-distribution shows, in its reduced form: a row for each value of the prior, a column ``(i,)`` for each inner.

    With the hyper's prior it gives the hyper again (the book, chapter 4).
    """
    wanted(found, Hyper, "found")
    _bounded(len(found.inners) * len(found.prior), "the channel")
    labels: list[Label] = [(i,) for i in range(len(found.inners))]
    rows = {x: tuple(inner.outer * inner.distribution.get(x, Fraction(0)) / p for inner in found.inners) for x, p in found.prior.items()}
    return Channel(found.target, tuple(labels), rows)


def reduced(channel: Channel) -> Channel:
    """The reduced channel (the book, chapter 4): columns of zeros left out, and columns in proportion added up, each under the first one's label."""
    wanted(channel, Channel, "channel")
    found: dict[tuple[Fraction, ...], tuple[Label, list[Fraction]]] = {}
    for j, label in enumerate(channel.columns):
        column = [row[j] for row in channel.rows.values()]
        whole = sum(column)
        if whole == 0:
            continue
        key = tuple(cell / whole for cell in column)
        _, before = found.setdefault(key, (label, [Fraction(0)] * len(column)))
        before[:] = [a + b for a, b in zip(before, column)]
    columns = [column for _, column in found.values()]
    rows = {x: tuple(column[i] for column in columns) for i, x in enumerate(channel.rows)}
    return Channel(channel.target, tuple(label for label, _ in found.values()), rows)


def _channels(a: Channel, b: Channel) -> None:
    wanted(a, Channel, "a")
    wanted(b, Channel, "b")


def _same_secrets(a: Channel, b: Channel) -> None:
    _channels(a, b)
    if list(a.rows) != list(b.rows):
        raise ValueError("the channels have different secrets")


def cascade(a: Channel, b: Channel) -> Channel:
    """What ``b`` makes of what ``a`` shows, the product of both matrices (the book, chapter 8).

    Each label of ``a`` is the secret of ``b`` whose items it lists. Raises ``ValueError`` where ``b`` has no such secret.
    """
    _channels(a, b)
    secrets = {(x if isinstance(x, tuple) and len(b.target.items) > 1 else (x,)): x for x in b.rows}
    if lacking := [label for label in a.columns if label not in secrets]:
        raise ValueError(f"[{', '.join(map(format_value, lacking[0]))}] is no secret of the second channel")
    middle = [b.rows[secrets[label]] for label in a.columns]
    rows = {x: tuple(sum((p * q[j] for p, q in zip(row, middle)), Fraction(0)) for j in range(len(b.columns))) for x, row in a.rows.items()}
    return Channel(a.target, b.columns, rows)


def parallel(a: Channel, b: Channel) -> Channel:
    """Both channels, independently, about the same secret (the book, chapter 8); a column is labelled by what both show.

    Raises ``ValueError`` where their secrets differ, or there would be more than 16,777,216 cells.
    """
    _same_secrets(a, b)
    _bounded(len(a.rows) * len(a.columns) * len(b.columns), "the channel of both")
    labels = [(x, y) for x in a.columns for y in b.columns]
    rows = {x: tuple(p * q for p in a.rows[x] for q in b.rows[x]) for x in a.rows}
    return Channel(a.target, tuple(labels), rows)


def product(a: Channel, b: Channel) -> Channel:
    """Both channels, each about a secret of its own: the secret is that of both together, and a column is labelled by what both show.

    Raises ``ValueError`` where there would be more than 16,777,216 cells.
    """
    _channels(a, b)
    _bounded(len(a.rows) * len(b.rows) * len(a.columns) * len(b.columns), "the product")

    def items(channel: Channel, x: Value) -> tuple[Value, ...]:
        return x if isinstance(x, tuple) and len(channel.target.items) > 1 else (x,)

    labels = tuple((x, y) for x in a.columns for y in b.columns)
    rows: dict[Value, tuple[Fraction, ...]] = {
        items(a, x) + items(b, y): tuple(p * q for p in a.rows[x] for q in b.rows[y]) for x in a.rows for y in b.rows
    }
    return Channel(Target(a.target.items + b.target.items), labels, rows)


def _parts(a: Channel, b: Channel, probability: Rational) -> tuple[Fraction, Fraction]:
    _same_secrets(a, b)
    first = rational(probability, "probability")
    if not 0 <= first <= 1:
        raise ValueError(f"probability is {first}, and goes from 0 to 1")
    return first, 1 - first


def visible_choice(a: Channel, b: Channel, probability: Rational) -> Channel:
    """The first channel with this probability, else the second, where it is seen which (the book, chapter 8): a label is ``(0, ..)`` or ``(1, ..)``.

    Raises ``ValueError`` where their secrets differ, or it is no probability.
    """
    p, q = _parts(a, b, probability)
    labels = [(0, label) for label in a.columns] + [(1, label) for label in b.columns]
    return Channel(a.target, tuple(labels), {x: tuple(p * c for c in a.rows[x]) + tuple(q * c for c in b.rows[x]) for x in a.rows})


def hidden_choice(a: Channel, b: Channel, probability: Rational) -> Channel:
    """The first channel with this probability, else the second, where it isn't seen which (the book, chapter 8): columns of one label are added up.

    Raises ``ValueError`` where their secrets differ, or it is no probability.
    """
    p, q = _parts(a, b, probability)
    labels = [*a.columns, *(label for label in b.columns if label not in a.columns)]
    rows: dict[Value, dict[Label, Fraction]] = {x: {} for x in a.rows}
    for part, channel in ((p, a), (q, b)):
        for x, row in channel.rows.items():
            for label, cell in zip(channel.columns, row):
                rows[x][label] = rows[x].get(label, Fraction(0)) + part * cell
    return _of_joint(a.target, labels, rows)
