"""What the program prints, as objects, and back: ``str(read(text)) == text`` for each printed text.

Each class has a ``parse`` that reads exactly what the program prints of its kind, and raises ``ValueError`` of anything else; ``str`` prints it
again, byte by byte. Probabilities and vulnerabilities are ``fractions.Fraction``.
"""

from __future__ import annotations

import html
import json
import re
from collections.abc import Iterable, Iterator, Mapping, Sequence
from dataclasses import dataclass, field, fields, is_dataclass
from fractions import Fraction
from functools import cached_property, lru_cache
from typing import TYPE_CHECKING, ClassVar, TypeVar

from .values import Value, ascending, format_value, parse_value, split_values

if TYPE_CHECKING:
    import pandas

__all__ = [
    "Action",
    "Attack",
    "Blame",
    "BlameLine",
    "Capacity",
    "Composition",
    "GainTable",
    "Hyper",
    "Inner",
    "Item",
    "Leakage",
    "Left",
    "Lines",
    "LossTable",
    "Made",
    "Mark",
    "Matrix",
    "Move",
    "Reach",
    "Silent",
    "Target",
    "Trace",
    "TraceTable",
    "Trail",
    "Verdict",
]

_FRACTION = re.compile(r"-?(?:0|[1-9][0-9]*)(?:/[1-9][0-9]*)?")
SHORT = 40  # lines of a text that a session shows
LONG = 200  # rows of a table that a notebook shows
T = TypeVar("T")


@lru_cache(maxsize=1 << 14)
def read_fraction(text: str) -> Fraction:
    """The fraction of a printed text, which is in lowest terms."""
    if not _FRACTION.fullmatch(text):
        raise ValueError(f"{text!r} is no fraction")
    value = Fraction(text)
    if str(value) != text:
        raise ValueError(f"{text!r} isn't in lowest terms")
    return value


def read_number(text: str) -> int:
    """The number of a printed text. Raises ``ValueError`` where it is none."""
    if not re.fullmatch(r"0|[1-9][0-9]*", text):
        raise ValueError(f"{text!r} is no number")
    return int(text)


class Reader:
    """The lines of a printed text, one taken after the other."""

    def __init__(self, text: str) -> None:
        if not text.endswith("\n"):
            raise ValueError("the text doesn't end with a line feed")
        self._lines = text[:-1].split("\n")
        self._at = 0

    def peek(self) -> str | None:
        """The next line; none after the last one."""
        return self._lines[self._at] if self._at < len(self._lines) else None

    def take(self, word: str) -> str:
        """What stands after a word in the next line."""
        line = self.peek()
        if line is None or not line.startswith(word + " "):
            raise ValueError(f"line {self._at + 1}: wanted {word!r}, and there is {line!r}")
        self._at += 1
        return line[len(word) + 1 :]

    def next_line(self) -> str:
        """Takes the next line. Raises ``ValueError`` where there is none."""
        line = self.peek()
        if line is None:
            raise ValueError("the text ends too early")
        self._at += 1
        return line

    def indented(self) -> Iterator[str]:
        """The lines from here on that begin with two spaces, without these."""
        while (line := self.peek()) is not None and line.startswith("  "):
            self._at += 1
            yield line[2:]

    def end(self) -> None:
        """Raises ``ValueError`` where there is one more line."""
        if (line := self.peek()) is not None:
            raise ValueError(f"line {self._at + 1}: {line!r} stands after the end")


def _split_last(line: str) -> tuple[str, str]:
    """What stands before the last blank of a line, and what stands after it."""
    before, blank, after = line.rpartition(" ")
    if not blank:
        raise ValueError(f"{line!r} has no blank")
    return before, after


def _weights(lines: Iterable[str]) -> dict[Value, Fraction]:
    found: dict[Value, Fraction] = {}
    for line in lines:
        value, fraction = _split_last(line)
        found[parse_value(value)] = read_fraction(fraction)
    return found


def _print_weights(weights: Mapping[Value, Fraction]) -> str:
    return "".join(f"  {format_value(value)} {fraction}\n" for value, fraction in weights.items())


def _keyed(lines: Reader, word: str, *keys: str) -> tuple[str, ...]:
    """The values of a line of words: of ``inner 0 outer 1/2`` the texts after ``inner`` and ``outer``."""
    rest = lines.take(word)
    found = []
    for key in keys:
        value, between, rest = rest.partition(f" {key} ")
        if not between:
            raise ValueError(f"{rest!r} lacks {key!r}")
        found.append(value)
    return (*found, rest)


@dataclass(frozen=True)
class Item:
    """An item of a target: a variable, as it was before the first statement (``old``) or as it is after the last."""

    name: str
    old: bool

    def __str__(self) -> str:
        return f"old {self.name}" if self.old else self.name


@dataclass(frozen=True)
class Target:
    """What posteriors are about: items, whose values come as one value where there is one item, else as a tuple."""

    items: tuple[Item, ...]

    @classmethod
    def parse(cls, text: str) -> Target:
        """The target of a printed text, like ``old x, y``. Raises ``ValueError`` where it is none."""
        items = tuple(Item(word.removeprefix("old "), word.startswith("old ")) for word in text.split(", "))
        if any(not item.name or " " in item.name for item in items):
            raise ValueError(f"{text!r} is no target")
        return cls(items)

    @property
    def is_initial(self) -> bool:
        """Whether each item is asked about as it was before the first statement."""
        return all(item.old for item in self.items)

    def __str__(self) -> str:
        return ", ".join(map(str, self.items))


@dataclass(frozen=True, kw_only=True, repr=False)
class Printed:
    """What the program printed: ``str`` is the printed text.

    ``question`` is a sentence that says what was asked, where the answer came of a question.
    """

    question: str | None = field(default=None, compare=False)

    def __repr__(self) -> str:
        """The printed text below the kind of answer that it is; of a long text its first lines, and how many more there are."""
        lines = str(self).splitlines()
        more = [f".. and {len(lines) - SHORT} more lines"] if len(lines) > SHORT + 1 else lines[SHORT:]
        return "\n".join([f"<{type(self).__name__}>", *lines[:SHORT], *more])

    @classmethod
    def parse(cls: type[T], text: str) -> T:
        """The object of a printed text. Raises ``ValueError`` where it isn't one of this kind."""
        lines = Reader(text)
        found = cls._read(lines)  # type: ignore[attr-defined]
        lines.end()
        return found  # type: ignore[no-any-return]

    def records(self) -> list[dict[str, object]]:
        """The answer as rows of a table, each with the same columns: what ``to_pandas`` and notebooks show."""
        return [{f.name: getattr(self, f.name) for f in fields(self) if f.name != "question"}]

    def to_json(self) -> str:
        """The answer as JSON: fractions and values are texts, as the program prints them."""
        return json.dumps(_plain(self), ensure_ascii=False)

    def to_pandas(self) -> pandas.DataFrame:
        """The answer as a data frame. Fractions stay fractions."""
        import pandas

        return pandas.DataFrame(self.records())

    def _repr_html_(self) -> str:
        return html_table(self.records(), self.question)


def html_table(rows: Sequence[Mapping[str, object]], caption: str | None = None) -> str:
    """Rows as a table in HTML: the first ones where there are many, and how many more there are."""
    heads = "".join(f"<th>{html.escape(name)}</th>" for name in (rows[0] if rows else ()))
    body = "".join("<tr>" + "".join(f"<td>{html.escape(_shown(cell))}</td>" for cell in row.values()) + "</tr>" for row in rows[:LONG])
    more = f'<tr><td colspan="{len(rows[0])}">.. and {len(rows) - LONG} more rows</td></tr>' if len(rows) > LONG else ""
    head = f"<caption>{html.escape(caption)}</caption>" if caption else ""
    return f"<table>{head}<thead><tr>{heads}</tr></thead><tbody>{body}{more}</tbody></table>"


def _plain(found: object) -> object:
    """What JSON can hold of an answer."""
    if is_dataclass(found) and not isinstance(found, type):
        members = {f.name: _plain(getattr(found, f.name)) for f in fields(found) if f.name != "source"}
        return {name: member for name, member in members.items() if name != "question" or member is not None}
    if isinstance(found, Mapping):
        return {x if isinstance(x, str) else format_value(x): _plain(y) for x, y in found.items()}
    if isinstance(found, tuple):
        return [_plain(x) for x in found]
    if isinstance(found, frozenset):
        return format_value(found)
    if isinstance(found, Fraction):
        return str(found)
    return found


def format_number(number: Fraction) -> str:
    """A fraction as a text, also as a decimal number where it is no whole one."""
    return str(number) if number.denominator == 1 else f"{number} ({float(number):.4g})"


def _shown(cell: object) -> str:
    """A cell of a table as a text; a probability also as a decimal number."""
    if isinstance(cell, Fraction):
        return format_number(cell)
    if isinstance(cell, (bool, tuple, frozenset)):
        return format_value(cell)
    return str(cell)


@dataclass(frozen=True)
class Inner:
    """A posterior distribution that a run may leave, and with which probability it does (its outer)."""

    outer: Fraction
    distribution: Mapping[Value, Fraction]

    def __str__(self) -> str:
        return _print_weights(self.distribution)


@dataclass(frozen=True, repr=False)
class Hyper(Printed):
    """A hyper-distribution: a distribution on posterior distributions (inners) of the target.

    ``scale`` is the number over which all joint probabilities are whole.
    """

    target: Target
    scale: int
    inners: tuple[Inner, ...]

    @classmethod
    def _read(cls, lines: Reader) -> Hyper:
        target, scale = Target.parse(lines.take("target")), read_number(lines.take("scale"))
        inners = []
        for i in range(read_number(lines.take("inners"))):
            number, outer = _keyed(lines, "inner", "outer")
            if number != str(i):
                raise ValueError(f"inner {number} stands where inner {i} should")
            inners.append(Inner(read_fraction(outer), _weights(lines.indented())))
        return cls(target, scale, tuple(inners))

    @property
    def outers(self) -> tuple[Fraction, ...]:
        """The probability of each inner, in their order; they sum to 1."""
        return tuple(inner.outer for inner in self.inners)

    @cached_property
    def prior(self) -> dict[Value, Fraction]:
        """The distribution of the target before anything is seen: the average of the inners by their outers, its values ascending."""
        found: dict[Value, Fraction] = {}
        for inner in self.inners:
            for value, probability in inner.distribution.items():
                found[value] = found.get(value, Fraction(0)) + inner.outer * probability
        return {value: found[value] for value in ascending(found)}

    def records(self) -> list[dict[str, object]]:
        """A row for each value of each inner: ``inner`` (from 0), ``outer``, ``value``, ``probability``."""
        return [
            {"inner": i, "outer": inner.outer, "value": format_value(x), "probability": p}
            for i, inner in enumerate(self.inners)
            for x, p in inner.distribution.items()
        ]

    def __str__(self) -> str:
        head = f"target {self.target}\nscale {self.scale}\ninners {len(self.inners)}\n"
        return head + "".join(f"inner {i} outer {inner.outer}\n{inner}" for i, inner in enumerate(self.inners))


@dataclass(frozen=True)
class Trace:
    """What a run shows, the probability of that, and the joint probability with each value of the target."""

    shown: tuple[Value, ...]
    probability: Fraction
    joint: Mapping[Value, Fraction]

    @property
    def text(self) -> str:
        """The values that are shown, as the program prints them: ``[0, true]``."""
        return f"[{', '.join(map(format_value, self.shown))}]"


@dataclass(frozen=True, repr=False)
class TraceTable(Printed):
    """All traces of a program, ascending."""

    target: Target
    scale: int
    traces: tuple[Trace, ...]

    @classmethod
    def _read(cls, lines: Reader) -> TraceTable:
        target, scale = Target.parse(lines.take("target")), read_number(lines.take("scale"))
        traces = []
        for _ in range(read_number(lines.take("traces"))):
            shown, weight = _keyed(lines, "trace", "weight")
            traces.append(Trace(split_values(shown), read_fraction(weight), _weights(lines.indented())))
        return cls(target, scale, tuple(traces))

    def records(self) -> list[dict[str, object]]:
        """A row for each value of each trace: ``trace``, ``weight``, ``value``, ``joint``."""
        return [{"trace": t.text, "weight": t.probability, "value": format_value(x), "joint": p} for t in self.traces for x, p in t.joint.items()]

    def __str__(self) -> str:
        head = f"target {self.target}\nscale {self.scale}\ntraces {len(self.traces)}\n"
        return head + "".join(f"trace {t.text} weight {t.probability}\n{_print_weights(t.joint)}" for t in self.traces)


@dataclass(frozen=True, repr=False)
class Leakage(Printed):
    """How much a gain function's best action gains before (prior vulnerability) and after (posterior vulnerability) a run is seen."""

    gain: str
    prior_vulnerability: Fraction
    posterior_vulnerability: Fraction
    multiplicative_leakage: Fraction | None
    additive_leakage: Fraction

    @classmethod
    def _read(cls, lines: Reader) -> Leakage:
        gain = lines.take("gain")
        prior, posterior, quotient = lines.take("prior"), lines.take("posterior"), lines.take("quotient")
        return cls(
            gain,
            read_fraction(prior),
            read_fraction(posterior),
            None if quotient == "undefined" else read_fraction(quotient),
            read_fraction(lines.take("difference")),
        )

    def __str__(self) -> str:
        quotient = "undefined" if self.multiplicative_leakage is None else self.multiplicative_leakage
        return (
            f"gain {self.gain}\nprior {self.prior_vulnerability}\nposterior {self.posterior_vulnerability}\n"
            f"quotient {quotient}\ndifference {self.additive_leakage}\n"
        )

    def _repr_html_(self) -> str:
        from .field_words import leakage_rows

        return html_table(leakage_rows(self), self.question)


@dataclass(frozen=True)
class Move:
    """What is best done at an inner: ``value`` is the vulnerability there (for guessing the expected number of guesses)."""

    outer: Fraction
    value: Fraction
    actions: Mapping[str, Fraction]


@dataclass(frozen=True, repr=False)
class Attack(Printed):
    """What an adversary does best at each inner: values to guess with their probabilities, or actions with what they gain."""

    gain: str
    moves: tuple[Move, ...]

    @classmethod
    def _read(cls, lines: Reader) -> Attack:
        gain = lines.take("gain")
        moves: list[Move] = []
        while lines.peek() is not None:
            number, outer, value = _keyed(lines, "inner", "outer", "value")
            if number != str(len(moves)):
                raise ValueError(f"inner {number} stands where inner {len(moves)} should")
            pairs = (_split_last(line) for line in lines.indented())
            moves.append(Move(read_fraction(outer), read_fraction(value), {action: read_fraction(f) for action, f in pairs}))
        return cls(gain, tuple(moves))

    def records(self) -> list[dict[str, object]]:
        """A row for each action of each inner: ``inner`` (from 0), ``outer``, ``vulnerability``, ``action``, ``gains``."""
        return [
            {"inner": i, "outer": m.outer, "vulnerability": m.value, "action": a, "gains": f}
            for i, m in enumerate(self.moves)
            for a, f in m.actions.items()
        ]

    def __str__(self) -> str:
        def move(i: int, m: Move) -> str:
            return f"inner {i} outer {m.outer} value {m.value}\n" + "".join(f"  {a} {f}\n" for a, f in m.actions.items())

        return f"gain {self.gain}\n" + "".join(move(i, m) for i, m in enumerate(self.moves))


@dataclass(frozen=True, repr=False)
class Reach(Printed):
    """The least number of tries whose posterior vulnerability is at least what was asked for, and that of one try fewer."""

    tries: int
    posterior_vulnerability: Fraction
    before: Fraction

    @classmethod
    def _read(cls, lines: Reader) -> Reach:
        return cls(read_number(lines.take("tries")), read_fraction(lines.take("posterior")), read_fraction(lines.take("before")))

    def __str__(self) -> str:
        return f"tries {self.tries}\nposterior {self.posterior_vulnerability}\nbefore {self.before}\n"


@dataclass(frozen=True, repr=False)
class Trail(Printed):
    """How many inners about all variables there are after so many top-level statements, from 0 on."""

    inners: tuple[int, ...]

    @classmethod
    def _read(cls, lines: Reader) -> Trail:
        counts: list[int] = []
        while lines.peek() is not None:
            number, count = _keyed(lines, "after", "inners")
            if number != str(len(counts)):
                raise ValueError(f"after {number} stands where after {len(counts)} should")
            counts.append(read_number(count))
        return cls(tuple(counts))

    def records(self) -> list[dict[str, object]]:
        """A row for each number of statements, from 0 on: ``after``, ``inners``."""
        return [{"after": i, "inners": count} for i, count in enumerate(self.inners)]

    def __str__(self) -> str:
        return "".join(f"after {i} inners {count}\n" for i, count in enumerate(self.inners))


@dataclass(frozen=True)
class BlameLine:
    """How many inners a hyper has, and its posterior Bayes vulnerability."""

    inners: int
    bayes: Fraction


@dataclass(frozen=True, repr=False)
class Blame(Printed):
    """How much the program leaks, and how much where each top-level statement alone shows nothing."""

    all: BlameLine
    without: tuple[BlameLine, ...]

    @classmethod
    def _read(cls, lines: Reader) -> Blame:
        def line(word: str) -> BlameLine:
            inners, bayes = _keyed(lines, word, "bayes")
            return BlameLine(read_number(inners), read_fraction(bayes))

        whole = line("all inners")
        without: list[BlameLine] = []
        while lines.peek() is not None:
            without.append(line(f"without {len(without)} inners"))
        return cls(whole, tuple(without))

    def records(self) -> list[dict[str, object]]:
        """A row for the whole program, and one for each statement without which it was run: ``program``, ``inners``, ``bayes``."""
        lines = [("all", self.all), *((f"without {i}", line) for i, line in enumerate(self.without))]
        return [{"program": name, "inners": line.inners, "bayes": line.bayes} for name, line in lines]

    def __str__(self) -> str:
        found = f"all inners {self.all.inners} bayes {self.all.bayes}\n"
        return found + "".join(f"without {i} inners {b.inners} bayes {b.bayes}\n" for i, b in enumerate(self.without))


@dataclass(frozen=True)
class Left:
    """How many inners a hyper has, and its posterior vulnerability under a gain function (for guessing the expected number of guesses)."""

    inners: int
    posterior: Fraction


@dataclass(frozen=True)
class Silent:
    """A statement that may show something, by the place where it begins, and what is left where it alone shows nothing.

    ``line`` and ``column`` are counted from 1, columns in bytes.
    """

    line: int
    column: int
    inners: int
    posterior: Fraction

    @property
    def place(self) -> str:
        """Where the statement begins, as the program prints it: ``3:12``."""
        return f"{self.line}:{self.column}"


@dataclass(frozen=True, repr=False)
class Lines(Printed):
    """How much the program leaks, and how much where each statement alone shows nothing, wherever it stands; these are in the order of the text.

    ``source`` is the program's text, where the answer came of a question: a notebook shows it with each line coloured by what is lost without it.
    """

    all: Left
    without: tuple[Silent, ...]
    source: str | None = field(default=None, compare=False, kw_only=True)

    @classmethod
    def _read(cls, lines: Reader) -> Lines:
        inners, posterior = _keyed(lines, "all inners", "posterior")
        whole = Left(read_number(inners), read_fraction(posterior))
        without: list[Silent] = []
        last = 1, 0
        while (text := lines.peek()) is not None:
            place = text.partition(" ")[0]
            line, _, column = place.partition(":")
            inners, posterior = _keyed(lines, f"{place} inners", "posterior")
            without.append(Silent(read_number(line), read_number(column), read_number(inners), read_fraction(posterior)))
            before, last = last, (without[-1].line, without[-1].column)
            if last[1] == 0 or last <= before:
                raise ValueError(f"{place} stands where a later place should")
        return cls(whole, tuple(without))

    def records(self) -> list[dict[str, object]]:
        """A row for the whole program, and one for each statement without which it was run: ``place``, ``inners``, ``posterior``."""
        rows: list[tuple[str, Left | Silent]] = [("all", self.all), *((silent.place, silent) for silent in self.without)]
        return [{"place": place, "inners": found.inners, "posterior": found.posterior} for place, found in rows]

    def __str__(self) -> str:
        found = f"all inners {self.all.inners} posterior {self.all.posterior}\n"
        return found + "".join(f"{s.place} inners {s.inners} posterior {s.posterior}\n" for s in self.without)

    def _repr_html_(self) -> str:
        from .listings import listing

        if self.source is None:
            return super()._repr_html_()
        return listing(self.source, self, self.question) + html_table(self.records())


@dataclass(frozen=True, repr=False)
class Capacity(Printed):
    """The Bayes capacity of a channel: the sum of its columns' greatest cells."""

    capacity: Fraction

    @classmethod
    def _read(cls, lines: Reader) -> Capacity:
        return cls(read_fraction(lines.take("capacity")))

    def __str__(self) -> str:
        return f"capacity {self.capacity}\n"


@dataclass(frozen=True, repr=False)
class Composition(Printed):
    """The Bayes capacities of two channels, and of what is put together of them, with its numbers of rows and columns."""

    rows: int
    columns: int
    first: Fraction
    second: Fraction
    both: Fraction

    @classmethod
    def _read(cls, lines: Reader) -> Composition:
        sizes = read_number(lines.take("rows")), read_number(lines.take("columns"))
        return cls(*sizes, *(read_fraction(lines.take(word)) for word in ("first", "second", "both")))

    def __str__(self) -> str:
        return f"rows {self.rows}\ncolumns {self.columns}\nfirst {self.first}\n" f"second {self.second}\nboth {self.both}\n"


@dataclass(frozen=True, repr=False)
class Made(Printed):
    """A summary of the hyper of a program that the program makes itself."""

    observations: int
    scale: int
    inners: int
    last: Fraction

    @classmethod
    def _read(cls, lines: Reader) -> Made:
        observations, scale, inners = (read_number(lines.take(word)) for word in ("observations", "scale", "inners"))
        return cls(observations, scale, inners, read_fraction(lines.take("last")))

    def __str__(self) -> str:
        return f"observations {self.observations}\nscale {self.scale}\ninners {self.inners}\nlast {self.last}\n"


@dataclass(frozen=True)
class Matrix:
    """A matrix with a row for each inner of the first hyper and a column for each inner of the second; each row sums to 1."""

    rows: tuple[tuple[Fraction, ...], ...]


@dataclass(frozen=True)
class Action:
    """An action of a gain table: its name, and what it gains at the values that it names, in units of 1 / ``over``."""

    name: str
    gains: Mapping[Value, int]


@dataclass(frozen=True)
class GainTable:
    """A gain function as a table: an action gains ``gains[x] / over`` at a value that it names, and ``rest / over`` at any other."""

    over: int
    rest: int
    actions: tuple[Action, ...]

    def gain(self, action: Action, value: Value) -> Fraction:
        """What an action gains where the target has this value."""
        return Fraction(action.gains.get(value, self.rest), self.over)

    def vulnerability(self, distribution: Mapping[Value, Fraction]) -> Fraction:
        """What the best action is expected to gain where the target has this distribution."""
        return max(sum((p * self.gain(action, value) for value, p in distribution.items()), Fraction(0)) for action in self.actions)

    @staticmethod
    def loss(over: int, rest: int, actions: Iterable[Action]) -> LossTable:
        """A loss function by its table: an action loses ``gains[x] / over`` at a value that it names, and ``rest / over`` at any other.

        A ``rest`` of 0 makes an action that names little the best one: it is the loss where nothing is named, often the greatest.
        """
        return LossTable(over, -rest, tuple(Action(action.name, {x: -number for x, number in action.gains.items()}) for action in actions))


@dataclass(frozen=True)
class LossTable(GainTable):
    """A loss function, held as the gain function whose gains are the negated losses: each question about gains takes it as that.

    ``GainTable.loss``, ``kuifje.losses.read`` and ``kuifje.losses.loss_table`` make one, ``kuifje.losses.leak_loss`` asks what is lost under it.
    """

    def lost(self, action: Action, value: Value) -> Fraction:
        """What an action loses where the target has this value."""
        return -self.gain(action, value)

    def uncertainty(self, distribution: Mapping[Value, Fraction]) -> Fraction:
        """What the best action is expected to lose where the target has this distribution (the book, chapter 3)."""
        return -self.vulnerability(distribution)


@dataclass(frozen=True, repr=False)
class Verdict(Printed):
    """Whether the second program leaks no more than the first, with the matrix or the gain function that proves it."""

    refines: bool
    matrix: Matrix | None
    table: GainTable | None

    @classmethod
    def _read(cls, lines: Reader) -> Verdict:
        word = lines.take("refines")
        if word == "yes":
            rows, columns = map(read_number, lines.take("matrix").split(" "))
            return cls(True, Matrix(tuple(_matrix_row(lines, columns) for _ in range(rows))), None)
        if word != "no":
            raise ValueError(f"{word!r} is no verdict")
        over, rest = read_number(lines.take("over")), int(lines.take("rest"))
        actions = []
        for _ in range(read_number(lines.take("actions"))):
            name = lines.take("action")
            pairs = (_split_last(line) for line in lines.indented())
            actions.append(Action(name, {parse_value(value): int(gain) for value, gain in pairs}))
        return cls(False, None, GainTable(over, rest, tuple(actions)))

    def records(self) -> list[dict[str, object]]:
        """The proof: a row for each inner with its entries of the matrix, or one for each gain of the table."""
        if self.matrix is not None:
            return [{"inner": i, **{f"to {j}": entry for j, entry in enumerate(row)}} for i, row in enumerate(self.matrix.rows)]
        assert self.table is not None
        return [
            {"action": action.name, "value": format_value(value), "gains": Fraction(gain, self.table.over)}
            for action in self.table.actions
            for value, gain in action.gains.items()
        ]

    def __str__(self) -> str:
        if self.matrix is not None:
            rows = self.matrix.rows
            head = f"refines yes\nmatrix {len(rows)} {len(rows[0])}\n"
            return head + "".join(" ".join(map(str, row)) + "\n" for row in rows)
        assert self.table is not None
        table = self.table
        head = f"refines no\nover {table.over}\nrest {table.rest}\nactions {len(table.actions)}\n"
        return head + "".join(
            f"action {action.name}\n" + "".join(f"  {format_value(v)} {g}\n" for v, g in action.gains.items()) for action in table.actions
        )


def _matrix_row(lines: Reader, columns: int) -> tuple[Fraction, ...]:
    row = tuple(map(read_fraction, lines.next_line().split(" ")))
    if len(row) != columns:
        raise ValueError(f"a row has {len(row)} entries for {columns} columns")
    return row


@dataclass(frozen=True, repr=False)
class Mark(Printed):
    """What a check says of a certificate: accepted, or the first rule that it breaks."""

    rejected: str | None

    RULES: ClassVar[tuple[str, ...]] = ("shape", "range", "sum", "cell", "value", "order")

    @property
    def accepted(self) -> bool:
        """Whether the certificate proves its verdict."""
        return self.rejected is None

    @classmethod
    def _read(cls, lines: Reader) -> Mark:
        line = lines.next_line()
        if line == "accepted":
            return cls(None)
        if line.startswith("rejected ") and line.removeprefix("rejected ") in cls.RULES:
            return cls(line.removeprefix("rejected "))
        raise ValueError(f"{line!r} is no mark")

    def __str__(self) -> str:
        return "accepted\n" if self.rejected is None else f"rejected {self.rejected}\n"
