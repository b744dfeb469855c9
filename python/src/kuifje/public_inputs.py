"""Public inputs of a model: those under which most leaks, an attacker's choice, and those under which least does, a defender's.

Each number is the proved program's; what is compared of them is compared here.
"""

from __future__ import annotations

import re
from collections.abc import Callable, Mapping, Sequence
from dataclasses import dataclass
from fractions import Fraction
from operator import itemgetter
from typing import TYPE_CHECKING, Any, ClassVar

from .gains import measured
from .model import Model, Role
from .priors import Prior, declarations, difference
from .program import Program
from .texts import Leakage, html_table
from .words import read

if TYPE_CHECKING:
    import pandas

__all__ = ["Best", "Inputs", "Measure", "Worst", "best", "inputs_text", "measure_all", "worst"]

OTHER_PRIORS = (
    ', so such numbers don\'t say which leaks more: ask of leak, by of="multiplicative_leakage" or of="additive_leakage", or of capacity; '
    "own_prior=True says of a function that it compares each program with its own prior"
)
Inputs = Mapping[str, Any]
Measure = str | Callable[[Program], object]


def inputs_text(inputs: Inputs) -> str:
    """Public inputs in words: ``guess = 3, day = 1``."""
    return ", ".join(f"{name} = {value!r}" for name, value in inputs.items()) or "no input"


# ---- the input that leaks most


@dataclass(frozen=True, repr=False)
class _Chosen:
    """The public inputs that were chosen (of equal ones the first), what was measured there, and what was measured for each of the others.

    ``least`` says whether the least number means the greatest leakage. ``fixed`` are the public inputs that keep one value, since they are declared
    by that value and not by ``one_of``.
    """

    AMOUNT: ClassVar[str]

    inputs: Inputs
    value: Fraction
    measured: tuple[tuple[Inputs, Fraction], ...]
    least: bool = False
    fixed: tuple[str, ...] = ()

    def records(self) -> list[dict[str, object]]:
        """A row for each of the inputs: their values, and ``value``."""
        return [{**inputs, "value": value} for inputs, value in self.measured]

    def to_pandas(self) -> pandas.DataFrame:
        """The table of ``records`` as a data frame."""
        import pandas

        return pandas.DataFrame(self.records())

    @property
    def _head(self) -> str:
        number = "least" if self.AMOUNT == "most" else "greatest"
        return f"{inputs_text(self.inputs)} leaks {self.AMOUNT}{f' (the {number} number)' if self.least else ''}: {self.value}"

    def __str__(self) -> str:
        lines = (f"{inputs_text(inputs)}: {value}\n" for inputs, value in self.measured)
        alone = (f"{name} has this value alone, since it isn't declared by one_of\n" for name in self.fixed)
        return "".join([f"{self._head}\n", *lines, *alone])

    def __repr__(self) -> str:
        return f"<{type(self).__name__}>\n{self._head}, of {len(self.measured)} inputs"

    def _repr_html_(self) -> str:
        return html_table(self.records(), self._head)


class Worst(_Chosen):
    """The public inputs that leak most (of equal ones the first), with their number as ``value``; ``measured`` has those of all."""

    AMOUNT = "most"


class Best(_Chosen):
    """The public inputs that leak least (of equal ones the first), with their number as ``value``; ``measured`` has those of all."""

    AMOUNT = "least"


NUMBERS = ("posterior_vulnerability", "multiplicative_leakage", "additive_leakage")  # of an answer of leak


class _Measuring:
    """Measures programs by one question or function: which number counts, whether less is worse, and what it can be compared with."""

    def __init__(self, measure: Measure, of: str, least: bool | None, own_prior: bool) -> None:
        self.ask = measure if callable(measure) else read(measure)
        self.of, self.least, self.known = of, least, False
        self.own_prior = own_prior or isinstance(measure, str) and measure.split()[:1] == ["capacity"]

    def value(self, inputs: Inputs, program: Program) -> Fraction:
        """The number of a program. Raises ``TypeError`` where there is none, and ``ValueError`` where it isn't one that counts here."""
        found = self.ask(program)
        if self.of != NUMBERS[0] and not isinstance(found, Leakage):
            raise ValueError(f"of={self.of!r} is a number of leak, and the measure gives another answer")
        value, less = measured(found, self.of)
        if value is None:
            raise ValueError(f"with {inputs_text(inputs)} the multiplicative leakage is undefined, since the prior vulnerability isn't above 0")
        if less is not None:
            if self.least is not None and self.least != less:
                raise ValueError(f"least is {self.least}, and of what is measured {'less' if less else 'more'} is worse for the secret")
            self.least = less
        self.own_prior = self.own_prior or isinstance(found, Leakage) and self.of != NUMBERS[0]
        return value


def _fixed(model: Model) -> tuple[str, ...]:
    """The public inputs with one value. Raises ``ValueError`` where no public input has several."""
    public = [parameter for parameter in model.parameters if parameter.role is Role.PUBLIC]
    fixed = tuple(parameter.name for parameter in public if parameter.domain is None)
    if not public:
        raise ValueError(f"{model.name} has no public input to go through")
    if len(fixed) == len(public):
        raise ValueError(f"{model.name} has no public input with several values: write {fixed[0]}: Public = one_of(..) with those to go through")
    return fixed


def _one_prior(asked: Sequence[tuple[Inputs, Program]], hint: str, timeout: float | None = None) -> None:
    """Raises ``ValueError`` where programs have different priors. Those with the same declarations are asked once."""
    known: dict[str, Prior] = {}
    first: tuple[Inputs, Prior] | None = None
    for inputs, program in asked:
        part = declarations(program) or program
        text = re.sub("#.*", "", part.text.decode())
        if text not in known:
            known[text] = part.hyper(timeout).prior
        first = first or (inputs, known[text])
        if difference(known[text], first[1], ("", "")) is not None:
            raise ValueError(f"the prior with {inputs_text(inputs)} isn't the one with {inputs_text(first[0])}{hint}")


def worst(
    model: Model,
    measure: Measure = "leak --gain bayes",
    *,
    of: str = "posterior_vulnerability",
    least: bool | None = None,
    own_prior: bool = False,
) -> Worst:
    """The public inputs of a model that leak most, of all that they may be.

    ``measure`` is a question in words, as ``kuifje.words`` reads them, or a function of the program that gives an answer or a number. ``of`` names
    the number of ``leak`` that counts: ``"posterior_vulnerability"``, ``"multiplicative_leakage"`` or ``"additive_leakage"``. The greatest number is
    the worst. The least is the worst under ``guessing``, for the tries of ``reach``, and for a function's numbers if ``least`` is true.

    Programs with different priors are compared by leakages and capacities only, since these measure each program against its own prior; ``own_prior``
    says that a function's numbers do so, too. Raises ``ValueError`` where other numbers are to compare programs with different priors, no public
    input has several values, or ``least`` contradicts the measure, ``TypeError`` where an input has no list of values, or an answer isn't one number,
    and what a question raises.
    """
    found, fixed, fewer = measure_all(model, measure, of, least, own_prior, "worst")
    named, value = (min if fewer else max)(found, key=itemgetter(1))
    return Worst(named, value, found, fewer, fixed)


def best(
    model: Model,
    measure: Measure = "leak --gain bayes",
    *,
    of: str = "posterior_vulnerability",
    least: bool | None = None,
    own_prior: bool = False,
) -> Best:
    """The public inputs of a model that leak least, of all that they may be: a defender who may choose them takes these.

    The arguments are those of ``worst``. The least number is the best. The greatest is the best under ``guessing``, for the tries of ``reach``, and
    for a function's numbers if ``least`` is true.
    """
    found, fixed, fewer = measure_all(model, measure, of, least, own_prior, "best")
    named, value = (max if fewer else min)(found, key=itemgetter(1))
    return Best(named, value, found, fewer, fixed)


def measure_all(
    model: Model, measure: Measure, of: str, least: bool | None, own_prior: bool, name: str
) -> tuple[tuple[tuple[Inputs, Fraction], ...], tuple[str, ...], bool]:
    """What is measured of all public inputs, which of these have one value, and whether less of it is worse for the secret; raises as ``worst``."""
    if not isinstance(model, Model):
        raise TypeError(f"{model!r} has no public inputs: {name} is asked of a model")
    if of not in NUMBERS:
        raise ValueError(f"of is {of!r}, and may be {', '.join(NUMBERS)}")
    if not (least is None or isinstance(least, bool)):
        raise TypeError(f"least is {least!r}, and may be True or False")
    measuring = _Measuring(measure, of, least, own_prior)
    inputs_of_all, fixed = list(model.inputs()), _fixed(model)
    asked = [(inputs, model.program(**inputs)) for inputs in inputs_of_all]
    found = [(inputs, measuring.value(inputs, program)) for inputs, program in asked]
    if not measuring.own_prior:
        _one_prior(asked, OTHER_PRIORS)
    return tuple(found), fixed, bool(measuring.least)
