"""Answers in the words of *The Science of Quantitative Information Flow* (2020), with bits beside them, rounded.

What the program prints stays as it is: ``str`` of an answer has its bytes.
"""

from __future__ import annotations

from fractions import Fraction

from .gains import less_is_worse
from .intervals import log2
from .texts import Leakage, format_number

__all__ = ["BITS", "bits", "leakage_lines", "leakage_rows"]

BITS = "bits of min-entropy, rounded"
PLACES = 3


def bits(number: Fraction) -> str:
    """The binary logarithm of a number above 0, rounded to three decimal places."""
    return f"{float(log2(number)):.{PLACES}f}"


def _measures(found: Leakage) -> list[tuple[str, Fraction | None, Fraction | None]]:
    """Each measure with its value, none where it is undefined, and the number whose logarithm is its bits, none where it has none."""
    multiplicative = found.multiplicative_leakage
    if less_is_worse(found.gain):
        return [
            ("prior guessing entropy", found.prior_vulnerability, None),
            ("posterior guessing entropy", found.posterior_vulnerability, None),
            ("posterior divided by prior, at most 1", multiplicative, None),
            ("posterior less prior, at most 0", found.additive_leakage, None),
        ]
    has_bits = found.gain == "bayes"
    return [
        ("prior vulnerability", found.prior_vulnerability, 1 / found.prior_vulnerability if has_bits else None),
        ("posterior vulnerability", found.posterior_vulnerability, 1 / found.posterior_vulnerability if has_bits else None),
        ("multiplicative leakage", multiplicative, multiplicative if has_bits else None),
        ("additive leakage", found.additive_leakage, None),
    ]


def leakage_rows(found: Leakage) -> list[dict[str, object]]:
    """A row for each measure of a report: ``measure``, ``value``, and for one guess its bits.

    The bits of a vulnerability V are the min-entropy log2(1/V), those of the multiplicative leakage the min-entropy leakage. Under other gains the
    logarithms have no such names, and aren't shown.
    """
    rows: list[dict[str, object]] = []
    for name, value, counted in _measures(found):
        row: dict[str, object] = {"measure": name, f"value under {found.gain}": "undefined" if value is None else value}
        if found.gain == "bayes":
            row[BITS] = "" if counted is None else bits(counted)
        rows.append(row)
    return rows


def leakage_lines(found: Leakage) -> str:
    """The same as lines of text, below the gain."""
    rows = _measures(found)
    width = max(len(name) for name, _, _ in rows)
    values = ["undefined" if value is None else format_number(value) for _, value, _ in rows]
    wide = max(map(len, values))
    lines = [f"gain {found.gain}" + (f"{'':{width + wide - len(found.gain) - 1}}{BITS}" if found.gain == "bayes" else "")]
    for (name, _, counted), value in zip(rows, values):
        lines.append(f"{name:{width}}  {value:{wide}}  {'' if counted is None else bits(counted)}".rstrip())
    return "".join(f"{line}\n" for line in lines)
