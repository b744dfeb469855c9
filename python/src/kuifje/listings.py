"""A program's text as a table in HTML, each line coloured by what is lost if the statements that begin on it show nothing.

The darkest line is the one without which most is lost, the others have their share of that in quarters rounded up. The number stands beside the
line, with a bar of four marks, so that nothing is said by colour alone.
"""

from __future__ import annotations

import html
from collections.abc import Sequence
from fractions import Fraction
from math import ceil

from .texts import Lines, format_number

__all__ = ["listing"]

COLOURS = ("", "#fde8dc", "#fbcfb3", "#f7b083", "#f08f52")  # by quarters of the greatest loss: as on the page for browsers
INK = "#16191d"
LEVELS = len(COLOURS) - 1
MOST = 1000  # lines of a text that are shown
NOTHING = "0: worth nothing to this adversary beside the other lines, though it may show something"


def _style(level: int, more: str = "") -> str:
    """The colours of a level, which are printed too."""
    coloured = f"background:{COLOURS[level]};color:{INK};print-color-adjust:exact;-webkit-print-color-adjust:exact;" if level else ""
    return f' style="{coloured}{more}"' if coloured or more else ""


def _bar(level: int) -> str:
    return f'<span aria-hidden="true">{"▮" * level}{"▯" * (LEVELS - level)}</span>'


def _level(loss: Fraction, greatest: Fraction) -> int:
    """In how many parts of the greatest loss, rounded up, a loss lies."""
    return ceil(LEVELS * loss / greatest) if loss else 0


def _legend(greatest: Fraction, word: str) -> str:
    entries = [(0, NOTHING)]
    for level in range(1, LEVELS + 1 if greatest else 1):
        entries.append((level, f"up to {format_number(greatest * level / LEVELS)} {word}{', the most' if level == LEVELS else ''}"))
    items = "".join(f"<li{_style(level, 'padding:0 .4em;')}>{_bar(level)} {html.escape(said)}</li>" for level, said in entries)
    return f'<ul aria-label="What the colours of lines mean" style="list-style:none;padding:0;">{items}</ul>'


def _row(number: int, line: str, losses: Sequence[Fraction], greatest: Fraction, sign: str) -> str:
    level = max((_level(loss, greatest) for loss in losses), default=0)
    numbers = ", ".join(f"{sign if loss else ''}{format_number(loss)}" for loss in losses)
    beside = f"{numbers} {_bar(level)}" if losses else ""
    text = f'<td style="text-align:left;white-space:pre-wrap;font-family:monospace;">{html.escape(line)}</td>'
    return f'<tr{_style(level)}><th scope="row">{number}</th><td style="white-space:nowrap;text-align:right;">{beside}</td>{text}</tr>'


def listing(text: str, found: Lines | None = None, caption: str | None = None, first: int = 1) -> str:
    """The text with what its lines leak, by an answer of ``lines`` about it; without one, the text alone.

    Beside a line stands by how much the posterior vulnerability would be less if the statement that begins there alone showed nothing (under
    ``guessing`` how many more guesses would be expected), for each statement that begins there. ``first`` is the number of the text's first line, if
    it is a part of a file. Raises ``ValueError`` where the answer has a line that the text hasn't.
    """
    lines = text.removesuffix("\n").split("\n")
    losses: dict[int, list[Fraction]] = {}
    for silent in found.without if found else ():
        if not first <= silent.line < first + len(lines):
            raise ValueError(f"the text has no line {silent.line}")
        losses.setdefault(silent.line, []).append(found.all.posterior - silent.posterior if found else Fraction(0))
    more = any(loss < 0 for some in losses.values() for loss in some)
    sign, word, head = ("+", "more guesses", "so many more guesses without it") if more else ("−", "less", "so much less without it")
    greatest = max((abs(loss) for some in losses.values() for loss in some), default=Fraction(0))
    rows = "".join(_row(i, line, [abs(loss) for loss in losses.get(i, ())], greatest, sign) for i, line in enumerate(lines[:MOST], first))
    rows += f'<tr><td colspan="3">.. and {len(lines) - MOST} more lines</td></tr>' if len(lines) > MOST else ""
    heads = "".join(f'<th scope="col">{name}</th>' for name in ("line", head if found else "", "text"))
    above = f"<caption>{html.escape(caption)}</caption>" if caption else ""
    table = f'<table class="listing">{above}<thead><tr>{heads}</tr></thead><tbody>{rows}</tbody></table>'
    return (_legend(greatest, word) if losses else "") + table
