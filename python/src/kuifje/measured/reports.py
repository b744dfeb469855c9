"""A report on measured code as one HTML file: the numbers, and each source with its lines coloured by what they first tell."""

from __future__ import annotations

import html
from collections.abc import Iterable
from fractions import Fraction
from math import ceil
from pathlib import Path

from ..listings import COLOURS, INK
from .judgements import Judged, path_of
from .lines import Lines, Told

__all__ = ["report", "source_listing"]

LEVELS = len(COLOURS) - 1
STYLE = (
    "body{font:17px/1.45 system-ui,sans-serif;color:#1a1a1a;max-width:62rem;margin:2rem auto;padding:0 1rem}"
    "table{border-collapse:collapse}td,th{padding:.05rem .5rem;text-align:left;font-variant-numeric:tabular-nums}"
    "td.text{white-space:pre-wrap;font-family:monospace}pre{white-space:pre-wrap}"
)


def _level(told: Told, most: Fraction) -> int:
    """In how many quarters of what the most telling line tells, rounded up; classes that weigh little are the first quarter."""
    middle = (told.bits.low + told.bits.high) / 2
    return max(1, ceil(LEVELS * middle / most)) if most > 0 else 1


def source_listing(path: str, lines: Lines) -> str:
    """The source of a path as a table, each line with the bits that are first told there, and coloured by them. Empty where it can't be read."""
    here = {told.place.line: told for told in lines.told if told.place.path == path and told.place.line}
    try:
        text = Path(path).read_text(encoding="utf-8", errors="replace").splitlines()
    except OSError:
        return ""
    most = max(((told.bits.low + told.bits.high) / 2 for told in here.values()), default=Fraction(0))
    rows = []
    for number, line in enumerate(text, 1):
        told = here.get(number)
        level = _level(told, most) if told else 0
        style = f' style="background:{COLOURS[level]};color:{INK}"' if level else ""
        beside = f"{float(told.bits):.3f} bits, {told.left} left without it {'▮' * level}{'▯' * (LEVELS - level)}" if told else ""
        rows.append(f'<tr{style}><th scope="row">{number}</th><td>{beside}</td><td class="text">{html.escape(line)}</td></tr>')
    head = '<tr><th scope="col">line</th><th scope="col">first told here</th><th scope="col">text</th></tr>'
    return f"<table><thead>{head}</thead><tbody>{''.join(rows)}</tbody></table>"


def _section(one: Judged) -> str:
    text = f"<h2>{html.escape(one.file)}: {html.escape(one.title)}</h2>"
    for finding in one.findings:
        text += f"<p>{html.escape(str(finding))}</p>"
    if one.cause is not None:
        return text + f"<p>There is no answer: {html.escape(str(one.cause))}</p>"
    known = f", with {one.public}" if one.public else ""
    numbers = f"prior {one.prior}, posterior {one.posterior}, capacity {one.capacity}, {one.classes} classes{known}"
    text += f"<p>{html.escape(one.summary)}.</p><p>By the proved program: {html.escape(numbers)}.</p>"
    if one.lines is not None:
        text += f"<p>Worked out here, and not proved:</p><pre>{html.escape(str(one.lines)) or 'nothing is told anywhere'}</pre>"
        for path in sorted({told.place.path for told in one.lines.told if told.place.path}):
            shown = next(path_of(told.place) for told in one.lines.told if told.place.path == path)
            if listed := source_listing(path, one.lines):
                text += f"<h3>{html.escape(shown)}</h3>{listed}"
    return text


def report(judged: Iterable[Judged], title: str = "What compiled code leaks") -> str:
    """The report on some judgements, as HTML: one file that needs no other."""
    sections = "".join(map(_section, judged))
    head = f'<meta charset="utf-8"><meta name="viewport" content="width=device-width"><title>{html.escape(title)}</title><style>{STYLE}</style>'
    return f'<!DOCTYPE html>\n<html lang="en"><head>{head}</head><body><h1>{html.escape(title)}</h1>{sections}</body></html>\n'
