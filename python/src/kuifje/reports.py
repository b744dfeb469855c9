"""Reports: one HTML file that opens anywhere, with all that is found about programs, and of each number whether it is proved or computed here."""

from __future__ import annotations

import ast
import base64
import warnings
from collections.abc import Callable, Iterator, Sequence
from dataclasses import dataclass, field, replace
from importlib.resources import files as resources
from pathlib import Path
from typing import Any

from jinja2 import Environment, StrictUndefined
from markupsafe import Markup

from . import measures
from .channels import Channel
from .engine import default_engine
from .errors import KuifjeError
from .gates import worst_line
from .listings import listing
from .model.errors import Place
from .model.write import Translation
from .observations import plan
from .orders import Order, order
from .program import Program
from .questions import AsItIsLeft, target_of, warning_of
from .texts import Attack, Hyper, Leakage, Lines, Move, Printed, format_number, html_table
from .field_words import bits, leakage_rows

__all__ = ["report"]

GAINS = ("bayes", "tries:2", "tries:3", "guessing")
CELLS = 150  # of a channel that is drawn, at most
BARS = 40  # inners of a hyper that is drawn, at most
LINES = 60  # of an attack that is shown, at most
FOLDED = 12  # rows or lines above which they are folded
PRINTED = 400  # lines of what the program printed that are shown, at most


@dataclass
class Part:
    """A table or a picture of the report, or why it isn't there; ``proved`` says of a table whose numbers they are."""

    title: str
    proved: bool
    table: Markup | None = None
    pictures: list[Markup] = field(default_factory=list)
    missing: str | None = None
    printed: list[Markup] = field(default_factory=list)


@dataclass
class Section:
    """What a report has of one program. ``text`` is that of a model, which is shown as it stands in Python."""

    name: str
    question: str
    warning: str | None
    listing: Markup
    text: Markup | None = None
    refusal: str | None = None
    summary: list[tuple[str, Markup]] = field(default_factory=list)
    parts: list[Part] = field(default_factory=list)


def picture(draw: Callable[[Any], Any], alt: str) -> Markup:
    """A picture as an image that stands in the page itself; ``draw`` has the module of pictures."""
    from . import pictures

    source = base64.b64encode(pictures.svg(draw(pictures)).encode()).decode()
    return Markup('<img alt="{}" src="data:image/svg+xml;base64,{}">').format(alt, source)


def _folded(count: int, what: str, shown: Markup) -> Markup:
    """Something with so many rows or lines, folded where these are many."""
    return Markup("<details><summary>{} {}</summary>{}</details>").format(count, what, shown) if count > FOLDED else shown


def _table(rows: Sequence[dict[str, object]]) -> Markup:
    shown = Markup(html_table([{name.replace("_", " "): cell for name, cell in row.items()} for row in rows]))
    return _folded(len(rows), "rows", shown)


def _lines(lines: Sequence[str], most: int) -> Markup:
    """Lines of a text, the first ones where there are many, and how many more there are."""
    more = [f".. and {len(lines) - most} more lines"] if len(lines) > most else []
    return Markup("<pre>{}</pre>").format("\n".join([*lines[:most], *more]))


def _printed(answer: Printed) -> Markup:
    """What the program printed, as it is."""
    return _lines(str(answer).splitlines(), PRINTED)


def _part(title: str, proved: bool, fill: Callable[[Part], None]) -> Part:
    """A part that says why it is empty, where a question gets no answer."""
    part = Part(title, proved)
    try:
        fill(part)
    except (KuifjeError, ValueError) as cause:
        part.missing = str(cause).partition("\n")[0]
    return part


def _own(place: Place) -> Place:
    """The place in a model's own function that a place is in, or that calls it."""
    while place.caller is not None:
        place = place.caller
    return place


def _function_of(translation: Translation) -> tuple[int, str] | None:
    """The model's function as it stands in its file, and the number of its first line. None where the file can't be read any more."""
    places = [_own(place) for place in translation.lines]
    try:
        source = Path(places[0].file).read_text(encoding="utf-8")
        tree = ast.parse(source)
    except (OSError, ValueError, SyntaxError, IndexError):
        return None
    for node in ast.walk(tree):
        if isinstance(node, ast.FunctionDef) and node.lineno == places[0].line and node.end_lineno is not None:
            first = min([node.lineno, *(decorator.lineno for decorator in node.decorator_list)])
            if all(first <= place.line <= node.end_lineno for place in places):
                return first, "\n".join(source.split("\n")[first - 1 : node.end_lineno])
    return None


def _listings(program: Program, found: Lines | None = None) -> tuple[Markup, Markup | None]:
    """The program with its lines coloured; of a model its Python, and then its text, too."""
    text = Markup(listing(program.text.decode(errors="replace"), found))
    translation = program.expansion
    function = _function_of(translation) if isinstance(translation, Translation) else None
    if function is None or not isinstance(translation, Translation):
        return text, None
    first, source = function
    if found is not None:
        found = replace(found, without=tuple(replace(silent, line=_own(translation.place(silent.line)).line) for silent in found.without))
    return Markup(listing(source, found, first=first)), text


def _section(program: Program, timeout: float | None) -> Section:
    text = program.text.decode(errors="replace")
    shown, written = _listings(program)
    section = Section(program.name, program.question or "", warning_of(text), shown, written)
    try:
        hyper = program.hyper(timeout)
    except KuifjeError as cause:
        section.refusal = str(cause)
        return section
    leaking: list[Lines] = []

    def lines(part: Part) -> None:
        leaking.append(found := program.lines(timeout=timeout))
        section.listing, section.text = _listings(program, found)

    coloured = _part("What each line leaks", True, lines)
    section.summary = list(_summary(program, leaking[0] if leaking else None, timeout))
    section.parts = [*([coloured] if coloured.missing else []), *_parts(program, hyper, timeout)]
    return section


def _summary(program: Program, lines: Lines | None, timeout: float | None) -> Iterator[tuple[str, Markup]]:
    """What leaks, by how much, at which line, and the best guess: each with its head. What gets no answer is left out."""
    target = target_of(program.text.decode(errors="replace"))
    if target is not None:
        yield "About", Markup("<code>{}</code>").format(target)
    try:
        leak, attack = program.leak("bayes", timeout), program.attack("bayes", timeout)
    except KuifjeError:
        return
    yield "One guess", _how_much(leak)
    if lines is not None:
        yield "Worst line", _worst_line(program, lines)
    yield "Best guess", _best_guess(attack)


def _how_much(leak: Leakage) -> Markup:
    """Prior and posterior vulnerability to one guess, and both leakages."""
    if leak.additive_leakage == 0:
        return Markup("is right with probability {} before and after: to one guess nothing leaks. Another adversary may gain").format(
            format_number(leak.prior_vulnerability)
        )
    assert leak.multiplicative_leakage is not None  # some value has a probability above 0
    return Markup(
        "is right with probability {} before (prior vulnerability), and <strong>{}</strong> after (posterior vulnerability): "
        "multiplicative leakage {}, which is {} bits of min-entropy, rounded; additive leakage {}"
    ).format(
        format_number(leak.prior_vulnerability),
        format_number(leak.posterior_vulnerability),
        format_number(leak.multiplicative_leakage),
        bits(leak.multiplicative_leakage),
        format_number(leak.additive_leakage),
    )


def _worst_line(program: Program, lines: Lines) -> Markup:
    """The line without which one guess loses most."""
    line = worst_line(program, lines)
    if line is None:
        return Markup("none: to one guess each line is worth nothing beside the others. Several may show the same")
    where, text = f"line {line}", program.text.decode(errors="replace").split("\n")[line - 1]
    if isinstance(program.expansion, Translation):
        place = _own(program.expansion.place(line))
        where, text = f"line {place.line} of {Path(place.file).name}", place.source
    least = min(silent.posterior for silent in lines.without)
    said = Markup("{} (<code>{}</code>): if it showed nothing, one guess would be right with probability {}")
    return said.format(where, text.strip(), format_number(least))


def _best_guess(attack: Attack) -> Markup:
    """What to guess where one guess is surest, and how likely a run leaves that; of several the likeliest."""
    best: Move = max(attack.moves, key=lambda move: (move.value, move.outer))
    return Markup("at its surest, which comes with probability {}, is <code>{}</code>, right with probability {}").format(
        format_number(best.outer), next(iter(best.actions)), format_number(best.value)
    )


def _parts(program: Program, hyper: Hyper, timeout: float | None) -> Iterator[Part]:
    """The parts of a program's section."""

    def vulnerabilities(part: Part) -> None:
        found = [program.leak(gain, timeout) for gain in GAINS]
        part.table = Markup("").join(Markup(html_table(leakage_rows(leak))) for leak in found)
        part.printed = [_printed(leak) for leak in found]

    def posteriors(part: Part) -> None:
        part.table = _table(hyper.records())
        part.printed = [_printed(hyper)]
        if len(hyper.prior) <= 3:
            part.pictures.append(picture(lambda p: p.triangle(hyper), "The posteriors in a triangle"))
        if len(hyper.inners) <= BARS and len(hyper.prior) <= 20:
            part.pictures.append(picture(lambda p: p.bars(hyper), "The posteriors as bars"))

    def attack(part: Part) -> None:
        lines = str(plan(program, timeout=timeout)).splitlines()
        part.table = _folded(len(lines), "lines", _lines(lines, LINES))

    def trail(part: Part) -> None:
        found = program.trail(timeout)
        part.table = _table(found.records())
        part.printed = [_printed(found)]
        part.pictures.append(picture(lambda p: p.trail(program, found), "How many posteriors there are after each statement"))

    yield _part("Vulnerabilities and leakages", True, vulnerabilities)
    yield _part("The hyper-distribution: which posteriors a run may leave", True, posteriors)
    yield _part("What an adversary with one guess does best after what is seen", False, attack)
    channels: list[Channel] = []

    def matrix(part: Part) -> None:
        channels.append(channel := program.channel(timeout))
        part.title += f"; its Bayes capacity is {program.capacity(timeout)}"
        part.table = _table(channel.records())
        part.printed = [_printed(channel)]
        if len(channel.rows) * len(channel.columns) <= CELLS:
            part.pictures.append(picture(lambda p: p.channel(channel), "The channel as a heat map"))

    yield _part("The channel: how likely each trace is, given the secret", True, matrix)
    yield _part("How many posteriors there are after each statement", True, trail)
    yield _part("Computed from these answers", False, lambda part: _computed(part, hyper, channels[0] if channels else None))


def _computed(part: Part, hyper: Hyper, channel: Channel | None) -> None:
    """The measures that the program leaves out."""
    rows: list[tuple[str, object]] = [
        ("Shannon entropy of the prior, in bits", measures.shannon_entropy(hyper.prior)),
        ("mutual information, in bits", measures.mutual_information(hyper)),
        ("min-entropy leakage, in bits", measures.min_entropy_leakage(hyper)),
        ("greatest additive leakage under gains that span at most 1", measures.additive_capacity(hyper)),
    ]
    if channel is not None:
        ratio, epsilon = measures.differential_privacy(channel, neighbours="all")
        rows.append(("least ratio e^ε of local differential privacy", "infinite" if ratio is None else ratio))
        rows.append(("least ε of local differential privacy", "infinite" if epsilon is None else epsilon))
        if len(channel.rows) == 2:
            part.pictures.append(picture(lambda p: p.vulnerability(channel), "Bayes vulnerability over the prior"))
    part.table = _table([{"measure": name, "value": value} for name, value in rows])


def _order(programs: Sequence[Program], timeout: float | None) -> Part:
    def fill(part: Part) -> None:
        found: Order = order(*programs, timeout=timeout)
        part.table = _table(found.records()) + Markup("<pre>{}</pre>").format(str(found))
        part.pictures.append(picture(lambda p: p.hasse(found), "The refinement order"))

    return _part("Which leaks no more than which, to any adversary", True, fill)


def report(programs: Sequence[Program], title: str = "What programs leak", timeout: float | None = None) -> str:
    """The report on some programs, as HTML: one file that needs no other.

    For each program its question, its text with each line coloured by what it leaks, vulnerabilities, hyper, best attack, channel, trail, and the
    measures that are computed here; for several the order of refinement. A question that takes more than ``timeout`` seconds, or is refused, is
    reported as such.
    """
    with warnings.catch_warnings():
        warnings.simplefilter("ignore", AsItIsLeft)
        sections = [_section(program, timeout) for program in programs]
        compared = _order(programs, timeout) if len(programs) > 1 and not any(section.refusal for section in sections) else None
    environment = Environment(autoescape=True, undefined=StrictUndefined, trim_blocks=True, lstrip_blocks=True)
    page = environment.from_string(resources("kuifje").joinpath("report.html.j2").read_text(encoding="utf-8"))
    engine = programs[0].engine or default_engine()
    return page.render(title=title, sections=sections, order=compared, version=engine.version)
