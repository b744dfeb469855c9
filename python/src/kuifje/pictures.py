"""Pictures of answers, with matplotlib: each function draws on axes of its own or on those given, and returns them.

``save(axes, path)`` writes a picture as SVG or PNG, by the path's ending, ``svg(axes)`` gives the text of the SVG, and ``show(axes)`` shows it in a
notebook. Colours are those of Okabe and Ito, which colour-blind readers can tell apart, and no picture depends on colour alone. Numbers in pictures
are exact where they are short.
"""

from __future__ import annotations

import os
from collections.abc import Callable, Mapping, Sequence
from fractions import Fraction
from io import BytesIO
from math import log2, sqrt
from pathlib import Path
from typing import Any, BinaryIO

from .channels import Channel
from .channels import hyper as hyper_of
from .design import Corner
from .measures import bayes_vulnerability, posterior_vulnerability
from .orders import Order
from .program import Program
from .questions import statement_lines, target_of
from .texts import Blame, Hyper, Lines, Trail
from .values import Value, format_value

__all__ = ["bars", "blame", "channel", "hasse", "lines", "save", "show", "svg", "tradeoff", "trail", "triangle", "vulnerability"]

MOST_APART = 3  # pairs with other priors that a picture of an order names

BLUE, VERMILION, GREEN, AMBER, PURPLE, SKY, YELLOW, BLACK = ("#0072B2", "#D55E00", "#009E73", "#E69F00", "#CC79A7", "#56B4E9", "#F0E442", "#000000")
GREY = "#666666"
FILLS = (SKY, AMBER, GREEN, YELLOW, PURPLE, VERMILION, BLUE)
HATCHES = ("", "///", "||", "xx", "\\\\\\", "++", "--")
HEIGHT = sqrt(3) / 2
CORNERS = ((0.0, 0.0), (1.0, 0.0), (0.5, HEIGHT))
Axes = Any


def _axes(axes: Axes | None, width: float, height: float) -> Axes:
    if axes is not None:
        return axes
    from matplotlib.figure import Figure

    return Figure(figsize=(width, height), layout="constrained").add_subplot()


def save(axes: Axes, path: str | os.PathLike[str]) -> None:
    """Writes the picture to a file, whose ending says how: ``.svg`` or ``.png``. The same picture is always the same file.

    Raises ``ValueError`` where the ending is another.
    """
    kind = Path(path).suffix.removeprefix(".")
    if kind not in ("svg", "png"):
        raise ValueError(f"{path} ends with neither .svg nor .png")
    with open(path, "wb") as sink:
        _write(axes, sink, kind)


def svg(axes: Axes) -> str:
    """The picture as the text of an SVG file."""
    sink = BytesIO()
    _write(axes, sink, "svg")
    return sink.getvalue().decode()


def show(axes: Axes) -> Any:
    """The picture as a notebook shows it."""
    from IPython.display import SVG

    return SVG(svg(axes))


def _write(axes: Axes, sink: BinaryIO, kind: str) -> None:
    import matplotlib

    with matplotlib.rc_context({"svg.hashsalt": "kuifje", "svg.fonttype": "none"}):
        axes.figure.savefig(sink, format=kind, dpi=150, metadata={"Date": None} if kind == "svg" else {})


def _number(fraction: Fraction) -> str:
    """A fraction, exactly where that is short, else rounded and marked so."""
    exact = str(fraction)
    return exact if len(exact) <= 7 else f"≈{float(fraction):.3f}"


def _corner(point: Mapping[Value, Fraction], values: Sequence[Value]) -> tuple[float, float]:
    """Where a distribution on at most three values lies in a triangle whose corners are the values, the third one above."""
    shares = [float(point.get(value, Fraction(0))) for value in values]
    x, y = (sum(share * corner[i] for share, corner in zip(shares, CORNERS)) for i in (0, 1))
    return x, y


def triangle(hyper: Hyper, axes: Axes | None = None) -> Axes:
    """A hyper-distribution over three values in a triangle: a disc for each inner, with its outer as its area, and a ring for the prior.

    Raises ``ValueError`` where there are more than three values; with fewer, a corner is empty.
    """
    values = list(hyper.prior)
    if len(values) > 3:
        raise ValueError(f"a triangle has three corners, and there are {len(values)} values")
    axes = _axes(axes, 6, 5.4)
    axes.fill(*zip(*CORNERS), facecolor="#F7F7F7", edgecolor=BLACK, linewidth=1.2)
    for k in (0.25, 0.5, 0.75):
        rest = 1 - k
        for ends in (((k, 0), (k + rest / 2, rest * HEIGHT)), ((rest, 0), (rest / 2, rest * HEIGHT)), ((k / 2, k * HEIGHT), (1 - k / 2, k * HEIGHT))):
            axes.plot(*zip(*ends), color="#CCCCCC", linewidth=0.7, zorder=1)
    for value, (x, y), (dx, dy) in zip(values, CORNERS, ((-0.06, -0.04), (0.06, -0.04), (0, 0.07))):
        axes.text(x + dx, y + dy, format_value(value), ha="center", va="center", fontsize=15, fontweight="bold")
    for inner in hyper.inners:
        x, y = _corner(inner.distribution, values)
        axes.scatter([x], [y], s=3200 * float(inner.outer), color=SKY, edgecolor=BLUE, linewidth=1.5, zorder=2)
        axes.annotate(
            _number(inner.outer),
            (x, y),
            xytext=(0, 7 + 28 * sqrt(float(inner.outer))),
            textcoords="offset points",
            ha="center",
            va="center",
            fontsize=12,
            zorder=4,
            bbox={"facecolor": "white", "alpha": 0.8, "edgecolor": "none", "pad": 0.5},
        )
    x, y = _corner(hyper.prior, values)
    axes.scatter([x], [y], s=110, facecolor="none", edgecolor=BLACK, linewidth=2, zorder=3)
    axes.text(0.5, -0.14, f"posteriors of {hyper.target}: area and number = outer, ring = prior", ha="center", va="center", fontsize=11)
    axes.set_xlim(-0.14, 1.14)
    axes.set_ylim(-0.19, HEIGHT + 0.16)
    axes.set_aspect("equal")
    axes.axis("off")
    return axes


def bars(hyper: Hyper, axes: Axes | None = None) -> Axes:
    """A hyper-distribution as bars: one for each inner, as wide as its outer, with the inner's probabilities one on top of the other."""
    from matplotlib.patches import Patch

    axes = _axes(axes, 8, 4.5)
    values = list(hyper.prior)
    style = {x: (FILLS[i % len(FILLS)], HATCHES[(i + i // len(FILLS)) % len(HATCHES)]) for i, x in enumerate(values)}
    left = 0.0
    for inner in hyper.inners:
        bottom, width = 0.0, float(inner.outer)
        for value in values:
            height = float(inner.distribution.get(value, Fraction(0)))
            if height:
                fill, hatch = style[value]
                axes.bar(left, height, width, bottom, align="edge", color=fill, hatch=hatch, edgecolor="white", linewidth=1)
                axes.bar(left, height, width, bottom, align="edge", fill=False, edgecolor=BLACK, linewidth=0.8)
                bottom += height
        if width > 0.03:
            axes.text(left + width / 2, -0.04, _number(inner.outer), ha="center", va="top", fontsize=12)
        left += width
    handles = [Patch(facecolor=style[x][0], hatch=style[x][1], edgecolor="white", label=format_value(x)) for x in reversed(values)]
    if len(values) <= 20:
        axes.legend(
            handles=handles,
            title=str(hyper.target),
            loc="center left",
            bbox_to_anchor=(1.01, 0.5),
            fontsize=12,
            title_fontsize=12,
            frameon=False,
            handleheight=1.4,
        )
    axes.set_xlim(0, 1)
    axes.set_ylim(0, 1)
    axes.set_xticks([])
    axes.set_xlabel("width = outer", fontsize=12, labelpad=22)
    axes.set_ylabel("inner", fontsize=12)
    axes.tick_params(labelsize=11)
    for side in ("top", "right", "bottom"):
        axes.spines[side].set_visible(False)
    return axes


def channel(matrix: Channel, axes: Axes | None = None) -> Axes:
    """A channel matrix as a heat map; each column's greatest cells are framed, and their sum is the Bayes capacity."""
    from matplotlib.patches import Rectangle

    rows, columns = list(matrix.rows.values()), len(matrix.columns)
    axes = _axes(axes, 2 + 0.95 * columns, 1.6 + 0.62 * len(rows))
    greatest = [max(column) for column in zip(*rows)]
    axes.imshow([[float(cell) for cell in row] for row in rows], cmap="Blues", vmin=0, vmax=1.25, aspect="auto")
    for i, row in enumerate(rows):
        for j, cell in enumerate(row):
            axes.text(j, i, _number(cell), ha="center", va="center", fontsize=12, color="white" if cell > Fraction(4, 5) else BLACK)
            if cell == greatest[j]:
                axes.add_patch(Rectangle((j - 0.46, i - 0.44), 0.92, 0.88, fill=False, edgecolor=VERMILION, linewidth=2.5))
    axes.set_xticks(range(columns), [f"[{', '.join(map(format_value, shown))}]" for shown in matrix.columns], fontsize=12)
    axes.set_yticks(range(len(rows)), [format_value(value) for value in matrix.rows], fontsize=12)
    axes.xaxis.tick_top()
    axes.tick_params(length=0)
    axes.set_ylabel(str(matrix.target), fontsize=12)
    axes.set_xlabel(f"framed: column maxima\ntheir sum is the capacity: {_number(sum(greatest, Fraction(0)))}", fontsize=12)
    for side in axes.spines.values():
        side.set_visible(False)
    return axes


def hasse(order: Order, axes: Axes | None = None) -> Axes:
    """The order as a Hasse diagram, with the least leaking programs at the top; a dashed line joins two programs without a verdict.

    Where programs have different priors, so that nothing is said about which leaks more, a line of text names them.
    """
    levels = list(order.levels())
    widest = max(map(len, levels))
    axes = _axes(axes, 2.6 * widest + 1, 1.2 * len(levels) + 1)
    place = {node: (i - (len(row) - 1) / 2, y) for y, row in enumerate(levels) for i, node in enumerate(row)}
    node_of = {name: node for node in order.nodes for name in node}
    for a, b in order.edges:
        axes.plot(*zip(place[a], place[b]), color=BLACK, linewidth=1.4, zorder=1)
    for pair in {tuple(sorted((node_of[a], node_of[b]))) for a, b in order.open}:
        axes.plot(*zip(*(place[node] for node in pair)), color=VERMILION, linewidth=1.4, linestyle=(0, (4, 4)), zorder=1)
        (x, y), (z, w) = (place[node] for node in pair)
        axes.text(
            (x + z) / 2,
            (y + w) / 2,
            "?",
            color=VERMILION,
            fontsize=15,
            fontweight="bold",
            ha="center",
            va="center",
            bbox={"facecolor": "white", "edgecolor": "none", "pad": 1},
        )
    for node, (x, y) in place.items():
        axes.text(
            x,
            y,
            " = ".join(node),
            ha="center",
            va="center",
            fontsize=14,
            zorder=2,
            bbox={"boxstyle": "round,pad=0.45", "facecolor": "#E8F2FA", "edgecolor": BLUE, "linewidth": 1.5},
        )
    axes.set_xlim(-widest / 2 - 0.1, widest / 2 + 0.1)
    axes.set_ylim(-0.5, len(levels) - 0.5)
    apart = "".join(f"\n{a} and {b}: other priors" for a, b in order.apart[:MOST_APART])
    more = "\n.. and more" if len(order.apart) > MOST_APART else ""
    axes.text(0, 1, f"top leaks least{apart}{more}", transform=axes.transAxes, fontsize=11, va="top")
    axes.axis("off")
    return axes


def vulnerability(
    matrix: Channel, measure: Callable[[Mapping[Value, Fraction]], Fraction] = bayes_vulnerability, points: int = 60, axes: Axes | None = None
) -> Axes:
    """Prior and posterior vulnerability of a channel with two secrets, over the probability of the first one.

    ``measure`` is the vulnerability of a distribution, as ``GainTable.vulnerability`` is. It is worked out exactly at ``points`` + 1 priors, here and
    not by the proved program. Raises ``ValueError`` where there are other than two secrets.
    """
    if len(matrix.rows) != 2:
        raise ValueError(f"the channel has {len(matrix.rows)} secrets, and there is an axis for two")
    axes = _axes(axes, 7, 4.5)
    first, second = matrix.rows
    xs = [Fraction(i, points) for i in range(points + 1)]
    priors: list[dict[Value, Fraction]] = [{first: x, second: 1 - x} for x in xs]
    before = [float(measure({v: p for v, p in prior.items() if p})) for prior in priors]
    after = [float(posterior_vulnerability(hyper_of(matrix, prior), measure)) for prior in priors]
    axes.plot([float(x) for x in xs], after, color=VERMILION, linewidth=2.5, label="posterior")
    axes.plot([float(x) for x in xs], before, color=BLUE, linewidth=2.5, linestyle="--", label="prior")
    axes.set_xlim(0, 1)
    axes.set_ylim(bottom=min(0.0, *before))
    axes.set_xlabel(f"probability that {matrix.target} is {format_value(first)}", fontsize=12)
    axes.set_ylabel("vulnerability", fontsize=12)
    axes.tick_params(labelsize=11)
    axes.legend(fontsize=12, frameon=False)
    for side in ("top", "right"):
        axes.spines[side].set_visible(False)
    return axes


def tradeoff(corners: Sequence[Corner], axes: Axes | None = None) -> Axes:
    """The least leakage of a channel against the bound on its expected loss, as ``kuifje.design.tradeoff`` gives its corners, each with both numbers.

    Below the curve there is no channel; right of the last corner more loss buys nothing. Raises ``ValueError`` where there is no corner.
    """
    if not corners:
        raise ValueError("a curve has a corner")
    axes = _axes(axes, 7, 4.5)
    xs, ys = [float(corner.loss) for corner in corners], [float(corner.value) for corner in corners]
    right = xs[-1] + 0.25 * (xs[-1] - xs[0] or 1.0)
    bottom = ys[-1] - 0.2 * (ys[0] - ys[-1] or 1.0)
    axes.fill_between([*xs, right], [*ys, ys[-1]], bottom, color="#EEEEEE", zorder=0)
    axes.plot([*xs, right], [*ys, ys[-1]], color=BLUE, linewidth=2.5, zorder=1)
    axes.plot(xs, ys, linestyle="", marker="o", markersize=9, color=SKY, markeredgecolor=BLUE, markeredgewidth=1.5, zorder=2)
    for corner, x, y in zip(corners, xs, ys):
        text = f"({_number(corner.loss)}, {_number(corner.value)})"
        axes.annotate(text, (x, y), xytext=(7, 7), textcoords="offset points", fontsize=12, zorder=3)
    axes.text((xs[0] + right) / 2, bottom, "no channel", fontsize=12, color=GREY, ha="center", va="bottom")
    axes.set_xlim(xs[0] - 0.03 * (right - xs[0]), right)
    axes.set_ylim(bottom, ys[0] + 0.15 * (ys[0] - ys[-1] or 1.0))
    axes.set_xlabel("expected loss, at most", fontsize=12)
    axes.set_ylabel("least leakage", fontsize=12)
    axes.tick_params(labelsize=11)
    for side in ("top", "right"):
        axes.spines[side].set_visible(False)
    return axes


def _listing(axes: Axes | None, text: str, marks: Mapping[int, Sequence[tuple[str, float]]], caption: str) -> Axes:
    """A program's text with a margin: beside a line its marks, each a number and the length of a bar from -1 to 1, below 0 in another colour."""
    lines = text.expandtabs(4).rstrip("\n").split("\n")
    axes = _axes(axes, max(9, 0.15 * max(map(len, lines))), 0.34 * len(lines) + 1.1)
    for i, line in enumerate(lines):
        axes.text(0.3, i, line, family="monospace", fontsize=12, va="center")
        if i in marks:
            length = max((length for _, length in marks[i]), key=abs)
            colour = BLACK if any(length for _, length in marks[i]) else GREY
            axes.text(0.13, i, ", ".join(number for number, _ in marks[i]), ha="right", va="center", fontsize=12, color=colour)
            if length:
                axes.barh(i, -abs(length) * 0.12, height=0.8, left=0.26, color=VERMILION if length > 0 else SKY)
    axes.plot([0.27, 0.27], [-0.6, len(lines) - 0.4], color=BLACK, linewidth=1)
    axes.text(0, len(lines) + 0.2, caption, fontsize=10, va="center")
    axes.set_xlim(0, 1)
    axes.set_ylim(len(lines) + 0.7, -0.8)
    axes.axis("off")
    return axes


def _starts(text: str, statements: int) -> list[int]:
    """The lines, from 0, on which the statements begin. Raises ``ValueError`` where the text hasn't as many."""
    starts = statement_lines(text)
    if len(starts) != statements:
        raise ValueError(f"the text has {len(starts)} top-level statements, and the answer {statements}")
    return starts


def blame(program: Program, found: Blame, axes: Axes | None = None) -> Axes:
    """The program's text, and in its margin how far the posterior Bayes vulnerability falls where that top-level statement alone shows nothing.

    Raises ``ValueError`` where the answer is that of a program with another number of top-level statements.
    """
    text = program.text.decode(errors="replace")
    falls = [found.all.bayes - quiet.bayes for quiet in found.without]
    greatest = max((abs(fall) for fall in falls), default=Fraction(0)) or Fraction(1)
    marks: dict[int, list[tuple[str, float]]] = {}
    for line, fall in zip(_starts(text, len(falls)), falls):
        marks.setdefault(line, []).append((_number(fall), float(fall / greatest)))
    whole = f"the posterior Bayes vulnerability of {target_of(text)}, {_number(found.all.bayes)},"
    caption = f"margin: by how much {whole} falls if that statement alone shows nothing"
    return _listing(axes, text, marks, caption)


def lines(program: Program, found: Lines, axes: Axes | None = None) -> Axes:
    """The program's text, and in its margin what each statement that begins on a line is worth beside the others, under the gain of the answer.

    That is how much lower the posterior vulnerability is if this statement alone shows nothing (under ``guessing``: how many more guesses are to be
    expected). A statement of 0 may show something all the same. Raises ``ValueError`` where the answer has a line that the text hasn't.
    """
    text = program.text.decode(errors="replace")
    if found.without and found.without[-1].line > len(text.rstrip("\n").split("\n")):
        raise ValueError(f"the text has no line {found.without[-1].line}")
    changes = [abs(found.all.posterior - silent.posterior) for silent in found.without]
    greatest = max(changes, default=Fraction(0)) or Fraction(1)
    marks: dict[int, list[tuple[str, float]]] = {}
    for silent, change in zip(found.without, changes):
        marks.setdefault(silent.line - 1, []).append((_number(change), float(change / greatest)))
    whole = f"the posterior vulnerability of {target_of(text)}, {_number(found.all.posterior)},"
    return _listing(axes, text, marks, f"margin: by how much {whole} changes if that statement alone shows nothing, wherever it stands")


def trail(program: Program, found: Trail, axes: Axes | None = None) -> Axes:
    """The program's text, and in its margin how many posteriors of whole stores there are after each top-level statement.

    Bars are on a logarithmic scale. Raises ``ValueError`` where the answer is that of a program with another number of top-level statements.
    """
    text = program.text.decode(errors="replace")
    most = log2(max(found.inners)) or 1.0
    marks: dict[int, list[tuple[str, float]]] = {}
    for line, inners in zip(_starts(text, len(found.inners) - 1), found.inners[1:]):
        marks.setdefault(line, []).append((str(inners), log2(inners) / most))
    caption = f"margin: how many posteriors of whole stores there are after that statement (bars: logarithms); before the first one {found.inners[0]}"
    return _listing(axes, text, marks, caption)
