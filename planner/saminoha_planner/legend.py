"""What stands below a picture: a table of the alternatives, its marks explained, when and by what
it was made. Lengths are points (1/72 inch).
"""

from __future__ import annotations

from collections.abc import Sequence
from dataclasses import dataclass
from datetime import datetime
from functools import lru_cache

from matplotlib.axes import Axes
from matplotlib.figure import Figure
from matplotlib.font_manager import FontProperties
from matplotlib.textpath import text_to_path

from .choose import Option
from .client import Proof
from .colours import COLOURS
from .criteria import Criterion

SIZE, LEADING, GAP = 8.0, 11.5, 10.0  # of letters, of lines, between columns
DISC = 6.0  # a disc's radius
CLOSED = "#f2c230"
PROOFS = {
    Proof.PROVED: "answered by the proved program",
    Proof.UNPROVED: "UNPROVED: answered by a program that isn't the proved one",
    Proof.UNKNOWN: "whether the program is the proved one isn't known",
}


@dataclass(frozen=True)
class Row:
    """One alternative: its costs, and why and via where, wrapped into lines."""

    letter: str
    costs: tuple[str, ...]
    told: tuple[str, ...]


@dataclass(frozen=True)
class Legend:
    """A table of so many points of width; `is_marked` explains the mark of changed roads."""

    heads: tuple[str, ...]
    rows: tuple[Row, ...]
    widths: tuple[float, ...]
    is_marked: bool = False
    more: tuple[str, ...] = ()

    @property
    def height(self) -> float:
        lines = sum(max(1, len(row.told)) for row in self.rows) + len(self.more) + self.is_marked
        return LEADING * (lines + bool(self.rows)) + 3 * len(self.rows) + 4


def legend_of(
    options: Sequence[Option],
    criteria: Sequence[Criterion],
    width: float,
    is_marked: bool = False,
    more: Sequence[str] = (),
) -> Legend:
    heads = tuple(one.label for one in criteria)
    columns = [
        one.texts([option.route.cost[place] for option in options])
        for place, one in enumerate(criteria)
    ]
    widths = tuple(
        max(map(width_of, (head, *column))) + GAP for head, column in zip(heads, columns)
    )
    left = width - 2 * DISC - GAP - sum(widths)
    rows = [
        Row(option.letter, costs, wrapped(told_of(option), left))
        for option, costs in zip(options, zip(*columns))
    ]
    texts = [line for text in more for line in wrapped(text, width)]
    return Legend(heads, tuple(rows), widths, is_marked, tuple(texts))


def told_of(option: Option) -> str:
    return option.why + (f"; via {option.via}" if option.via else "")


@lru_cache(maxsize=4096)
def width_of(text: str, size: float = SIZE) -> float:
    font = FontProperties(size=size)
    return float(text_to_path.get_text_width_height_descent(text, font, False)[0])


def wrapped(text: str, width: float, size: float = SIZE) -> tuple[str, ...]:
    """The text in lines that are no wider, but for a word that is wider itself."""
    lines: list[str] = []
    for word in text.split():
        if lines and width_of(f"{lines[-1]} {word}", size) <= width:
            lines[-1] += f" {word}"
        else:
            lines.append(word)
    return tuple(lines)


def sheet(figure: Figure) -> Axes:
    """Axes over the whole figure in points."""
    wide, high = figure.get_size_inches() * 72
    ax = figure.add_axes((0.0, 0.0, 1.0, 1.0), zorder=-1)
    ax.set_xlim(0, wide)
    ax.set_ylim(0, high)
    ax.axis("off")
    return ax


def paint_legend(ax: Axes, legend: Legend, left: float, top: float) -> float:
    """Paints it downwards from the top, and answers where it ends."""
    y = top - LEADING
    if legend.rows:
        _paint_cells(ax, legend, legend.heads, (left, y), "#555555")
    for row in legend.rows:
        y -= LEADING + 3
        _paint_disc(ax, row.letter, (left + DISC, y + SIZE * 0.38))
        _paint_cells(ax, legend, row.costs, (left, y), "black")
        x = left + 2 * DISC + GAP + sum(legend.widths)
        for at, line in enumerate(row.told):
            ax.text(x, y - at * LEADING, line, fontsize=SIZE, va="baseline")
        y -= LEADING * (max(1, len(row.told)) - 1)
    if legend.is_marked:
        y -= LEADING
        _paint_mark(ax, left, y)
    for text in legend.more:
        y -= LEADING
        ax.text(left, y, text, fontsize=SIZE, va="baseline")
    return y


def footer(criteria: Sequence[Criterion], proof: Proof, attribution: str) -> str:
    """When a picture was made, what was weighed, by which program, of whose data."""
    weighed = ", ".join(one.label for one in criteria)
    made = datetime.now().strftime("%Y-%m-%d %H:%M")
    return f"{made} · weighed: {weighed} · {PROOFS[proof]} · {attribution}"


def paint_footer(ax: Axes, text: str) -> None:
    right = ax.get_xlim()[1]
    for at, line in enumerate(reversed(wrapped(text, right - 20, 6.5))):
        ax.text(10, 6 + at * 9, line, fontsize=6.5, color="#444444", va="baseline")


def footer_height(text: str, width: float) -> float:
    return 9.0 * len(wrapped(text, width - 20, 6.5)) + 8


def _paint_cells(
    ax: Axes, legend: Legend, texts: Sequence[str], at: tuple[float, float], colour: str
) -> None:
    right = at[0] + 2 * DISC
    for text, width in zip(texts, legend.widths):
        right += width
        ax.text(right, at[1], text, fontsize=SIZE, ha="right", va="baseline", color=colour)


def _paint_disc(ax: Axes, letter: str, at: tuple[float, float]) -> None:
    ax.plot(*at, marker="o", markersize=2 * DISC, color=COLOURS[letter], markeredgewidth=0)
    text = ax.text(*at, letter, fontsize=7, fontweight="bold", color="white")
    text.set(ha="center", va="center_baseline")


def _paint_mark(ax: Axes, left: float, y: float) -> None:
    middle = y + SIZE * 0.38
    ends = [left, left + 26], [middle, middle]
    ax.plot(*ends, color=CLOSED, linewidth=7, solid_capstyle="butt")
    ax.plot(left + 13, middle, marker="X", color="#222222", markeredgecolor="white", markersize=8)
    ax.text(left + 34, y, "closed or changed", fontsize=SIZE, va="baseline")
