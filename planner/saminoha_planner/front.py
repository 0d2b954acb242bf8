"""Plots of costs against each other, of all trade-offs and the few."""

from __future__ import annotations

import itertools
from collections.abc import Sequence
from dataclasses import dataclass
from pathlib import Path

import numpy as np
from matplotlib.axes import Axes
from matplotlib.figure import Figure

from .choose import Option
from .client import Route
from .colours import COLOURS
from .criteria import Criterion
from .legend import wrapped

DISC = 14.5  # points from one disc's middle to another's


@dataclass(frozen=True)
class Front:
    """All trade-offs, and the few of them that have letters."""

    criteria: Sequence[Criterion]
    routes: Sequence[Route]
    options: Sequence[Option]

    @property
    def pairs(self) -> list[tuple[int, int]]:
        return list(itertools.combinations(range(len(self.criteria)), 2))

    def points(self, routes: Sequence[Route], pair: tuple[int, int]) -> np.ndarray:
        values = [[self.criteria[at].value(route.cost[at]) for at in pair] for route in routes]
        return np.array(values).reshape(-1, 2)


def draw_front(file: Path, front: Front, title: str = "", note: str = "") -> None:
    """A staircase with the dominated area for two criteria, and a plot of each pair for three or
    four.
    """
    columns = min(3, len(front.pairs))
    rows = -(-len(front.pairs) // columns)
    size = (6.4, 4.9) if columns == 1 else (4.1 * columns, 3.7 * rows + 0.6)
    figure = Figure(figsize=size, layout="constrained")
    figure.suptitle(title, fontsize=11, x=0.01, ha="left")
    lines = wrapped(note, size[0] * 72 - 20, 6.5)
    figure.supxlabel("\n".join(lines), fontsize=6.5, x=0.01, ha="left", color="#444444")
    paint_front(figure, front, columns)
    figure.savefig(file, dpi=120)


def paint_front(figure: Figure, front: Front, columns: int) -> None:
    """A plot of each pair of criteria, in so many columns."""
    rows = -(-len(front.pairs) // columns)
    axes = list(figure.subplots(rows, columns, squeeze=False).flat)
    for ax, pair in zip(axes, front.pairs):
        _paint_pair(ax, front, pair)
    for ax in axes[len(front.pairs) :]:
        ax.axis("off")
    figure.figure.draw_without_rendering()  # only now is it known what lies how far apart
    letters = [option.letter for option in front.options]
    for ax, pair in zip(axes, front.pairs):
        routes = [option.route for option in front.options]
        _mark_letters(ax, letters, front.points(routes, pair))


def _paint_pair(ax: Axes, front: Front, pair: tuple[int, int]) -> None:
    x, y = front.points(front.routes, pair).T
    for axis, place in zip((ax.set_xlabel, ax.set_ylabel), pair):
        criterion = front.criteria[place]
        axis(criterion.label + (f" ({criterion.shown_unit})" if criterion.shown_unit else ""))
    if len(front.pairs) == 1 and len(x):
        _paint_staircase(ax, x, y)
    ax.scatter(x, y, s=14, color="#8a8a8a", zorder=3, linewidths=0)
    ax.margins(0.07)
    ax.grid(color="#eeeeee")
    ax.set_axisbelow(True)
    for side in ("top", "right"):
        ax.spines[side].set_visible(False)


def _mark_letters(ax: Axes, letters: Sequence[str], points: np.ndarray) -> None:
    """Discs at the points, and beside them, with a line to it, where another disc is already."""
    to_points = 72 / ax.get_figure().figure.dpi
    taken: list[np.ndarray] = []
    for letter, point in zip(letters, points):
        shift = _free_shift(ax.transData.transform(point) * to_points, taken)
        if np.any(shift):
            ax.scatter(*point, s=16, color=COLOURS[letter], edgecolors="white", zorder=3.5)
        ax.annotate(
            letter,
            point,
            tuple(shift),
            textcoords="offset points",
            ha="center",
            va="center_baseline",
            fontsize=7.5,
            fontweight="bold",
            color="white",
            zorder=5 + len(taken) / 100,
            bbox={
                "boxstyle": "circle,pad=0.25",
                "facecolor": COLOURS[letter],
                "edgecolor": "white",
            },
            arrowprops={"arrowstyle": "-", "color": COLOURS[letter]} if np.any(shift) else None,
        )


def _free_shift(place: np.ndarray, taken: list[np.ndarray]) -> np.ndarray:
    """How far from its place a disc stands free of the others, all in points."""
    turns = np.linspace(0, 2 * np.pi, 12, endpoint=False)
    shifts = [np.zeros(2)]
    shifts += [
        np.array([radius * np.cos(turn), radius * np.sin(turn)])
        for radius in (17, 25, 34)
        for turn in turns
    ]
    for shift in shifts:
        if all(np.hypot(*(place + shift - other)) >= DISC for other in taken):
            break
    taken.append(place + shift)
    return shift


def _paint_staircase(ax: Axes, x: np.ndarray, y: np.ndarray) -> None:
    order = np.argsort(x)
    x, y = x[order], y[order]
    right = x[-1] + max(float(np.ptp(x)), 0.02 * abs(x[-1]), 0.1) * 0.12
    top = y[0] + max(float(np.ptp(y)), 0.02 * abs(y[0]), 0.1) * 0.12
    edge_x = np.concatenate([[x[0]], np.repeat(x[1:], 2), [right]])
    edge_y = np.concatenate([np.repeat(y, 2)])
    edge_x, edge_y = np.concatenate([[x[0]], edge_x]), np.concatenate([[top], edge_y])
    ax.fill_between(edge_x, edge_y, top, color="#ededed", linewidth=0, zorder=1)
    ax.plot(edge_x, edge_y, color="#b5b5b5", linewidth=1, zorder=2)
    ax.text(right, top, "dominated ", ha="right", va="top", fontsize=7.5, color="#777777")
