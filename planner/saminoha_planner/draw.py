"""Maps that a planner prints: the alternatives as lanes beside each other, with few names, a
scale bar and the attribution.
"""

from __future__ import annotations

from collections import defaultdict
from collections.abc import Sequence
from dataclasses import dataclass, replace
from pathlib import Path

import matplotlib.patheffects as effects
import numpy as np
from matplotlib.axes import Axes
from matplotlib.collections import LineCollection, PolyCollection
from matplotlib.figure import Figure

from .background import STREAM, WATER, WOOD, load_background
from .choose import Option
from .client import Proof
from .colours import COLOURS
from .lanes import Run, beside, dense, metres_of, middle_of, runs_of, simplified
from .legend import (
    CLOSED,
    Legend,
    footer,
    footer_height,
    legend_of,
    paint_footer,
    paint_legend,
    sheet,
)
from .network import Line, Network, rank_of
from .places import Box, free_place, letter_places
from .roads import CLASSES, roads_of
from .view import View, view_of

WIDTHS = {
    "motorway": 2.4,
    "trunk": 2.2,
    "primary": 1.9,
    "secondary": 1.6,
    "tertiary": 1.2,
    "ferry": 0.8,
}
GREYS = {
    "motorway": "#b4b4b4",
    "trunk": "#b8b8b8",
    "primary": "#bdbdbd",
    "secondary": "#c6c6c6",
    "tertiary": "#cecece",
    "ferry": "#9fb8c8",
}
LANE, EDGE = 2.6, 1.1  # points: a lane's width, and the white on each side of it
BADGE = 15.0  # a letter's disc across, in points
MOST_ROADS = 30_000
EDGES, ABOVE = 10.0, 26.0  # points beside and above a map
HALO = [effects.withStroke(linewidth=2.5, foreground="white")]


@dataclass(frozen=True)
class Side:
    """One map: what was asked of which network, by which program, and the lines of the roads
    that are marked as changed. `more` are lines below its table.
    """

    title: str
    network: Network
    options: Sequence[Option]
    ends: tuple[int, int]
    marked: Sequence[Line] = ()
    proof: Proof = Proof.UNKNOWN
    more: Sequence[str] = ()


def draw_map(file: Path, side: Side) -> None:
    draw_maps(file, [side])


def draw_maps(file: Path, sides: Sequence[Side]) -> None:
    """Side by side, in the same view."""
    view = _common_view(sides)
    wide = (8.0 if len(sides) == 1 else 6.2) * 72 - 2 * EDGES
    high = float(np.clip(wide * view.size[1] / view.size[0], 250, 680))
    map_sheet(sides, (wide, high)).savefig(file, dpi=120 if len(sides) == 1 else 110)


def map_sheet(
    sides: Sequence[Side], size: tuple[float, float], sheet_height: float | None = None
) -> Figure:
    """Maps of this size in points with their tables below; or as high as the sheet lets them be."""
    wide, high = size
    column = wide + 2 * EDGES
    legends = [_legend(side, wide - 4) for side in sides]
    text = footer(sides[0].network.criteria, sides[0].proof, sides[0].network.attribution)
    below = max(one.height for one in legends) + footer_height(text, column * len(sides)) + 8
    if sheet_height:
        high = sheet_height - below - ABOVE
    whole = np.array([column * len(sides), high + below + ABOVE])
    figure = Figure(figsize=tuple(whole / 72))
    under = sheet(figure)
    view = _common_view(sides).fitted(wide / high)
    for place, (side, legend) in enumerate(zip(sides, legends)):
        left = place * column + EDGES
        x, y, width, height = np.array([left, below, wide, high]) / [*whole, *whole]
        paint(figure.add_axes((x, y, width, height)), view, side)
        under.text(left, whole[1] - 17, side.title, fontsize=11, va="baseline")
        paint_legend(under, legend, left + 2, below - 6)
    paint_footer(under, text)
    return figure


def _legend(side: Side, width: float) -> Legend:
    return legend_of(side.options, side.network.criteria, width, bool(side.marked), side.more)


def _common_view(sides: Sequence[Side]) -> View:
    views = [
        view_of(side.network, [option.route for option in side.options], side.ends)
        for side in sides
    ]
    return View(
        min(view.west for view in views),
        min(view.south for view in views),
        max(view.east for view in views),
        max(view.north for view in views),
    )


def paint(ax: Axes, view: View, side: Side) -> None:
    ax.set_xlim(0, view.size[0])
    ax.set_ylim(0, view.size[1])
    ax.set_aspect("equal")
    ax.set_xticks([])
    ax.set_yticks([])
    for spine in ax.spines.values():
        spine.set_color("#999999")
    network = side.network
    _paint_background(ax, network, view)
    _paint_roads(ax, network, view)
    _paint_marked(ax, view, side.marked)
    taken = _paint_ends(ax, network, view, side.ends)
    lanes = _paint_lanes(ax, network, view, side.options, taken)
    _paint_names(ax, network, view, lanes, taken)
    _paint_scale(ax, view)


def _paint_background(ax: Axes, network: Network, view: View) -> None:
    areas = load_background(network.folder)
    seen = areas.within(
        (view.west, view.south, view.east, view.north), (view.east - view.west) / 300
    )
    for kind, colour in ((WOOD, "#e8f1e2"), (WATER, "#d3e5f1"), (STREAM, "#c3dbec")):
        lines = [view.metres(areas.line(shape)) for shape in seen[areas.kinds[seen] == kind]]
        if kind == STREAM:
            drawn = LineCollection(lines, linewidths=0.6, colors=colour, zorder=0.6)
        else:
            drawn = PolyCollection(lines, facecolors=colour, linewidths=0, zorder=0.5)
        ax.add_collection(drawn)


def _paint_roads(ax: Axes, network: Network, view: View) -> None:
    """All roads of the view, or the greater ones where there are too many to be told apart."""
    roads = roads_of(network)
    seen = roads.within((view.west, view.south, view.east, view.north))
    counts = np.cumsum(np.bincount(roads.classes[seen], minlength=len(CLASSES)))
    least = max(int(np.searchsorted(counts, MOST_ROADS, "right")) - 1, int(roads.classes.min()))
    for place, cls in reversed(list(enumerate(CLASSES[: least + 1]))):
        lines = [view.metres(roads.line(road)) for road in seen[roads.classes[seen] == place]]
        style = (0, (3, 2)) if cls == "ferry" else "solid"
        ax.add_collection(
            LineCollection(
                lines,
                linewidths=WIDTHS.get(cls, 0.6),
                colors=GREYS.get(cls, "#dadada"),
                linestyles=[style],
                zorder=1,
                capstyle="round",
            )
        )


def _paint_marked(ax: Axes, view: View, marked: Sequence[Line]) -> None:
    lines = [view.metres(line) for line in marked if len(line) > 1]
    if lines:
        ax.add_collection(
            LineCollection(lines, linewidths=7, colors=CLOSED, zorder=1.5, capstyle="round")
        )
        ax.plot(
            *middle_of(max(lines, key=metres_of)),
            marker="X",
            color="#222222",
            markeredgecolor="white",
            markersize=9,
            zorder=8,
        )


def _paint_lanes(
    ax: Axes, network: Network, view: View, options: Sequence[Option], taken: list[Box]
) -> np.ndarray:
    """Routes that share a road lie on it side by side, always in the order of their letters.
    Answers the points of all lanes; the letters' places are taken then.
    """
    painted = [np.zeros((0, 2))]
    runs_by_letter = _runs(ax, network, view, options)
    for letter, runs in runs_by_letter.items():
        line = np.vstack([run.line for run in runs])
        for colour, width, order in (
            ("white", LANE + 2 * EDGE, 3),
            (COLOURS[letter], LANE, 4),
        ):
            ax.plot(
                *line.T,
                color=colour,
                linewidth=width,
                zorder=order,
                solid_joinstyle="round",
                solid_capstyle="round",
            )
        painted.append(line)
    metres = metres_a_point(ax, view)
    for letter, runs in runs_by_letter.items():
        point = free_place(letter_places(runs), taken, BADGE * metres)
        taken.append(Box(point[0], point[1], BADGE * metres, BADGE * metres))
        _paint_badge(ax, letter, point)
    return np.vstack(painted)


def _runs(
    ax: Axes, network: Network, view: View, options: Sequence[Option]
) -> dict[str, list[Run]]:
    """Of each letter the runs of its lane, moved aside."""
    users, towards = _users(network, options)
    lane = (LANE + EDGE) * metres_a_point(ax, view)
    found = {}
    for option in options:
        stretches = [
            (arc, network.road_key(arc))
            for arc in option.route.arcs or ()
            if len(network.arc(arc).line) > 1
        ]
        offsets = []
        for arc, key in stretches:
            place = users[key].index(option.letter) - (len(users[key]) - 1) / 2
            offsets.append(lane * place * (1 if towards[key] == network.arc(arc).line else -1))
        lines = [view.metres(network.arc(arc).line) for arc, _ in stretches]
        runs = runs_of(lines, offsets, [len(users[key]) for _, key in stretches], 2 * lane)
        if runs:
            found[option.letter] = [
                replace(run, line=beside(simplified(run.line, 0.5 * lane), run.offset))
                for run in runs
            ]
    return found


def _users(
    network: Network, options: Sequence[Option]
) -> tuple[dict[object, list[str]], dict[object, Line]]:
    """Of each road the letters that go on it, and the direction of the first of them."""
    users: dict[object, list[str]] = defaultdict(list)
    towards: dict[object, Line] = {}
    for option in options:
        for arc in option.route.arcs or ():
            key = network.road_key(arc)
            towards.setdefault(key, network.arc(arc).line)
            if option.letter not in users[key]:
                users[key].append(option.letter)
    return users, towards


def _paint_badge(ax: Axes, letter: str, point: np.ndarray) -> None:
    ax.plot(
        *point,
        marker="o",
        color=COLOURS[letter],
        markeredgecolor="white",
        markeredgewidth=1.2,
        markersize=BADGE - 2,
        zorder=8,
    )
    text = ax.text(*point, letter, color="white", fontsize=8.5, fontweight="bold", zorder=8.5)
    text.set(ha="center", va="center_baseline")


def metres_a_point(ax: Axes, view: View) -> float:
    box = ax.get_position()
    wide, high = ax.figure.get_size_inches() * [box.width, box.height] * 72
    return max(view.size[0] / wide, view.size[1] / high)


def _text_size(ax: Axes, view: View, text: str, points: float) -> tuple[float, float]:
    """About the width and height of a text on the ground."""
    metres = metres_a_point(ax, view)
    return len(text) * points * 0.62 * metres, points * 1.5 * metres


def _paint_ends(ax: Axes, network: Network, view: View, nodes: Sequence[int]) -> list[Box]:
    """Answers what their marks and names cover."""
    taken = []
    metres = metres_a_point(ax, view)
    for node in nodes:
        [(x, y)] = view.metres([(network.lon[node - 1], network.lat[node - 1])])
        ax.plot(
            x,
            y,
            marker="o",
            color="white",
            markeredgecolor="black",
            markeredgewidth=1.8,
            markersize=8,
            zorder=7,
        )
        name = network.name_of(node)
        side = 1 if x < view.size[0] * 0.7 else -1
        ax.annotate(
            name,
            (x, y),
            (9 * side, 7),
            textcoords="offset points",
            ha="left" if side > 0 else "right",
            fontsize=9.5,
            fontweight="bold",
            path_effects=HALO,
            zorder=9,
        )
        width, height = _text_size(ax, view, name, 9.5)
        middle = x + side * (9 * metres + width / 2)
        taken += [
            Box(middle, y + 7 * metres + height / 3, width * 1.1, height * 1.2),
            Box(x, y, 12 * metres, 12 * metres),
        ]
    return taken


def _paint_names(
    ax: Axes, network: Network, view: View, lanes: np.ndarray, taken: list[Box], most: int = 8
) -> None:
    """The largest places, beside the routes and not over each other."""
    lanes, width, height = dense(lanes, view.size[0] / 300), *view.size
    named = {text.get_text() for text in ax.texts}
    most += len(named)
    for place in sorted(network.places, key=rank_of):
        if len(named) >= most or place.name in named:
            continue
        [(x, y)] = view.metres([(place.lon, place.lat)])
        wide, high = _text_size(ax, view, place.name, 7.5)
        for right, up in (
            (0, 0),
            (0.8, 0),
            (-0.8, 0),
            (0, 1.2),
            (0, -1.2),
            (0.9, 1),
            (-0.9, 1),
            (1.1, 0),
            (-1.1, 0),
        ):
            box = Box(x + right * wide, y + up * high, wide, high)
            inside = wide / 2 < box.x < width - wide / 2 and 0.05 * height < box.y < 0.97 * height
            if inside and not box.holds(lanes) and not any(box.meets(other) for other in taken):
                ax.text(
                    box.x,
                    box.y,
                    place.name,
                    fontsize=7.5,
                    color="#444444",
                    ha="center",
                    va="center",
                    path_effects=HALO,
                    zorder=6,
                )
                taken.append(box)
                named.add(place.name)
                break


def _paint_scale(ax: Axes, view: View) -> None:
    wanted = view.size[0] / 4
    power = 10 ** np.floor(np.log10(wanted))
    length = float(max(step * power for step in (1, 2, 5) if step * power <= wanted))
    x, y = view.size[0] * 0.02, view.size[1] * 0.02
    ax.plot(
        [x, x, x + length, x + length],
        [y * 1.5, y, y, y * 1.5],
        color="black",
        linewidth=1.2,
        zorder=9,
        path_effects=HALO,
    )
    text = f"{length / 1000:g} km" if length >= 1000 else f"{length:g} m"
    ax.text(
        x + length / 2,
        y * 1.4,
        text,
        ha="center",
        va="bottom",
        fontsize=7.5,
        path_effects=HALO,
        zorder=9,
    )
