"""Alternatives as text, GeoJSON and CSV."""

from __future__ import annotations

import csv
import json
from collections.abc import Sequence
from pathlib import Path
from typing import TextIO

from .choose import Option
from .client import Proof, Route
from .network import Line, Network


def line_of(network: Network, route: Route) -> Line:
    """The points of a route, each once where one arc ends and the next begins."""
    points: list[tuple[float, float]] = []
    for number in route.arcs or ():
        line = network.arc(number).line
        points.extend(line if not points or points[-1] != line[0] else line[1:])
    return tuple(points)


def properties(network: Network, route: Route) -> dict[str, object]:
    costs = {
        criterion.name: round(criterion.value(weight), 3)
        for criterion, weight in zip(network.criteria, route.cost)
    }
    return costs | {
        f"{criterion.name}_weight": weight
        for criterion, weight in zip(network.criteria, route.cost)
    }


def geojson(network: Network, routes: Sequence[Route], options: Sequence[Option] = ()) -> dict:
    """Each route as a line; those among the few have their letter."""
    letters = {option.route: option for option in options}
    features = []
    for route in routes:
        more: dict[str, object] = {}
        if option := letters.get(route):
            more = {"letter": option.letter, "why": option.why, "via": option.via}
        shape = {
            "type": "LineString",
            "coordinates": [list(point) for point in line_of(network, route)],
        }
        features.append(
            {"type": "Feature", "properties": more | properties(network, route), "geometry": shape}
        )
    return {"type": "FeatureCollection", "attribution": network.attribution, "features": features}


def write_geojson(
    file: Path, network: Network, routes: Sequence[Route], options: Sequence[Option]
) -> None:
    file.write_text(json.dumps(geojson(network, routes, options), ensure_ascii=False) + "\n")


def write_csv(
    file: Path,
    network: Network,
    routes: Sequence[Route],
    options: Sequence[Option],
    proof: Proof = Proof.UNKNOWN,
) -> None:
    """A row for each route, the last column with whether the program is the proved one."""
    letters = {option.route: option for option in options}
    with file.open("w", newline="") as out:
        rows = csv.writer(out, lineterminator="\n")
        rows.writerow(
            [
                "letter",
                *(
                    f"{one.name} ({one.shown_unit})" if one.shown_unit else one.name
                    for one in network.criteria
                ),
                "arcs",
                "why",
                "via",
                "program",
            ]
        )
        for route in routes:
            option = letters.get(route)
            costs = [
                f"{one.value(weight):.{one.digits + 2}f}"
                for one, weight in zip(network.criteria, route.cost)
            ]
            told = [option.why, option.via] if option else ["", ""]
            rows.writerow(
                [
                    option.letter if option else "",
                    *costs,
                    " ".join(map(str, route.arcs or ())),
                    *told,
                    proof.value,
                ]
            )


def print_table(out: TextIO, network: Network, options: Sequence[Option]) -> None:
    """One line for each of the few: its letter, its costs below each criterion, and its roads."""
    heads = ["", *(one.label for one in network.criteria), "why", "via"]
    columns = [
        one.texts([option.route.cost[place] for option in options])
        for place, one in enumerate(network.criteria)
    ]
    rows = [
        [option.letter, *costs, option.why, option.via]
        for option, costs in zip(options, zip(*columns))
    ]
    widths = [max(len(row[place]) for row in [heads, *rows]) for place in range(len(heads))]
    numbers = range(1, 1 + len(network.criteria))
    for row in [heads, *rows]:
        cells = [
            text.rjust(width) if place in numbers else text.ljust(width)
            for place, (text, width) in enumerate(zip(row, widths))
        ]
        out.write("  ".join(cells).rstrip() + "\n")
