"""Names on the page's map: places and main roads that a window has room for."""

from __future__ import annotations

from collections.abc import Sequence

import numpy as np

from .network import NamedNode, rank_of
from .roads import CLASSES, Box, Roads
from .tiles import world

MOST_PLACES, MOST_ROADS = 40, 40
NAMED_AT = {"tertiary": 12, "ferry": 11, "secondary": 11, "primary": 9, "trunk": 7, "motorway": 6}


def place_labels(places: Sequence[NamedNode], box: Box) -> list[dict[str, object]]:
    """The largest places in the box, the largest first."""
    west, south, east, north = box
    inside = [
        place for place in places if west <= place.lon <= east and south <= place.lat <= north
    ]
    return [
        {"name": place.name, "kind": place.kind, "lon": place.lon, "lat": place.lat}
        for place in sorted(inside, key=rank_of)[:MOST_PLACES]
    ]


def road_labels(roads: Roads, box: Box, zoom: int) -> list[dict[str, object]]:
    """Of each named road of note in the box its longest stretch's middle, with the slope there."""
    named = [place for place, cls in enumerate(CLASSES) if zoom >= NAMED_AT.get(cls, 15)]
    chosen = roads.within(box)
    chosen = chosen[np.isin(roads.classes[chosen], named)]
    chosen = chosen[roads.titles[chosen] > 0]
    order = np.lexsort((-roads.metres[chosen], roads.classes[chosen]))
    found: dict[int, dict[str, object]] = {}
    for road in chosen[order]:
        if roads.titles[road] not in found and len(found) < MOST_ROADS:
            if label := _label(roads, int(road), box, zoom):
                found[int(roads.titles[road])] = label
    return list(found.values())


def _label(roads: Roads, road: int, box: Box, zoom: int) -> dict[str, object] | None:
    """In the middle of the part of the stretch that is in the box."""
    line = roads.line(road)
    west, south, east, north = box
    inside = np.flatnonzero(np.all((line >= [west, south]) & (line <= [east, north]), axis=1))
    if not len(inside):
        return None
    at = min(int(inside[len(inside) // 2]), len(line) - 2)
    (x, y), (right, down) = world(line[at : at + 2], zoom)
    lon, lat = (line[at] + line[at + 1]) / 2
    slope = float(np.degrees(np.arctan2(down - y, right - x)))
    slope = slope - 180 if slope > 90 else slope + 180 if slope < -90 else slope
    return {"name": roads.title(road), "lon": float(lon), "lat": float(lat), "slope": slope}
