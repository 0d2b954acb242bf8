"""Water and woods of an extract, for maps: `background.npz` in the network's folder."""

from __future__ import annotations

from collections import defaultdict
from collections.abc import Iterable
from dataclasses import dataclass
from pathlib import Path
from typing import Protocol

import numpy as np

from .arrays import UNITS, boxes_of, degrees

FILE = "background.npz"
WATER, WOOD, STREAM = 100, 101, 102
WATERS = {"riverbank", "dock"}
STREAMS = {"river", "stream", "canal"}
Shape = tuple[int, list[tuple[int, int]]]


class Tags(Protocol):
    def get(self, key: str) -> str | None:
        ...


@dataclass(frozen=True)
class Areas:
    """Shape k has the points `first[k]` to `first[k + 1]`; those of water and woods are rings,
    streams are lines.
    """

    kinds: np.ndarray
    first: np.ndarray
    points: np.ndarray  # longitude and latitude
    boxes: np.ndarray  # west, south, east and north

    def __len__(self) -> int:
        return len(self.kinds)

    def line(self, shape: int) -> np.ndarray:
        return self.points[self.first[shape] : self.first[shape + 1]]

    def within(self, box: tuple[float, float, float, float], least: float = 0.0) -> np.ndarray:
        """The shapes whose boxes meet the box, and are as many degrees wide or high."""
        west, south, east, north = box
        boxes = self.boxes
        met = (boxes[:, 0] <= east) & (boxes[:, 2] >= west)
        met &= (boxes[:, 1] <= north) & (boxes[:, 3] >= south)
        met &= np.max(boxes[:, 2:] - boxes[:, :2], axis=1, initial=0) >= least
        return np.flatnonzero(met)


def kind_of(tags: Tags) -> int | None:
    """What a closed way or a multipolygon with these tags shows."""
    natural, landuse = tags.get("natural"), tags.get("landuse")
    if natural == "water" or landuse == "reservoir" or tags.get("waterway") in WATERS:
        return WATER
    return WOOD if natural == "wood" or landuse == "forest" else None


def read_background(extract: str) -> dict[str, np.ndarray]:
    """The arrays of the file. By two readings: of the relations, which name the ways of large
    areas, and of the ways.
    """
    import osmium

    outer: dict[int, tuple[int, int]] = {}  # by way, its relation and what that shows
    pieces: dict[tuple[int, int], list[list[tuple[int, int]]]] = defaultdict(list)
    found: list[Shape] = []

    class Relations(osmium.SimpleHandler):
        def relation(self, relation: osmium.osm.Relation) -> None:
            kind = kind_of(relation.tags)
            if kind and relation.tags.get("type") == "multipolygon":
                for member in relation.members:
                    if member.type == "w" and member.role != "inner":
                        outer[member.ref] = relation.id, kind

    class Ways(osmium.SimpleHandler):
        def way(self, way: osmium.osm.Way) -> None:
            kind = STREAM if way.tags.get("waterway") in STREAMS else kind_of(way.tags)
            if kind is None and way.id not in outer:
                return
            points = [(one.x, one.y) for one in way.nodes if one.location.valid()]
            if len(points) < 2:
                return
            if way.id in outer:
                pieces[outer[way.id]].append(points)
            elif kind == STREAM or (kind and points[0] == points[-1]):
                found.append((kind, points))

    Relations().apply_file(extract)
    Ways().apply_file(extract, locations=True)
    for (_, kind), lines in pieces.items():
        found += [(kind, ring) for ring in rings_of(lines)]
    return _packed(found)


def rings_of(lines: Iterable[list[tuple[int, int]]]) -> list[list[tuple[int, int]]]:
    """Lines joined where they meet at their ends; those that never close are left out."""
    rings, left = [], [list(line) for line in lines]
    while left:
        ring = left.pop()
        while ring[0] != ring[-1]:
            at = next((at for at, one in enumerate(left) if ring[-1] in (one[0], one[-1])), None)
            if at is None:
                break
            more = left.pop(at)
            ring += more[1:] if more[0] == ring[-1] else more[-2::-1]
        if ring[0] == ring[-1] and len(ring) > 3:
            rings.append(ring)
    return rings


def _packed(shapes: list[Shape]) -> dict[str, np.ndarray]:
    counts = [len(points) for _, points in shapes]
    return {
        "kinds": np.array([kind for kind, _ in shapes], np.uint8),
        "first": np.concatenate([[0], np.cumsum(counts)]).astype(np.int64),
        "points": np.array([one for _, line in shapes for one in line], np.int32).reshape(-1, 2),
    }


def save_background(arrays: dict[str, np.ndarray], folder: Path) -> None:
    np.savez_compressed(folder / FILE, **arrays)


def load_background(folder: Path) -> Areas:
    """Of a network without the file there is nothing."""
    file = folder / FILE
    if not file.exists():
        return Areas(np.zeros(0, np.uint8), np.zeros(1, int), np.zeros((0, 2)), np.zeros((0, 4)))
    with np.load(file) as read:
        kinds, first, points = read["kinds"], read["first"], read["points"]
    return Areas(kinds, first, degrees(points), boxes_of(first, points) / UNITS)
