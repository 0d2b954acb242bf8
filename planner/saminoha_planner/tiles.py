"""Vector tiles of the roads, made from arrays: what a canvas of 256 points of a side draws.

A tile is little-endian numbers of 32 bits: for each line its class, how many points it has, and
these as x and y in quarters of a point from the tile's north-west corner. Classes are those of
roads, and the kinds of `background.py`.
"""

from __future__ import annotations

import functools
import math
import threading

import numpy as np

from .background import Areas
from .command import Fault
from .roads import CLASSES, Box, Roads

SIDE, PARTS = 256, 4  # points of a tile's side, and parts of a point
DEEPEST = 16  # deeper tiles are drawn from these, enlarged
MOST_POINTS = 12_000  # of a tile, by which classes are left out on small maps
MARGIN = 8  # points beyond the tile's side whose lines may show in it


def world(points: np.ndarray, zoom: int) -> np.ndarray:
    """Longitudes and latitudes in points of the map of this zoom (spherical Mercator)."""
    size = SIDE * 2**zoom
    north = np.radians(np.clip(points[:, 1], -85.05, 85.05))
    x = (points[:, 0] / 360 + 0.5) * size
    y = (0.5 - np.arcsinh(np.tan(north)) / (2 * np.pi)) * size
    return np.column_stack([x, y])


def box_of(zoom: int, x: int, y: int) -> Box:
    """West, south, east and north of a tile with its margin."""

    def lon(place: float) -> float:
        return place / 2**zoom * 360 - 180

    def lat(place: float) -> float:
        return math.degrees(math.atan(math.sinh(math.pi * (1 - 2 * place / 2**zoom))))

    more = MARGIN / SIDE
    return lon(x - more), lat(y + 1 + more), lon(x + 1 + more), lat(y - more)


class Tiles:
    """The tiles of one network's roads, with water and woods."""

    def __init__(self, roads: Roads, areas: Areas) -> None:
        self.roads, self.areas = roads, areas
        self.tile = functools.lru_cache(maxsize=512)(self._tile)
        self._least_classes: dict[int, int] = {}
        self._lock = threading.Lock()

    def least_class(self, zoom: int) -> int:
        """The least class that a map of this zoom has room for."""
        with self._lock:
            if zoom not in self._least_classes:
                self._least_classes[zoom] = self._least_class(zoom)
        return self._least_classes[zoom]

    def _tile(self, zoom: int, x: int, y: int) -> bytes:
        if not (0 <= zoom <= DEEPEST and 0 <= x < 2**zoom and 0 <= y < 2**zoom):
            raise Fault(f"there is no tile {zoom}/{x}/{y}")
        box = box_of(zoom, x, y)
        shown = self.areas.within(box, 3 * 360 / (SIDE * 2**zoom))
        chosen = self.roads.within(box, self.least_class(zoom))
        return encoded_areas(self.areas, shown, zoom, (x, y)) + encoded(
            self.roads, chosen, zoom, (x, y)
        )

    def _least_class(self, zoom: int) -> int:
        """In no tile more is drawn than goes into one."""
        roads = self.roads
        if zoom >= 14 or not len(roads):
            return len(CLASSES)
        middles, spans = self._places
        tile = (middles * (2**zoom / SIDE)).astype(np.int64)
        tile -= tile.min(axis=0)
        place = tile[:, 0] * (tile[:, 1].max() + 1) + tile[:, 1]
        drawn = np.minimum(np.diff(roads.first), 2 + spans * 2**zoom)
        least = int(roads.classes.min())
        for cls in np.unique(roads.classes):
            shown = roads.classes <= cls
            if np.bincount(place[shown], weights=drawn[shown]).max() > MOST_POINTS:
                break
            least = int(cls)
        return least

    @functools.cached_property
    def _places(self) -> tuple[np.ndarray, np.ndarray]:
        """Of each stretch its middle and its size in points of the map of zoom 0."""
        boxes = self.roads.boxes
        sizes = (boxes[:, 2:] - boxes[:, :2]).sum(axis=1) * (SIDE / 360)
        return world((boxes[:, :2] + boxes[:, 2:]) / 2, 0), sizes


def encoded(roads: Roads, chosen: np.ndarray, zoom: int, tile: tuple[int, int]) -> bytes:
    """These stretches' lines within the tile, in its numbers."""
    counts = np.diff(roads.first)[chosen]
    if not len(chosen):
        return b""
    at = np.repeat(roads.first[chosen], counts) + _steps(counts)
    road = np.repeat(np.arange(len(chosen)), counts)
    corner = np.array(tile) * SIDE
    places = np.rint((world(roads.points[at], zoom) - corner) * PARTS).astype(np.int64)
    places, road = _simplified(places, road)
    places, line = _clipped(places, road)
    return _packed(places, line, roads.classes[chosen][road_of(line)])


def encoded_areas(areas: Areas, chosen: np.ndarray, zoom: int, tile: tuple[int, int]) -> bytes:
    """Water and woods whole, so that they can be filled."""
    counts = np.diff(areas.first)[chosen]
    if not len(chosen):
        return b""
    at = np.repeat(areas.first[chosen], counts) + _steps(counts)
    shape = np.repeat(np.arange(len(chosen)), counts)
    corner = np.array(tile) * SIDE
    places = np.rint((world(areas.points[at], zoom) - corner) * PARTS).astype(np.int64)
    places, shape = _simplified(places, shape)
    return _packed(places, shape.astype(np.int64) << 32, areas.kinds[chosen][shape])


def road_of(line: np.ndarray) -> np.ndarray:
    """A line's number holds its road's in the upper half."""
    return line >> 32


def _steps(counts: np.ndarray) -> np.ndarray:
    ends = np.cumsum(counts)
    return np.arange(ends[-1]) - np.repeat(ends - counts, counts)


def _simplified(places: np.ndarray, road: np.ndarray) -> tuple[np.ndarray, np.ndarray]:
    """Without points that lie in the same place as the one before, to a point of the map, and
    without roads that are such a point; a road's ends stay.
    """
    coarse = places // PARTS
    follows = road[1:] == road[:-1]
    same = np.all(coarse[1:] == coarse[:-1], axis=1) & follows
    last = np.concatenate([~follows, [True]])
    kept = np.concatenate([[True], ~same]) | last
    moves = np.bincount(road[1:], weights=follows & ~same, minlength=road[-1] + 1)
    kept &= moves[road] > 0
    return places[kept], road[kept]


def _clipped(places: np.ndarray, road: np.ndarray) -> tuple[np.ndarray, np.ndarray]:
    """The parts of the lines that meet the tile; each part is a line of its own."""
    low, high = -MARGIN * PARTS, (SIDE + MARGIN) * PARTS
    if not len(places):
        return places, road
    least = np.minimum(places[:-1], places[1:])
    most = np.maximum(places[:-1], places[1:])
    meets = (road[1:] == road[:-1]) & np.all((most >= low) & (least <= high), axis=1)
    before = np.concatenate([[False], meets])
    after = np.concatenate([meets, [False]])
    kept = before | after
    part = np.cumsum(~before)  # a point with no segment before it begins a line
    return places[kept], (road.astype(np.int64) << 32 | part)[kept]


def _packed(places: np.ndarray, line: np.ndarray, classes: np.ndarray) -> bytes:
    if not len(line):
        return b""
    starts = np.flatnonzero(np.concatenate([[True], line[1:] != line[:-1]]))
    counts = np.diff(np.concatenate([starts, [len(line)]]))
    numbers = np.zeros(2 * len(starts) + 2 * len(line), dtype="<i4")
    heads = 2 * (starts + np.arange(len(starts)))
    numbers[heads], numbers[heads + 1] = classes[starts], counts
    at = 2 * (np.arange(len(line)) + np.repeat(np.arange(len(starts)), counts) + 1)
    numbers[at], numbers[at + 1] = places[:, 0], places[:, 1]
    return numbers.tobytes()
