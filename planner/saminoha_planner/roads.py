"""Roads as arrays: stretches between junctions, both directions as one, for tiles, names and
clicks.
"""

from __future__ import annotations

from collections.abc import Sequence
from dataclasses import dataclass
from functools import cached_property

import numpy as np

from .arrays import degrees
from .network import Network

CLASSES = (
    "motorway",
    "trunk",
    "primary",
    "secondary",
    "tertiary",
    "ferry",
    "unclassified",
    "residential",
    "living_street",
    "road",
    "service",
    "track",
    "cycleway",
    "pedestrian",
    "footway",
    "bridleway",
    "path",
    "steps",
)
METRES_PER_DEGREE = 111_195.0
Box = tuple[float, float, float, float]  # west, south, east, north


@dataclass(frozen=True)
class Roads:
    """Stretch k has the points `first[k]` to `first[k + 1]`, and both its directions' arcs."""

    classes: np.ndarray  # places in CLASSES
    titles: np.ndarray  # places in names: of its name, or else of its ref
    refs: np.ndarray  # places in names
    names: Sequence[str]
    first: np.ndarray
    points: np.ndarray  # longitude and latitude
    boxes: np.ndarray  # west, south, east and north of each stretch
    of_arc: np.ndarray  # the stretch of arc k at k - 1, and -1 where it has no line
    back: np.ndarray  # whether arc k goes against its stretch

    def __len__(self) -> int:
        return len(self.classes)

    @cached_property
    def _by_road(self) -> tuple[np.ndarray, np.ndarray]:
        order = np.argsort(self.of_arc, kind="stable")
        return order, np.searchsorted(self.of_arc[order], np.arange(len(self) + 1))

    def arcs(self, roads: Sequence[int]) -> list[int]:
        """The arcs of these stretches, ascending."""
        order, first = self._by_road
        found = [order[first[road] : first[road + 1]] + 1 for road in roads]
        return sorted(int(arc) for part in found for arc in part)

    def line(self, road: int) -> np.ndarray:
        return self.points[self.first[road] : self.first[road + 1]]

    def title(self, road: int) -> str:
        return self.names[self.titles[road]]

    def within(self, box: Box, most_class: int = len(CLASSES)) -> np.ndarray:
        """The stretches whose boxes meet the box, of a class up to the given one."""
        west, south, east, north = box
        boxes = self.boxes
        return np.flatnonzero(
            (boxes[:, 0] <= east)
            & (boxes[:, 2] >= west)
            & (boxes[:, 1] <= north)
            & (boxes[:, 3] >= south)
            & (self.classes <= most_class)
        )

    def titled(self, text: str) -> np.ndarray:
        """The stretches of the road of this name or ref, whatever the case of its letters."""
        wanted = text.strip().casefold()
        same = [place for place, name in enumerate(self.names) if name.casefold() == wanted]
        found = np.isin(self.titles, same) | np.isin(self.refs, same)
        return np.flatnonzero(found) if wanted else np.zeros(0, int)

    @cached_property
    def metres(self) -> np.ndarray:
        """The length of each stretch."""
        steps = np.diff(self.points, axis=0)
        stretch = np.cos(np.radians(self.points[:-1, 1]))
        lengths = METRES_PER_DEGREE * np.hypot(steps[:, 0] * stretch, steps[:, 1])
        sums = np.concatenate([[0.0], np.cumsum(lengths)])
        return sums[self.first[1:] - 1] - sums[self.first[:-1]]

    def nearest(self, lon: float, lat: float, metres: float) -> tuple[int, float] | None:
        """The stretch nearest to a point, and how many metres it is away, up to a distance."""
        away = metres / METRES_PER_DEGREE
        wide = away / np.cos(np.radians(lat))
        best: tuple[int, float] | None = None
        for road in self.within((lon - wide, lat - away, lon + wide, lat + away)):
            distance = distance_to(self.line(road), lon, lat)
            if distance <= (best[1] if best else metres):
                best = int(road), distance
        return best


def distance_to(line: np.ndarray, lon: float, lat: float) -> float:
    """Metres from a point to a line."""
    scale = np.array([METRES_PER_DEGREE * np.cos(np.radians(lat)), METRES_PER_DEGREE])
    places = (line - [lon, lat]) * scale
    if len(places) < 2:
        return float(np.hypot(*places[0]))
    begin, step = places[:-1], np.diff(places, axis=0)
    squares = np.maximum((step**2).sum(axis=1), 1e-12)
    share = np.clip(-(begin * step).sum(axis=1) / squares, 0, 1)
    return float(np.hypot(*(begin + step * share[:, None]).T).min())


def roads_of(network: Network) -> Roads:
    """The network's roads, of its arrays."""
    arrays = network.arrays
    ranks = np.array([class_of(name) for name in arrays.class_names] or [0], dtype=np.uint8)
    return Roads(
        ranks[arrays.classes],
        np.where(arrays.names > 0, arrays.names, arrays.refs),
        arrays.refs,
        arrays.texts,
        arrays.first,
        degrees(arrays.points),
        degrees(arrays.boxes),
        arrays.stretches,
        arrays.back,
    )


def class_of(name: str) -> int:
    plain = name.removesuffix("_link")
    return CLASSES.index(plain) if plain in CLASSES else len(CLASSES) - 1
