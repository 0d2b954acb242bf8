"""A network's arcs and roads as arrays in its folder, read from the disk as far as they are used.

A stretch is a piece of road from one junction to the next. Both its directions are arcs; in a
network with turns or with tolls by entry more arcs than two may lie on it. Stretches count from 0,
arcs and nodes from 1: arc k stands at place k - 1.

    arrays = load(folder)
    seen = arrays.within((9.4, 47.0, 9.6, 47.2), classes={"primary", "secondary"})
    for stretch in seen:
        print(arrays.title(stretch), arrays.line(stretch))   # degrees, longitude and latitude
    shut = arrays.arcs_of(arrays.titled("Benderer Strasse"))

The arrays themselves, for who reckons with many at once:

    nodes      N x 2  longitude and latitude of each node
    tails, heads   M  an arc's nodes
    weights    M x D  its weights, by the network's criteria
    speeds         M  km/h
    stretches      M  its stretch, and -1 of an arc that lies on none
    back           M  whether it goes against its stretch
    first      S + 1  stretch s has the points first[s] to first[s + 1]
    points     P x 2  longitude and latitude
    boxes      S x 4  west, south, east and north of each stretch
    ways           S  the way of the extract
    classes        S  places in class_names
    names, refs    S  places in texts, of which the first is empty

Places on the ground are millionths of a degree times ten (1e-7), as OpenStreetMap has them.
"""

from __future__ import annotations

import difflib
import json
from collections.abc import Collection, Sequence
from dataclasses import dataclass, fields
from functools import cached_property
from pathlib import Path

import numpy as np

FOLDER = "arrays"
UNITS = 1e7  # to a degree
METRES_PER_DEGREE = 111_195.0
Box = tuple[float, float, float, float]  # west, south, east, north


@dataclass(frozen=True, eq=False)
class Arrays:
    nodes: np.ndarray
    tails: np.ndarray
    heads: np.ndarray
    weights: np.ndarray
    speeds: np.ndarray
    stretches: np.ndarray
    back: np.ndarray
    first: np.ndarray
    points: np.ndarray
    boxes: np.ndarray
    ways: np.ndarray
    classes: np.ndarray
    names: np.ndarray
    refs: np.ndarray
    class_names: Sequence[str]
    texts: Sequence[str]

    def line(self, stretch: int) -> np.ndarray:
        """The points of a stretch in degrees."""
        return degrees(self.points[self.first[stretch] : self.first[stretch + 1]])

    def class_of(self, stretch: int) -> str:
        return self.class_names[self.classes[stretch]]

    def title(self, stretch: int) -> str:
        """The road's name, else its ref, else nothing."""
        return self.texts[self.names[stretch]] or self.texts[self.refs[stretch]]

    def within(self, box: Box, classes: Collection[str] | None = None) -> np.ndarray:
        """The stretches whose boxes meet this one, of these classes where some are given."""
        west, south, east, north = (round(side * UNITS) for side in box)
        boxes = self.boxes
        met = (boxes[:, 0] <= east) & (boxes[:, 2] >= west)
        met &= (boxes[:, 1] <= north) & (boxes[:, 3] >= south)
        if classes is not None:
            wanted = [place for place, name in enumerate(self.class_names) if name in classes]
            met &= np.isin(self.classes, wanted)
        return np.flatnonzero(met)

    def titled(self, text: str) -> np.ndarray:
        """The stretches of this name or ref, whatever the case of its letters."""
        wanted = text.strip().casefold()
        same = [place for place, name in enumerate(self.texts) if name.casefold() == wanted]
        if not wanted or not same:
            return np.zeros(0, np.int64)
        return np.flatnonzero(np.isin(self.names, same) | np.isin(self.refs, same))

    def like(self, text: str) -> str:
        """A question for who wrote a name wrong, or nothing."""
        names = {name.casefold(): name for name in self.texts if name}
        near = difflib.get_close_matches(text.strip().casefold(), names, 1, 0.7)
        return f"; is it {names[near[0]]}?" if near else ""

    def weightless(self) -> int | None:
        """An arc that weighs nothing, if there is one."""
        found = np.flatnonzero(~self.weights.any(axis=1))
        return int(found[0]) + 1 if len(found) else None

    def arcs_of(self, stretches: np.ndarray | Sequence[int]) -> np.ndarray:
        """The arcs on these stretches, ascending."""
        order, first = self._by_stretch
        parts = [order[first[one] : first[one + 1]] for one in np.asarray(stretches, np.int64)]
        return np.sort(np.concatenate(parts)) + 1 if parts else np.zeros(0, np.int64)

    @cached_property
    def metres(self) -> np.ndarray:
        """About how long each stretch is."""
        places = degrees(self.points)
        steps = np.diff(places, axis=0)
        steps[:, 0] *= np.cos(np.radians(places[:-1, 1]))
        sums = np.concatenate([[0.0], np.cumsum(METRES_PER_DEGREE * np.hypot(*steps.T))])
        return sums[self.first[1:] - 1] - sums[self.first[:-1]]

    @cached_property
    def _by_stretch(self) -> tuple[np.ndarray, np.ndarray]:
        order = np.argsort(self.stretches, kind="stable")
        return order, np.searchsorted(self.stretches[order], np.arange(len(self.ways) + 1))


def degrees(places: np.ndarray) -> np.ndarray:
    return places / UNITS


def boxes_of(first: np.ndarray, points: np.ndarray) -> np.ndarray:
    if len(first) < 2:
        return np.zeros((0, 4), np.int32)
    least = np.minimum.reduceat(points, first[:-1])
    most = np.maximum.reduceat(points, first[:-1])
    return np.hstack([least, most])


def save(arrays: Arrays, folder: Path) -> None:
    """Each array as a file of numpy, and the texts as one of JSON."""
    folder = folder / FOLDER
    folder.mkdir(exist_ok=True)
    for name in _names():
        np.save(folder / f"{name}.npy", getattr(arrays, name))
    texts = {"class_names": list(arrays.class_names), "texts": list(arrays.texts)}
    (folder / "texts.json").write_text(json.dumps(texts, ensure_ascii=False))


def load(folder: Path) -> Arrays:
    """The arrays of a network's folder. Nothing of them is read before it is used."""
    folder = folder / FOLDER
    texts = json.loads((folder / "texts.json").read_text())
    read = {name: np.load(folder / f"{name}.npy", mmap_mode="r") for name in _names()}
    plain = {name: np.asarray(array) for name, array in read.items()}
    return Arrays(**plain, class_names=texts["class_names"], texts=texts["texts"])


def _names() -> list[str]:
    return [one.name for one in fields(Arrays) if one.name not in ("class_names", "texts")]
