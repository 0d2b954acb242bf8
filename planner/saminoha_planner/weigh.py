"""What each stretch between two points of a road weighs. Sums along a road are rounded, so that
an arc's weight doesn't depend on where else the road is cut: each arc has the difference of the
rounded sums at its ends.
"""

from __future__ import annotations

import os
from collections.abc import Mapping
from concurrent.futures import ThreadPoolExecutor
from dataclasses import dataclass

import numpy as np
from pyproj import Geod, Proj
from scipy.spatial import cKDTree

from .criteria import Criterion
from .osm import Extract, Roads
from .progress import Watch
from .tolls import Charged

HOUSE_METRES = 35.0
SAMPLE_METRES = 10.0
AT_ONCE = 200_000  # steps that are reckoned with before the count is told
UNITS = {"toll": 100.0, "time": 10.0}  # weights to a unit of money, to a second


@dataclass(frozen=True)
class Sums:
    """For each criterion the rounded sums from a road's first point to each of its points, along
    it and against it; the points of all roads one after another.
    """

    along: dict[str, np.ndarray]
    against: dict[str, np.ndarray]

    def weights(self, criterion: str, first: np.ndarray, last: np.ndarray) -> np.ndarray:
        """From points `first` to points `last`, against the road where that is before it."""
        along, against = self.along[criterion], self.against[criterion]
        there = along[last] - along[first]
        return np.where(first < last, there, against[first] - against[last])


class Projection:
    """Metres around the middle of the extract."""

    def __init__(self, lon: np.ndarray, lat: np.ndarray) -> None:
        middle = (
            (float(lon.min() + lon.max()) / 2, float(lat.min() + lat.max()) / 2)
            if len(lon)
            else (0.0, 0.0)
        )
        self._proj = Proj(proj="aeqd", lon_0=middle[0], lat_0=middle[1], ellps="WGS84")

    def metres(self, lon: np.ndarray, lat: np.ndarray) -> np.ndarray:
        return np.column_stack(self._proj(np.asarray(lon, float), np.asarray(lat, float)))


class Weigher:
    """Reckons with steps: step i goes from the roads' point i to point i + 1."""

    def __init__(
        self, extract: Extract, charged: Charged, heights: Mapping[int, float], watch: Watch
    ) -> None:
        self.extract, self.charged, self.heights, self.watch = extract, charged, heights, watch
        self.roads: Roads = extract.roads
        self.places = extract.places[self.roads.points]
        self.rows = self.roads.rows[:-1]  # of each step
        self.inner = self.roads.rows[1:] == self.rows  # not from one road to the next
        self.metres = self._metres()

    @property
    def metres_of_rows(self) -> np.ndarray:
        return np.bincount(self.rows, self.metres, len(self.roads))

    def sums(self, criteria: list[Criterion]) -> Sums:
        along, against = {}, {}
        for one in criteria:
            self.watch.now(f"weighing roads by {one.name}")
            there, back = self._amounts(one.name)
            along[one.name] = self._rounded_sums(there / one.step)
            against[one.name] = self._rounded_sums(back / one.step)
        return Sums(along, against)

    def _metres(self) -> np.ndarray:
        """Each step's length on the ellipsoid; 0 from one road to the next."""
        self.watch.now("measuring roads")
        metres, begins = np.zeros(len(self.rows)), range(0, len(self.rows), AT_ONCE)
        with ThreadPoolExecutor(os.cpu_count()) as threads:
            for begin, part in zip(begins, threads.map(self._metres_from, begins)):
                metres[begin : begin + AT_ONCE] = part
                self.watch.count(begin, len(metres))
        return np.where(self.inner, metres, 0.0)

    def _metres_from(self, begin: int) -> np.ndarray:
        lon, lat = self.places[begin : begin + AT_ONCE + 1].T
        return Geod(ellps="WGS84").inv(lon[:-1], lat[:-1], lon[1:], lat[1:])[2]

    def _amounts(self, name: str) -> tuple[np.ndarray, np.ndarray]:
        """Along the road and against it, for each step."""
        match name:
            case "distance":
                return self.metres, self.metres
            case "houses":
                near = self._near_houses()
                return near, near
            case "junctions":
                heads = self._is_junction()[self.roads.points].astype(float)
                return heads[1:] * self.inner, heads[:-1] * self.inner
            case "climb":
                rises = np.where(self.inner, np.diff(self._heights()), 0.0)
                return np.maximum(rises, 0), np.maximum(-rises, 0)
        there, back = self._charges(name)
        if name == "time":
            there, back = there + self._tenths(self.roads.along), back + self._tenths(
                self.roads.against
            )
        return there, back

    def _rounded_sums(self, amounts: np.ndarray) -> np.ndarray:
        """Point by point for all roads at once, the longest first, so that each road's sums are
        its own.
        """
        counts = np.diff(self.roads.first)
        order = np.argsort(-counts, kind="stable")
        begins, steps = self.roads.first[:-1][order], counts[order] - 1
        sums, total = np.zeros(len(self.roads.points)), np.zeros(len(order))
        for step in range(int(steps.max(initial=0))):
            left = int(np.searchsorted(-steps, -step))  # roads with more steps than this
            total[:left] += amounts[begins[:left] + step]
            sums[begins[:left] + step + 1] = total[:left]
        return np.rint(sums).astype(np.int64)

    def _tenths(self, speeds: np.ndarray) -> np.ndarray:
        """Tenths of a second; a ferry's timetable goes before its speed."""
        paces = np.where(np.isnan(speeds), 0.0, 36.0 / speeds)
        totals = np.maximum(self.metres_of_rows, 1e-9)
        by_table = ~np.isnan(self.roads.seconds)
        paces = np.where(by_table, 10 * np.nan_to_num(self.roads.seconds) / totals, paces)
        return self.metres * paces[self.rows]

    def _charges(self, criterion: str) -> tuple[np.ndarray, np.ndarray]:
        """By the kilometre, at points and in the middle of ways. A point's charge lies on the
        step that leads to it.
        """
        by_km = np.zeros(len(self.roads))
        for row, amounts in self.charged.per_km.items():
            by_km[row] = amounts.get(criterion, 0.0)
        steps = self.metres * by_km[self.rows] / 1000
        for row, amounts in self.charged.middles.items():
            steps[self._middle(row)] += amounts.get(criterion, 0.0)
        at_points = np.zeros(len(self.extract.ids))
        for point, amounts in self.charged.gantries.items():
            at_points[self.extract.ids == point] = amounts.get(criterion, 0.0)
        heads = at_points[self.roads.points]
        unit = UNITS[criterion]
        along = (steps + heads[1:] * self.inner) * unit
        return along, (steps + heads[:-1] * self.inner) * unit

    def _middle(self, row: int) -> int:
        first, last = self.roads.first[row], self.roads.first[row + 1]
        sums = np.cumsum(self.metres[first : last - 1])
        return int(first + min(np.searchsorted(sums, sums[-1] / 2), len(sums) - 1))

    def _is_junction(self) -> np.ndarray:
        """Points from which roads lead to three points or more."""
        points = self.roads.points
        ends = np.sort(np.column_stack([points[:-1], points[1:]])[self.inner], axis=1)
        ends = np.unique(ends, axis=0)
        return np.bincount(ends.ravel(), minlength=len(self.extract.ids)) > 2

    def _heights(self) -> np.ndarray:
        """Of each of the roads' points; unknown ones lie between the known ones of the road in
        proportion to the points, level where none is known.
        """
        of_points = np.array([self.heights.get(int(one), np.nan) for one in self.extract.ids])
        heights, roads = of_points[self.roads.points], self.roads
        for row in np.unique(roads.rows[np.isnan(heights)]):
            part = slice(roads.first[row], roads.first[row + 1])
            heights[part] = _filled(heights[part])
        return heights

    def _near_houses(self) -> np.ndarray:
        """Metres of each step near houses, by samples every 10 m that each stand for their share
        of it.
        """
        houses, near = self.extract.houses, np.zeros(len(self.metres))
        if not len(houses):
            return near
        lon, lat = self.extract.places.T
        projection = Projection(lon, lat)
        tree = cKDTree(projection.metres(houses[:, 0], houses[:, 1]))
        points = projection.metres(self.places[:, 0], self.places[:, 1])
        for begin in range(0, len(near), AT_ONCE // 10):
            steps = np.arange(begin, min(begin + AT_ONCE // 10, len(near)))
            near[steps] = _share_near(tree, points, self.metres, steps[self.inner[steps]], steps)
            self.watch.count(begin, len(near))
        return near * self.metres


def _share_near(
    tree: cKDTree, points: np.ndarray, metres: np.ndarray, inner: np.ndarray, steps: np.ndarray
) -> np.ndarray:
    """Which share of each of these steps has a house near it."""
    counts = np.maximum(1, np.ceil(metres[inner] / SAMPLE_METRES)).astype(int)
    place = np.repeat(np.arange(len(inner)), counts)
    order = np.arange(len(place)) - np.repeat(np.cumsum(counts) - counts, counts)
    share = ((order + 0.5) / counts[place])[:, None]
    at = inner[place]
    samples = points[at] * (1 - share) + points[at + 1] * share
    distance, _ = tree.query(samples, distance_upper_bound=HOUSE_METRES, workers=-1)
    found = np.zeros(len(steps))
    found[inner - steps[0]] = np.bincount(place, np.isfinite(distance), len(inner)) / counts
    return found


def _filled(heights: np.ndarray) -> np.ndarray:
    known = np.flatnonzero(~np.isnan(heights))
    if not len(known):
        return np.zeros(len(heights))
    return np.interp(np.arange(len(heights)), known, heights[known])
