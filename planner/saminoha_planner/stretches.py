"""Which stretches of road a closure means: a whole road, what lies at a point, or all between
two points; and how a piece is told.
"""

from __future__ import annotations

import heapq
from collections import Counter
from collections.abc import Sequence
from dataclasses import dataclass
from functools import cached_property

import numpy as np

from .ends import EndFault
from .roads import Roads

Point = tuple[float, float]
OTHER_ROAD = 5.0  # how many times longer a stretch of another road counts between two clicks
MOST_SETTLED = 50_000


@dataclass(frozen=True)
class Piece:
    """Stretches of one closure: their road's title, where they begin and end by crossing roads,
    and in how many parts they are.
    """

    roads: tuple[int, ...]
    title: str
    metres: float
    parts: int
    whole: bool = False
    begin: str = ""
    end: str = ""

    @property
    def text(self) -> str:
        if self.begin and self.end:
            return f"from {self.begin} to {self.end}"
        return "the whole road" if self.whole else ""


class Stretches:
    """The stretches of a network and the points at which they meet."""

    def __init__(self, roads: Roads) -> None:
        self._roads = roads

    def of_road(self, title: str) -> Piece:
        chosen = self._roads.titled(title)
        if not len(chosen):
            raise EndFault("no_road", f"there is no road {title!r}")
        return self.piece([int(road) for road in chosen])

    def at(self, point: Point, metres: float) -> Piece:
        return self.piece([self._nearest(point, metres)])

    def between(self, first: Point, second: Point, metres: float) -> Piece:
        """From the first point's stretch to the second's, on the same road where it leads there."""
        begin, end = self._nearest(first, metres), self._nearest(second, metres)
        return self.piece(sorted({begin, end, *self._path(begin, end)}))

    def piece(self, chosen: Sequence[int]) -> Piece:
        roads = self._roads
        lengths: Counter[int] = Counter()
        for road in chosen:
            lengths[int(roads.titles[road])] += int(roads.metres[road]) + 1
        title = lengths.most_common(1)[0][0]
        whole = bool(title) and len(chosen) == int(np.sum(roads.titles == title))
        begin, end = self._cross_roads(chosen, title)
        metres = float(roads.metres[list(chosen)].sum())
        return Piece(
            tuple(chosen), roads.names[title], metres, self._parts(chosen), whole, begin, end
        )

    def _nearest(self, point: Point, metres: float) -> int:
        found = self._roads.nearest(*point, metres)
        if found is None:
            raise EndFault("no_road_here", "no road is near")
        return found[0]

    @cached_property
    def _ends(self) -> np.ndarray:
        """The two points, as numbers, at which each stretch meets others."""
        roads = self._roads
        places = np.vstack([roads.points[roads.first[:-1]], roads.points[roads.first[1:] - 1]])
        _, numbers = np.unique(np.rint(places * 1e7).astype(np.int64), axis=0, return_inverse=True)
        return numbers.reshape(2, -1).T

    @cached_property
    def _at(self) -> tuple[np.ndarray, np.ndarray]:
        order = np.argsort(self._ends, axis=None, kind="stable")
        numbers = self._ends.ravel()[order]
        return order // 2, np.searchsorted(numbers, np.arange(numbers[-1] + 2))

    def _meeting(self, point: int) -> np.ndarray:
        by_point, first = self._at
        return by_point[first[point] : first[point + 1]]

    def _path(self, begin: int, end: int) -> list[int]:
        """The stretches between these two (Dijkstra's search)."""
        if begin == end:
            return []
        titles = {int(self._roads.titles[road]) for road in (begin, end)}
        targets = set(map(int, self._ends[end]))
        open_points = [(0.0, int(point)) for point in self._ends[begin]]
        came: dict[int, tuple[int, int] | None] = {point: None for _, point in open_points}
        away = {point: 0.0 for _, point in open_points}
        settled: set[int] = set()
        while open_points and len(settled) < MOST_SETTLED:
            distance, point = heapq.heappop(open_points)
            if point in targets:
                return _traced(came, point)
            if point not in settled:
                settled.add(point)
                for road, head, more in self._steps(point, titles):
                    if distance + more < away.get(head, np.inf):
                        away[head], came[head] = distance + more, (road, point)
                        heapq.heappush(open_points, (distance + more, head))
        raise EndFault("no_stretch", "no road leads from the first to the second")

    def _steps(self, point: int, titles: set[int]) -> list[tuple[int, int, float]]:
        steps = []
        for road in map(int, self._meeting(point)):
            one, other = map(int, self._ends[road])
            factor = 1.0 if int(self._roads.titles[road]) in titles else OTHER_ROAD
            head = other if one == point else one
            steps.append((road, head, float(self._roads.metres[road]) * factor))
        return steps

    def _cross_roads(self, chosen: Sequence[int], title: int) -> tuple[str, str]:
        """The roads at the two ends of one chain, by their titles; else nothing."""
        counts = Counter(int(point) for road in chosen for point in self._ends[road])
        tips = [point for point, count in counts.items() if count == 1]
        names = [self._cross_road(point, title) for point in tips]
        return (names[0], names[1]) if len(tips) == 2 and names[0] != names[1] else ("", "")

    def _cross_road(self, point: int, title: int) -> str:
        roads = self._roads
        others = [road for road in self._meeting(point) if roads.titles[road] not in (0, title)]
        return roads.title(min(others, key=lambda road: roads.classes[road])) if others else ""

    def _parts(self, chosen: Sequence[int]) -> int:
        """In how many parts that hang together these stretches are."""
        left, parts = set(chosen), 0
        while left:
            parts += 1
            open_roads = [left.pop()]
            while open_roads:
                road = open_roads.pop()
                near = {int(one) for point in self._ends[road] for one in self._meeting(point)}
                near &= left
                left -= near
                open_roads.extend(near)
        return parts


def _traced(came: dict[int, tuple[int, int] | None], point: int) -> list[int]:
    path = []
    while step := came[point]:
        road, point = step
        path.append(road)
    return path
