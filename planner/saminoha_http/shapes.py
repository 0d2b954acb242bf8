"""The lines of routes as GeoJSON has them, put together of what each arc adds."""

from __future__ import annotations

import functools
from collections.abc import Sequence
from typing import NamedTuple

from saminoha_planner.network import MOST_KEPT, Network


class Part(NamedTuple):
    """An arc's first and last point, and all points but the first, each behind a comma."""

    first: str
    last: str
    rest: str


class Shapes:
    """Of one network. What was made of an arc is kept, up to a bound."""

    def __init__(self, network: Network) -> None:
        self._network = network
        self._part = functools.lru_cache(MOST_KEPT)(self._make)

    def line(self, arcs: Sequence[int], here: int) -> str:
        """The coordinates of a walk. Of one that has no length it is twice the node's, since
        GeoJSON wants two.
        """
        texts, last = [], ""
        for part in map(self._part, arcs):
            texts.append(part.rest if part.first == last else f",{part.first}{part.rest}")
            last = part.last
        line = "".join(texts)[1:]
        if "],[" not in line:
            point = self._point(*self._place(here))
            line = f"{point},{point}"
        return f"[{line}]"

    def _place(self, node: int) -> tuple[float, float]:
        return float(self._network.lon[node - 1]), float(self._network.lat[node - 1])

    def _make(self, number: int) -> Part:
        points = [self._point(lon, lat) for lon, lat in self._network.arc(number).line]
        return Part(points[0], points[-1], "".join("," + point for point in points[1:]))

    @staticmethod
    def _point(lon: float, lat: float) -> str:
        return f"[{lon!r},{lat!r}]"
