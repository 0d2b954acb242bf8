"""The part of the ground that a map shows."""

from __future__ import annotations

from collections.abc import Sequence
from dataclasses import dataclass

import numpy as np

from .client import Route
from .network import Network


@dataclass(frozen=True)
class View:
    """The part of the ground that is shown, and its projection to metres."""

    west: float
    south: float
    east: float
    north: float

    @property
    def stretch(self) -> float:
        return float(np.cos(np.radians((self.south + self.north) / 2)))

    def metres(self, points: np.ndarray | Sequence[tuple[float, float]]) -> np.ndarray:
        places = np.asarray(points, dtype=float).reshape(-1, 2)
        return (places - [self.west, self.south]) * [111_320 * self.stretch, 110_574]

    @property
    def size(self) -> np.ndarray:
        return self.metres([(self.east, self.north)])[0]

    def fitted(self, ratio: float) -> View:
        """With so many times the height as width: it grows where it is too narrow or too flat."""
        wide, high = self.size
        more_x = max(0.0, ratio * high / wide - 1) * (self.east - self.west) / 2
        more_y = max(0.0, wide / ratio / high - 1) * (self.north - self.south) / 2
        return View(
            self.west - more_x, self.south - more_y, self.east + more_x, self.north + more_y
        )


def view_of(network: Network, routes: Sequence[Route], nodes: Sequence[int] = ()) -> View:
    """Around the routes and nodes, with a margin, neither very flat nor very high."""
    points = [
        point for route in routes for arc in route.arcs or () for point in network.arc(arc).line
    ]
    points += [(network.lon[node - 1], network.lat[node - 1]) for node in nodes]
    if not points:
        points = list(zip(network.lon, network.lat))
    west, south = np.min(points, axis=0)
    east, north = np.max(points, axis=0)
    stretch = np.cos(np.radians((south + north) / 2))
    wide, high = max((east - west) * stretch, 0.003), max(north - south, 0.003)
    wide, high = max(wide, 0.6 * high) * 1.14, max(high, 0.6 * wide) * 1.14
    x, y = (west + east) / 2, (south + north) / 2
    return View(x - wide / stretch / 2, y - high / 2, x + wide / stretch / 2, y + high / 2)
