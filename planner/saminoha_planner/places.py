"""Where letters and names may stand on a map: boxes that don't meet. Lengths are metres."""

from __future__ import annotations

from collections.abc import Sequence
from dataclasses import dataclass

import numpy as np

from .lanes import Run, metres_of

SHARES = (0.5, 0.35, 0.65, 0.2, 0.8, 0.08, 0.92)


@dataclass(frozen=True)
class Box:
    """Its middle and its size."""

    x: float
    y: float
    width: float
    height: float

    def holds(self, points: np.ndarray) -> bool:
        away = np.abs(points - [self.x, self.y])
        return bool(np.any((away[:, 0] < self.width / 2) & (away[:, 1] < self.height / 2)))

    def meets(self, other: Box) -> bool:
        return (
            abs(self.x - other.x) < (self.width + other.width) / 2
            and abs(self.y - other.y) < (self.height + other.height) / 2
        )

    def gap(self, other: Box) -> float:
        """How far apart they are, and below 0 where they meet."""
        wide = abs(self.x - other.x) - (self.width + other.width) / 2
        high = abs(self.y - other.y) - (self.height + other.height) / 2
        return max(wide, high)


def letter_places(runs: Sequence[Run]) -> list[np.ndarray]:
    """Where a letter may stand on its line: the middles of the loneliest and longest runs first."""
    lonely = sorted(runs, key=lambda run: (run.count, -metres_of(run.line)))[:8]
    return [point_at(run.line, share) for share in SHARES for run in lonely]


def point_at(line: np.ndarray, share: float) -> np.ndarray:
    """The point behind so much of the line."""
    if len(line) < 2:
        return line[0]
    sums = np.concatenate([[0.0], np.cumsum(np.hypot(*np.diff(line, axis=0).T))])
    at = sums[-1] * share
    return np.array([np.interp(at, sums, line[:, 0]), np.interp(at, sums, line[:, 1])])


def free_place(places: Sequence[np.ndarray], taken: Sequence[Box], side: float) -> np.ndarray:
    """The first place where a square of this side meets nothing that is taken; where there is
    none, the one that is farthest from all of it.
    """
    rooms = []
    for place in places:
        box = Box(place[0], place[1], side, side)
        rooms.append(min((box.gap(other) for other in taken), default=np.inf))
        if rooms[-1] >= 0:
            return place
    return places[int(np.argmax(rooms))]
