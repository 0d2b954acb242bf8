"""Routes that are nearly one: they cost nearly the same in every criterion, and share most of
their road.
"""

from __future__ import annotations

import functools
from collections.abc import Sequence

import numpy as np

from .client import Route
from .roads import Roads

NEAR_COST, NEAR_ROAD = 0.005, 0.8


def grouped(routes: Sequence[Route], roads: Roads) -> dict[Route, list[Route]]:
    """Some of the routes, each with those that are nearly the same. The least of each criterion
    are among them, and so is the compromise.
    """
    if len(routes) < 2:
        return {route: [] for route in routes}
    costs = np.array([route.cost for route in routes], dtype=float)

    @functools.cache
    def used(at: int) -> np.ndarray:
        return _roads_of(routes[at], roads)

    def is_along(one: int, other: int) -> bool:
        return share_of(used(one), used(other), roads.metres) >= NEAR_ROAD

    left = np.ones(len(routes), dtype=bool)
    groups: dict[Route, list[Route]] = {}
    for at in _order(costs):
        if not left[at]:
            continue
        left[at] = False
        near = np.flatnonzero(left & _is_near(costs, costs[at]))
        twins = [one for one in near if is_along(one, at)]
        left[twins] = False
        groups[routes[at]] = [routes[one] for one in twins]
    return groups


def share_of(one: np.ndarray, other: np.ndarray, metres: np.ndarray) -> float:
    """How much of the one's length the other goes too."""
    total = float(metres[one].sum())
    return float(metres[np.intersect1d(one, other, True)].sum()) / total if total else 1.0


def _roads_of(route: Route, roads: Roads) -> np.ndarray:
    found = roads.of_arc[np.asarray(route.arcs or (), dtype=np.int64) - 1]
    return np.unique(found[found >= 0])


def _order(costs: np.ndarray) -> list[int]:
    """The least of each criterion first, and then from the compromise on."""
    least, span = costs.min(axis=0), np.ptp(costs, axis=0)
    away = (((costs - least) / np.where(span > 0, span, 1)) ** 2).sum(axis=1)
    first = [int(np.lexsort((away, column))[0]) for column in costs.T]
    return list(dict.fromkeys([*first, *map(int, np.argsort(away, kind="stable"))]))


def _is_near(costs: np.ndarray, cost: np.ndarray) -> np.ndarray:
    return np.all(np.abs(costs - cost) <= NEAR_COST * np.maximum(costs, cost), axis=1)
