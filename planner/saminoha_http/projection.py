"""The trade-offs of some of the criteria, of the answer that has those of all."""

from __future__ import annotations

from collections.abc import Sequence
from dataclasses import replace

import numpy as np

from saminoha_planner.client import Route


def projected(routes: Sequence[Route], places: Sequence[int]) -> list[Route]:
    """The routes' costs in the criteria at these places, in this order, where none dominates or
    equals another; of equal ones the first route stays.

    These are all trade-offs of these criteria: whatever a walk costs, one of the answer's routes
    costs no more in any criterion, and so none that the answer lacks is better here. The same is
    true within limits, since that route keeps what the walk keeps.
    """
    cut = [tuple(route.cost[place] for place in places) for route in routes]
    kept: list[int] = []
    costs = np.zeros((len(cut), len(places)), dtype=np.uint64)
    for at in sorted(range(len(cut)), key=lambda at: (cut[at], at)):
        cost = np.array(cut[at], dtype=np.uint64)
        if not np.any(np.all(costs[: len(kept)] <= cost, axis=1)):
            costs[len(kept)] = cost
            kept.append(at)
    return [replace(routes[at], cost=cut[at]) for at in kept]
