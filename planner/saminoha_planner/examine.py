"""What is odd in a network: parts that don't hang together, strange weights, parallel arcs,
pairs without a walk.
"""

from __future__ import annotations

from collections import defaultdict
from collections.abc import Sequence
from dataclasses import dataclass

import numpy as np
from scipy.sparse import csr_matrix
from scipy.sparse.csgraph import breadth_first_order, connected_components

from .network import Network


@dataclass(frozen=True)
class Range:
    criterion: str
    least: int
    median: float
    most: int
    zeros: int


@dataclass(frozen=True)
class Parallel:
    """Two arcs between the same nodes, of which the second is nowhere better than the first
    where it is dominated.
    """

    arc: int
    other: int
    dominated: bool


@dataclass(frozen=True)
class Findings:
    components: list[int]  # sizes, the largest first
    ranges: list[Range]
    loops: list[int]
    parallel: list[Parallel]
    without_walk: list[tuple[int, int]]


def examine(network: Network, pairs: Sequence[tuple[int, int]] = ()) -> Findings:
    graph, arrays = _graph(network), network.arrays
    return Findings(
        _components(graph),
        _ranges(network),
        (np.flatnonzero(arrays.tails == arrays.heads) + 1).tolist(),
        _parallel(network),
        _without_walk(graph, pairs),
    )


def _graph(network: Network) -> csr_matrix:
    arrays, count = network.arrays, len(network.arrays.nodes)
    ends = (arrays.tails - 1, arrays.heads - 1)
    return csr_matrix((np.ones(len(arrays.tails)), ends), shape=(count, count))


def _components(graph: csr_matrix) -> list[int]:
    _, labels = connected_components(graph, directed=True, connection="strong")
    return sorted(map(int, np.bincount(labels)), reverse=True)


def _ranges(network: Network) -> list[Range]:
    return [
        Range(
            criterion.name,
            int(column.min()),
            float(np.median(column)),
            int(column.max()),
            int((column == 0).sum()),
        )
        for criterion, column in zip(network.criteria, network.arrays.weights.T)
        if len(column)
    ]


def _parallel(network: Network) -> list[Parallel]:
    arrays = network.arrays
    keys = arrays.tails.astype(np.int64) << 32 | arrays.heads
    several, counts = np.unique(keys, return_counts=True)
    between: dict[int, list[int]] = defaultdict(list)
    for place in np.flatnonzero(np.isin(keys, several[counts > 1])):
        between[int(keys[place])].append(int(place) + 1)
    found = []
    for numbers in between.values():
        first, *others = sorted(numbers, key=lambda number: (network.arc(number).weights, number))
        for other in others:
            worse = all(
                a <= b for a, b in zip(network.arc(first).weights, network.arc(other).weights)
            )
            found.append(Parallel(first, other, worse))
    return found


def _without_walk(graph: csr_matrix, pairs: Sequence[tuple[int, int]]) -> list[tuple[int, int]]:
    reached: dict[int, set[int]] = {}
    for source, _ in pairs:
        if source not in reached:
            reached[source] = set(
                map(int, breadth_first_order(graph, source - 1, return_predecessors=False))
            )
    return [(source, target) for source, target in pairs if target - 1 not in reached[source]]
