"""Charges that are paid once for a connected stretch of roads: at the arcs that enter it.

Whether an arc enters depends on the arc before. So a node at which one may go on along the charged
roads has a second number: the first is reached and left as elsewhere, and from it each charged arc
has the charge on it; the second is reached by charged arcs alone, and from it they have none. Where
arcs are nodes because of turns, the charge lies on the turn.
"""

from __future__ import annotations

from collections import defaultdict
from collections.abc import Mapping, Sequence
from dataclasses import dataclass, replace

import numpy as np

from .arrays import Arrays
from .criteria import Criterion
from .tolls import Entry
from .weigh import UNITS

NONE = -1


@dataclass(frozen=True)
class Groups:
    """Of each arc which entry is charged for it, and of each entry what it adds to weights."""

    of_arcs: np.ndarray  # places in added, or NONE
    added: np.ndarray

    def __bool__(self) -> bool:
        return bool((self.of_arcs != NONE).any())

    @staticmethod
    def of(entries: Mapping[int, Entry], rows: np.ndarray, criteria: Sequence[Criterion]) -> Groups:
        """Of arcs by their roads' rows. Entries in a criterion that isn't weighed are none."""
        names = [one.name for one in criteria]
        weighed = {row: one for row, one in entries.items() if one.criterion in names}
        places = {one: place for place, one in enumerate(dict.fromkeys(weighed.values()))}
        added = np.zeros((len(places), len(criteria)), np.uint32)
        for one, place in places.items():
            at = names.index(one.criterion)
            added[place, at] = round(one.amount * UNITS[one.criterion] / criteria[at].step)
        of_rows = np.full(int(rows.max(initial=0)) + 1, NONE)
        for row, one in weighed.items():
            if row < len(of_rows):
                of_rows[row] = places[one]
        return Groups(of_rows[rows], added)


def charged_turns(groups: Groups, before: np.ndarray, after: np.ndarray) -> np.ndarray:
    """What is added for each turn from one arc into another; where the one is NONE a walk begins,
    and where the other is NONE it ends.
    """
    if not groups:
        return np.zeros((len(after), groups.added.shape[1]), np.uint32)
    group = np.where(after == NONE, NONE, groups.of_arcs[after])
    came = np.where(before == NONE, NONE, groups.of_arcs[before])
    enters = (group != NONE) & (group != came)
    return np.where(enters[:, None], groups.added[group], 0).astype(np.uint32)


def with_entries(arrays: Arrays, groups: Groups) -> tuple[Arrays, dict[str, object]]:
    """The network with second numbers, which stand after all others."""
    n = len(arrays.nodes)
    seconds = _seconds(arrays, groups, n)
    copies = _copies(arrays, groups, seconds)
    weights = arrays.weights.copy()
    charged = groups.of_arcs != NONE
    weights[charged] += groups.added[groups.of_arcs[charged]]
    source = np.concatenate([np.arange(len(weights)), [one.arc for one in copies]]).astype(int)
    free = np.array([one.is_free for one in copies], bool)
    more = np.where(free[:, None], arrays.weights[source[len(weights) :]], 0)
    more = np.where(free[:, None], more, weights[source[len(weights) :]])
    doubled = np.array([node for node, _ in seconds], int)
    return (
        replace(
            arrays,
            nodes=np.concatenate([arrays.nodes, arrays.nodes[doubled - 1]]),
            tails=_joined(arrays.tails, [one.tail for one in copies]),
            heads=_joined(arrays.heads, [one.head for one in copies]),
            weights=np.concatenate([weights, more.astype(np.uint32)]),
            speeds=arrays.speeds[source],
            stretches=arrays.stretches[source],
            back=arrays.back[source],
        ),
        {"junctions": n},
    )


@dataclass(frozen=True)
class _Copy:
    arc: int
    tail: int
    head: int
    is_free: bool


def _seconds(arrays: Arrays, groups: Groups, n: int) -> dict[tuple[int, int], int]:
    """The second number of each node and group by which one may go on: by a charged arc in, and
    out by one that isn't the way back.
    """
    into: dict[tuple[int, int], set[int]] = defaultdict(set)
    out: dict[tuple[int, int], set[int]] = defaultdict(set)
    for arc in np.flatnonzero(groups.of_arcs != NONE):
        group, stretch = int(groups.of_arcs[arc]), int(arrays.stretches[arc])
        into[int(arrays.heads[arc]), group].add(stretch)
        out[int(arrays.tails[arc]), group].add(stretch)
    through = [key for key in into if key in out and len(into[key] | out[key]) > 1]
    return {key: n + place for place, key in enumerate(sorted(through), start=1)}


def _copies(arrays: Arrays, groups: Groups, seconds: Mapping[tuple[int, int], int]) -> list[_Copy]:
    copies = []
    for arc in map(int, np.flatnonzero(groups.of_arcs != NONE)):
        group = int(groups.of_arcs[arc])
        tail, head = int(arrays.tails[arc]), int(arrays.heads[arc])
        second_tail, second_head = seconds.get((tail, group)), seconds.get((head, group))
        if second_head:
            copies.append(_Copy(arc, tail, second_head, False))
        if second_tail:
            copies.append(_Copy(arc, second_tail, head, True))
        if second_tail and second_head:
            copies.append(_Copy(arc, second_tail, second_head, True))
    return copies


def _joined(numbers: np.ndarray, more: Sequence[int]) -> np.ndarray:
    return np.concatenate([numbers, np.array(more, np.int32)]).astype(np.int32)
