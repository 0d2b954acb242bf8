"""From an extract's roads to a network: cut at junctions or at every point, the largest strongly
connected part, nodes near each other on the ground near each other in number.
"""

from __future__ import annotations

from collections import defaultdict
from dataclasses import dataclass, replace
from pathlib import Path

import numpy as np
from scipy.sparse import coo_matrix
from scipy.sparse.csgraph import connected_components
from scipy.spatial import cKDTree

from .arrays import UNITS, Arrays, boxes_of
from .criteria import Criterion
from .entries import Groups, charged_turns, with_entries
from .network import NamedNode, Network
from .osm import Ban, Extract, Place
from .weigh import Projection, Sums, Weigher

MOST_METRES_TO_PLACE = 3000.0


@dataclass(frozen=True)
class Wanted:
    """What is made of an extract."""

    criteria: list[Criterion]
    split: str  # "junctions" or "points"
    turns: bool
    heights: dict[int, float]  # by points


@dataclass(frozen=True)
class Stretches:
    """Stretches of roads by the places of their first and last points among all roads' points."""

    rows: np.ndarray
    first: np.ndarray
    last: np.ndarray

    def taken(self, which: np.ndarray) -> Stretches:
        return Stretches(self.rows[which], self.first[which], self.last[which])


@dataclass(frozen=True)
class Pieces:
    """Stretches as they are gone: from point `tails` to point `heads` of the extract."""

    stretches: np.ndarray
    back: np.ndarray
    tails: np.ndarray
    heads: np.ndarray

    def __len__(self) -> int:
        return len(self.tails)

    def taken(self, which: np.ndarray) -> Pieces:
        return Pieces(self.stretches[which], self.back[which], self.tails[which], self.heads[which])


@dataclass(frozen=True)
class Follows:
    """Piece `after` may follow piece `before`, pair by pair."""

    before: np.ndarray
    after: np.ndarray

    def taken(self, which: np.ndarray) -> Follows:
        return Follows(self.before[which], self.after[which])


def build(extract: Extract, weigher: Weigher, wanted: Wanted, folder: Path) -> Network:
    watch, charged = weigher.watch, weigher.charged
    watch.now("cutting roads")
    stretches = _stretches(extract, wanted.split)
    pieces = _pieces(extract, stretches)
    follows = None
    if wanted.turns:
        pieces, follows = _connected_with_turns(pieces, _follows(extract, stretches, pieces))
    else:
        pieces = _largest_part(pieces)
    sums = weigher.sums(wanted.criteria)
    watch.now("numbering nodes and arcs")
    points = _in_morton_order(np.unique([pieces.tails, pieces.heads]), extract)
    numbers = np.zeros(len(extract.ids), np.int64)
    numbers[points] = np.arange(1, len(points) + 1)
    order = _order(extract, stretches, pieces, numbers)
    pieces = pieces.taken(order)
    arrays = _arrays(extract, stretches, pieces, numbers, points)
    arrays = replace(
        arrays, weights=_weights(stretches, pieces, sums, wanted.criteria).astype(np.uint32)
    )
    groups = Groups.of(charged.entries, stretches.rows[pieces.stretches], wanted.criteria)
    places = _snapped(extract.named, arrays.nodes / UNITS)
    info: dict[str, object] = {}
    if follows is not None:
        rank = np.argsort(order)
        followed = Follows(rank[follows.before], rank[follows.after])
        arrays, info = _with_arcs_as_nodes(arrays, followed, groups)
    elif groups:
        arrays, info = with_entries(arrays, groups)
    return Network(folder, wanted.criteria, arrays, places, info)


# Cutting.


def _stretches(extract: Extract, split: str) -> Stretches:
    """Roads are cut where they end, meet or are blocked, or at all points."""
    roads, count = extract.roads, len(extract.ids)
    uses = np.bincount(roads.points, minlength=count)
    for ends in (roads.first[:-1], roads.first[1:] - 1):
        uses += np.bincount(roads.points[ends], minlength=count)
    is_cut = (uses > 1) | extract.blocked | (split == "points")
    at = np.flatnonzero(is_cut[roads.points])
    rows = roads.rows[at]
    same = rows[1:] == rows[:-1]
    first, last, rows = at[:-1][same], at[1:][same], rows[:-1][same]
    a, b = roads.points[first], roads.points[last]
    is_open = (a != b) & ~extract.blocked[a] & ~extract.blocked[b]
    return Stretches(rows, first, last).taken(is_open)


def _pieces(extract: Extract, stretches: Stretches) -> Pieces:
    points, roads = extract.roads.points, extract.roads
    along = np.flatnonzero(~np.isnan(roads.along[stretches.rows]))
    against = np.flatnonzero(~np.isnan(roads.against[stretches.rows]))
    a, b = points[stretches.first], points[stretches.last]
    return Pieces(
        np.concatenate([along, against]),
        np.repeat([False, True], [len(along), len(against)]),
        np.concatenate([a[along], b[against]]),
        np.concatenate([b[along], a[against]]),
    )


def _largest(count: int, tails: np.ndarray, heads: np.ndarray) -> np.ndarray:
    """Which of the numbers below `count` are in the largest strongly connected part."""
    if not count:
        return np.zeros(0, bool)
    matrix = coo_matrix((np.ones(len(tails), np.int8), (tails, heads)), shape=(count, count))
    _, labels = connected_components(matrix, directed=True, connection="strong")
    return labels == np.argmax(np.bincount(labels))


def _largest_part(pieces: Pieces) -> Pieces:
    points, ends = np.unique([pieces.tails, pieces.heads], return_inverse=True)
    tails, heads = ends.reshape(2, -1)
    kept = _largest(len(points), tails, heads)
    return pieces.taken(kept[tails] & kept[heads]) if len(points) else pieces


# Turns.


def _follows(extract: Extract, stretches: Stretches, pieces: Pieces) -> Follows:
    """No ban stands between the two, and back goes only who can't go on otherwise."""
    order = np.argsort(pieces.tails, kind="stable")
    tails = pieces.tails[order]
    begins = np.searchsorted(tails, pieces.heads, "left")
    counts = np.searchsorted(tails, pieces.heads, "right") - begins
    before = np.repeat(np.arange(len(pieces)), counts)
    place = np.arange(len(before)) - np.repeat(np.cumsum(counts) - counts, counts)
    after = order[begins[before] + place]
    is_back = pieces.stretches[before] == pieces.stretches[after]
    goes_on = np.bincount(before[~is_back], minlength=len(pieces)) > 0
    banned = _banned(extract, stretches, pieces, Follows(before, after))
    kept = np.where(is_back, ~goes_on[before], ~banned)
    return Follows(before[kept], after[kept])


def _banned(extract: Extract, stretches: Stretches, pieces: Pieces, pairs: Follows) -> np.ndarray:
    bans: dict[tuple[int, int], list[Ban]] = defaultdict(list)
    for ban in extract.bans:
        bans[ban.source, ban.via].append(ban)
    vias = np.isin(extract.ids, [ban.via for ban in extract.bans])
    ways = extract.roads.ways[stretches.rows[pieces.stretches]]
    banned = np.zeros(len(pairs.before), bool)
    for at in np.flatnonzero(vias[pieces.heads[pairs.before]]):
        before, after = pairs.before[at], pairs.after[at]
        via = int(extract.ids[pieces.heads[before]])
        banned[at] = not _allows(bans[int(ways[before]), via], int(ways[after]))
    return banned


def _allows(bans: list[Ban], target: int) -> bool:
    only = [ban.target for ban in bans if ban.only]
    return not any(ban.target == target for ban in bans if not ban.only) and (
        not only or target in only
    )


def _connected_with_turns(pieces: Pieces, follows: Follows) -> tuple[Pieces, Follows]:
    """The pieces that can be gone one after the other and back."""
    kept = _largest(len(pieces), follows.before, follows.after)
    place = np.cumsum(kept) - 1
    within = follows.taken(kept[follows.before] & kept[follows.after])
    return pieces.taken(kept), Follows(place[within.before], place[within.after])


def _with_arcs_as_nodes(
    arrays: Arrays, follows: Follows, groups: Groups
) -> tuple[Arrays, dict[str, object]]:
    """With n junctions and m arcs, node j is where walks begin at junction j, n + j where they
    end there, and 2n + a stands at the end of arc a. The arc to the end of a walk has 1 in the
    first criterion, as no arc may weigh nothing.
    """
    n, m = len(arrays.nodes), len(arrays.tails)
    at = np.arange(m)
    order = np.lexsort((follows.after, follows.before))
    before, after = follows.before[order], follows.after[order]
    place = np.argsort(np.concatenate([2 * at, 2 * before + 1]), kind="stable")
    source = np.concatenate([at, np.concatenate([np.full(m, -1), after])[place]])
    here = 2 * n + 1 + np.concatenate([at, before])[place]
    ends = np.where(source[m:] < 0, n + arrays.heads[here - 2 * n - 1], 2 * n + 1 + source[m:])
    is_arrival = source < 0
    least = np.zeros(arrays.weights.shape[1], arrays.weights.dtype)
    least[0] = 1
    weights = np.where(is_arrival[:, None], least, arrays.weights[source])
    entered = np.concatenate([np.full(m, -1), here - 2 * n - 1])
    weights += charged_turns(groups, entered, source)
    return (
        replace(
            arrays,
            nodes=np.concatenate([arrays.nodes, arrays.nodes, arrays.nodes[arrays.heads - 1]]),
            tails=np.concatenate([arrays.tails, here]).astype(np.int32),
            heads=np.concatenate([2 * n + 1 + at, ends]).astype(np.int32),
            weights=weights,
            speeds=np.where(is_arrival, np.float32(0), arrays.speeds[source]),
            stretches=np.where(is_arrival, np.int32(-1), arrays.stretches[source]),
            back=arrays.back[source] & ~is_arrival,
        ),
        {"turns": True, "junctions": n},
    )


# Numbers, arcs and places.


def _in_morton_order(points: np.ndarray, extract: Extract) -> np.ndarray:
    """By the bits of longitude and latitude in turn, so that near nodes have near numbers."""
    places = extract.places[points]
    if not len(places):
        return points
    span = max(float(np.ptp(places, axis=0).max()), 1e-9)
    grid = ((places - places.min(axis=0)) / span * (2**16 - 1)).astype(np.uint64)
    code = _spread(grid[:, 0]) | _spread(grid[:, 1]) << np.uint64(1)
    return points[np.argsort(code, kind="stable")]


def _spread(bits: np.ndarray) -> np.ndarray:
    """Puts a zero between each two of the lowest 16 bits."""
    for shift, mask in ((8, 0x00FF00FF), (4, 0x0F0F0F0F), (2, 0x33333333), (1, 0x55555555)):
        bits = (bits | bits << np.uint64(shift)) & np.uint64(mask)
    return bits


def _order(
    extract: Extract, stretches: Stretches, pieces: Pieces, numbers: np.ndarray
) -> np.ndarray:
    """By tail, head, way, and the place in the way."""
    roads, which = extract.roads, pieces.stretches
    rows = stretches.rows[which]
    begins = np.where(pieces.back, stretches.last[which], stretches.first[which])
    places = begins - roads.first[rows]
    ends = (numbers[pieces.heads], numbers[pieces.tails])
    return np.lexsort((which, places, roads.ways[rows], *ends))


def _weights(
    stretches: Stretches, pieces: Pieces, sums: Sums, criteria: list[Criterion]
) -> np.ndarray:
    a, b = stretches.first[pieces.stretches], stretches.last[pieces.stretches]
    first, last = np.where(pieces.back, b, a), np.where(pieces.back, a, b)
    weights = np.zeros((len(pieces), len(criteria)), np.int64)
    for place, criterion in enumerate(criteria):
        least = 1 if criterion.name in ("distance", "time") else 0
        weights[:, place] = np.maximum(sums.weights(criterion.name, first, last), least)
    weights[~weights.any(axis=1), 0] = 1
    return weights


def _arrays(
    extract: Extract,
    stretches: Stretches,
    pieces: Pieces,
    numbers: np.ndarray,
    points: np.ndarray,
) -> Arrays:
    """All but the weights, with the stretches that are gone alone."""
    used, places = np.unique(pieces.stretches, return_inverse=True)
    stretches, roads = stretches.taken(used), extract.roads
    counts = stretches.last - stretches.first + 1
    first = np.concatenate([[0], np.cumsum(counts)]).astype(np.int64)
    at = np.repeat(stretches.first - first[:-1], counts) + np.arange(first[-1])
    lines = _units(extract.places[roads.points[at]])
    rows = stretches.rows
    speeds = np.where(pieces.back, roads.against[rows[places]], roads.along[rows[places]])
    return Arrays(
        nodes=_units(extract.places[points]),
        tails=numbers[pieces.tails].astype(np.int32),
        heads=numbers[pieces.heads].astype(np.int32),
        weights=np.zeros((len(pieces), 0), np.uint32),
        speeds=speeds.astype(np.float32),
        stretches=places.astype(np.int32),
        back=pieces.back,
        first=first,
        points=lines,
        boxes=boxes_of(first, lines),
        ways=roads.ways[rows],
        classes=roads.classes[rows].astype(np.uint8),
        names=roads.names[rows].astype(np.int32),
        refs=roads.refs[rows].astype(np.int32),
        class_names=roads.class_names,
        texts=roads.texts,
    )


def _units(places: np.ndarray) -> np.ndarray:
    return np.rint(places * UNITS).astype(np.int32)


def _snapped(named: list[Place], located: np.ndarray) -> list[NamedNode]:
    """Each place with the node nearest to it, where one is near."""
    if not len(located) or not named:
        return []
    projection = Projection(located[:, 0], located[:, 1])
    tree = cKDTree(projection.metres(located[:, 0], located[:, 1]))
    named = sorted(named, key=lambda place: (place.name, place.lon, place.lat))
    lon, lat = (np.array([getattr(one, name) for one in named]) for name in ("lon", "lat"))
    away, nearest = tree.query(projection.metres(lon, lat))
    return [
        NamedNode(one.name, one.kind, one.population, int(node) + 1, one.lon, one.lat)
        for one, metres, node in zip(named, away, nearest)
        if metres <= MOST_METRES_TO_PLACE
    ]
