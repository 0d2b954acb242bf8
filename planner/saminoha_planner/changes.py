"""An operator's lines in terms of roads: which arcs a road has, and what a measure makes of
their weights.
"""

from __future__ import annotations

import re
from collections.abc import Iterable, Sequence
from dataclasses import dataclass, replace
from pathlib import Path

import numpy as np

from .client import Change, Drop, Order, Publish, SetArc, ShutArc
from .command import Fault
from .network import Network

MOST_WEIGHT = 2**32 - 1
Box = tuple[float, float, float, float]


@dataclass(frozen=True)
class Measure:
    """Shut, open, slow by a factor, or a surcharge on a criterion for each whole way or by the
    kilometre.
    """

    kind: str
    factor: float = 1.0
    criterion: str = ""
    amount: float = 0.0
    by_km: bool = False


def parse_measure(text: str) -> Measure:
    if text in ("shut", "open"):
        return Measure(text)
    if found := re.fullmatch(r"slow=(\d+(?:\.\d+)?)", text):
        if float(found[1]) > 0:
            return Measure("slow", factor=float(found[1]))
    if found := re.fullmatch(r"surcharge=([a-z]+):(\d+(?:\.\d+)?)(/km)?", text):
        return Measure(
            "surcharge", criterion=found[1], amount=float(found[2]), by_km=bool(found[3])
        )
    raise Fault(f"{text!r} is none of shut, open, slow=1.5, surcharge=toll:20, surcharge=toll:2/km")


def parse_box(text: str) -> Box:
    try:
        west, south, east, north = map(float, text.split(","))
    except ValueError as fault:
        raise Fault(f"{text!r} is no box W,S,E,N") from fault
    return west, south, east, north


def select(
    network: Network, roads: Sequence[str], ways: Sequence[int], box: Box | None
) -> list[int]:
    """The arcs of these roads, by name or ref, and ways; of all where none is named; within the
    box where one is given.
    """
    arrays = network.arrays
    chosen = np.isin(arrays.ways, ways) if roads or ways else np.ones(len(arrays.ways), bool)
    for road in roads:
        found = arrays.titled(road)
        if not len(found):
            raise Fault(f"no arc is of a road {road!r}{arrays.like(road)}")
        chosen[found] = True
    if box is not None:
        within = np.zeros(len(chosen), bool)
        within[[one for one in arrays.within(box) if _meets(arrays.line(one), box)]] = True
        chosen &= within
    arcs = arrays.arcs_of(np.flatnonzero(chosen))
    if not len(arcs):
        raise Fault("no arc is of these roads" + (" in this box" if box else ""))
    return list(map(int, arcs))


def changes(network: Network, arcs: Sequence[int], measure: Measure) -> list[Change]:
    """From the network's own weights: measures don't add up over calls, but the last of an arc
    stands.
    """
    if measure.kind == "shut":
        return [ShutArc(arc) for arc in arcs]
    if measure.kind == "open":
        return [SetArc(arc, network.arc(arc).weights) for arc in arcs]
    place = network.index_of("time" if measure.kind == "slow" else measure.criterion)
    if measure.kind == "slow":
        added = [network.arc(arc).weights[place] * (measure.factor - 1) for arc in arcs]
    else:
        added = _surcharges(
            network, arcs, measure.amount * network.criteria[place].plain, measure.by_km
        )
    return [
        SetArc(arc, _raised(network.arc(arc).weights, place, more))
        for arc, more in zip(arcs, added)
    ]


def folded(orders: Iterable[Order]) -> tuple[dict[int, Change], int]:
    """Of each arc the last change that was published, and how many changes remain unpublished."""
    stands: dict[int, Change] = {}
    pending: list[Change] = []
    for order in orders:
        match order:
            case Publish():
                stands |= {change.arc: change for change in pending}
                pending = []
            case Drop():
                pending = []
            case _:
                pending.append(order)
    return stands, len(pending)


def applied(network: Network, stands: dict[int, Change], folder: Path) -> Network:
    """A network of its own with these changes. Weight files have no shut arcs: these are left
    out, and the others renumbered.
    """
    arrays = network.arrays
    wrong = [arc for arc in stands if not 1 <= arc <= len(network.arcs)]
    if wrong:
        raise Fault(f"there is no arc {wrong[0]}; the network has {len(network.arcs)}")
    weights, kept = np.array(arrays.weights), np.ones(len(network.arcs), bool)
    for number, change in stands.items():
        if isinstance(change, ShutArc):
            kept[number - 1] = False
        elif len(change.weights) == len(network.criteria) and any(change.weights):
            weights[number - 1] = change.weights
        else:
            raise Fault(
                f"arc {number} gets weights {change.weights}, which the network of"
                f" {len(network.criteria)} criteria can't have"
            )
    shut = sum(isinstance(change, ShutArc) for change in stands.values())
    told = {"applied": {"to": network.folder.name, "shut": shut, "changed": len(stands) - shut}}
    of_arcs = ("tails", "heads", "speeds", "stretches", "back")
    fewer = {name: getattr(arrays, name)[kept] for name in of_arcs}
    new = replace(arrays, weights=weights[kept], **fewer)
    return Network(folder, network.criteria, new, network.places, network.info | told)


def _meets(line: np.ndarray, box: Box) -> bool:
    """Whether a point of the line lies in the box."""
    west, south, east, north = box
    lon, lat = line.T
    return bool(np.any((west <= lon) & (lon <= east) & (south <= lat) & (lat <= north)))


def _surcharges(network: Network, arcs: Sequence[int], amount: float, by_km: bool) -> list[float]:
    """Each arc's share of the amount for its whole way, or so much by the kilometre."""
    metres, arrays = network.metres_per_arc, network.arrays
    if by_km:
        return [amount * metres[arc - 1] / 1000 for arc in arcs]
    on_road = np.flatnonzero(arrays.stretches >= 0)
    of_stretches = np.zeros(len(arrays.ways))
    of_stretches[arrays.stretches[on_road]] = metres[on_road]
    ways = [arrays.ways[arrays.stretches[arc - 1]] for arc in arcs]
    totals = {way: of_stretches[arrays.ways == way].sum() for way in set(ways)}
    return [amount * metres[arc - 1] / totals[way] for arc, way in zip(arcs, ways)]


def _raised(weights: tuple[int, ...], place: int, more: float) -> tuple[int, ...]:
    raised = max(1, int(np.rint(weights[place] + more)))
    if raised > MOST_WEIGHT:
        raise Fault(f"a weight of {raised} is more than the program takes")
    return (*weights[:place], raised, *weights[place + 1 :])
