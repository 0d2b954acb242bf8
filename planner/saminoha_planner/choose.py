"""A few alternatives of many: those that a person can weigh against each other."""

from __future__ import annotations

from collections import Counter, defaultdict
from collections.abc import Sequence
from dataclasses import dataclass

import numpy as np

from .client import Route
from .criteria import Criterion
from .network import Network

LETTERS = "ABCDEFGHIJ"
MOST = len(LETTERS)


@dataclass(frozen=True)
class Option:
    """One of the few: its letter, and why it is among them."""

    letter: str
    route: Route
    why: str
    via: str = ""


def within_detour(
    routes: Sequence[Route], criteria: Sequence[Criterion], cap: float | None
) -> list[Route]:
    """Those whose distance and time, where these are criteria, are at most so many times the
    least.
    """
    kept = list(routes)
    for place, criterion in enumerate(criteria):
        if cap and kept and criterion.name in ("distance", "time"):
            least = min(route.cost[place] for route in routes)
            kept = [route for route in kept if route.cost[place] <= cap * least]
    return kept


def thinned(routes: Sequence[Route], epsilon: float) -> list[Route]:
    """Some of the routes, such that each route has one among them that is nowhere worse by more
    than this share. The least of each criterion are among them.
    """
    if not epsilon or not routes:
        return list(routes)
    away = _to_ideal(routes)
    first = dict.fromkeys(_least(routes, place, away) for place in range(len(routes[0].cost)))
    kept = [routes[at] for at in first]
    for at in np.argsort(away, kind="stable"):
        cost = np.array(routes[at].cost)
        if not any(np.all(np.array(other.cost) <= cost * (1 + epsilon)) for other in kept):
            kept.append(routes[at])
    return sorted(kept, key=lambda route: route.cost)


def few(
    network: Network,
    routes: Sequence[Route],
    keep: int = 5,
    criteria: Sequence[Criterion] | None = None,
) -> list[Option]:
    """The least of each criterion, the compromise, and then those that share least road with
    these, by letters. The criteria are those of the costs, if these aren't the network's.
    """
    reasons: dict[int, list[str]] = defaultdict(list)
    if routes:
        away = _to_ideal(routes)
        if keep > 1:
            for place, criterion in enumerate(criteria or network.criteria):
                reasons[_least(routes, place, away)].append(f"least {criterion.label}")
                if len(reasons) >= keep:
                    break
        if len(reasons) < keep:
            reasons[int(np.argmin(away))].append("compromise")
        _add_differing(network, routes, away, reasons, keep)
    chosen = sorted(reasons, key=lambda at: routes[at].cost)
    vias = via([routes[at] for at in chosen], network)
    return [
        Option(letter, routes[at], ", ".join(reasons[at]), by)
        for letter, at, by in zip(LETTERS, chosen, vias)
    ]


def via(routes: Sequence[Route], network: Network) -> list[str]:
    """For each route up to three roads, in the order of travel, that tell most how it differs
    from the others.
    """
    legs = [list(map(network.leg, route.arcs or ())) for route in routes]
    users = Counter(road for part in legs for road in {leg.road for leg in part})
    texts = []
    for part in legs:
        weight: defaultdict[str, float] = defaultdict(float)
        for leg in part:
            if leg.title:
                weight[leg.title] += leg.metres / users[leg.road] ** 2
        best = {
            title for title, _ in sorted(weight.items(), key=lambda item: (-item[1], item[0]))[:3]
        }
        titles = dict.fromkeys(leg.title for leg in part)
        texts.append(", ".join(title for title in titles if title in best))
    return texts


def shared(network: Network, one: Route, other: Route) -> float:
    """How much of the one's length the other goes too, in whichever direction."""
    there = {leg.road for leg in map(network.leg, other.arcs or ())}
    legs = list(map(network.leg, one.arcs or ()))
    total = sum(leg.metres for leg in legs)
    return sum(leg.metres for leg in legs if leg.road in there) / total if total else 1.0


def _to_ideal(routes: Sequence[Route]) -> np.ndarray:
    """How far each cost is from the least of every criterion, each of which counts from 0 to 1."""
    if len(routes) == 1:
        return np.zeros(1)
    costs = np.array([route.cost for route in routes], dtype=float)
    least, span = costs.min(axis=0), np.ptp(costs, axis=0)
    return np.sqrt((((costs - least) / np.where(span > 0, span, 1)) ** 2).sum(axis=1))


def _least(routes: Sequence[Route], place: int, away: np.ndarray) -> int:
    return min(range(len(routes)), key=lambda at: (routes[at].cost[place], away[at]))


def _add_differing(
    network: Network,
    routes: Sequence[Route],
    away: np.ndarray,
    reasons: dict[int, list[str]],
    keep: int,
) -> None:
    if len(reasons) >= min(keep, len(routes)):
        return
    most = {
        at: max((shared(network, route, routes[one]) for one in reasons), default=0.0)
        for at, route in enumerate(routes)
    }
    while len(reasons) < min(keep, len(routes)):
        rest = [at for at in most if at not in reasons]
        added = min(rest, key=lambda at: (round(most[at], 6), away[at], at))
        reasons[added].append("other roads")
        for at in rest:
            most[at] = max(most[at], shared(network, routes[at], routes[added]))
