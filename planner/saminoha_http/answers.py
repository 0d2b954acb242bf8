"""Answers as JSON: costs in metres, seconds and money, and lines as GeoJSON."""

from __future__ import annotations

import functools
import json
from collections.abc import Sequence

from saminoha_planner.choose import Option, few
from saminoha_planner.client import Answer, Route
from saminoha_planner.criteria import Criterion
from saminoha_planner.ends import End
from saminoha_planner.network import Network
from saminoha_planner.roads import Roads
from saminoha_planner.twins import grouped

from .problems import Problem
from .projection import projected
from .questions import Question
from .shapes import Shapes

PLAIN = {"km": "m", "min": "s"}  # the unit of a bare number, by the one that is shown
MOST_ENDS, MOST_CHOICES = 2**14, 64  # of which what is told is kept
as_json = json.JSONEncoder(ensure_ascii=False, separators=(",", ":")).encode


def unit_of(criterion: Criterion) -> str:
    return PLAIN.get(criterion.shown_unit, criterion.shown_unit)


def told_criterion(one: Criterion) -> dict[str, object]:
    return {"name": one.name, "unit": unit_of(one), "weights_of_a_unit": one.plain}


def told_end(end: End) -> dict[str, object]:
    return {
        "node": end.node,
        "name": end.name,
        "lat": round(end.lat, 7),
        "lon": round(end.lon, 7),
        "metres_away": round(end.metres, 1),
    }


def costs_of(criteria: Sequence[Criterion], weights: Sequence[int]) -> dict[str, float]:
    return {one.name: round(weight / one.plain, 3) for one, weight in zip(criteria, weights)}


class Teller:
    """Tells the answers of one network, as text: what is the same in many is put together once."""

    def __init__(self, network: Network, roads: Roads) -> None:
        self._network, self._roads = network, roads
        self._shapes = Shapes(network)
        self._attribution = as_json(network.attribution)
        self._told_end = functools.lru_cache(MOST_ENDS)(lambda end: as_json(told_end(end)))
        self._told_criteria = functools.lru_cache(MOST_CHOICES)(self._tell_criteria)

    def alternatives(self, question: Question, answer: Answer) -> str:
        """The chosen few as a collection of GeoJSON, with what else is told as further members."""
        if not answer.routes:
            within = " within these limits" if question.limits else ""
            raise Problem("no-route", f"no route leads there{within}", epoch=answer.epoch)
        criteria = [self._network.criteria[place] for place in question.criteria]
        routes: Sequence[Route] = answer.routes
        if len(criteria) < len(self._network.criteria) or criteria != self._network.criteria:
            routes = projected(routes, question.criteria)
        chosen = list(grouped(routes, self._roads))
        options = few(self._network, chosen, question.keep, criteria)
        features = ",".join(self._feature(criteria, question, option) for option in options)
        every = as_json([_costs(criteria, route) for route in routes]) if question.has_all else ""
        return (
            f'{{"type":"FeatureCollection","epoch":{answer.epoch}'
            f',"from":{self._told_end(question.source)},"to":{self._told_end(question.target)}'
            f',"criteria":{self._told_criteria(question.criteria)},"trade_offs":{len(routes)}'
            f',"attribution":{self._attribution}'
            + (f',"all":{every}' if every else "")
            + f',"features":[{features}]}}'
        )

    def _feature(self, criteria: list[Criterion], question: Question, option: Option) -> str:
        told = {"letter": option.letter, "why": option.why, "via": option.via}
        line = self._shapes.line(option.route.arcs or (), question.target.node)
        return (
            f'{{"type":"Feature","properties":{as_json(told | _costs(criteria, option.route))}'
            f',"geometry":{{"type":"LineString","coordinates":{line}}}}}'
        )

    def _tell_criteria(self, places: tuple[int, ...]) -> str:
        return as_json([told_criterion(self._network.criteria[place]) for place in places])


def _costs(criteria: Sequence[Criterion], route: Route) -> dict[str, object]:
    return {"costs": costs_of(criteria, route.cost), "weights": route.cost}


def matrix_entry(network: Network, answer: Answer, has_all: bool) -> dict[str, object]:
    """Of one pair: how many trade-offs, the least of each criterion, and all where wanted."""
    if not answer.routes:
        return {"epoch": answer.epoch, "problem": "no-route"}
    least = [min(weights) for weights in zip(*(route.cost for route in answer.routes))]
    entry: dict[str, object] = {
        "epoch": answer.epoch,
        "trade_offs": len(answer.routes),
        "least": costs_of(network.criteria, least),
    }
    if has_all:
        entry["all"] = [_costs(network.criteria, route) for route in answer.routes]
    return entry
