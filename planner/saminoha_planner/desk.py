"""What the page asks for, as plain data: the map, ends, answers and closures of one network."""

from __future__ import annotations

import functools
import json
import tempfile
import time
from collections.abc import Mapping, Sequence
from contextlib import ExitStack
from dataclasses import dataclass, replace
from datetime import datetime
from pathlib import Path

from .ask import Asker, once
from .background import load_background
from .choose import Option, few, thinned
from .client import MOST_BUDGET, Answer, Change, Program, Proof, Query, Refused, Route, SetArc
from .closures import Closure
from .colours import COLOURS
from .command import BYTES_OF_LABEL, Fault
from .criteria import Criterion
from .ends import EndFault, Ends
from .keeper import Keeper, log_of
from .labels import place_labels, road_labels
from .network import Network, rank_of
from .roads import Box, Roads, roads_of
from .stretches import Piece, Stretches
from .tell import geojson
from .tiles import DEEPEST, Tiles
from .twins import grouped

MEASURES = ("shut", "slow=1.5", "slow=2", "slow=4")
MOST_ANSWERS = 20
COARSER = 10
MOST_NUMBER = 1e9  # of degrees and metres


@dataclass(frozen=True)
class Question:
    """Two nodes, and how they are asked: `budget`, `bounds`, `criteria` and `coarser` want a run
    of the program of their own; the other words choose among what was answered.
    """

    source: int
    target: int
    limits: tuple[int | None, ...]
    epsilon: float = 0.0
    budget: int | None = None
    bounds: tuple[int | None, ...] | None = None
    criteria: tuple[int, ...] | None = None
    coarser: int = 1

    @property
    def is_special(self) -> bool:
        return bool(self.budget or self.bounds or self.criteria or self.coarser > 1)


class Desk:
    """`tiles` is the address of others' map tiles, where these are wanted, and `keeper` one that
    others look after.
    """

    def __init__(
        self,
        network: Network,
        asker: Asker,
        program: Program | None = None,
        keep: int = 5,
        tiles: str = "",
        tiles_attribution: str = "",
        keeper: Keeper | None = None,
    ) -> None:
        self.network, self.asker, self.program, self.keep = network, asker, program, keep
        self.tiles, self.tiles_attribution = tiles, tiles_attribution
        self.keeper = keeper or Keeper(network, asker, log_of(network))
        self.ends = Ends(network, lambda: self.roads)
        self._answers: dict[tuple[Question, int], Answer] = {}

    # The map.

    @functools.cached_property
    def roads(self) -> Roads:
        return roads_of(self.network)

    @functools.cached_property
    def _tiles(self) -> Tiles:
        return Tiles(self.roads, load_background(self.network.folder))

    @functools.cached_property
    def _stretches(self) -> Stretches:
        return Stretches(self.roads)

    @property
    def about(self) -> dict[str, object]:
        network = self.network
        largest = sorted(network.places, key=rank_of)[:3]
        return {
            "title": network.folder.resolve().name,
            "around": [place.name for place in largest],
            "bounds": self._bounds,
            "attribution": network.attribution,
            "can_close": self.asker.can_change,
            "measures": [one for one in MEASURES if one == "shut" or self._has_time],
            "colours": COLOURS,
            "proved": self._is_proved,
            "deepest": DEEPEST,
            "tiles": self.tiles,
            "tiles_attribution": self.tiles_attribution,
            "criteria": [_criterion(one) for one in network.criteria],
        }

    @property
    def _is_proved(self) -> bool | None:
        """Whether the program that answers says that it is proved. A server elsewhere says
        nothing.
        """
        if not self.program or not self.asker.is_own:
            return None
        return {Proof.PROVED: True, Proof.UNPROVED: False}.get(self.program.proof())

    @property
    def _has_time(self) -> bool:
        return any(one.name == "time" for one in self.network.criteria)

    @functools.cached_property
    def _bounds(self) -> list[float]:
        lon, lat = self.network.lon, self.network.lat
        return [float(lon.min()), float(lat.min()), float(lon.max()), float(lat.max())]

    def warm(self) -> None:
        """Makes ready what the first tiles want, beside the page."""
        for zoom in range(7, 12):
            self._tiles.least_class(zoom)
        assert self.roads.metres is not None

    def tile(self, zoom: int, x: int, y: int) -> bytes:
        return self._tiles.tile(zoom, x, y)

    def labels(self, box: Box, zoom: int) -> dict[str, object]:
        return {
            "places": place_labels(self.network.places, box),
            "roads": road_labels(self.roads, box, zoom),
        }

    # Answers.

    def question(self, words: Mapping[str, str]) -> Question:
        criteria = _numbers_of(words.get("criteria", ""))
        count = len(criteria) if criteria else len(self.network.criteria)
        if criteria and (max(criteria) >= len(self.network.criteria) or len(set(criteria)) < 2):
            raise Fault("these are no two or more criteria")
        try:
            return Question(
                int(words["from"]),
                int(words["to"]),
                _limits(words.get("limits", ""), count),
                float(words.get("epsilon", "") or 0),
                int(words["budget"]) if "budget" in words else None,
                _limits(words["bounds"], count) if "bounds" in words else None,
                tuple(criteria) or None,
                int(words.get("coarser", "") or 1),
            )
        except (KeyError, ValueError) as fault:
            raise Fault(f"this is no question: {fault}") from fault

    def ask(self, question: Question) -> dict[str, object]:
        return self.told(question, self._answer(question))

    def told(self, question: Question, answer: Answer) -> dict[str, object]:
        criteria = self._criteria_of(question)
        within = _within(answer, question.limits)
        groups = grouped(thinned(within, question.epsilon), self.roads)
        options = few(self.network, list(groups), self.keep, criteria)
        places = {route: place for place, route in enumerate(answer.routes)}
        digits = _digits(criteria, options)
        return {
            "epoch": answer.epoch,
            "time": time.time(),
            "criteria": list(question.criteria or range(len(self.network.criteria))),
            "coarser": question.coarser,
            "costs": [route.cost for route in answer.routes],
            "within": [places[route] for route in within],
            "options": [
                {
                    "letter": option.letter,
                    "index": places[option.route],
                    "why": option.why,
                    "via": option.via,
                    "alike": len(groups[option.route]),
                    "digits": digits,
                    "roads": self._roads_of(option.route),
                }
                for option in options
            ],
            "roads": self._lines_of(options),
        }

    def export(self, question: Question) -> str:
        return self.exported(question, self._answer(question))

    def exported(self, question: Question, answer: Answer) -> str:
        criteria = self._criteria_of(question)
        within = thinned(_within(answer, question.limits), question.epsilon)
        options = few(self.network, list(grouped(within, self.roads)), self.keep, criteria)
        network = replace(self.network, criteria=criteria)
        return json.dumps(geojson(network, within, options), ensure_ascii=False)

    def advice(self, refused: Refused) -> dict[str, object]:
        """What may be done where a search passed its budget."""
        if refused.refusal.reason != "budget" or not self.program:
            return {}
        budget, names = self.program.budget, range(len(self.network.criteria))
        more = [one for one in (2, 5, 10) if budget * one <= MOST_BUDGET][:1]
        offers: list[dict[str, object]] = [
            {
                "kind": "budget",
                "budget": budget * one // 1_000_000 or budget * one / 1_000_000,
                "memory": round(budget * one * BYTES_OF_LABEL / 1e9, 1) or 0.1,
                "words": {"budget": budget * one},
            }
            for one in more
        ]
        if len(names) > 2:
            for left_out in reversed(names):
                kept = [place for place in names if place != left_out]
                words = {"criteria": ",".join(map(str, kept))}
                offers.append({"kind": "criteria", "criteria": kept, "words": words})
        offers += [{"kind": "limits"}, {"kind": "coarser", "words": {"coarser": COARSER}}]
        values = {"budget": budget / 1_000_000}
        return {"code": "refused_budget", "values": values, "offers": offers}

    def _criteria_of(self, question: Question) -> list[Criterion]:
        every = self.network.criteria
        return [every[place] for place in question.criteria] if question.criteria else every

    def _answer(self, question: Question) -> Answer:
        """From those that were asked at this epoch already, where it is among them."""
        plain = replace(question, limits=(), epsilon=0.0)
        epoch = self.asker.epoch()
        if (plain, epoch) not in self._answers:
            answer = self._special(plain, epoch) if plain.is_special else self._plain(plain)
            kept = list(self._answers.items())[1 - MOST_ANSWERS :]
            self._answers = dict(kept) | {(plain, answer.epoch): answer}
            return answer
        return self._answers[plain, epoch]

    def _plain(self, question: Question) -> Answer:
        return self.asker.query(question.source, self.network.arrival(question.target))

    def _special(self, question: Question, epoch: int) -> Answer:
        """By a run of the program of its own, with what the keeper has published."""
        if not self.program:
            raise Fault("there is no program here to ask so")
        budget = min(question.budget or self.program.budget, MOST_BUDGET)
        program = replace(self.program, budget=budget)
        places = question.criteria or tuple(range(len(self.network.criteria)))
        query = Query(
            question.source, self.network.arrival(question.target), question.bounds or None
        )
        changes = [_reduced(change, places, question.coarser) for change in self.keeper.stands]
        with ExitStack() as until:
            files = [self.network.files[place] for place in places]
            if question.coarser > 1:
                folder = until.enter_context(tempfile.TemporaryDirectory(prefix="saminoha-"))
                files = [coarser_file(file, Path(folder), question.coarser) for file in files]
                query = replace(query, limits=_coarse(query.limits, question.coarser))
            answer = once(program, files, changes, query)
        routes = tuple(
            replace(route, cost=tuple(cost * question.coarser for cost in route.cost))
            for route in answer.routes
        )
        return replace(answer, epoch=epoch, routes=routes)

    def _roads_of(self, route: Route) -> list[tuple[int, bool]]:
        """The stretches of a route, and whether it goes against them."""
        found = [(int(self.roads.of_arc[arc - 1]), arc) for arc in route.arcs or ()]
        return [(road, bool(self.roads.back[arc - 1])) for road, arc in found if road >= 0]

    def _lines_of(self, options: Sequence[Option]) -> dict[int, list[list[float]]]:
        used = {road for option in options for road, _ in self._roads_of(option.route)}
        return {road: self._line(road) for road in used}

    def _line(self, road: int) -> list[list[float]]:
        return [[float(lat), float(lon)] for lon, lat in self.roads.line(road)]

    # Closures.

    def state(self) -> dict[str, object]:
        keeper, waited = self.keeper, self.asker.starting
        return {
            "ready": waited is None,
            "waited": waited or 0.0,
            "epoch": keeper.epoch,
            "time": time.time(),
            "unknown": keeper.unknown,
            "fault": keeper.fault,
            "closures": [self._closure(one) for one in keeper.closures],
        }

    def preview(self, asked: Mapping[str, object]) -> dict[str, object]:
        metres = min(float(_plain_number(asked.get("metres", 100))), 2000.0)
        points = asked.get("points") or []
        if not isinstance(points, list) or len(points) > 2:
            raise Fault("a closure is of one or two points")
        places = [_point(point) for point in points]
        if len(places) == 2:
            piece = self._stretches.between(places[0], places[1], max(metres, 50))
        elif places:
            piece = self._stretches.at(places[0], max(metres, 50))
        else:
            piece = self._stretches.of_road(str(asked.get("road", "")))
        return self._piece(piece)

    def close(self, asked: Mapping[str, object]) -> dict[str, object]:
        closure = self.closure_of(asked)
        self.keeper.close(closure)
        return {"state": self.state(), "closure_state": closure.state().value}

    def closure_of(self, asked: Mapping[str, object]) -> Closure:
        if not self.asker.can_change:
            raise EndFault("no_operator", "no operator's address was given")
        roads = asked.get("roads")
        if not isinstance(roads, list) or not roads or not all(self._is_road(one) for one in roads):
            raise Fault("these are no roads")
        measure = str(asked.get("measure", "shut"))
        piece = self._stretches.piece(sorted(set(roads)))
        closure = Closure(
            road=piece.title,
            measure=measure,
            changes=tuple(self.keeper.changes(self.roads.arcs(piece.roads), measure)),
            piece=piece.text,
            reason=_text(asked.get("reason"), 200),
            author=_text(asked.get("author"), 80),
            begin=_time(asked.get("from")),
            end=_time(asked.get("until")),
        )
        if closure.end and closure.end <= (closure.begin or closure.at):
            raise EndFault("bad_times", "it would end before it begins")
        return closure

    def undo(self, name: str) -> dict[str, object]:
        self.keeper.undo(name)
        return {"state": self.state()}

    def _is_road(self, road: object) -> bool:
        return type(road) is int and 0 <= road < len(self.roads)

    def _piece(self, piece: Piece) -> dict[str, object]:
        return {
            "road": piece.title,
            "roads": piece.roads,
            "arcs": len(self.roads.arcs(piece.roads)),
            "metres": piece.metres,
            "parts": piece.parts,
            "piece": {"from": piece.begin, "to": piece.end, "whole": piece.whole},
            "lines": [self._line(road) for road in piece.roads],
        }

    def _closure(self, closure: Closure) -> dict[str, object]:
        arcs = [arc for arc in closure.arcs if arc <= len(self.roads.of_arc)]
        roads = sorted({int(self.roads.of_arc[arc - 1]) for arc in arcs} - {-1})
        longest = max(roads, key=lambda road: self.roads.metres[road], default=None)
        lines = [] if closure.state().value == "ended" else [self._line(road) for road in roads]
        middle = self._line(longest) if longest is not None else []
        return {
            "id": closure.name,
            "road": closure.road,
            "piece": {"text": closure.piece},
            "arcs": len(closure.changes),
            "metres": float(self.roads.metres[roads].sum()),
            "measure": closure.measure,
            "reason": closure.reason,
            "author": closure.author,
            "from": closure.begin and closure.begin.isoformat(),
            "until": closure.end and closure.end.isoformat(),
            "state": closure.state().value,
            "can_undo": self.asker.can_change,
            "lines": lines,
            "middle": middle[len(middle) // 2] if middle else None,
        }


def coarser_file(file: str, folder: Path, times: int) -> str:
    """A copy of a weight file whose weights count so many times more, rounded, at least 1."""
    made = folder / Path(file).name
    with open(file) as lines, made.open("w") as out:
        for line in lines:
            if line.startswith("a "):
                _, tail, head, weight = line.split()
                line = f"a {tail} {head} {coarse(int(weight), times)}\n"
            out.write(line)
    return str(made)


def coarse(weight: int, times: int) -> int:
    return max(1, (weight + times // 2) // times) if weight else 0


def _coarse(limits: Sequence[int | None] | None, times: int) -> tuple[int | None, ...] | None:
    if not limits:
        return None
    return tuple(None if most is None else most // times for most in limits)


def _reduced(change: Change, places: Sequence[int], times: int) -> Change:
    if not isinstance(change, SetArc):
        return change
    weights = (coarse(change.weights[place], times) for place in places)
    return SetArc(change.arc, tuple(weights))


def _criterion(one: Criterion) -> dict[str, object]:
    return {
        "name": one.name,
        "label": one.label,
        "unit": one.shown_unit,
        "scale": one.scale,
        "digits": one.digits,
    }


def _digits(criteria: Sequence[Criterion], options: Sequence[Option]) -> list[int]:
    """For each criterion the digits that tell the options apart."""
    digits = []
    for place, criterion in enumerate(criteria):
        texts = criterion.texts([option.route.cost[place] for option in options])
        fractions = [text.split()[0].partition(".")[2] for text in texts]
        digits.append(max(map(len, fractions), default=criterion.digits))
    return digits


def _within(answer: Answer, limits: Sequence[int | None]) -> list[Route]:
    return [
        route
        for route in answer.routes
        if all(most is None or cost <= most for cost, most in zip(route.cost, limits))
    ]


def _limits(text: str, count: int) -> tuple[int | None, ...]:
    """Weights between commas, and nothing where there is no limit."""
    parts = text.split(",") if text else [""] * count
    if len(parts) != count or not all(part == "" or part.isdecimal() for part in parts):
        raise Fault(f"{text!r} are no limits on {count} criteria")
    return tuple(int(part) if part else None for part in parts)


def _numbers_of(text: str) -> list[int]:
    parts = text.split(",") if text else []
    if not all(part.isdecimal() for part in parts):
        raise Fault(f"{text!r} are no numbers")
    return [int(part) for part in parts]


def _plain_number(value: object) -> float:
    if not isinstance(value, int | float) or not abs(value) < MOST_NUMBER:
        raise Fault("what should be a number is none, or a large one")
    return float(value)


def _point(value: object) -> tuple[float, float]:
    if not isinstance(value, list) or len(value) != 2:
        raise Fault("a point is a longitude and a latitude")
    return _plain_number(value[0]), _plain_number(value[1])


def _text(value: object, most: int) -> str:
    return " ".join(str(value or "").split())[:most]


def _time(value: object) -> datetime | None:
    if not value:
        return None
    try:
        when = datetime.fromisoformat(str(value).replace("Z", "+00:00"))
    except ValueError as fault:
        raise Fault(f"{value!r} is no time") from fault
    if when.tzinfo is None:
        raise Fault(f"{value!r} has no zone")
    return when
