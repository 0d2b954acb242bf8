"""The planner's page for many: its files, and what it asks, answered by the desk of the local page
over the pool. Whoever has a token closes roads; all else belongs to each browser alone.
"""

from __future__ import annotations

import time
from collections import OrderedDict
from collections.abc import Awaitable, Callable, Sequence
from pathlib import Path
from typing import Any, TypeVar

from starlette.requests import Request
from starlette.responses import FileResponse, Response

from saminoha_planner.client import Answer, Change, ClientError, Query, Refused, answered
from saminoha_planner.command import Fault
from saminoha_planner.desk import Desk, Question
from saminoha_planner.ends import EndFault
from saminoha_planner.web_files import LEAFLET, WEB, content_policy

from .answers import as_json
from .guard import peer_of
from .pool import Pool
from .problems import MEDIA_TYPE, Problem, problem_of
from .service import Service, body_of

T = TypeVar("T")
Endpoint = Callable[[Request], Awaitable[Response]]
MOST_ANSWERS, MOST_ARCS = 20, 50_000  # of answers that are kept while a page chooses among them
STATE_TIME = 0.5  # seconds for which all pages are told the same state
KEEP = 5


class PoolAsker:
    """What the desk wants to know of who answers. The page itself asks the pool."""

    is_own = False
    starting: float | None = None

    def __init__(self, pool: Pool, can_change: bool) -> None:
        self._pool, self.can_change = pool, can_change

    def epoch(self) -> int:
        return self._pool.epoch or 0

    def query(self, source: int, target: int) -> Answer:
        raise NotImplementedError("the page asks the pool")

    def publish(self, changes: Sequence[Change]) -> int:
        raise NotImplementedError("the service's own keeper publishes")


class Page:
    def __init__(self, service: Service) -> None:
        keeper = service.closing.keeper
        asker = PoolAsker(service.pool, keeper is not None)
        self._service, self._pool = service, service.pool
        self._desk = Desk(service.network, asker, keep=KEEP, keeper=keeper)
        self._answers: OrderedDict[tuple[Query, int], Answer] = OrderedDict()
        self._state: tuple[float, dict[str, Any]] = (0.0, {})

    @staticmethod
    def is_there() -> bool:
        return LEAFLET.is_dir()

    @property
    def addresses(self) -> list[tuple[str, Endpoint, str]]:
        own: list[tuple[str, Endpoint, str]] = [
            ("/", files_of(WEB, "index.html"), "GET"),
            ("/web/{name}", files_of(WEB), "GET"),
            ("/leaflet/{name:path}", files_of(LEAFLET), "GET"),
            ("/tile/{z}/{x}/{y}", self._service.tile, "GET"),
        ]
        asked = [
            ("network", self._network, "GET"),
            ("labels", self._labels, "GET"),
            ("nearest", self._nearest, "GET"),
            ("find", self._find, "GET"),
            ("suggest", self._suggest, "GET"),
            ("ask", self._ask, "GET"),
            ("geojson", self._export, "GET"),
            ("state", self._told_state, "GET"),
            ("preview", self._preview, "POST"),
            ("close", self._close, "POST"),
            ("undo", self._undo, "POST"),
        ]
        return own + [
            (f"/api/{name}", self._as_page(endpoint), method) for name, endpoint, method in asked
        ]

    def _as_page(self, endpoint: Callable[[Request], Awaitable[object]]) -> Endpoint:
        """What is told as JSON, and faults in the page's form beside that of problems."""

        async def answer(request: Request) -> Response:
            try:
                told = await endpoint(request)
            except (Problem, Fault, ClientError) as fault:
                return self._problem(fault)
            return told if isinstance(told, Response) else _json(told)

        return answer

    def _problem(self, fault: Exception) -> Response:
        problem = problem_of(fault)
        self._service.metrics.problems.labels(problem.kind).inc()
        told = problem.told | {"error": problem.detail}
        if isinstance(fault, EndFault):
            told |= {"code": fault.code, "values": fault.values}
        if problem.kind == "unauthorized":
            told |= {"code": "no_token", "values": {}}
        if isinstance(fault, Refused) and problem.kind == "budget":
            told |= {"offers": [{"kind": "limits"}]}
        return Response(as_json(told), problem.status, dict(problem.headers), MEDIA_TYPE)

    async def _beside(self, work: Callable[[], T]) -> T:
        return await self._service.beside(work)

    # The map.

    async def _network(self, request: Request) -> object:
        return self._desk.about | {"wants_token": True}

    async def _labels(self, request: Request) -> object:
        west, south, east, north = _numbers(request, "box", 4)
        [zoom] = _numbers(request, "zoom", 1)
        return await self._beside(lambda: self._desk.labels((west, south, east, north), int(zoom)))

    async def _nearest(self, request: Request) -> object:
        [lon], [lat] = _numbers(request, "lon", 1), _numbers(request, "lat", 1)
        return vars(await self._beside(lambda: self._desk.ends.at(lon, lat)))

    async def _find(self, request: Request) -> object:
        return vars(await self._beside(lambda: self._desk.ends.find(_text(request))))

    async def _suggest(self, request: Request) -> object:
        return {"names": await self._beside(lambda: self._desk.ends.suggestions(_text(request)))}

    # Answers.

    async def _ask(self, request: Request) -> object:
        question, answer = await self._answered(request)
        return await self._beside(lambda: self._desk.told(question, answer))

    async def _export(self, request: Request) -> object:
        question, answer = await self._answered(request)
        text = await self._beside(lambda: self._desk.exported(question, answer))
        named = {"Content-Disposition": "attachment; filename=alternatives.geojson"}
        return Response(text, 200, named, "application/geo+json")

    async def _answered(self, request: Request) -> tuple[Question, Answer]:
        """Of the servers, or the one that they gave at this epoch before, among whose routes a
        slider chooses.
        """
        question = self._desk.question(request.query_params)
        if question.budget or question.criteria or question.coarser > 1:
            raise Fault("this can be asked on a page of one's own alone")
        count = self._service.network.junctions
        if not (1 <= question.source <= count and 1 <= question.target <= count):
            raise Fault(f"a node is 1 to {count}")
        arrival = self._service.network.arrival(question.target)
        query = Query(question.source, arrival, question.bounds)
        kept = self._answers.get((query, self._pool.epoch or 0))
        return question, kept or self._kept(query, answered(await self._pool.ask(query)))

    def _kept(self, query: Query, answer: Answer) -> Answer:
        if sum(len(route.arcs or ()) for route in answer.routes) <= MOST_ARCS:
            self._answers[query, answer.epoch] = answer
            while len(self._answers) > MOST_ANSWERS:
                self._answers.popitem(last=False)
        return answer

    # Closures.

    async def _told_state(self, request: Request) -> object:
        """Who closed a road is told to those who have a token."""
        told = await self._beside(self._fresh_state)
        if self._service.is_known(request):
            return told
        return told | {"closures": _without_authors(told["closures"])}

    def _fresh_state(self) -> dict[str, Any]:
        made, state = self._state
        if time.monotonic() - made > STATE_TIME:
            now = {"epoch": self._pool.epoch, "ready": self._pool.is_ready}
            state = self._desk.state() | now
            self._state = time.monotonic(), state
        return state

    async def _preview(self, request: Request) -> object:
        asked = await body_of(request, None)
        return await self._beside(lambda: self._desk.preview(asked))

    async def _close(self, request: Request) -> object:
        who, asked = self._service.who(request), await body_of(request, None)
        made = await self._beside(lambda: self._desk.closure_of(asked | {"author": who}))
        closure = await self._service.closing.add(made, who, peer_of(request.scope))
        return {"closure_state": closure.state().value} | await self._after()

    async def _undo(self, request: Request) -> object:
        who, asked = self._service.who(request), await body_of(request, None)
        await self._service.closing.undo(str(asked.get("id", "")), who, peer_of(request.scope))
        return await self._after()

    async def _after(self) -> dict[str, object]:
        self._state = (0.0, {})
        return {"state": await self._beside(self._fresh_state)}


def files_of(folder: Path, name: str = "") -> Endpoint:
    """A file of the folder: the one of this name, or the one that is asked for."""

    async def file(request: Request) -> Response:
        path = folder / (name or request.path_params["name"])
        if not path.resolve().is_relative_to(folder.resolve()) or not path.is_file():
            raise Problem("not-found", "no address is like this")
        return FileResponse(path, headers={"Content-Security-Policy": content_policy()})

    return file


def _json(told: object) -> Response:
    return Response(as_json(told), media_type="application/json")


def _text(request: Request) -> str:
    return request.query_params.get("text", "")[:200]


def _numbers(request: Request, name: str, count: int) -> list[float]:
    try:
        numbers = [float(part) for part in request.query_params[name].split(",")]
    except (KeyError, ValueError):
        numbers = []
    if len(numbers) != count or not all(abs(one) < 1e9 for one in numbers):
        raise Fault(f"{name} aren't {count} numbers")
    return numbers


def _without_authors(closures: Sequence[dict[str, object]]) -> list[dict[str, object]]:
    return [one | {"author": ""} for one in closures]
