"""What each address answers, over one network and a pool."""

from __future__ import annotations

import asyncio
import functools
import gzip
import json
import re
from collections.abc import AsyncIterator, Callable, Sequence
from concurrent.futures import ThreadPoolExecutor
from typing import TypeVar
from urllib.parse import parse_qsl

from starlette.requests import Request
from starlette.responses import Response, StreamingResponse

from saminoha_planner.background import load_background
from saminoha_planner.client import ClientError, Costs, answered
from saminoha_planner.closures import LOG, Log
from saminoha_planner.command import Fault
from saminoha_planner.ends import End, Ends
from saminoha_planner.network import Network
from saminoha_planner.roads import Roads, roads_of
from saminoha_planner.tiles import Tiles

from .answers import Teller, as_json, matrix_entry, told_criterion, told_end
from .closing import Closing, told_closure
from .guard import peer_of
from .metrics import Metrics
from .pool import Pool
from .problems import Problem, problem_of
from .questions import LONGEST, Asked
from .tokens import Tokens

T = TypeVar("T")
MOST_PLACES = 12
SMALL = 2000  # arcs of an answer that is put together within the loop
BODY_TIME = 10.0  # seconds in which a body has to come
Pair = tuple[End, End]


class Service:
    def __init__(
        self, network: Network, pool: Pool, tokens: Tokens | None = None, most_pairs: int = 1000
    ) -> None:
        self.network, self.pool, self.tokens = network, pool, tokens or Tokens()
        self.most_pairs = most_pairs
        self.metrics = Metrics(pool)
        self.roads: Roads = roads_of(network)
        self.teller = Teller(network, self.roads)
        self.ends = Ends(network, lambda: self.roads)
        self.asked = Asked(network, self.ends)
        self.closing = Closing(network, lambda: self.roads, Log(network.folder / LOG))
        self._work = ThreadPoolExecutor(2, "answers")
        lon, lat = network.lon, network.lat
        self._bounds = [float(one) for one in (lon.min(), lat.min(), lon.max(), lat.max())]

    # Answers.

    async def alternatives(self, request: Request) -> Response:
        words = words_of(request)
        if self.asked.is_quick(words):
            question = self.asked.question(words)
        else:
            question = await self.beside(lambda: self.asked.question(words))
        answer = answered(await self.pool.ask(question.query(self.network)))
        count = sum(len(route.arcs or ()) for route in answer.routes)
        if count <= SMALL:
            return _told(self.teller.alternatives(question, answer))
        return _told(await self.beside(lambda: self.teller.alternatives(question, answer)))

    async def matrix(self, request: Request) -> Response:
        """All ends are looked up before the first line, so that a bad one is told as a problem."""
        asked = await body_of(request, {"pairs", "from", "to", "all"})
        if not isinstance(asked.get("all", False), bool):
            raise Problem("bad-body", "all is true or false")
        pairs = await self.beside(lambda: self._pairs(asked))
        lines = self._lines(pairs, bool(asked.get("all")))
        return StreamingResponse(lines, media_type="application/jsonl")

    def _pairs(self, asked: dict[str, object]) -> list[Pair]:
        if ("pairs" in asked) == ("from" in asked or "to" in asked):
            raise Problem("bad-body", "name pairs, or from and to")
        if "pairs" in asked:
            texts = [(pair, f"pairs[{at}]") for at, pair in enumerate(_list(asked, "pairs"))]
            self._check_count(len(texts))
            return [self._pair(pair, where) for pair, where in texts]
        sources, targets = _list(asked, "from"), _list(asked, "to")
        self._check_count(len(sources) * len(targets))
        begins, ends = self._ends(sources, "from"), self._ends(targets, "to")
        return [(begin, end) for begin in begins for end in ends]

    def _check_count(self, count: int) -> None:
        if not 1 <= count <= self.most_pairs:
            raise Problem("bad-body", f"{count} pairs: there are 1 to {self.most_pairs} at once")

    def _pair(self, pair: object, where: str) -> Pair:
        if not isinstance(pair, list) or len(pair) != 2:
            raise Problem("bad-body", f"{where} is no pair of two ends", parameter=where)
        begin, end = self._ends(pair, where)
        return begin, end

    def _ends(self, texts: Sequence[object], where: str) -> list[End]:
        for text in texts:
            if not isinstance(text, str) or not text.isprintable():
                raise Problem("bad-body", f"an end of {where} is no text", parameter=where)
        return [self.asked.end(str(text), where) for text in texts]

    async def _lines(self, pairs: Sequence[Pair], has_all: bool) -> AsyncIterator[bytes]:
        for source, target in pairs:
            entry = {"from": source.name, "from_node": source.node}
            entry |= {"to": target.name, "to_node": target.node}
            told = await self._entry(source, target, has_all)
            yield json.dumps(entry | told, ensure_ascii=False).encode() + b"\n"

    async def _entry(self, source: End, target: End, has_all: bool) -> dict[str, object]:
        """A pair that has a problem has its kind; the others go on."""
        request = Costs(source.node, self.network.arrival(target.node))
        try:
            answer = answered(await self.pool.ask(request))
        except ClientError as fault:
            problem = problem_of(fault)
            self.metrics.problems.labels(problem.kind).inc()
            return {"problem": problem.kind}
        return matrix_entry(self.network, answer, has_all)

    # The network.

    async def about(self, request: Request) -> Response:
        network = self.network
        return _json(
            {
                "name": network.folder.resolve().name,
                "bounds": self._bounds,
                "junctions": network.junctions,
                "arcs": len(network.arcs),
                "criteria": [told_criterion(one) for one in network.criteria],
                "attribution": network.attribution,
                "epoch": self.pool.epoch,
            }
        )

    async def places(self, request: Request) -> Response:
        words = words_of(request)
        if [name for name, _ in words] != ["q"] or len(words[0][1]) > LONGEST:
            text = f"q is wanted once and alone, with {LONGEST} letters at most"
            raise Problem("bad-parameter", text, parameter="q")
        return _json({"places": await self.beside(lambda: self._places(words[0][1]))})

    def _places(self, text: str) -> list[dict[str, object]]:
        found = []
        for name in self.ends.suggestions(text, MOST_PLACES):
            try:
                found.append(told_end(self.ends.find(name)))
            except Fault:  # a street whose name is taken for another thing
                continue
        return found

    @functools.cached_property
    def _tiles(self) -> Tiles:
        return Tiles(self.roads, load_background(self.network.folder))

    async def tile(self, request: Request) -> Response:
        """A tile in the page's form (`saminoha_planner/tiles.py`)."""
        numbers = [request.path_params[name] for name in ("z", "x", "y")]
        if not all(re.fullmatch("[0-9]{1,6}", text) for text in numbers):
            raise Problem("not-found", "a tile has a zoom and two numbers")
        zoom, x, y = map(int, numbers)
        try:
            packed = await self.beside(lambda: self._tiles.tile(zoom, x, y))
        except Fault as fault:
            raise Problem("not-found", str(fault)) from None
        headers = {"Cache-Control": "max-age=60", "Vary": "Accept-Encoding"}
        if "gzip" in request.headers.get("accept-encoding", ""):
            headers["Content-Encoding"] = "gzip"
            packed = gzip.compress(packed, 5)
        return Response(packed, 200, headers, "application/octet-stream")

    # Closures.

    def is_known(self, request: Request) -> bool:
        return self.tokens.name_of(request.headers.get("authorization", "")) is not None

    def who(self, request: Request) -> str:
        name = self.tokens.name_of(request.headers.get("authorization", ""))
        if name is None:
            challenge = {"WWW-Authenticate": 'Bearer realm="closures"'}
            raise Problem("unauthorized", "closures are for those who have a token", challenge)
        return name

    async def closures(self, request: Request) -> Response:
        self.who(request)
        return _json(self.closing.told)

    async def close(self, request: Request) -> Response:
        who = self.who(request)
        asked = await body_of(request, None)
        closure = await self.closing.close(asked, who, peer_of(request.scope))
        at = {"Location": f"/v1/closures/{closure.name}"}
        return _json(told_closure(closure), 201, at)

    async def undo(self, request: Request) -> Response:
        who = self.who(request)
        name = str(request.path_params["name"])
        return _json(told_closure(await self.closing.undo(name, who, peer_of(request.scope))))

    # Its own state.

    async def health(self, request: Request) -> Response:
        servers = [
            {
                "name": one.name,
                "up": one.is_up,
                "stale": self.pool.is_stale(one),
                "behind": one.is_behind,
                "restored": one.is_restored,
                "epoch": one.epoch,
            }
            for one in self.pool.servers
        ]
        is_ready = self.pool.is_ready
        told = {"ready": is_ready, "epoch": self.pool.epoch, "servers": servers}
        return _json(told, 200 if is_ready else 503, {} if is_ready else {"Retry-After": "1"})

    async def counted(self, request: Request) -> Response:
        text = self.metrics.text()
        return Response(text, media_type="text/plain; version=0.0.4; charset=utf-8")

    async def beside(self, work: Callable[[], T]) -> T:
        return await asyncio.get_running_loop().run_in_executor(self._work, work)

    def end(self) -> None:
        self.closing.end()
        self._work.shutdown(wait=False)


def words_of(request: Request) -> list[tuple[str, str]]:
    return parse_qsl(request.scope["query_string"].decode("latin-1"), keep_blank_values=True)


def _told(text: str) -> Response:
    return Response(text, media_type="application/json")


def _json(told: object, status: int = 200, headers: dict[str, str] | None = None) -> Response:
    return Response(as_json(told), status, headers, "application/json")


async def body_of(request: Request, known: set[str] | None) -> dict[str, object]:
    """An object of JSON, with members of these names alone."""
    kind = request.headers.get("content-type", "").partition(";")[0].strip().casefold()
    if kind != "application/json":
        raise Problem("media-type", "the body has to be application/json")
    try:
        async with asyncio.timeout(BODY_TIME):
            asked = json.loads(await request.body())
        as_json(asked).encode()  # which fails on letters that are none
    except TimeoutError:
        raise Problem("bad-body", f"the body didn't come in {BODY_TIME:g} s") from None
    except (ValueError, RecursionError):
        raise Problem("bad-body", "the body is no JSON") from None
    if not isinstance(asked, dict):
        raise Problem("bad-body", "the body is no object of JSON")
    if known and (others := set(asked) - known):
        raise Problem(
            "bad-body", f"{ascii(min(others)[:40])} is none of {', '.join(sorted(known))}"
        )
    return asked


def _list(asked: dict[str, object], name: str) -> list[object]:
    value = asked.get(name)
    if not isinstance(value, list):
        raise Problem("bad-body", f"{name} is no list", parameter=name)
    return value
