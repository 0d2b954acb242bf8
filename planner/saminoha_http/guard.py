"""What stands before every request: bounds on addresses, bodies, rates and concurrency, the
origin of what changes something, the access log, and what is counted.
"""

from __future__ import annotations

import time
from collections import OrderedDict
from collections.abc import Collection
from dataclasses import dataclass

from starlette.requests import ClientDisconnect
from starlette.types import ASGIApp, Message, Receive, Scope, Send

from .access import AccessLog, Told
from .metrics import Metrics
from .problems import Problem

MOST_PEERS = 10_000  # whose rates are known
GONE = 499  # in the log alone: the peer went before it was answered
CHANGING = ("/v1/closures", "/api/")
FREE = ("/health", "/metrics")  # answered also where all else is refused for its rate


@dataclass(frozen=True)
class Bounds:
    """Bytes, requests a second of one peer and at once, and origins of pages beside this one."""

    url: int = 2048
    body: int = 262_144
    rate: float = 50.0
    burst: int = 100
    at_once: int = 512
    origins: Collection[str] = ()


class Rates:
    """For each peer a bucket that fills by the rate up to the burst (token bucket)."""

    def __init__(self, rate: float, burst: int) -> None:
        self._rate, self._burst = rate, burst
        self._of: OrderedDict[str, tuple[float, float]] = OrderedDict()

    def take(self, peer: str, now: float) -> bool:
        left, at = self._of.pop(peer, (float(self._burst), now))
        left = min(self._burst, left + (now - at) * self._rate)
        self._of[peer] = (max(0.0, left - 1), now)
        if len(self._of) > MOST_PEERS:
            self._of.popitem(last=False)
        return left >= 1


class Guard:
    def __init__(self, app: ASGIApp, bounds: Bounds, metrics: Metrics, log: AccessLog) -> None:
        self._app, self._bounds, self._metrics, self._log = app, bounds, metrics, log
        self._rates = Rates(bounds.rate, bounds.burst)
        self._at_once = 0

    async def __call__(self, scope: Scope, receive: Receive, send: Send) -> None:
        if scope["type"] != "http":
            await self._app(scope, receive, send)
            return
        told = Told()
        self._at_once += 1
        try:
            await self._pass(scope, receive, send, told)
        finally:
            self._at_once -= 1
            self._count(scope, told)

    async def _pass(self, scope: Scope, receive: Receive, send: Send, told: Told) -> None:
        async def minded(message: Message) -> None:
            told.mind(message)
            await send(message)

        try:
            self._check(scope)
            await self._app(scope, _Bounded(receive, self._bounds.body).receive, minded)
        except ClientDisconnect:
            told.status = told.status or GONE
        except Problem as problem:
            self._metrics.problems.labels(problem.kind).inc()
            await problem.response()(scope, receive, minded)

    def _check(self, scope: Scope) -> None:
        bounds = self._bounds
        if len(scope.get("raw_path") or b"") + len(scope["query_string"]) > bounds.url:
            raise Problem("uri-too-long", f"an address has {bounds.url} bytes at most")
        if scope["path"] not in FREE:
            self._check_rate(peer_of(scope))
        for name, value in scope["headers"]:
            if name == b"content-length":
                self._check_length(value)
            elif name == b"origin" and is_changing(scope):
                self._check_origin(value.decode("latin-1"), scope)

    def _check_length(self, value: bytes) -> None:
        if not value.isdigit() or int(value) > self._bounds.body:
            raise Problem("too-large", f"a body has {self._bounds.body} bytes at most")

    def _check_origin(self, origin: str, scope: Scope) -> None:
        """A page may change what its own service has; others only if they are named."""
        if origin not in self._bounds.origins and not is_own(origin, scope):
            raise Problem("foreign-origin", f"the origin {origin[:100]!r} isn't named here")

    def _check_rate(self, peer: str) -> None:
        again = {"Retry-After": "1"}
        if not self._rates.take(peer, time.monotonic()):
            text = f"a peer has {self._bounds.rate:g} requests a second"
            raise Problem("too-many-requests", text, again)
        if self._at_once > self._bounds.at_once:
            raise Problem("busy", f"{self._bounds.at_once} requests are under way", again)

    def _count(self, scope: Scope, told: Told) -> None:
        seconds = time.monotonic() - told.begun
        route = getattr(scope.get("route"), "path", "other")
        method = scope["method"] if scope["method"] in ("GET", "POST", "DELETE") else "other"
        self._metrics.count(route, method, told.status, seconds)
        self._log.add(peer_of(scope), method, scope["path"], told, seconds)


class _Bounded:
    """A body that is longer than its bound, also where its length isn't told."""

    def __init__(self, receive: Receive, most: int) -> None:
        self._receive, self._most, self._come = receive, most, 0

    async def receive(self) -> Message:
        message = await self._receive()
        if message["type"] == "http.request":
            self._come += len(message.get("body", b""))
            if self._come > self._most:
                raise Problem("too-large", f"a body has {self._most} bytes at most")
        return message


def is_changing(scope: Scope) -> bool:
    return scope["path"].startswith(CHANGING) and scope["method"] not in ("GET", "HEAD")


def is_own(origin: str, scope: Scope) -> bool:
    """Whether it is the origin of the pages that are served here, by the name that was asked."""
    hosts = [value.decode("latin-1") for name, value in scope["headers"] if name == b"host"]
    return len(hosts) == 1 and origin == f"{scope['scheme']}://{hosts[0]}"


def peer_of(scope: Scope) -> str:
    client = scope.get("client")
    return str(client[0] or "local") if client else "local"
