"""The addresses, and how problems are told."""

from __future__ import annotations

from collections.abc import Callable, Coroutine
from typing import Any

from fastapi import FastAPI
from fastapi.exceptions import RequestValidationError
from starlette.exceptions import HTTPException
from starlette.middleware.cors import CORSMiddleware
from starlette.requests import Request
from starlette.responses import HTMLResponse, Response
from starlette.routing import Match, Route
from starlette.types import ASGIApp, Receive, Scope, Send

from saminoha_planner.client import ClientError
from saminoha_planner.command import Fault

from . import document
from .access import AccessLog
from .document import JSON, Schema
from .guard import Bounds, Guard
from .page import Page
from .problems import Problem, problem_of
from .reading import page_of
from .service import Service

Endpoint = Callable[[Request], Coroutine[Any, Any, Response]]


class Plain(Route):
    """A route without what FastAPI does for each request. It names itself to who counts."""

    def matches(self, scope: Scope) -> tuple[Match, Scope]:
        match, found = super().matches(scope)
        return match, found | {"route": self}


class Direct:
    """Answers the address that is asked most without what a framework does for each request."""

    def __init__(self, app: ASGIApp, path: str, service: Service) -> None:
        self._app, self.path, self._service = app, path, service

    async def __call__(self, scope: Scope, receive: Receive, send: Send) -> None:
        if scope["type"] != "http" or scope["path"] != self.path or scope["method"] != "GET":
            await self._app(scope, receive, send)
            return
        scope["route"] = self
        try:
            response = await self._service.alternatives(Request(scope, receive))
        except (Problem, Fault, ClientError) as fault:
            response = tell(self._service, fault)
        await response(scope, receive, send)


def tell(service: Service, fault: Exception) -> Response:
    problem = problem_of(fault)
    service.metrics.problems.labels(problem.kind).inc()
    return problem.response()


def make_app(service: Service, bounds: Bounds, log: AccessLog, page: Page | None = None) -> ASGIApp:
    app = FastAPI(
        title="Saminoha",
        version="1",
        description="All trade-offs between routes, of a network that is served by `serve`.",
        docs_url=None,
        redoc_url=None,
    )
    _add_answers(app, service)
    _add_closures(app, service)
    _add_state(app, service)
    _add_reading(app)
    if page:
        for path, endpoint, method in page.addresses:
            app.router.routes.append(Plain(path, endpoint, methods=[method]))
    _tell_problems(app, service)
    direct = Direct(app, "/v1/alternatives", service)
    return Guard(_named(direct, bounds), bounds, service.metrics, log)


def _named(app: ASGIApp, bounds: Bounds) -> ASGIApp:
    """Pages of the origins that are named may ask and close."""
    if not bounds.origins:
        return app
    return CORSMiddleware(
        app,
        allow_origins=list(bounds.origins),
        allow_methods=["GET", "POST", "DELETE"],
        allow_headers=["Authorization", "Content-Type"],
    )


def _add_answers(app: FastAPI, service: Service) -> None:
    path, text = (
        "/v1/alternatives",
        "The chosen few of all trade-offs, with their lines, as GeoJSON",
    )
    extra = document.of_alternatives(service.network.criteria)
    _add(app, "GET", path, service.alternatives, text, extra)
    path, text = "/v1/matrix", "For each pair the least of each criterion, as lines of JSON"
    extra = document.of_matrix(service.most_pairs)
    _add(app, "POST", path, service.matrix, text, extra, "application/jsonl")
    _add(app, "GET", "/v1/network", service.about, "The network")
    path, text = "/v1/places", "Places and streets of a name"
    _add(app, "GET", path, service.places, text, document.of_places())
    path, text = "/v1/tiles/{z}/{x}/{y}", "A tile of the roads, in the page's form"
    media = "application/octet-stream"
    _add(app, "GET", path, service.tile, text, document.of_tiles(), media)


def _add_closures(app: FastAPI, service: Service) -> None:
    path, text = "/v1/closures", "All closures of the log"
    _add(app, "GET", path, service.closures, text, document.BY_TOKEN)
    text = "Shuts, slows or charges a road, or a stretch between two points (lat, lon)"
    _add(app, "POST", path, service.close, text, document.of_closing(), status=201)
    path, text = "/v1/closures/{name}", "Lifts a closure"
    _add(app, "DELETE", path, service.undo, text, document.of_lifting())


def _add_state(app: FastAPI, service: Service) -> None:
    _add(app, "GET", "/health", service.health, "Whether requests can be answered")
    _add(app, "GET", "/metrics", service.counted, "Metrics of Prometheus", media="text/plain")


def _add_reading(app: FastAPI) -> None:
    """The document as a page. Nothing in it can run or fetch a thing."""
    told = app.openapi()
    document.with_tokens(told)
    text = page_of(told)
    only = {"Content-Security-Policy": "default-src 'none'; style-src 'unsafe-inline'"}

    async def read(_: Request) -> Response:
        return HTMLResponse(text, headers=only)

    app.router.routes.append(Plain("/docs", read, methods=["GET"]))


def _add(
    app: FastAPI,
    method: str,
    path: str,
    endpoint: Endpoint,
    summary: str,
    extra: Schema | None = None,
    media: str = JSON,
    status: int = 200,
) -> None:
    app.add_api_route(
        path,
        endpoint,
        methods=[method],
        summary=summary,
        status_code=status,
        response_class=Response,
        response_model=None,
        responses=document.responses(status, summary, media),
        openapi_extra=extra,
    )


def _tell_problems(app: FastAPI, service: Service) -> None:
    async def of_ours(_: Request, fault: Exception) -> Response:
        return tell(service, fault)

    async def of_routing(_: Request, fault: Exception) -> Response:
        is_method = isinstance(fault, HTTPException) and fault.status_code == 405
        text = "another method is answered here" if is_method else "no address is like this"
        return tell(service, Problem("method" if is_method else "not-found", text))

    for kind in (Problem, Fault, ClientError):
        app.add_exception_handler(kind, of_ours)
    for kind in (HTTPException, RequestValidationError):
        app.add_exception_handler(kind, of_routing)
