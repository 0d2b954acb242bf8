"""The service of HTTP over the real program: each answer is the program's own at the epoch that
it names, closures are by token alone, and what is wrong is told as the problem that it is.
"""

from __future__ import annotations

import gzip
import json
import os
import random
import re
import shutil
import signal
import socket
import subprocess
import threading
import time
from collections.abc import Iterator
from datetime import datetime, timedelta, timezone
from itertools import product
from urllib.parse import quote, urlencode

import numpy as np
import pytest
from conftest import PLANNER

for library in ("fastapi", "uvicorn", "prometheus_client"):
    name = library.replace("_", "-")
    pytest.importorskip(library, reason=f"python3-{name} is missing: the service isn't tried")

import uvicorn  # noqa: E402
from fastapi.openapi.models import OpenAPI  # noqa: E402
from http_fuzz import fuzz  # noqa: E402
from http_here import HOST, TOKEN, Here, service  # noqa: E402

from saminoha_http import wire  # noqa: E402
from saminoha_http.guard import Rates  # noqa: E402
from saminoha_http.metrics import Recent  # noqa: E402
from saminoha_http.tokens import Tokens  # noqa: E402
from saminoha_http.wire import has  # noqa: E402
from saminoha_planner.background import load_background  # noqa: E402
from saminoha_planner.client import Operator, Publish, Query, ShutArc, Wait, answered  # noqa: E402
from saminoha_planner.closures import LOG  # noqa: E402
from saminoha_planner.command import Fault  # noqa: E402
from saminoha_planner.roads import roads_of  # noqa: E402
from saminoha_planner.tiles import SIDE, Tiles, world  # noqa: E402

DRAWN = int(os.environ.get("DRAWN_REQUESTS", "200"))
FREELY = ("--rate", "100000", "--burst", "100000")
ANN = {"Authorization": f"Bearer {TOKEN}"}
TRIP = "/v1/alternatives?from=Northend&to=Southend"


@pytest.fixture(scope="module")
def here(program, town, tmp_path_factory) -> Iterator[Here]:
    with service(program, town, tmp_path_factory.mktemp("http"), *FREELY) as one:
        yield one
    (town.folder / LOG).unlink(missing_ok=True)


@pytest.fixture
def closed(here):
    """What a test closes is opened behind it."""
    yield here
    for one in here.get("/v1/closures", **ANN).told["closures"]:
        if one["state"] != "ended":
            here.ask("DELETE", f"/v1/closures/{one['id']}", **ANN)


def bridge_of(town):
    return [number for number, arc in enumerate(town.arcs, start=1) if arc.name == "Toll Bridge"]


# Answers.


def test_alternatives(here, town):
    told = here.get(TRIP + "&keep=2&limit.time=10min").told
    assert told["type"] == "FeatureCollection" and told["trade_offs"] == 3
    assert [one["unit"] for one in told["criteria"]] == ["m", "s", "EUR"]
    assert "all" not in told and len(told["features"]) == 2
    first = told["features"][0]
    assert first["properties"]["letter"] == "A"
    costs, weights = first["properties"]["costs"], first["properties"]["weights"]
    assert costs == {
        "distance": weights[0],
        "time": weights[1] / 10,
        "toll": weights[2] / 100,
    }
    nodes = [told[end]["node"] for end in ("from", "to")]
    line = first["geometry"]["coordinates"]
    for node, point in zip(nodes, (line[0], line[-1])):
        assert point == pytest.approx([town.lon[node - 1], town.lat[node - 1]])


def test_ends_by_point_and_node(here, town):
    node = town.find("Northend")
    lat, lon = town.lat[node - 1], town.lon[node - 1]
    for text in (f"{lat},{lon}", f"node:{node}", "northend"):
        told = here.get(f"/v1/alternatives?from={quote(text)}&to=Southend").told
        assert told["from"]["node"] == node, text
    told = here.get("/v1/alternatives?from=Northend,%20North%20Street&to=Southend").told
    assert told["from"]["name"] == "Northend, North Street"


def test_nowhere_to_go(here):
    told = here.get("/v1/alternatives?from=Market&to=Market").told
    assert told["trade_offs"] == 1 and len(told["features"][0]["geometry"]["coordinates"]) == 2


def drawn(town, count: int) -> Iterator[dict[str, str]]:
    dice = random.Random(61)
    for _ in range(count):
        ends = [f"node:{dice.randint(1, town.junctions)}" for _ in range(2)]
        words = {"from": ends[0], "to": ends[1], "all": "true", "keep": str(dice.randint(1, 5))}
        if dice.random() < 0.4:
            words["limit.time"] = f"{dice.randint(20, 300)}s"
        if dice.random() < 0.3:
            words["limit.toll"] = dice.choice(("0", "1.50 EUR", "3"))
        if dice.random() < 0.3:
            names = [one.name for one in town.criteria]
            words["criteria"] = ",".join(dice.sample(names, dice.randint(1, len(names))))
        yield words


def places_of(town, words) -> list[int]:
    names = [one.name for one in town.criteria]
    return [names.index(name) for name in words["criteria"].split(",")]


def expected(program, town, words, shut):
    """The costs that the program itself answers, with these arcs shut; of a choice of criteria
    those that no other one dominates.
    """
    limits = [None] * len(town.criteria)
    for place, one in enumerate(town.criteria):
        if text := words.get(f"limit.{one.name}"):
            limits[place] = one.weight(text)
    source, target = (int(words[end].removeprefix("node:")) for end in ("from", "to"))
    if not shut and not any(limit is not None for limit in limits):
        answer = program.query(town.files, source, town.arrival(target))
    else:
        query = Query(source, town.arrival(target), tuple(limits))
        orders = [*map(ShutArc, shut), Publish()]
        [replies] = program.lanes(town.files, orders, [[Wait(1), query]]).sessions
        answer = answered(replies[1])
    costs = [list(route.cost) for route in answer.routes]
    return best_of(costs, places_of(town, words)) if "criteria" in words else costs


def best_of(costs, places):
    cut = {tuple(cost[place] for place in places) for cost in costs}

    def is_beaten(one):
        return any(other != one and all(a <= b for a, b in zip(other, one)) for other in cut)

    return [list(one) for one in sorted(cut) if not is_beaten(one)]


def compare(here, program, town, words, shut_at) -> None:
    reply = here.get("/v1/alternatives?" + urlencode(words))
    wanted = expected(program, town, words, shut_at[reply.told["epoch"]])
    if reply.status == 404:
        assert reply.kind == "no-route" and not wanted, words
        return
    told = reply.told
    assert [one["weights"] for one in told["all"]] == wanted, words
    assert told["trade_offs"] == len(wanted) >= len(told["features"]) > 0
    assert all(one["properties"]["weights"] in wanted for one in told["features"])


def test_drawn_requests(program, town, tmp_path):
    """Each answer is that of the epoch that it names, before a closure, with it, and behind it,
    whether the leader gave it or one of two followers, of which one is killed meanwhile.
    """
    with service(program, town, tmp_path, *FREELY, followers=2) as here:
        shut_at: dict[int, list[int]] = {here.get("/health").told["epoch"]: []}
        words = drawn(town, DRAWN)
        for _ in range(DRAWN // 4):
            compare(here, program, town, next(words), shut_at)
        told = here.ask("POST", "/v1/closures", {"road": "Toll Bridge"}, **ANN).told
        shut_at[told["epoch"]] = bridge_of(town)
        for _ in range(DRAWN // 4):
            compare(here, program, town, next(words), shut_at)
        here.followers[0].kill()
        for _ in range(DRAWN // 4):
            compare(here, program, town, next(words), shut_at)
        here.followers[0].begin()
        told = here.ask("DELETE", f"/v1/closures/{told['id']}", **ANN).told
        shut_at[told["lifted_epoch"]] = []
        for one in words:
            compare(here, program, town, one, shut_at)
        await_epochs(here, told["lifted_epoch"])
    (town.folder / LOG).unlink()


def await_epochs(here, epoch: int) -> None:
    """All servers are there, and are asked."""
    end = time.monotonic() + 10
    while {one["epoch"] for one in here.get("/health").told["servers"]} != {epoch}:
        assert time.monotonic() < end, here.get("/health").told
        time.sleep(0.1)
    lines = here.get("/metrics").body.decode().splitlines()
    ups = [line.split()[-1] for line in lines if line.startswith("saminoha_http_server_up{")]
    assert set(ups) == {"1.0"}


@pytest.mark.parametrize("names", ["time,distance", "distance,toll", "toll,time", "time", "toll"])
def test_criteria(here, program, town, names):
    """They are what the program answers over the files of these criteria alone."""
    places = places_of(town, {"criteria": names})
    told = here.get(f"{TRIP}&criteria={names}&all=true").told
    assert [one["name"] for one in told["criteria"]] == names.split(",")
    costs = [one["weights"] for one in told["all"]]
    ends = [told[end]["node"] for end in ("from", "to")]
    if len(places) > 1:
        files = [town.files[place] for place in places]
        answer = program.query(files, ends[0], town.arrival(ends[1]))
        assert costs == [list(route.cost) for route in answer.routes]
    else:
        answer = program.query(town.files, ends[0], town.arrival(ends[1]))
        assert costs == [[min(route.cost[places[0]] for route in answer.routes)]]
    assert set(told["features"][0]["properties"]["costs"]) == set(names.split(","))


def test_matrix(here, program, town):
    names = ["Northend", "Southend", "Market"]
    reply = here.ask("POST", "/v1/matrix", {"from": names, "to": names, "all": True})
    assert reply.headers["content-type"] == "application/jsonl"
    assert [(one["from"], one["to"]) for one in reply.lines] == list(product(names, names))
    for one in reply.lines:
        answer = program.query(town.files, one["from_node"], town.arrival(one["to_node"]))
        assert [entry["weights"] for entry in one["all"]] == [list(r.cost) for r in answer.routes]
        least = [min(costs) for costs in zip(*(route.cost for route in answer.routes))]
        assert one["least"] == {"distance": least[0], "time": least[1] / 10, "toll": least[2] / 100}
    pairs = here.ask("POST", "/v1/matrix", {"pairs": [["node:1", "50.004,10"]]}).lines
    assert [one["from_node"] for one in pairs] == [1]


def test_network_and_places(here, town):
    told = here.get("/v1/network").told
    assert told["junctions"] == town.junctions and told["arcs"] == len(town.arcs)
    assert "OpenStreetMap" in told["attribution"] and len(told["bounds"]) == 4
    places = here.get("/v1/places?q=nort").told["places"]
    assert [one["name"] for one in places[:2]] == ["Northend", "North Street"]
    assert places[0]["node"] == town.find("Northend")


def test_tiles(here, town):
    """They are the page's."""
    zoom = 16
    x, y = (int(place) // SIDE for place in world(np.array([[10.0045, 50.0]]), zoom)[0])
    due = Tiles(roads_of(town), load_background(town.folder)).tile(zoom, x, y)
    path = f"/v1/tiles/{zoom}/{x}/{y}"
    assert due and here.get(path).body == due
    assert gzip.decompress(here.get(path, Accept_Encoding="gzip").body) == due


# Problems.


@pytest.mark.parametrize(
    "path, status, kind",
    [
        ("/v1/alternatives?from=Nowhere&to=Market", 404, "no-such-place"),
        ("/v1/alternatives?from=node:0&to=Market", 404, "no-such-place"),
        ("/v1/alternatives?from=node:99&to=Market", 404, "no-such-place"),
        ("/v1/alternatives?from=1,2&to=Market", 422, "outside"),
        ("/v1/alternatives?from=99,2&to=Market", 400, "bad-parameter"),
        ("/v1/alternatives?from=12&to=Market", 400, "bad-parameter"),
        ("/v1/alternatives?from=&to=Market", 400, "bad-parameter"),
        ("/v1/alternatives?from=Market", 400, "bad-parameter"),
        (TRIP + "&from=Market", 400, "bad-parameter"),
        (TRIP + "&keep=0", 400, "bad-parameter"),
        (TRIP + "&keep=99", 400, "bad-parameter"),
        (TRIP + "&all=1", 400, "bad-parameter"),
        (TRIP + "&criteria=", 400, "bad-parameter"),
        (TRIP + "&criteria=time,houses", 400, "bad-parameter"),
        (TRIP + "&criteria=time,time", 400, "bad-parameter"),
        (TRIP + "&limit.houses=3", 400, "bad-parameter"),
        (TRIP + "&limit.time=soon", 400, "bad-parameter"),
        (TRIP + "&limit.time=1s", 404, "no-route"),
        (TRIP + "&x=" + "x" * 3000, 414, "uri-too-long"),
        ("/v1/places", 400, "bad-parameter"),
        ("/v1/elsewhere", 404, "not-found"),
        ("/web/../desk.py", 404, "not-found"),
        ("/web/%2e%2e%2fdesk.py", 404, "not-found"),
        ("/leaflet//etc/passwd", 404, "not-found"),
        ("/v1/tiles/3/9/0", 404, "not-found"),
        ("/v1/tiles/3/x/0", 404, "not-found"),
        ("/v1/matrix", 405, "method"),
    ],
)
def test_problems(here, path, status, kind):
    reply = here.get(path)
    assert (reply.status, reply.kind) == (status, kind)


@pytest.mark.parametrize(
    "body, status, kind",
    [
        (b"{", 400, "bad-body"),
        (b"[" * 100_000, 400, "bad-body"),
        (b"[]", 400, "bad-body"),
        ({"pairs": []}, 400, "bad-body"),
        ({"pairs": [["Market"]]}, 400, "bad-body"),
        ({"pairs": [["Market", 7]]}, 400, "bad-body"),
        ({"pairs": [["Market", "\ud800"]]}, 400, "bad-body"),
        ({"pairs": [["Market", "Nowhere"]]}, 404, "no-such-place"),
        ({"from": ["Market"]}, 400, "bad-body"),
        ({"from": ["Market"] * 40, "to": ["Market"] * 40}, 400, "bad-body"),
        ({"sources": []}, 400, "bad-body"),
        ({"pairs": ["x" * 300_000]}, 413, "too-large"),
    ],
)
def test_problems_of_bodies(here, body, status, kind):
    reply = here.ask("POST", "/v1/matrix", body)
    assert (reply.status, reply.kind) == (status, kind)


def test_media_type(here):
    reply = here.ask("POST", "/v1/matrix", b"a=1", Content_Type="application/x-www-form-urlencoded")
    assert (reply.status, reply.kind) == (415, "media-type")


def test_a_body_without_a_length(here):
    """A body in chunks is bounded too, though nothing says how long it gets."""
    head = b"POST /v1/matrix HTTP/1.1\r\nHost: x\r\nContent-Type: application/json\r\n"
    with socket.create_connection((HOST, here.port)) as peer:
        peer.sendall(head + b"Transfer-Encoding: chunked\r\n\r\n")
        for _ in range(5):
            peer.sendall(b"10000\r\n" + b"x" * 65_536 + b"\r\n")
        assert peer.recv(100).startswith(b"HTTP/1.1 413")


@pytest.mark.parametrize("text", [b"what\r\n\r\n", b"GET /health HTTP/1.1\r\nno header\r\n\r\n"])
def test_no_request(here, text):
    with socket.create_connection((HOST, here.port)) as peer:
        peer.sendall(text)
        told = peer.makefile("rb").read()
    assert told.startswith(b"HTTP/1.1 400 ")
    if has("httptools"):
        assert b"application/problem+json" in told and b"urn:saminoha:problem:no-request" in told


def test_a_head_that_does_not_come(monkeypatch):
    """A connection that sends nothing, or its head too slowly, is closed; one that is asked on
    goes on.
    """
    if not has("httptools"):
        pytest.skip("python3-httptools is missing")
    monkeypatch.setattr(wire, "HEAD_TIME", 0.6)

    async def answer(scope, receive, send):
        await send({"type": "http.response.start", "status": 204, "headers": []})
        await send({"type": "http.response.body"})

    config = uvicorn.Config(
        answer, http=wire.protocol(), ws="none", lifespan="off", log_config=None, port=0
    )
    server = uvicorn.Server(config)
    place = socket.create_server((HOST, 0))
    thread = threading.Thread(target=server.run, kwargs={"sockets": [place]})
    thread.start()
    try:
        for head in (b"", b"GET / HTTP/1.1\r\nHost: "):
            with socket.create_connection(place.getsockname(), timeout=5) as peer:
                peer.sendall(head)
                assert peer.recv(100) == b""
        with socket.create_connection(place.getsockname(), timeout=5) as peer:
            for _ in range(4):
                peer.sendall(b"GET / HTTP/1.1\r\nHost: x\r\n\r\n")
                assert peer.recv(1000).startswith(b"HTTP/1.1 204")
                time.sleep(0.3)
    finally:
        server.should_exit = True
        thread.join(10)


def test_budget(program, town, tmp_path):
    options = ("--budget", "3")
    with service(program, town, tmp_path, *FREELY, server_options=options) as poor:
        reply = poor.get(TRIP)
        assert (reply.status, reply.kind) == (422, "budget") and "limits" in reply.told["detail"]
        lines = poor.ask("POST", "/v1/matrix", {"pairs": [["Northend", "Southend"]] * 2}).lines
        assert [one["problem"] for one in lines] == ["budget", "budget"]


def test_no_route(program, town, tmp_path):
    with service(program, town, tmp_path, *FREELY) as here:
        body = {"points": [[50.004, 10.0045]], "reason": "all of it"}
        roads = ["North Street", "West Lane", "Middle Lane", "East Lane"]
        for road in roads:
            here.ask("POST", "/v1/closures", {"road": road}, **ANN)
        here.ask("POST", "/v1/closures", body, **ANN)
        assert here.get(TRIP).kind == "no-route"
    (town.folder / LOG).unlink()


# Closures.


def test_closures_by_token(closed, town):
    body = {"road": "Toll Bridge", "reason": "works"}
    known = len(closed.get("/v1/closures", **ANN).told["closures"])
    wrong = {"Authorization": f"Bearer {TOKEN[:-1]}x"}
    for headers in ({}, wrong, {"Authorization": f"Basic {TOKEN}"}, {"Authorization": "Bearer "}):
        for reply in (
            closed.get("/v1/closures", **headers),
            closed.ask("POST", "/v1/closures", body, **headers),
            closed.ask("DELETE", "/v1/closures/none", **headers),
        ):
            assert (reply.status, reply.kind) == (401, "unauthorized")
            assert reply.headers["www-authenticate"].startswith("Bearer")
    assert len(closed.get("/v1/closures", **ANN).told["closures"]) == known
    before = closed.get(TRIP).told
    made = closed.ask("POST", "/v1/closures", body, **ANN)
    assert made.status == 201 and made.headers["location"].endswith(made.told["id"])
    assert made.told["author"] == "ann" and made.told["arcs"] == len(bridge_of(town))
    after = closed.get(TRIP).told
    assert after["epoch"] == made.told["epoch"] > before["epoch"]
    assert after["features"] != before["features"]
    assert closed.ask("DELETE", f"/v1/closures/{made.told['id']}", **ANN).status == 200
    assert closed.get(TRIP).told["features"] == before["features"]
    again = closed.ask("DELETE", f"/v1/closures/{made.told['id']}", **ANN)
    assert (again.status, again.kind) == (409, "over")
    assert closed.ask("DELETE", "/v1/closures/none", **ANN).kind == "no-such-closure"
    audits = [one for one in closed.entries("audit") if one["id"] == made.told["id"]]
    assert [one["audit"] for one in audits] == ["close", "open"]
    assert all(one["who"] == "ann" and one["peer"] == HOST for one in audits)
    assert TOKEN not in closed.log.read_text()


def test_closures_of_another_origin(closed):
    body, foreign = {"road": "Toll Bridge"}, {"Origin": "https://elsewhere.example"}
    epoch = closed.get("/health").told["epoch"]
    for reply in (
        closed.ask("POST", "/v1/closures", body, **ANN, **foreign),
        closed.ask("DELETE", "/v1/closures/none", **ANN, **foreign),
    ):
        assert (reply.status, reply.kind) == (403, "foreign-origin")
    assert closed.get("/health").told["epoch"] == epoch
    reply = closed.get(TRIP, **foreign)
    assert reply.status == 200 and "access-control-allow-origin" not in reply.headers


def test_a_named_origin(program, town, tmp_path):
    origin = "https://maps.example"
    with service(program, town, tmp_path, *FREELY, "--origin", origin) as here:
        assert here.get(TRIP, Origin=origin).headers["access-control-allow-origin"] == origin
        other = here.get(TRIP, Origin="https://elsewhere.example")
        assert "access-control-allow-origin" not in other.headers
        due = {"Access_Control_Request_Method": "POST"}
        due |= {"Access_Control_Request_Headers": "authorization"}
        first = here.ask("OPTIONS", "/v1/closures", Origin=origin, **due)
        assert first.status == 200 and "POST" in first.headers["access-control-allow-methods"]
        foreign = here.ask("OPTIONS", "/v1/closures", Origin="https://elsewhere.example", **due)
        assert foreign.status == 403
        body = {"road": "Toll Bridge", "measure": "slow=2"}
        assert here.ask("POST", "/v1/closures", body, Origin=origin, **ANN).status == 201
    (town.folder / LOG).unlink()


@pytest.mark.parametrize(
    "body, kind",
    [
        ({}, "bad-body"),
        ({"road": "Nowhere"}, "no-such-place"),
        ({"road": 7}, "bad-body"),
        ({"road": "Quay", "points": [[50, 10]]}, "bad-body"),
        ({"points": [[0, 0]]}, "bad-parameter"),
        ({"points": [[200, 0]]}, "bad-body"),
        ({"points": []}, "bad-body"),
        ({"road": "Quay", "measure": "raze"}, "bad-parameter"),
        ({"road": "Quay", "reason": "\ud800"}, "bad-body"),
        ({"road": "Quay", "begin": "soon"}, "bad-body"),
        ({"road": "Quay", "begin": "2026-05-04T07:00:00"}, "bad-body"),
        ({"road": "Quay", "end": "2001-05-04T07:00:00Z"}, "bad-body"),
        ({"road": "Quay", "author": "Bob"}, "bad-body"),
    ],
)
def test_problems_of_closures(here, body, kind):
    reply = here.ask("POST", "/v1/closures", body, **ANN)
    assert 400 <= reply.status < 500 and reply.kind == kind


def test_tokens(tmp_path):
    file = tmp_path / "tokens"
    file.write_text(f"ann {TOKEN}\nbob {TOKEN[::-1]}\n")
    file.chmod(0o644)
    with pytest.raises(Fault, match="may be read by all"):
        Tokens.read(file)
    file.chmod(0o600)
    tokens = Tokens.read(file)
    assert tokens.name_of(f"Bearer {TOKEN[::-1]}") == "bob" and tokens.name_of(TOKEN) is None
    assert Tokens().name_of("Bearer ") is None
    file.write_text("ann short\n")
    with pytest.raises(Fault, match="line 1"):
        Tokens.read(file)


# Bounds and state.


def test_rates():
    rates = Rates(rate=2.0, burst=3)
    assert [rates.take("a", 0.0) for _ in range(4)] == [True, True, True, False]
    assert rates.take("b", 0.0) and rates.take("a", 0.5) and not rates.take("a", 0.5)


def test_rate_of_a_peer(program, town, tmp_path):
    with service(program, town, tmp_path, "--rate", "1", "--burst", "2") as here:
        replies = [here.get("/v1/network") for _ in range(4)]
        assert [one.status for one in replies] == [200, 200, 429, 429]
        assert replies[-1].kind == "too-many-requests" and replies[-1].headers["retry-after"] == "1"
        assert here.get("/health").status == 200


def test_health_metrics_and_log(here):
    here.get(TRIP)
    told = here.get("/health").told
    assert told["ready"] and told["servers"][0]["name"] == "leader"
    text = here.get("/metrics").body.decode()
    ok = 'saminoha_http_requests_total{method="GET",route="/v1/alternatives",status="200"}'
    assert ok in text and 'saminoha_http_links_in_use{server="leader"} 0.0' in text
    assert "saminoha_http_queue_requests 0.0" in text and "saminoha_http_epoch{" in text
    assert 'saminoha_http_request_seconds_bucket{le="0.1",route="/v1/alternatives"}' in text
    end = time.monotonic() + 10
    while (entry := here.entries("path")[-1])["path"] != "/metrics":
        assert time.monotonic() < end  # the log comes behind the reply
    assert entry["status"] == 200 and entry["bytes"] == len(text.encode())


def test_metrics_are_well_formed(here):
    if not shutil.which("promtool"):
        pytest.skip("promtool is missing (prometheus): the metrics' form isn't checked")
    words = ["promtool", "check", "metrics"]
    text = here.get("/metrics").body
    done = subprocess.run(words, input=text, capture_output=True, timeout=60)
    assert done.returncode == 0, done.stdout + done.stderr


def test_quantiles():
    recent = Recent()
    for number in range(1, 101):
        recent.add("/v1/alternatives", number / 100)
    [told] = recent.collect()
    values = {one.labels.get("quantile", one.name): one.value for one in told.samples}
    assert [values[share] for share in ("0.5", "0.9", "0.99")] == [0.5, 0.9, 0.99]
    name = "saminoha_http_recent_request_seconds"
    assert values[f"{name}_count"] == 100 and values[f"{name}_sum"] == pytest.approx(50.5)


def test_document_is_valid(here):
    """By the model of OpenAPI that FastAPI has; and each name of a path is a parameter."""
    told = here.get("/openapi.json").told
    OpenAPI.parse_obj(told)
    for path, methods in told["paths"].items():
        for one in methods.values():
            due = re.findall(r"\{(\w+)\}", path)
            named = [it["name"] for it in one.get("parameters", []) if it["in"] == "path"]
            assert sorted(due) == sorted(named)
    assert "$ref" not in json.dumps(told)


def test_document_to_read(here):
    reply = here.get("/docs")
    assert reply.headers["content-security-policy"].startswith("default-src 'none'")
    for path in here.get("/openapi.json").told["paths"]:
        assert f" {path}</code>".encode() in reply.body
    assert b"<script" not in reply.body and b"http" not in reply.body.replace(b"/http", b"")


def test_document(here):
    """All that it names is answered, and what it refers to is there."""
    told = here.get("/openapi.json").told
    assert told["openapi"].startswith("3.") and "token" in told["components"]["securitySchemes"]
    wanted = {"alternatives", "matrix", "network", "places", "closures", "closures/{name}"}
    wanted.add("tiles/{z}/{x}/{y}")
    assert {f"/v1/{name}" for name in wanted} | {"/health", "/metrics"} == set(told["paths"])
    for path in told["paths"].values():
        for one in path.values():
            assert one["responses"]["default"] and one["summary"] and one["operationId"]


def test_fuzz(closed):
    count = int(os.environ.get("FUZZ_REQUESTS", "1000"))
    statuses = fuzz(HOST, closed.port, closed.get("/openapi.json").told, count, TOKEN)
    assert sum(statuses.values()) == count
    assert max(statuses) < 500, statuses
    assert statuses[200] > count / 20 and statuses[400] > count / 20


# The pool.


def test_a_server_that_is_killed(program, town, tmp_path):
    """With a follower nothing is lost; without any server it is told, and all is well again once
    one comes.
    """
    options = (*FREELY, "--queue-time", "1")
    with service(program, town, tmp_path, *options, followers=1) as here:
        wanted = here.get(TRIP).told["features"]
        here.followers[0].kill()
        for _ in range(20):
            assert here.get(TRIP).told["features"] == wanted
        here.followers[0].begin()
        here.leader.kill()
        time.sleep(1.5)
        for _ in range(20):
            assert here.get(TRIP).told["features"] == wanted
        assert here.get("/health").status == 200
        here.followers[0].kill()
        reply = here.get(TRIP)
        assert (reply.status, reply.kind) == (503, "busy") and int(reply.headers["retry-after"]) > 0
        here.wait(is_ready=False)
        here.leader.begin()
        here.wait()
        assert here.get(TRIP).told["features"] == wanted


def test_a_leader_that_begins_anew(program, town, tmp_path):
    """What was closed is closed again, by the log, and until then nobody is answered by the bare
    files; the epochs go on where they were.
    """
    with service(program, town, tmp_path, *FREELY) as here:
        before = here.get(TRIP).told["features"]
        closed = here.ask("POST", "/v1/closures", {"road": "Quay"}, **ANN).told
        here.ask("POST", "/v1/closures", {"road": "Toll Bridge"}, **ANN)
        here.ask("DELETE", f"/v1/closures/{closed['id']}", **ANN)
        after = here.get(TRIP).told
        assert after["epoch"] == 3 and before != after["features"]
        here.leader.kill()
        here.leader.begin()
        for _ in range(50):
            told = here.get(TRIP).told
            assert told["features"] == after["features"] and told["epoch"] >= 3
        assert here.get("/v1/closures", **ANN).told["unexplained_epochs"] == 0
    (town.folder / LOG).unlink()


def test_a_closure_that_ends_while_no_leader_is_there(program, town, tmp_path):
    """The follower is told too, by the epoch in which the leader is restored."""
    with service(program, town, tmp_path, *FREELY, followers=1) as here:
        before = here.get(TRIP).told["features"]
        end = datetime.now(timezone.utc) + timedelta(seconds=4)
        body = {"road": "Toll Bridge", "end": end.isoformat()}
        assert here.ask("POST", "/v1/closures", body, **ANN).told["epoch"] == 1
        await_epochs(here, 1)
        here.leader.kill()
        assert here.get(TRIP).told["features"] != before
        time.sleep(max(0.0, (end - datetime.now(timezone.utc)).total_seconds()) + 1)
        here.leader.begin()
        await_epochs(here, 2)
        here.leader.kill()
        told = here.get(TRIP).told
        assert told["epoch"] == 2 and told["features"] == before
    (town.folder / LOG).unlink()


def test_a_leader_whose_epochs_go_back(program, town, tmp_path):
    """Where nobody publishes anew it isn't asked, until it is said that the numbers begin anew."""
    options = (*FREELY, "--queue-time", "1")
    with service(program, town, tmp_path, *options, has_operator=False) as here:
        with Operator(HOST, here.leader.ports[1]) as operator:
            operator.shut(1)
            assert operator.publish() == 1
        here.wait_epoch(1)
        here.leader.kill()
        here.leader.begin()
        here.wait(is_ready=False)
        assert here.get(TRIP).status == 503
        [told] = here.get("/health").told["servers"]
        assert told["up"] and told["behind"] and told["epoch"] == 0
        here.process.send_signal(signal.SIGHUP)
        here.wait()
        assert here.get(TRIP).told["epoch"] == 0


def test_a_leader_that_is_there_again(program, town, tmp_path):
    options = (*FREELY, "--queue-time", "1")
    with service(program, town, tmp_path, *options, has_operator=False) as here:
        with Operator(HOST, here.leader.ports[1]) as operator:
            operator.publish()
        here.wait_epoch(1)
        here.leader.kill()
        here.leader.begin("--epoch", "1")
        here.wait()
        assert here.get(TRIP).told["epoch"] == 1


def test_a_stale_follower(program, town, tmp_path):
    """A server that doesn't follow is left out once it had its time."""
    options = (*FREELY, "--stale", "2")
    with service(program, town, tmp_path, *options, followers=1, has_operator=False) as here:
        with Operator(HOST, here.leader.ports[1]) as operator:
            operator.publish()
        time.sleep(4)
        assert [one["stale"] for one in here.get("/health").told["servers"]] == [False, True]
        assert {here.get(TRIP).told["epoch"] for _ in range(20)} == {1}


def test_another_network(program, six_arcs, town, tmp_path):
    """A server of other files is never asked."""
    with program.serve(six_arcs) as other:
        address = f"{other.host}:{other.port}"
        with service(program, town, tmp_path, *FREELY, "--follower", address) as here:
            assert {here.get(TRIP).status for _ in range(10)} == {200}
            assert [one["up"] for one in here.get("/health").told["servers"]] == [True, False]


def test_words(tool, town):
    told = tool("http_service.py", town.folder, "--leader", "127.0.0.1:1", "--links", "0", status=1)
    assert "--links is more than 0" in told
    words = ("--leader", "127.0.0.1:1", "--operator", "127.0.0.1:2")
    assert "--tokens" in tool("http_service.py", town.folder, *words, status=1)
    assert (PLANNER / "http_service.py").stat().st_mode & 0o111
