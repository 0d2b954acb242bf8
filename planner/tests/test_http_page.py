"""The page behind the service: many at once, closures by token, and Chromium over it."""

from __future__ import annotations

import http.server
import os
import threading
from collections.abc import Iterator
from concurrent.futures import ThreadPoolExecutor
from contextlib import contextmanager
from urllib.parse import urlencode

import pytest

for library in ("fastapi", "uvicorn", "prometheus_client"):
    name = library.replace("_", "-")
    pytest.importorskip(library, reason=f"python3-{name} is missing: the service isn't tried")

from http_fuzz import fuzz  # noqa: E402
from http_here import HOST, TOKEN, Here, service  # noqa: E402

from saminoha_planner.closures import LOG  # noqa: E402
from saminoha_planner.web_files import LEAFLET  # noqa: E402

pytestmark = pytest.mark.skipif(
    not LEAFLET.is_dir(), reason="libjs-leaflet is missing: the page isn't tried"
)
FREELY = ("--rate", "100000", "--burst", "100000")
ANN = {"Authorization": f"Bearer {TOKEN}"}


@pytest.fixture(scope="module")
def here(program, town, tmp_path_factory) -> Iterator[Here]:
    with service(program, town, tmp_path_factory.mktemp("http"), *FREELY) as one:
        yield one
    (town.folder / LOG).unlink(missing_ok=True)


@pytest.fixture
def opened(here):
    """What a test closes is opened behind it."""
    yield here
    for one in here.get("/v1/closures", **ANN).told["closures"]:
        if one["state"] != "ended":
            here.ask("DELETE", f"/v1/closures/{one['id']}", **ANN)


def path_of(town, **more) -> str:
    ends = {"from": town.find("Northend"), "to": town.find("Southend")}
    return "/api/ask?" + urlencode(ends | more)


def closing(here) -> dict[str, object]:
    told = here.ask("POST", "/api/preview", {"road": "Toll Bridge"}).told
    return {"roads": told["roads"], "measure": "shut", "reason": "works"}


def test_files(here):
    for path, text in (("/", b"<main>"), ("/web/page.js", b"import"), ("/web/page.css", b"{")):
        reply = here.get(path)
        assert reply.status == 200 and text in reply.body
        assert reply.headers["content-security-policy"].startswith("default-src 'self'")
    assert b"leaflet" in here.get("/leaflet/leaflet.css").body
    assert here.get("/leaflet/images/layers.png").headers["content-type"] == "image/png"


def test_what_the_page_asks(here, town):
    told = here.get("/api/network").told
    assert told["can_close"] and told["wants_token"] and told["proved"] is None
    west, south, east, north = told["bounds"]
    box = f"{west},{south},{east},{north}"
    assert here.get(f"/api/labels?box={box}&zoom=15").told["places"]
    node = town.find("Northend")
    assert here.get("/api/find?text=Northend").told["node"] == node
    assert here.get("/api/suggest?text=nort").told["names"][0] == "Northend"
    lon, lat = town.lon[node - 1], town.lat[node - 1]
    assert here.get(f"/api/nearest?lon={lon}&lat={lat}").told["node"] == node
    state = here.get("/api/state").told
    assert state["ready"] and state["epoch"] == here.get("/health").told["epoch"]
    assert here.get("/api/geojson?" + path_of(town).partition("?")[2]).told["features"]


def test_answers(here, program, town):
    told = here.get(path_of(town)).told
    answer = program.query(town.files, town.find("Northend"), town.find("Southend"))
    assert told["costs"] == [list(route.cost) for route in answer.routes]
    bound = sorted(route.cost[0] for route in answer.routes)[1]
    fewer = here.get(path_of(town, bounds=f"{bound},,")).told["costs"]
    assert fewer == [cost for cost in told["costs"] if cost[0] <= bound]


def test_many_with_limits_of_their_own(here, town):
    """Each is answered by his own limits, whatever others ask at the same time."""
    costs = here.get(path_of(town)).told["costs"]
    limits = [f"{cost[0]},{cost[1]},{cost[2]}" for cost in costs] * 20

    def asked(limit: str) -> bool:
        told = here.get(path_of(town, limits=limit)).told
        most = [int(part) for part in limit.split(",")]
        fits = [at for at, cost in enumerate(costs) if all(a <= b for a, b in zip(cost, most))]
        return told["within"] == fits and len(fits) == 1

    with ThreadPoolExecutor(16) as many:
        assert all(many.map(asked, limits))


@pytest.mark.parametrize(
    "path, status, code",
    [
        ("/api/find?text=Nowhere", 404, "unknown"),
        ("/api/find?text=", 400, "empty"),
        ("/api/nearest?lon=1&lat=2", 422, "far"),
        ("/api/nearest?lon=nan&lat=2", 400, None),
        ("/api/ask?from=1", 400, None),
        ("/api/ask?from=0&to=3", 400, None),
        ("/api/ask?from=1&to=3&coarser=10", 400, None),
        ("/api/labels?box=1,2,3&zoom=9", 400, None),
        ("/api/close", 405, None),
    ],
)
def test_problems(here, path, status, code):
    reply = here.get(path)
    assert reply.status == status and reply.kind and reply.told.get("code") == code


def test_a_search_that_passes_the_budget(program, town, tmp_path):
    """The page offers limits, by which fewer routes count."""
    options = ("--budget", "3")
    with service(program, town, tmp_path, *FREELY, server_options=options) as poor:
        reply = poor.get(path_of(town))
        assert (reply.status, reply.kind) == (422, "budget")
        assert reply.told["offers"] == [{"kind": "limits"}] and "budget" in reply.told["error"]


def test_closures_by_token(opened, town):
    asked, before = closing(opened), opened.get(path_of(town)).told
    for headers in ({}, {"Authorization": f"Bearer {TOKEN}x"}):
        reply = opened.ask("POST", "/api/close", asked, **headers)
        assert (reply.status, reply.kind) == (401, "unauthorized")
        assert reply.told["code"] == "no_token"
        assert opened.ask("POST", "/api/undo", {"id": "x"}, **headers).status == 401
    assert opened.get(path_of(town)).told["epoch"] == before["epoch"]
    told = opened.ask("POST", "/api/close", asked | {"author": "Bob"}, **ANN).told
    assert told["closure_state"] == "active"
    after = opened.get(path_of(town)).told
    assert after["epoch"] == before["epoch"] + 1 and after["costs"] != before["costs"]
    [closure] = [one for one in told["state"]["closures"] if one["state"] == "active"]
    assert opened.entries("audit")[-1]["who"] == "ann"
    authors = [opened.get("/api/state", **who).told["closures"][-1]["author"] for who in (ANN, {})]
    assert authors == ["ann", ""]
    opened.ask("POST", "/api/undo", {"id": closure["id"]}, **ANN)
    assert opened.get(path_of(town)).told["costs"] == before["costs"]


def test_closures_of_another_origin(opened):
    asked, foreign = closing(opened), {"Origin": "https://elsewhere.example"}
    reply = opened.ask("POST", "/api/close", asked, **ANN, **foreign)
    assert (reply.status, reply.kind) == (403, "foreign-origin")
    own = {"Origin": f"http://{HOST}:{opened.port}"}
    assert opened.ask("POST", "/api/close", asked, **ANN, **own).status == 200


def document() -> dict[str, object]:
    """What the page asks, in the form in which requests are drawn."""
    text, number = {"type": "string"}, {"type": "number"}
    point = {"type": "array", "items": number, "minItems": 1, "maxItems": 3}
    asked = {
        "network": {},
        "state": {},
        "labels": {"box": text, "zoom": number},
        "nearest": {"lon": number, "lat": number},
        "find": {"text": text},
        "suggest": {"text": text},
        "ask": {"from": {"type": "integer"}, "to": {"type": "integer"}, "limits": text},
        "geojson": {"from": {"type": "integer"}, "to": {"type": "integer"}, "bounds": text},
    }
    asked["ask"] |= {"epsilon": text, "criteria": text, "budget": number, "coarser": text}
    sent = {
        "preview": {"road": text, "points": {"type": "array", "items": point}, "metres": number},
        "close": {"roads": {"type": "array", "items": {"type": "integer"}}, "measure": text},
        "undo": {"id": text},
    }
    sent["close"] |= {"reason": text, "from": text, "until": {"format": "date-time"} | text}
    paths: dict[str, object] = {}
    for name, words in asked.items():
        names = words.items()
        parameters = [{"name": it, "in": "query", "required": True, "schema": v} for it, v in names]
        paths[f"/api/{name}"] = {"get": {"parameters": parameters}}
    for name, members in sent.items():
        schema = {"type": "object", "properties": members}
        content = {"content": {"application/json": {"schema": schema}}}
        paths[f"/api/{name}"] = {"post": {"requestBody": content}}
    return {"paths": paths}


def test_fuzz(opened):
    count = int(os.environ.get("FUZZ_REQUESTS", "1000"))
    statuses = fuzz(HOST, opened.port, document(), count, TOKEN)
    assert sum(statuses.values()) == count and max(statuses) < 500, statuses
    assert statuses[200] > count / 20 and statuses[400] > count / 20


# Chromium.


@pytest.fixture(scope="module")
def browser():
    browsers = pytest.importorskip("test_browser")
    if browsers.MISSING:
        pytest.skip(f"not tried in a browser: install {' '.join(browsers.MISSING)}")
    with browsers.chromium("en-GB") as one:
        yield one


@contextmanager
def other_site(text: str) -> Iterator[str]:
    """A page of another origin."""

    class Page(http.server.BaseHTTPRequestHandler):
        def do_GET(self) -> None:
            self.send_response(200)
            self.send_header("Content-Type", "text/html")
            self.end_headers()
            self.wfile.write(text.encode())

        def log_message(self, *_: object) -> None:
            return None

    site = http.server.ThreadingHTTPServer((HOST, 0), Page)
    threading.Thread(target=site.serve_forever, daemon=True).start()
    try:
        yield f"http://{HOST}:{site.server_port}/"
    finally:
        site.shutdown()
        site.server_close()


def test_the_page(browser, here, program, town):
    """It loads from the service alone, asks, and shows the program's alternatives."""
    browser.open(f"http://{HOST}:{here.port}/")
    browser.ask("Northend", "Southend")
    answer = program.query(town.files, town.find("Northend"), town.find("Southend"))
    assert browser.costs() == [list(route.cost) for route in answer.routes]
    letters = browser.letters("#rows tr")
    assert len(letters) >= 3 and [one.text for one in browser.all("#map .badge")] == letters
    assert "least distance" in browser.text("rows")
    sites = browser.run(
        "return performance.getEntriesByType('resource').map(one => new URL(one.name).host)"
    )
    assert set(sites) == {f"{HOST}:{here.port}"}
    assert not browser.errors()
    browser.picture("service")


def test_a_slider(browser, here):
    """A limit of this page."""
    from selenium.webdriver.common.keys import Keys

    browser.driver.find_element("id", "limit-toll").send_keys(Keys.HOME)
    browser.wait(lambda: "within the limits" in browser.text("status"))


def test_closing_on_the_page(browser, opened, town):
    """Without a token it is refused, and with one the road is closed for everybody."""
    browser.open(f"http://{HOST}:{opened.port}/")
    browser.ask("Northend", "Southend")
    before = browser.costs()
    browser.type("road", "Toll Bridge")
    browser.press("#preview")
    browser.wait(lambda: browser.driver.find_element("id", "previewed").is_displayed())
    assert not browser.driver.find_element("id", "author").is_displayed()
    browser.press("#close")
    browser.wait(lambda: "token" in browser.text("status"))
    assert opened.get(path_of(town)).told["costs"] == before
    browser.type("token", TOKEN)
    browser.press("#close")
    browser.wait(lambda: "Toll Bridge" in browser.text("closures"))
    browser.wait(lambda: browser.costs() != before)
    assert opened.get(path_of(town)).told["costs"] != before
    browser.run("document.querySelector('#closures li button:last-child').click()")
    browser.wait(lambda: browser.costs() == before)
    browser.errors()  # that of the refusal


def test_a_page_of_another_origin(browser, here, town):
    """It may neither close a road, even with the token, nor read what is answered."""
    before = here.get(path_of(town)).told
    script = """
        const [address, token, done] = arguments, told = {};
        const headers = {"Authorization": `Bearer ${token}`, "Content-Type": "application/json"};
        const body = JSON.stringify({road: "Toll Bridge", roads: [1], measure: "shut"});
        const plain = {method: "POST", mode: "no-cors", body};
        (async () => {
          for (const path of ["/v1/closures", "/api/close"]) {
            const asked = {method: "POST", headers, body};
            try { await fetch(address + path, asked); told[path] = "came"; }
            catch (fault) { told[path] = fault.name; }
            await fetch(address + path, plain);
          }
          try { await (await fetch(address + "/v1/network")).json(); told.read = "came"; }
          catch (fault) { told.read = fault.name; }
          done(told);
        })();
    """
    with other_site("<title>other</title>") as site:
        browser.driver.get(site)
        address = f"http://{HOST}:{here.port}"
        told = browser.driver.execute_async_script(script, address, TOKEN)
    assert told == {"/v1/closures": "TypeError", "/api/close": "TypeError", "read": "TypeError"}
    after = here.get(path_of(town)).told
    assert (after["epoch"], after["costs"]) == (before["epoch"], before["costs"])
    refused = [one for one in here.entries("path") if one["status"] == 403]
    assert {one["path"] for one in refused} == {"/v1/closures", "/api/close"}
