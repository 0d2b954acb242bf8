"""The page's server: what it answers to the page."""

from __future__ import annotations

import gzip
import os
import signal
import subprocess
import time
from contextlib import contextmanager
from datetime import timedelta
from pathlib import Path

import numpy as np
import pytest
from conftest import PLANNER

from saminoha_planner.ask import ProgramAsker, ServerAsker
from saminoha_planner.client import Operator, Program, Route, SetArc, ShutArc, free_ports
from saminoha_planner.closures import LOG, Closure, Log, now
from saminoha_planner.desk import Desk, coarse
from saminoha_planner.roads import CLASSES, roads_of
from saminoha_planner.site import make_site
from saminoha_planner.stretches import Stretches
from saminoha_planner.tiles import PARTS, SIDE, world
from saminoha_planner.twins import grouped

HERE = "http://127.0.0.1:8080"


@pytest.fixture
def desk(town, served, program):
    """The town's page over a server of its own, whose operator's address it has."""
    with served(town.files) as server:
        addresses = ((server.host, server.port), (server.host, server.operator_port))
        desk = Desk(town, ServerAsker(*addresses), program)
        desk.keeper.look()
        yield desk
    (town.folder / LOG).unlink(missing_ok=True)


@pytest.fixture
def site(desk):
    return make_site(desk).test_client()


def get(site, path, **words):
    return site.get(path, query_string=words or None, base_url=HERE)


def post(site, path, asked):
    return site.post(path, json=asked, base_url=HERE)


def ask(site, town, **more):
    ends = {"from": town.find("Northend"), "to": town.find("Southend")}
    return get(site, "/api/ask", **ends, **more).get_json()


def test_answers(site, town, program):
    told = ask(site, town)
    answer = program.query(town.files, town.find("Northend"), town.find("Southend"))
    assert [tuple(cost) for cost in told["costs"]] == [route.cost for route in answer.routes]
    assert told["within"] == list(range(len(answer.routes))) and told["epoch"] == 0
    assert [option["letter"] for option in told["options"]] == list("ABCDE")[: len(told["options"])]
    fewer = ask(site, town, limits=",,0")
    assert 0 < len(fewer["within"]) < len(told["within"]) and all(
        fewer["costs"][place][2] == 0 for place in fewer["within"]
    )
    ends = {"from": town.find("Northend"), "to": town.find("Southend")}
    shapes = get(site, "/api/geojson", **ends, limits=",,0").get_json()
    assert len(shapes["features"]) == len(fewer["within"])


def test_lines_are_the_routes(site, town, program):
    """The stretches of an option are those of the program's arcs, end to end."""
    told = ask(site, town)
    answer = program.query(town.files, town.find("Northend"), town.find("Southend"))
    for option in told["options"]:
        route = answer.routes[option["index"]]
        assert told["costs"][option["index"]] == list(route.cost)
        points = []
        for road, back in option["roads"]:
            line = told["roads"][str(road)]
            points += line[::-1] if back else line
        walked = [(lat, lon) for arc in route.arcs for lon, lat in town.arc(arc).line]
        assert np.allclose(points, walked)


def test_epsilon_leaves_out(site, town):
    all_of_them, fewer = ask(site, town), ask(site, town, epsilon=0.5)
    assert len(fewer["options"]) < len(all_of_them["options"])


def test_network(site, town):
    about = get(site, "/api/network").get_json()
    assert about["can_close"] and "OpenStreetMap" in about["attribution"]
    assert about["proved"] is None  # a server elsewhere doesn't say
    assert "Northend" in about["around"]
    for path in ("/", "/web/page.js", "/leaflet/leaflet.min.js"):
        assert get(site, path).status_code == 200


def test_ends(site, town):
    def found(text):
        return get(site, "/api/find", text=text).get_json()

    assert found("southend")["node"] == town.find("Southend")
    street = found("Northend, North Street")
    assert street["name"] == "Northend, North Street" and street["node"]
    assert found("north street")["name"] == "North Street"
    near = get(site, "/api/nearest", lon=10.0, lat=50.0041).get_json()
    assert near["name"] == "Northend" and 10 < near["metres"] < 13
    far = get(site, "/api/nearest", lon=10, lat=55)
    assert far.status_code == 400 and far.get_json()["code"] == "far"
    assert far.get_json()["values"]["km"] in range(550, 560)
    unknown = found("Northendd")
    assert unknown["code"] == "unknown" and unknown["values"]["like"][0] == "Northend"
    assert found(" ")["code"] == "empty"
    names = get(site, "/api/suggest", text="nort").get_json()["names"]
    assert names[:2] == ["Northend", "North Street"]


def lines_of(packed: bytes) -> list[tuple[int, np.ndarray]]:
    numbers = np.frombuffer(packed, "<i4")
    lines, at = [], 0
    while at < len(numbers):
        count = int(numbers[at + 1])
        lines.append((int(numbers[at]), numbers[at + 2 : at + 2 + 2 * count].reshape(-1, 2)))
        at += 2 + 2 * count
    return lines


def test_tiles(site, town):
    """A deep tile has the roads of its ground, to a part of a point."""
    zoom = 16
    x, y = (int(place) // SIDE for place in world(np.array([[10.0045, 50.0]]), zoom)[0])
    reply = get(site, f"/tile/{zoom}/{x}/{y}")
    lines = lines_of(gzip.decompress(reply.data))
    roads = roads_of(town)
    ground = world(roads.points, zoom) * PARTS - np.array([x, y]) * SIDE * PARTS
    assert lines and all(CLASSES[cls] for cls, _ in lines)
    for _, line in lines:
        for point in line:
            assert np.abs(ground - point).max(axis=1).min() < 1
    assert get(site, "/tile/3/9/0").status_code == 400


def test_names_of_a_window(site):
    told = get(site, "/api/labels", box="9.9,49.9,10.1,50.1", zoom=16).get_json()
    assert {"Northend", "Southend"} <= {place["name"] for place in told["places"]}
    assert "North Street" in {road["name"] for road in told["roads"]}
    assert get(site, "/api/labels", box="1,2,3", zoom=16).status_code == 400


# Closures.


def bridge_of(town):
    return [number for number, arc in enumerate(town.arcs, start=1) if arc.name == "Toll Bridge"]


def test_close_and_undo(site, desk, town):
    before = ask(site, town)
    seen = post(site, "/api/preview", {"road": "toll bridge"}).get_json()
    assert seen["arcs"] == len(bridge_of(town)) and seen["road"] == "Toll Bridge"
    assert seen["piece"]["whole"] and seen["parts"] == 1
    assert get(site, "/api/state").get_json()["closures"] == []  # a preview closes nothing
    told = post(
        site, "/api/close", {"roads": seen["roads"], "reason": "works", "author": "Ann"}
    ).get_json()
    [closure] = told["state"]["closures"]
    assert (closure["road"], closure["reason"], closure["author"]) == (
        "Toll Bridge",
        "works",
        "Ann",
    )
    assert closure["state"] == "active" and closure["arcs"] == seen["arcs"] and closure["lines"]
    after = ask(site, town)
    assert after["epoch"] == 1 and after["costs"] != before["costs"]
    assert all(cost[2] in (0, 100) for cost in after["costs"])
    [logged] = Log(town.folder / LOG).read()
    assert sorted(logged.arcs) == bridge_of(town)
    told = post(site, "/api/undo", {"id": closure["id"]}).get_json()
    assert [one["state"] for one in told["state"]["closures"]] == ["ended"]
    assert told["state"]["unknown"] == 0
    assert ask(site, town)["costs"] == before["costs"]


def test_two_closures_of_one_road(site, town):
    """What two closures close opens only when both are undone."""
    roads = post(site, "/api/preview", {"road": "toll bridge"}).get_json()["roads"]
    for measure in ("shut", "shut"):
        post(site, "/api/close", {"roads": roads, "measure": measure})
    closed = ask(site, town)["costs"]
    first, second = get(site, "/api/state").get_json()["closures"]
    post(site, "/api/undo", {"id": first["id"]})
    assert ask(site, town)["costs"] == closed
    post(site, "/api/undo", {"id": second["id"]})
    assert ask(site, town)["costs"] != closed


def test_planned_closures(site, desk, town):
    """They are applied and lifted at their time."""
    before = ask(site, town)["costs"]
    changes = tuple(ShutArc(arc) for arc in bridge_of(town))
    begin, end = now() + timedelta(seconds=2), now() + timedelta(seconds=5)
    desk.keeper.close(Closure("Toll Bridge", "shut", changes, begin=begin, end=end))
    states, costs = [], []
    for _ in range(14):
        desk.keeper.look()
        states.append(get(site, "/api/state").get_json()["closures"][0]["state"])
        costs.append(ask(site, town)["costs"] != before)
        time.sleep(0.5)
    assert sorted(set(states)) == ["active", "ended", "planned"]
    assert states == sorted(states, key=["planned", "active", "ended"].index)
    assert not costs[0] and any(costs) and not costs[-1]


def test_another_operator(site, desk, town, tool):
    """What another tool closes by the log is seen; what the log doesn't name is counted."""
    address = ":".join(map(str, desk.asker.operator))
    with Operator(*desk.asker.operator) as operator:
        for arc in bridge_of(town):
            operator.shut(arc)
        operator.publish()
    desk.keeper.look()
    told = get(site, "/api/state").get_json()
    assert told["epoch"] == 1 and told["unknown"] == 1 and told["closures"] == []
    tool("ops.py", town.folder, "shut", "--road", "Old Bridge", "--send", address)
    desk.keeper.look()
    told = get(site, "/api/state").get_json()
    assert [one["road"] for one in told["closures"]] == ["Old Bridge"] and told["unknown"] == 1
    post(site, "/api/undo", {"id": told["closures"][0]["id"]})
    answer = ask(site, town)
    names = {name for option in answer["options"] for name in option["via"].split(", ")}
    assert "Toll Bridge" not in names  # the other operator's own closure stays


def test_stretch_between_two_points(town):
    roads = roads_of(town)
    stretches = Stretches(roads)
    street = stretches.of_road("North Street")
    first, last = roads.line(street.roads[0]).mean(axis=0), roads.line(street.roads[-1]).mean(
        axis=0
    )
    between = stretches.between(tuple(first), tuple(last), 100)
    assert {street.roads[0], street.roads[-1]} <= set(between.roads) <= set(street.roads)
    assert between.parts == 1 and stretches.at(tuple(first), 100).roads == (street.roads[0],)


def test_faults(site, town):
    assert get(site, "/api/nearest", lon="x", lat=1).status_code == 400
    assert get(site, "/api/ask", **{"from": 1, "to": 2, "limits": "1"}).status_code == 400
    assert get(site, "/api/ask", **{"from": 1, "to": 99}).status_code == 400
    assert site.get("/", base_url="http://elsewhere.example").status_code == 403
    assert site.post("/api/close", data="roads=1", base_url=HERE).status_code == 415
    for roads in ([9999], [], "all", [True]):
        assert post(site, "/api/close", {"roads": roads}).status_code == 400
    times = {"from": "2026-05-02T10:00:00Z", "until": "2026-05-01T10:00:00Z"}
    assert post(site, "/api/close", {"roads": [0], **times}).get_json()["code"] == "bad_times"
    assert post(site, "/api/close", {"roads": [0], "from": "soon"}).status_code == 400
    assert post(site, "/api/preview", {"road": "Nowhere"}).get_json()["code"] == "no_road"
    far = post(site, "/api/preview", {"points": [[0, 0]]})
    assert far.get_json()["code"] == "no_road_here"
    assert post(site, "/api/undo", {"id": "none"}).status_code == 400


def test_no_server_and_no_operator(town):
    alone = make_site(Desk(town, ServerAsker(("127.0.0.1", 1)))).test_client()
    assert get(alone, "/api/ask", **{"from": 1, "to": 2}).status_code == 502
    assert post(alone, "/api/close", {"roads": [0]}).get_json()["code"] == "no_operator"
    assert get(alone, "/api/state").get_json()["epoch"] is None


def test_without_a_server(town, program):
    """Each query is a run of the program, and changes are kept by the page."""
    desk = Desk(town, ProgramAsker(program, town), program)
    site = make_site(desk).test_client()
    before = ask(site, town)
    roads = post(site, "/api/preview", {"road": "Toll Bridge"}).get_json()["roads"]
    told = post(site, "/api/close", {"roads": roads}).get_json()["state"]
    after = ask(site, town)
    assert after["epoch"] == 1 and all(cost[2] in (0, 100) for cost in after["costs"])
    post(site, "/api/undo", {"id": told["closures"][0]["id"]})
    assert ask(site, town)["costs"] == before["costs"]
    (town.folder / LOG).unlink()


# Refusals.


@pytest.fixture
def poor_site(town, program):
    """Its program has a budget that the town's trip passes."""
    poor = Program(program.path, budget=10)
    return make_site(Desk(town, ProgramAsker(poor, town), poor)).test_client()


def test_offers_where_the_budget_is_passed(poor_site, town, program):
    told = ask(poor_site, town)
    assert told["code"] == "refused_budget"
    kinds = [offer["kind"] for offer in told["offers"]]
    assert kinds == ["budget", "criteria", "criteria", "criteria", "limits", "coarser"]
    more = ask(poor_site, town, budget=10_000_000)
    whole = program.query(town.files, town.find("Northend"), town.find("Southend"))
    assert [tuple(cost) for cost in more["costs"]] == [route.cost for route in whole.routes]


def test_special_questions(site, town, program):
    source, target = town.find("Northend"), town.find("Southend")
    two = ask(site, town, criteria="0,1")
    alone = program.query(town.files[:2], source, target)
    assert [tuple(cost) for cost in two["costs"]] == [route.cost for route in alone.routes]
    assert two["criteria"] == [0, 1]
    bounded = ask(site, town, bounds=",,0")
    within = program.query(town.files, source, target, (None, None, 0))
    assert [tuple(cost) for cost in bounded["costs"]] == [route.cost for route in within.routes]
    coarser = ask(site, town, coarser=10)
    assert coarser["coarser"] == 10 and all(
        number % 10 == 0 for cost in coarser["costs"] for number in cost
    )
    assert get(site, "/api/ask", **{"from": 1, "to": 2, "criteria": "0"}).status_code == 400
    assert get(site, "/api/ask", **{"from": 1, "to": 2, "criteria": "0,9"}).status_code == 400


def test_coarser_weights():
    assert [coarse(weight, 10) for weight in (0, 1, 14, 15, 26)] == [0, 1, 1, 2, 3]


# Twins.


def test_twins_are_near_in_cost_and_road(town):
    roads = roads_of(town)
    street = roads.arcs([int(road) for road in roads.titled("North Street")])
    other = roads.arcs([int(road) for road in roads.titled("Old Bridge")])
    first, near, far = (
        Route((1000, 1000, 10), tuple(street)),
        Route((1004, 1002, 10), tuple(street)),
        Route((1003, 1003, 10), tuple(other)),
    )
    groups = grouped([first, near, far], roads)
    assert groups == {first: [near], far: []}
    cheap = Route((2000, 999, 10), tuple(street))
    assert cheap in grouped([first, near, far, cheap], roads)  # the least of a criterion stays


# The command.


@contextmanager
def page_of(network: Path, *more: object, port: int | None = None):
    """page.py as it is documented, by default at a free port: its address, and its process."""
    port = port or free_ports("127.0.0.1", 1)[0]
    words = [PLANNER / "page.py", network, "--port", port, *more]
    process = subprocess.Popen(
        list(map(str, words)), stdout=subprocess.PIPE, text=True, start_new_session=True
    )
    try:
        yield process.stdout.readline().strip(), process
    finally:
        process.terminate()
        process.wait(20)
        process.stdout.close()


def children_of(process: subprocess.Popen) -> list[int]:
    found = subprocess.run(
        ["ps", "-o", "pid=", "-g", str(process.pid)], capture_output=True, text=True
    )
    return [int(pid) for pid in found.stdout.split()]


def test_ends_with_what_it_started(town):
    port = free_ports("127.0.0.1", 1)[0]
    with page_of(town.folder, port=port) as (address, process):
        assert address == f"http://127.0.0.1:{port}/"
        deadline = time.monotonic() + 60
        while len(children_of(process)) < 2 and time.monotonic() < deadline:
            time.sleep(0.1)
        started = children_of(process)
        assert len(started) >= 2
        time.sleep(1)
        process.send_signal(signal.SIGTERM)
        assert process.wait(20) == 0
        time.sleep(0.5)
        assert not [pid for pid in started if Path(f"/proc/{pid}").exists()]


def test_closures_outlive_the_page(town):
    """A new server of the page's own has what the log says."""
    changes = tuple(ShutArc(arc) for arc in bridge_of(town))
    Log(town.folder / LOG).add(Closure("Toll Bridge", "shut", changes))
    try:
        desk = Desk(town, ProgramAsker(Program.find(), town), Program.find())
        desk.keeper.look()
        assert desk.keeper.epoch == 1 and len(desk.keeper.stands) == len(changes)
        assert not any(isinstance(one, SetArc) for one in desk.keeper.stands)
    finally:
        os.unlink(town.folder / LOG)
