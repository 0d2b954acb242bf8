from __future__ import annotations

import csv
import json

import numpy as np
import pytest

from saminoha_planner.choose import few, shared, thinned, within_detour
from saminoha_planner.client import Route
from saminoha_planner.command import Fault
from saminoha_planner.criteria import CRITERIA, parse_criteria


@pytest.fixture(scope="module")
def answer(town, program):
    return program.query(town.files, town.find("Northend"), town.find("Southend"))


def test_plan(tool, town, tmp_path, answer):
    files = {
        name: tmp_path / name for name in ("map.png", "front.svg", "routes.geojson", "routes.csv")
    }
    text = tool(
        "plan.py",
        town.folder,
        "--from",
        "Northend",
        "--to",
        "Southend",
        "--map",
        files["map.png"],
        "--front",
        files["front.svg"],
        "--geojson",
        files["routes.geojson"],
        "--csv",
        files["routes.csv"],
    )
    lines = text.splitlines()
    count = len(answer.routes)
    assert lines[0].startswith(
        f"Northend – Southend: {count} trade-offs of distance, time and toll"
    )
    assert (
        [line[0] for line in lines[2:-1]] == list("ABCDE")[: len(lines) - 3]
        and "Old Bridge" in text
        and " km " in text
        and " min " in text
    )
    assert files["map.png"].read_bytes().startswith(b"\x89PNG") and files[
        "front.svg"
    ].read_text().startswith("<?xml")
    shapes = json.loads(files["routes.geojson"].read_text())
    assert len(shapes["features"]) == count and "OpenStreetMap" in shapes["attribution"]
    letters = [feature["properties"].get("letter") for feature in shapes["features"]]
    assert [letter for letter in letters if letter] == [line[0] for line in lines[2:-1]]
    first = shapes["features"][0]
    assert first["geometry"]["coordinates"][0] == [10.0, 50.004] and first["geometry"][
        "coordinates"
    ][-1] == [10.009, 49.996]
    assert first["properties"]["distance_weight"] == answer.routes[0].cost[0]
    rows = list(csv.reader(files["routes.csv"].open()))
    assert len(rows) == count + 1 and rows[0][:4] == [
        "letter",
        "distance (km)",
        "time (min)",
        "toll (EUR)",
    ]
    assert rows[1][4] == " ".join(map(str, answer.routes[0].arcs))


def test_limits(tool, town, answer):
    bound = sorted(route.cost[1] for route in answer.routes)[0]
    text = tool(
        "plan.py",
        town.folder,
        "--from",
        "Northend",
        "--to",
        "Southend",
        "--limit",
        f"time={bound / 10}",
        "--limit",
        "toll=2.5",
    )
    within = [route for route in answer.routes if route.cost[1] <= bound and route.cost[2] <= 250]
    assert text.startswith(f"Northend – Southend: {len(within)} trade-off")
    assert "no trade-offs" in tool(
        "plan.py", town.folder, "--from", "Northend", "--to", "Southend", "--limit", "distance=1m"
    )


def test_fewer_criteria_and_other_ends(tool, town):
    text = tool(
        "plan.py",
        town.folder,
        "--from",
        "1",
        "--to",
        "10.009,50.004",
        "--criteria",
        "toll,distance",
        "--keep",
        "1",
    )
    assert "of toll and distance" in text and text.count("\n") == 4


@pytest.mark.parametrize(
    "words, text",
    [
        (("--from", "Nowhere", "--to", "1"), "Nowhere"),
        (("--from", "99", "--to", "1"), "no node 99"),
        (("--from", "1", "--to", "2", "--limit", "beauty=3"), "beauty"),
        (("--from", "1", "--to", "2", "--limit", "time=3km"), "no limit on time"),
        (("--from", "1", "--to", "2", "--epsilon", "much"), "much"),
        (("--from", "1", "--to", "2", "--keep", "20"), "--keep"),
        (("--from", "1", "--to", "17", "--budget", "1"), "budget"),
    ],
)
def test_faults(tool, town, words, text):
    assert text in tool("plan.py", town.folder, *words, status=1)


def test_no_network(tool, tmp_path):
    assert "no network" in tool("plan.py", tmp_path, "--from", "1", "--to", "2", status=1)


def test_few_of_many(town, answer):
    options = few(town, answer.routes, 5)
    costs = [option.route.cost for option in options]
    assert costs == sorted(costs) and len(set(costs)) == len(costs) == min(5, len(answer.routes))
    for place, criterion in enumerate(town.criteria):
        assert any(
            f"least {criterion.label}" in option.why
            and option.route.cost[place] == min(route.cost[place] for route in answer.routes)
            for option in options
        )
    assert sum("compromise" in option.why for option in options) == 1
    assert [option.why for option in few(town, answer.routes, 1)] == ["compromise"]
    assert few(town, [], 5) == []
    assert all(option.via for option in options)


def test_thinning_covers_all(town):
    generator = np.random.default_rng(5)
    routes = [Route(tuple(map(int, cost)), ()) for cost in generator.integers(1000, 9000, (200, 3))]
    kept = thinned(routes, 0.1)
    assert 3 <= len(kept) < 200
    for route in routes:
        assert any(all(a <= 1.1 * b for a, b in zip(other.cost, route.cost)) for other in kept)
    for place in range(3):
        assert min(route.cost[place] for route in kept) == min(
            route.cost[place] for route in routes
        )
    assert thinned(routes, 0.0) == routes


def test_detours_are_capped():
    routes = [Route((1000, 900, 0)), Route((1600, 500, 0)), Route((1400, 1000, 0))]
    assert within_detour(routes, parse_criteria("distance,time,toll"), 1.5) == []
    assert within_detour(routes, parse_criteria("distance,toll,houses"), 1.5) == [
        routes[0],
        routes[2],
    ]
    assert within_detour(routes, parse_criteria("distance,time,toll"), None) == routes


def test_shared_road(town):
    there = Route((0, 0, 0), (1,))
    back = next(
        number
        for number in range(1, len(town.arcs) + 1)
        if number != 1 and town.road_key(number) == town.road_key(1)
    )
    assert shared(town, there, Route((0, 0, 0), (back,))) == 1.0


def test_amounts():
    time, distance, toll = CRITERIA["time"], CRITERIA["distance"], CRITERIA["toll"]
    assert [time.weight(text) for text in ("1800", "30min", "0.5h", "90s")] == [
        18000,
        18000,
        18000,
        900,
    ]
    assert distance.weight("2.5km") == 2500 and toll.weight("2.50") == 250
    assert time.text(900) == "1.5 min" and toll.texts([250, 251]) == ["2.50", "2.51"]
    assert distance.texts([21700, 21740]) == ["21.70 km", "21.74 km"]
    with pytest.raises(Fault):
        distance.weight("long")
