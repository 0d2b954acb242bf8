from __future__ import annotations

import bz2
import json

import numpy as np
import pytest
from conftest import HERE
from pyproj import Geod

from saminoha_planner.modes import MODES, blocks, directions, duration, parse_speed, use_of
from saminoha_planner.network import read_network


def arcs_of(network, name):
    return [arc for arc in network.arcs if arc.name == name]


def ends(network, name):
    """From and to by the first letters of the town's plan, found by coordinates."""
    return {(round(arc.line[0][0], 4), round(arc.line[-1][0], 4)) for arc in arcs_of(network, name)}


def test_files(town, program):
    sizes = program.check(town.files)
    assert (sizes.nodes, sizes.arcs, sizes.criteria) == (len(town.lon), len(town.arcs), 3)
    head = (town.folder / "time.gr").read_text().splitlines()[:4]
    assert head == [
        "c criterion time",
        "c unit tenth of a second",
        "c © OpenStreetMap contributors",
        "c licence Open Database License (ODbL) 1.0, https://www.openstreetmap.org/copyright",
    ]
    coordinates = [
        line.split()
        for line in (town.folder / "nodes.co").read_text().splitlines()
        if line[0] != "c"
    ]
    assert coordinates[0] == ["p", "aux", "sp", "co", str(len(town.lon))]
    assert (
        coordinates[1][:2] == ["v", "1"] and abs(int(coordinates[1][2]) / 1e6 - town.lon[0]) < 1e-6
    )
    info = json.loads((town.folder / "import.json").read_text())
    assert (
        info["mode"] == "car"
        and info["extract"] == "town.osm"
        and [one["name"] for one in info["criteria"]] == ["distance", "time", "toll"]
    )
    again = read_network(town.folder)
    assert again.arcs == town.arcs and again.places == town.places


def test_ways(town):
    assert ends(town, "Market Street") == {(10.0, 10.003), (10.003, 10.006), (10.006, 10.009)}
    assert ends(town, "Quay") == {(10.003, 10.0), (10.006, 10.003), (10.009, 10.006)}
    assert len(arcs_of(town, "North Street")) == 6
    for name in ("Footbridge", "Island", "Way Out", "Post Lane", ""):
        assert not arcs_of(town, name), name
    assert len(arcs_of(town, "Ferry")) == 2 and {arc.cls for arc in arcs_of(town, "Ferry")} == {
        "ferry"
    }
    assert len({arc.way for arc in town.arcs}) == len(
        {arc.name for arc in town.arcs}
    )  # each arc lies in one way
    assert len(town.lon) == 17  # four rows of four, and the spur's end


def test_weights(town):
    metres = Geod(ellps="WGS84").line_length([10.003, 10.003], [50.002, 49.998])
    for arc in arcs_of(town, "Toll Bridge"):
        assert arc.weights == (round(metres), round(metres * 0.72), 250)
    assert [arc.weights[1:] for arc in arcs_of(town, "Ferry")] == [(3000, 100)] * 2
    old = [arc for arc in arcs_of(town, "Old Bridge")]
    assert all(abs(arc.weights[1] - (arc.weights[0] * 1.2 + 300)) <= 1 for arc in old)
    south = {arc.speed for arc in arcs_of(town, "South Street")}
    assert south == {50, 30}
    assert {round(arc.speed, 2) for arc in arcs_of(town, "Quay")} == {32.19}
    assert all(arc.weights[0] >= 1 for arc in town.arcs)


def test_near_nodes_have_near_numbers(town):
    assert (
        town.lon[0] < 10.001 and town.lat[0] < 49.997
    )  # the southwest corner is the first in Morton order
    steps = np.hypot(np.diff(town.lon), np.diff(town.lat))
    shuffled = np.random.default_rng(1).permutation(len(town.lon))
    assert steps.mean() < np.hypot(np.diff(town.lon[shuffled]), np.diff(town.lat[shuffled])).mean()


def test_places(town):
    assert [place.name for place in town.places] == [
        "Ferry House",
        "Market",
        "Northend",
        "Southend",
    ]
    assert (
        town.name_of(town.find("southend"))
        == "Southend"
        == town.name_of(town.find("10.009,49.996"))
    )
    assert town.find("North") == town.find("Northend") and town.find("3") == 3


def test_cutting_at_points_adds_up(imported):
    """Old Bridge and the spur have a point between their ends."""
    options = ("--criteria", "distance,time,houses,climb")
    whole, cut = imported(*options), imported(*options, "--split", "points")
    assert len(cut.lon) > len(whole.lon)
    for name in ("Old Bridge", "Spur", "Market Street"):
        sums = [
            np.sum([arc.weights for arc in arcs_of(network, name)], axis=0).tolist()
            for network in (whole, cut)
        ]
        assert sums[0] == sums[1]


def test_criteria(imported):
    network = imported("--criteria", "houses,junctions,climb,time")
    houses = {arc.name: arc.weights[0] for arc in network.arcs if arc.weights[0]}
    assert set(houses) == {"Market Street"} and 80 < houses["Market Street"] < 150
    climbs = sorted(arc.weights[2] for arc in arcs_of(network, "West Lane"))
    assert climbs == [0, 6]
    assert {arc.weights[1] for arc in arcs_of(network, "West Lane")} == {
        0,
        1,
    }  # a1 is a corner, b1 a junction
    assert all(any(arc.weights) for arc in network.arcs)


def test_modes(imported):
    foot, bike, truck = (imported("--mode", mode) for mode in ("foot", "bike", "truck"))
    assert (
        len(arcs_of(foot, "Footbridge")) == 2
        and len(arcs_of(foot, "Market Street")) == 6
        and len(arcs_of(foot, "Post Lane")) == 2
    )
    assert (
        not arcs_of(bike, "Footbridge")
        and len(arcs_of(bike, "Post Lane")) == 2
        and len(arcs_of(bike, "Quay")) == 3
    )
    assert len(arcs_of(truck, "Toll Bridge")) == 2


def test_a_vehicle_too_heavy(tool, tmp_path):
    rules = tmp_path / "rules.toml"
    rules.write_text("[vehicle]\nweight = 12\n[factors]\nprimary = 0.5\n")
    tool("import_osm.py", HERE / "town.osm", tmp_path / "net", "--mode", "truck", "--rules", rules)
    network = read_network(tmp_path / "net")
    assert not arcs_of(network, "Toll Bridge") and {
        arc.speed for arc in arcs_of(network, "North Street")
    } == {25}


def test_turns(imported):
    plain, turns = imported(), imported("--turns")
    junctions, roads = turns.junctions, sum(
        arc.way > 0 and arc.tail <= turns.junctions for arc in turns.arcs
    )
    assert (junctions, roads) == (len(plain.lon), len(plain.arcs)) and len(
        turns.lon
    ) == 2 * junctions + roads
    follow = {
        (turns.arcs[arc.tail - 2 * junctions - 1].name, arc.name)
        for arc in turns.arcs
        if arc.tail > 2 * junctions
    }
    assert ("Toll Bridge", "Quay") not in follow and ("Toll Bridge", "Church Lane") in follow
    assert {after for before, after in follow if before == "Church Lane"} == {
        "",
        "Toll Bridge",
        "South Street",
    }
    assert ("Spur", "Spur") in follow and ("West Lane", "West Lane") not in follow
    assert turns.info["left_out"]["turn_bans_over_ways"] == 1


def test_heights_of_a_grid(tool, tmp_path):
    grid = tmp_path / "heights.asc"
    rows = "\n".join(" ".join(str(100 + 10 * row) for _ in range(5)) for row in range(5))
    grid.write_text(
        "ncols 5\nnrows 5\nxllcenter 9.98\nyllcenter 49.98\n"
        f"cellsize 0.01\nNODATA_value -9999\n{rows}\n"
    )
    tool(
        "import_osm.py",
        HERE / "town.osm",
        tmp_path / "net",
        "--criteria",
        "distance,climb",
        "--heights",
        grid,
    )
    network = read_network(tmp_path / "net")  # a degree south is 1000 m up
    assert sorted({arc.weights[1] for arc in arcs_of(network, "West Lane")}) == [0, 2]
    assert {arc.weights[1] for arc in arcs_of(network, "North Street")} == {0}


def test_compressed_extract_and_faults(tool, tmp_path):
    packed = tmp_path / "town.osm.bz2"
    packed.write_bytes(bz2.compress((HERE / "town.osm").read_bytes()))
    assert "17 nodes" in tool("import_osm.py", packed, tmp_path / "net")
    for words, text in (
        ((tmp_path / "none.osm", tmp_path / "x"), "no file"),
        ((HERE / "town.toml", tmp_path / "x"), "can't be read"),
        ((packed, tmp_path / "x", "--criteria", "distance"), "two to four"),
        ((packed, tmp_path / "x", "--criteria", "distance,beauty"), "beauty"),
        ((packed, tmp_path / "x", "--rules", HERE / "town.osm"), "town.osm"),
    ):
        assert text in tool("import_osm.py", *words, status=1)


@pytest.mark.parametrize(
    "tags, mode, along, against",
    [
        ({"highway": "residential"}, "car", True, True),
        ({"highway": "residential", "oneway": "yes"}, "car", True, False),
        ({"highway": "residential", "oneway": "-1"}, "car", False, True),
        ({"highway": "motorway"}, "car", True, False),
        ({"highway": "primary", "junction": "roundabout"}, "car", True, False),
        ({"highway": "residential", "oneway": "yes", "oneway:bicycle": "no"}, "bike", True, True),
        ({"highway": "residential", "oneway": "yes", "cycleway": "opposite"}, "bike", True, True),
        ({"highway": "residential", "oneway": "yes"}, "foot", True, True),
    ],
)
def test_directions(tags, mode, along, against):
    assert directions(tags, tags["highway"], MODES[mode]) == (along, against)


@pytest.mark.parametrize(
    "tags, mode, usable",
    [
        ({"highway": "residential", "access": "private"}, "car", False),
        ({"highway": "residential", "access": "no", "motor_vehicle": "yes"}, "car", True),
        ({"highway": "residential", "hgv": "no"}, "truck", False),
        ({"highway": "footway"}, "car", False),
        ({"highway": "footway"}, "foot", True),
        ({"highway": "footway", "bicycle": "yes"}, "bike", True),
        ({"highway": "track"}, "car", False),
        ({"highway": "track", "motorcar": "yes"}, "car", True),
        ({"highway": "motorway"}, "bike", False),
        ({"highway": "pedestrian", "area": "yes"}, "foot", False),
        ({"route": "ferry", "motor_vehicle": "no"}, "car", False),
        ({"highway": "proposed"}, "car", False),
    ],
)
def test_access(tags, mode, usable):
    assert (use_of(tags, MODES[mode]) is not None) == usable


def test_small_readings():
    assert [parse_speed(text) for text in ("50", "30 mph", "CH:urban", "walk", "fast", None)] == [
        50,
        48.28032,
        50,
        5,
        None,
        None,
    ]
    assert [duration(text) for text in ("00:05", "1:30", "20", "01:00:30", "soon", None)] == [
        300,
        5400,
        1200,
        3630,
        None,
        None,
    ]
    assert blocks({"barrier": "bollard"}, MODES["car"]) and not blocks(
        {"barrier": "bollard"}, MODES["bike"]
    )
    assert blocks({"barrier": "gate", "access": "private"}, MODES["car"]) and not blocks(
        {"barrier": "gate"}, MODES["car"]
    )
