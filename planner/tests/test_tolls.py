"""Tolls of the three kinds on a drawn road, against sums that are reckoned here from its points:

    h1 ── m1 ══ m2 ══ m3 ══ m4 ── h2     Turnpike: three ways of one toll road; roads to its ends
          │           │       │
          s1 ──────── s2 ──── s3         Side roads: free
"""

from __future__ import annotations

import itertools
import json

import networkx
import pytest
from conftest import HERE
from pyproj import Geod

from saminoha_planner.network import read_network
from saminoha_planner.tolls import Price, parse_charge

POINTS = {
    "h1": (10.00, 50.00),
    "m1": (10.01, 50.00),
    "m2": (10.02, 50.00),
    "m3": (10.03, 50.00),
    "m4": (10.04, 50.00),
    "h2": (10.05, 50.00),
    "s1": (10.01, 49.99),
    "s2": (10.03, 49.99),
    "s3": (10.04, 49.99),
}
NUMBERS = {name: number for number, name in enumerate(POINTS, start=1)}
TURNPIKE = ("m1 m2", "m2 m3", "m3 m4")
FREE = ("h1 m1", "m4 h2", "m1 s1", "m3 s2", "m4 s3", "s1 s2", "s2 s3")
LENGTH = Geod(ellps="WGS84")


def extract(file, tags="", at=None):
    """The drawing as a file, the toll road with these tags, and points with theirs."""
    lines = ['<osm version="0.6">']
    for name, (lon, lat) in POINTS.items():
        more = (at or {}).get(name, "")
        lines.append(f'<node id="{NUMBERS[name]}" lon="{lon}" lat="{lat}">{more}</node>')
    for number, ends in enumerate([*TURNPIKE, *FREE], start=100):
        refs = "".join(f'<nd ref="{NUMBERS[name]}"/>' for name in ends.split())
        named = tag("name", "Turnpike") + tags if ends in TURNPIKE else tag("name", ends)
        lines.append(f'<way id="{number}">{refs}{tag("highway", "primary")}{named}</way>')
    file.write_text("\n".join([*lines, "</osm>"]))
    return file


def tag(key, value):
    return f'<tag k="{key}" v="{value}"/>'


@pytest.fixture
def made(tool, tmp_path):
    """A network of the drawing by rules or tags, and what the import said on standard error."""

    def network(rules="", tags="", at=None, options=()):
        file = extract(tmp_path / "drawn.osm", tags, at)
        (tmp_path / "rules.toml").write_text(rules)
        words = ["--criteria", "distance,toll", "--rules", tmp_path / "rules.toml", "--replace"]
        tool("import_osm.py", file, tmp_path / "net", *words, *options)
        return read_network(tmp_path / "net")

    return network


def node(network, name):
    return network.nearest(*POINTS[name])


def metres(names):
    lon, lat = zip(*(POINTS[name] for name in names))
    return LENGTH.line_length(lon, lat)


def expected(toll_of, source, target):
    """The best of all paths by distance and toll, of which `toll_of` tells the hundredths."""
    graph = networkx.Graph(ends.split() for ends in (*TURNPIKE, *FREE))
    costs = set()
    for path in networkx.all_simple_paths(graph, source, target):
        steps = [round(metres(pair)) for pair in itertools.pairwise(path)]
        costs.add((sum(steps), toll_of(path)))
    return sorted(
        one
        for one in costs
        if not any(a[0] <= one[0] and a[1] <= one[1] and a != one for a in costs)
    )


def is_toll(a, b):
    return f"{a} {b}" in TURNPIKE or f"{b} {a}" in TURNPIKE


def entries(path):
    """How often one comes onto the turnpike."""
    tolls = [False, *(is_toll(a, b) for a, b in itertools.pairwise(path))]
    return sum(now and not before for before, now in itertools.pairwise(tolls))


KINDS = {
    "per_entry": (
        'currency = "EUR"\n[[charge]]\nname = "Turnpike"\nper_entry = 2.5\n',
        lambda path: 250 * entries(path),
    ),
    "per_km": (
        '[[charge]]\nname = "Turnpike"\nper_km = 1\n',
        lambda path: sum(
            round(metres((a, b)) / 10) for a, b in itertools.pairwise(path) if is_toll(a, b)
        ),
    ),
    "per_gantry at a point": (
        f"[[charge]]\npoint = {NUMBERS['m2']}\nper_gantry = 3\n",
        lambda path: 300 * ("m2" in path[1:]),
    ),
    "per_gantry of a way": (
        "[[charge]]\nway = 102\nper_gantry = 1.2\n",
        lambda path: 120 * any({a, b} == {"m3", "m4"} for a, b in itertools.pairwise(path)),
    ),
}
TRIPS = [("h1", "h2"), ("h2", "h1"), ("h1", "s3"), ("s2", "h2"), ("m2", "h2"), ("h1", "m2")]


@pytest.mark.parametrize("kind", KINDS)
@pytest.mark.parametrize("options", [(), ("--turns",)])
def test_kinds(made, program, kind, options):
    rules, toll_of = KINDS[kind]
    network = made(rules, options=options)
    more = 1 if options else 0  # a walk's arrival has 1 m in a network with turns
    for source, target in TRIPS:
        to = network.arrival(node(network, target))
        answer = program.query(network.files, node(network, source), to)
        costs = [(cost[0] - more, cost[1]) for cost in (one.cost for one in answer.routes)]
        due = expected(toll_of, source, target)
        near = [(a[0] - b[0], a[1] - b[1]) for a, b in zip(costs, due)]
        assert len(costs) == len(due) and all(abs(x) <= 2 and abs(y) <= 1 for x, y in near)


def test_tags(made, program):
    network = made(tags=tag("toll", "yes") + tag("charge", "2.50 CHF"))
    assert network.currency == "CHF" and network.criteria[1].shown_unit == "CHF"
    told = network.info["tolls"]
    assert (told["roads_by_tags"], told["roads_without_charge"]) == (3, 0)
    answer = program.query(network.files, node(network, "h1"), node(network, "h2"))
    assert answer.routes[0].cost[1] == 250 and answer.routes[-1].cost[1] == 0
    for route in answer.routes:
        assert sum(network.arc(arc).weights[1] for arc in route.arcs) == route.cost[1]
    by_km = made(tags=tag("toll", "yes") + tag("charge", "CHF 0.10/km"))
    arcs = [arc for arc in by_km.arcs if arc.name == "Turnpike"]
    assert len(arcs) == 6 and all(abs(arc.weights[1] - arc.weights[0] / 100) <= 1 for arc in arcs)


def test_booths(made, program):
    booth = tag("barrier", "toll_booth")
    network = made(at={"m2": booth + tag("charge", "€3"), "s2": booth})
    told = network.info["tolls"]
    assert (told["currency"], told["booths_by_tags"], told["booths_without_charge"]) == (
        "EUR",
        1,
        1,
    )
    answer = program.query(network.files, node(network, "h1"), node(network, "h2"))
    assert answer.routes[0].cost[1] == 300
    all_booths = made('[[charge]]\npoint = "toll_booth"\nper_gantry = 1\n', at={"s2": booth})
    assert all_booths.info["tolls"]["booths_by_rules"] == 1


def test_what_has_no_value_is_counted_and_told(tmp_path):
    import subprocess
    import sys

    from conftest import PLANNER

    file = extract(tmp_path / "drawn.osm", tag("toll", "yes"))
    rules = tmp_path / "rules.toml"
    rules.write_text('[[charge]]\nname = "Nowhere Road"\nper_entry = 1\n')
    words = [PLANNER / "import_osm.py", file, tmp_path / "net", "--criteria", "distance,toll"]
    done = subprocess.run(
        [sys.executable, *words, "--rules", rules], capture_output=True, text=True, check=True
    )
    length = round(metres(["m1", "m4"]) / 1000, 1)
    assert f"3 toll roads of {length} km and 0 booths have no charge" in done.stderr
    assert "name = 'Nowhere Road' fits nothing" in done.stderr
    assert "all tolls are 0" in done.stderr
    told = json.loads((tmp_path / "net" / "import.json").read_text())["tolls"]
    assert told["roads_without_charge"] == 3 and told["km_without_charge"] == length


def test_two_currencies(made):
    at = {"m2": tag("barrier", "toll_booth") + tag("charge", "3 CHF")}
    network = made('currency = "EUR"\n', tag("toll", "yes") + tag("charge", "2 EUR"), at)
    told = network.info["tolls"]
    assert (told["other_currencies"], told["booths_without_charge"]) == (["CHF"], 1)


@pytest.mark.parametrize(
    "text, price",
    [
        ("2.50 EUR", Price(2.5, "EUR")),
        ("CHF 5", Price(5, "CHF")),
        ("€3", Price(3, "EUR")),
        ("0,10 EUR/km", Price(0.1, "EUR", True)),
        ("4 EUR per passage", Price(4, "EUR")),
        ("10 EUR/day", None),
        ("2 EUR;3 EUR", None),
        ("yes", None),
    ],
)
def test_texts_of_charges(text, price):
    assert parse_charge(text) == price


@pytest.mark.parametrize(
    "rule, text",
    [
        ('name = "A"\namount = 2', "once for each way"),
        ('name = "A"', "so much per_km"),
        ('name = "A"\nper_gantry = 1', "names a point or a way"),
        ("point = 3\nper_entry = 1", "at a point is per_gantry"),
        ('name = "A"\nper_km = -1', "0 or more"),
        ('name = "A"\nper_km = 1\ncriterion = "houses"', "toll or time"),
    ],
)
def test_faults_of_rules(tool, tmp_path, rule, text):
    (tmp_path / "rules.toml").write_text(f"[[charge]]\n{rule}\n")
    words = (HERE / "town.osm", tmp_path / "net", "--rules", tmp_path / "rules.toml")
    assert text in tool("import_osm.py", *words, status=1)


def test_limits_in_the_currency(tool, made, tmp_path):
    made(KINDS["per_entry"][0])
    trip = ("--from", "10.0,50.0", "--to", "10.05,50.0")
    for limit, least in (("toll=1 EUR", "0.00 EUR"), ("toll=2.50", "2.50 EUR")):
        assert least in tool("plan.py", tmp_path / "net", *trip, "--limit", limit)
    told = tool("plan.py", tmp_path / "net", *trip, "--limit", "toll=1 CHF", status=1)
    assert "a number with EUR" in told
