"""Answers against another way to find them: all simple paths by networkx."""

from __future__ import annotations

import itertools
import re

import networkx
import pytest

PAIRS = list(itertools.permutations(("Northend", "Southend", "Market", "Ferry House"), 2))


def graph_of(network):
    graph = networkx.MultiDiGraph()
    for number, arc in enumerate(network.arcs, start=1):
        graph.add_edge(arc.tail, arc.head, key=number)
    return graph


def sum_of(network, arcs):
    return tuple(map(sum, zip(*(network.arc(arc).weights for arc in arcs))))


def best(costs):
    return sorted(
        cost
        for cost in costs
        if not any(other != cost and all(a <= b for a, b in zip(other, cost)) for other in costs)
    )


def best_of_all_paths(network, graph, source, target):
    paths = networkx.all_simple_edge_paths(graph, source, target)
    return best({sum_of(network, [key for _, _, key in path]) for path in paths})


def test_costs_are_those_of_all_paths(town, program):
    graph = graph_of(town)
    pairs = [(town.find(source), town.find(target)) for source, target in PAIRS]
    for (source, target), answer in zip(pairs, program.batch(town.files, pairs)):
        assert [route.cost for route in answer.routes] == best_of_all_paths(
            town, graph, source, target
        )


def test_routes_are_walks_that_sum_to_their_costs(town, program):
    pairs = [
        (source, target)
        for source in (1, 5, 17)
        for target in range(1, len(town.lon) + 1)
        if target != source
    ]
    for (source, target), answer in zip(pairs, program.batch(town.files, pairs)):
        assert answer.routes
        for route in answer.routes:
            arcs = [town.arc(number) for number in route.arcs]
            assert (arcs[0].tail, arcs[-1].head) == (source, target)
            assert all(before.head == after.tail for before, after in itertools.pairwise(arcs))
            assert all(
                before.line[-1] == after.line[0] for before, after in itertools.pairwise(arcs)
            )
            assert sum_of(town, route.arcs) == route.cost


@pytest.mark.parametrize(
    "source, target",
    [("Northend", "Ferry House"), ("Ferry House", "Market"), ("Southend", "Northend")],
)
def test_turn_bans_are_kept(imported, program, source, target):
    """In the network with turns, whose costs are those of the plain network's paths without a
    banned turn, and 1 m for the arrival.
    """
    plain, turns = imported("--criteria", "distance,time"), imported(
        "--criteria", "distance,time", "--turns"
    )
    ends = plain.find(source), plain.find(target)
    allowed = []
    for path in networkx.all_simple_edge_paths(graph_of(plain), *ends):
        names = [plain.arc(key).name for _, _, key in path]
        turned = set(itertools.pairwise(names))
        if ("Toll Bridge", "Quay") not in turned and ("Church Lane", "Quay") not in turned:
            allowed.append(sum_of(plain, [key for _, _, key in path]))
    answer = program.query(turns.files, turns.find(source), turns.arrival(turns.find(target)))
    assert [(metres - 1, time) for metres, time in (route.cost for route in answer.routes)] == best(
        set(allowed)
    )


MEASURES = {
    "shut": lambda weights: None,
    "slow=3": lambda weights: (weights[0], round(weights[1] * 3), weights[2]),
    "surcharge=toll:5/km": lambda weights: (
        *weights[:2],
        weights[2] + round(500 * weights[0] / 1000),
    ),
}


@pytest.mark.parametrize("measure", MEASURES)
@pytest.mark.parametrize("road", ["Old Bridge", "Toll Bridge", "North Street"])
def test_differences_before_and_after(town, tool, measure, road):
    """What ops.py tells of both are the costs of all paths, with and without the measure."""
    ends, changed = ("Northend", "Southend"), {}
    for number, arc in enumerate(town.arcs, start=1):
        changed[number] = MEASURES[measure](arc.weights) if arc.name == road else arc.weights
    graph = graph_of(town)
    nodes = [town.find(name) for name in ends]
    paths = [[key for _, _, key in path] for path in networkx.all_simple_edge_paths(graph, *nodes)]
    before = best({sum_of(town, path) for path in paths})
    open_paths = [path for path in paths if all(changed[arc] for arc in path)]
    after = best({tuple(map(sum, zip(*map(changed.get, path)))) for path in open_paths})
    trip = ("--from", ends[0], "--to", ends[1])
    told = tool("ops.py", town.folder, measure, "--road", road, *trip)
    if not after:
        assert "no way leads there after" in told
        return
    assert f"before: {len(before)} trade-offs" in told and f"after: {len(after)} trade-offs" in told
    for place, (label, unit) in enumerate((("distance", 1000), ("time", 600), ("toll", 100))):
        least = [min(cost[place] for cost in costs) / unit for costs in (before, after)]
        [line] = [one for one in told.splitlines() if one.startswith(f"least {label}: ")]
        shown = [float(one) for one in re.findall(r"\d+\.\d+", line.replace(",", ""))]
        assert shown[:2] == pytest.approx(least, abs=0.051)
        assert shown[2] == pytest.approx(abs(least[1] - least[0]), abs=0.051)
        more = round(least[1] - least[0], 6)
        assert ("+" if more > 0 else "−" if more < 0 else "±") in line
