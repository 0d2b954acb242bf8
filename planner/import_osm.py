#!/usr/bin/python3
"""Makes a network of an OpenStreetMap extract (.osm, .osm.bz2, .osm.pbf): weight files,
coordinates, arcs, places.
"""

from __future__ import annotations

import argparse
import hashlib
import sys
from pathlib import Path

from saminoha_planner.aside import Aside
from saminoha_planner.background import read_background, save_background
from saminoha_planner.command import Fault, run
from saminoha_planner.criteria import CRITERIA, Criterion, coarser, parse_criteria, with_currency
from saminoha_planner.cut import Wanted, build
from saminoha_planner.heights import read_grids
from saminoha_planner.modes import MODES
from saminoha_planner.network import Network, refuse_other_files, write_network
from saminoha_planner.osm import Extract, read_extract, read_points
from saminoha_planner.progress import Watch, waiting
from saminoha_planner.rules import NO_RULES, Rules, read_rules
from saminoha_planner.tolls import charged, currency_of, report, warnings
from saminoha_planner.weigh import Weigher

MOST_NODES, MOST_ARCS = 2**23, 2**24


def parse_words() -> argparse.Namespace:
    parser = argparse.ArgumentParser(description=__doc__)
    parser.add_argument("extract", type=Path, metavar="EXTRACT", help="the extract")
    parser.add_argument("network", type=Path, metavar="NETWORK", help="the folder to write")
    add_weighing_options(parser)
    parser.add_argument(
        "--table", action="store_true", help="write arcs.tsv too, a table for other programs"
    )
    parser.add_argument(
        "--replace", action="store_true", help="write in the place of a network that is there"
    )
    return parser.parse_args()


def add_weighing_options(parser: argparse.ArgumentParser) -> None:
    parser.add_argument("--mode", choices=sorted(MODES), default="car", help="who travels (car)")
    parser.add_argument(
        "--split",
        choices=("junctions", "points"),
        default="junctions",
        help="where roads are cut: where they meet, or at every point (junctions)",
    )
    parser.add_argument(
        "--criteria",
        default="distance,time",
        metavar="LIST",
        help=f"two to four of {', '.join(CRITERIA)} (distance,time)",
    )
    parser.add_argument(
        "--coarser",
        default="",
        metavar="LIST",
        help="weigh in so many of the usual units, as time=10 for whole seconds: fewer trade-offs",
    )
    parser.add_argument("--turns", action="store_true", help="mind turn bans: arcs become nodes")
    parser.add_argument(
        "--rules",
        type=Path,
        metavar="FILE",
        help="a TOML file of speeds, vehicle sizes, tolls and surcharges",
    )
    parser.add_argument(
        "--heights",
        type=Path,
        metavar="FILE",
        help="an .asc grid, an .hgt tile or a folder of them, for the climb",
    )


def heights_of(extract: Extract, file: Path | None) -> dict[int, float]:
    """By the file where it is given, else by the tags `ele` of points."""
    return extract.heights if file is None else extract.heights_of(read_grids(file))


def main() -> None:
    words = parse_words()
    criteria = coarser(parse_criteria(words.criteria), words.coarser)
    rules = read_rules(words.rules) if words.rules else NO_RULES
    if not words.extract.is_file():
        raise Fault(f"{words.extract} is no file")
    refuse_other_files(words.network, words.replace)
    file, mode = str(words.extract), rules.applied_to(MODES[words.mode])
    points = Aside(read_points, file, mode, words.turns)
    background = Aside(read_background, file)
    with waiting(f"reading {words.extract.name}", steady=True) as watch:
        try:
            with_houses = any(one.name == "houses" for one in criteria)
            extract = read_extract(file, mode, rules, points, with_houses, watch)
        except RuntimeError as fault:
            raise Fault(f"{words.extract} can't be read: {fault}") from fault
        network = make(words, extract, criteria, rules, watch)
        watch.now("writing")
        write_network(network, words.table)
        watch.now("reading water and woods")
        save_background(background.result(), words.network)
    for line in warnings(network.info["tolls"]) if "tolls" in network.info else []:
        print(f"import_osm.py: {line}", file=sys.stderr)
    names = ", ".join(criterion.name for criterion in criteria)
    print(
        f"{len(network.lon)} nodes, {len(network.arcs)} arcs, {len(network.places)} places,"
        f" {names}: {words.network}"
    )


def make(
    words: argparse.Namespace,
    extract: Extract,
    criteria: list[Criterion],
    rules: Rules,
    watch: Watch,
) -> Network:
    names = [criterion.name for criterion in criteria]
    heights = heights_of(extract, words.heights) if "climb" in names else {}
    if "climb" in names and not heights:
        raise Fault("no point has a height: give --heights")
    currency = currency_of(extract.tolls, rules)
    weigher = Weigher(extract, charged(extract.tolls, currency), heights, watch)
    wanted = Wanted(with_currency(criteria, currency), words.split, words.turns, heights)
    network = build(extract, weigher, wanted, words.network)
    if not network.arcs:
        raise Fault(f"{words.extract} has no roads for a {words.mode} that lead there and back")
    if len(network.lon) > MOST_NODES or len(network.arcs) > MOST_ARCS:
        raise Fault(
            f"{len(network.lon)} nodes and {len(network.arcs)} arcs are more than the program takes"
        )
    network.info |= told_of(words, extract, network)
    if "toll" in names:
        metres = dict(enumerate(weigher.metres_of_rows.tolist()))
        network.info["tolls"] = report(extract.tolls, rules, currency, metres)
    return network


def told_of(words: argparse.Namespace, extract: Extract, network: Network) -> dict[str, object]:
    sides = (network.lon.min(), network.lat.min(), network.lon.max(), network.lat.max())
    return {
        "extract": words.extract.name,
        "extract_sha256": hashlib.sha256(words.extract.read_bytes()).hexdigest(),
        "mode": words.mode,
        "split": words.split,
        "turns": words.turns,
        "bounds": [float(side) for side in sides],
        "left_out": {
            "turn_bans_over_ways": extract.bans_left_out,
            "points_missing": extract.points_missing,
            "blocked_points": int(extract.blocked.sum()),
        },
    }


if __name__ == "__main__":
    run(main)
