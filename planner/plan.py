#!/usr/bin/python3
"""All trade-offs from one place to another, and the few of them that a person can weigh, as
text, map, plot and data.
"""

from __future__ import annotations

import argparse
import sys
from dataclasses import dataclass
from pathlib import Path

from saminoha_planner.choose import LETTERS, Option, few, thinned, within_detour
from saminoha_planner.client import Program, Proof, Route
from saminoha_planner.command import Fault, add_program_options, program_of, proof_text, run
from saminoha_planner.criteria import Criterion
from saminoha_planner.network import Network, read_network
from saminoha_planner.progress import waiting
from saminoha_planner.tell import print_table, write_csv, write_geojson


def parse_words() -> argparse.Namespace:
    parser = argparse.ArgumentParser(
        description=__doc__, epilog="An end is a place's name, a node, or lon,lat."
    )
    parser.add_argument("network", metavar="NETWORK", help="a folder that import_osm.py made")
    parser.add_argument("--from", dest="source", required=True, metavar="END", help="its start")
    parser.add_argument("--to", dest="target", required=True, metavar="END", help="its end")
    parser.add_argument(
        "--criteria", metavar="LIST", help="two or more of the network's criteria (all)"
    )
    parser.add_argument(
        "--limit",
        action="append",
        default=[],
        metavar="CRITERION=MOST",
        help="time=1800 (seconds), time=30min, distance=25km ..; may come for each criterion",
    )
    parser.add_argument(
        "--keep",
        type=int,
        default=5,
        metavar="K",
        help=f"how many to show, 1 to {len(LETTERS)} (5)",
    )
    parser.add_argument(
        "--epsilon",
        default="0",
        metavar="SHARE",
        help="thin out routes that differ by less, as 1%% or 0.01 (0)",
    )
    parser.add_argument(
        "--detour",
        type=float,
        metavar="TIMES",
        help="leave out routes longer or slower than this times the least",
    )
    add_output_options(parser)
    add_program_options(parser)
    return parser.parse_args()


def add_output_options(parser: argparse.ArgumentParser) -> None:
    parser.add_argument("--map", type=Path, metavar="FILE", help="draw a map (.png, .svg, .pdf)")
    parser.add_argument(
        "--front", type=Path, metavar="FILE", help="draw the costs against each other"
    )
    parser.add_argument(
        "--report", type=Path, metavar="FILE", help="write map, table and plot on two pages (.pdf)"
    )
    parser.add_argument("--geojson", type=Path, metavar="FILE", help="write all routes")
    parser.add_argument("--csv", type=Path, metavar="FILE", help="write all routes as a table")


def parse_share(text: str) -> float:
    try:
        share = float(text.removesuffix("%")) / (100 if text.endswith("%") else 1)
    except ValueError as fault:
        raise Fault(f"{text!r} is no share like 1% or 0.01") from fault
    if not 0 <= share < 1:
        raise Fault(f"a share is 0 to 1, and not {text}")
    return share


def parse_limits(texts: list[str], network: Network) -> list[int | None]:
    limits: list[int | None] = [None] * len(network.criteria)
    for text in texts:
        name, equals, most = text.partition("=")
        if not equals:
            raise Fault(f"a limit is written CRITERION=MOST, and not {text!r}")
        place = network.index_of(name)
        limits[place] = network.criteria[place].weight(most)
    return limits


def select_criteria(network: Network, text: str | None) -> Network:
    """The network with these of its criteria alone, in this order."""
    if text is None:
        return network
    names = text.split(",")
    places = [network.index_of(name) for name in names]
    if len(places) < 2 or len(set(places)) < len(places):
        raise Fault("a plan has two or more criteria, each once")
    chosen = network.with_criteria(places)
    if light := chosen.arrays.weightless():
        raise Fault(f"arc {light} weighs nothing in these criteria: add distance or time")
    return chosen


def main() -> None:
    words = parse_words()
    if not 1 <= words.keep <= len(LETTERS):
        raise Fault(f"--keep is 1 to {len(LETTERS)}")
    network = select_criteria(read_network(words.network), words.criteria)
    source, target = network.find(words.source), network.find(words.target)
    limits, epsilon = parse_limits(words.limit, network), parse_share(words.epsilon)
    program: Program = program_of(words)
    with waiting("asking for all ways"):
        answer = program.query(network.files, source, network.arrival(target), limits)
    routes = within_detour(answer.routes, network.criteria, words.detour)
    options = few(network, thinned(routes, epsilon), words.keep)
    title = f"{network.name_of(source)} – {network.name_of(target)}"
    print(
        f"{title}: {count_text(len(answer.routes), network.criteria)}"
        + (f", {len(options)} of them:" if options else "")
    )
    if options:
        print_table(sys.stdout, network, options)
    print(proof_text(program.proof()))
    write(words, Told(title, network, routes, options, (source, target), program.proof()))


@dataclass(frozen=True)
class Told:
    """An answer, and what is told of it."""

    title: str
    network: Network
    routes: list[Route]
    options: list[Option]
    ends: tuple[int, int]
    proof: Proof


def write(words: argparse.Namespace, told: Told) -> None:
    """The files that are wanted. The library of pictures takes a second to load."""
    network, routes, options = told.network, told.routes, told.options
    if words.map:
        from saminoha_planner.draw import Side, draw_map

        draw_map(words.map, Side(told.title, network, options, told.ends, proof=told.proof))
    if words.front:
        from saminoha_planner.front import Front, draw_front
        from saminoha_planner.legend import footer

        note = footer(network.criteria, told.proof, network.attribution)
        draw_front(words.front, Front(network.criteria, routes, options), told.title, note)
    if words.report:
        from saminoha_planner.draw import Side
        from saminoha_planner.front import Front
        from saminoha_planner.report import write_report

        side = Side(told.title, network, options, told.ends, proof=told.proof)
        write_report(words.report, side, Front(network.criteria, routes, options))
    if words.geojson:
        write_geojson(words.geojson, network, routes, options)
    if words.csv:
        write_csv(words.csv, network, routes, options, told.proof)


def count_text(count: int, criteria: list[Criterion]) -> str:
    labels = [criterion.label for criterion in criteria]
    of = f"{', '.join(labels[:-1])} and {labels[-1]}"
    return f"{count or 'no'} trade-off{'s' * (count != 1)} of {of}"


if __name__ == "__main__":
    run(main)
