#!/usr/bin/python3
"""Makes a network of another one and an operator's lines: published changes are in its weight
files, shut arcs are left out.
"""

from __future__ import annotations

import argparse
import sys
from pathlib import Path

from saminoha_planner.changes import applied, folded
from saminoha_planner.client import parse_orders
from saminoha_planner.command import Fault, add_program_options, program_of, proof_text, run
from saminoha_planner.compare import add_trip_options, compare, trip_of
from saminoha_planner.network import read_network, refuse_other_files, write_network
from saminoha_planner.progress import waiting


def parse_words() -> argparse.Namespace:
    parser = argparse.ArgumentParser(description=__doc__)
    parser.add_argument(
        "network", type=Path, metavar="NETWORK", help="a folder that import_osm.py made"
    )
    parser.add_argument(
        "lines",
        type=Path,
        metavar="LINES",
        help="a file of an operator's lines, as ops.py writes them",
    )
    parser.add_argument("out", type=Path, metavar="OUT", help="the folder to write")
    parser.add_argument(
        "--replace", action="store_true", help="write in the place of a network that is there"
    )
    add_trip_options(parser)
    add_program_options(parser)
    return parser.parse_args()


def main() -> None:
    words = parse_words()
    if words.out.resolve() == words.network.resolve():
        raise Fault("OUT is NETWORK itself")
    refuse_other_files(words.out, words.replace)
    network = read_network(words.network)
    try:
        stands, unpublished = folded(parse_orders(words.lines.read_text()))
    except ValueError as fault:
        raise Fault(f"{words.lines}: {fault}") from fault
    if unpublished:
        print(
            f"apply.py: {unpublished} changes stand after the last publish, and are left out",
            file=sys.stderr,
        )
    with waiting("writing the network"):
        new = applied(network, stands, words.out)
        write_network(new)
    told = new.info["applied"]
    print(f"{told['changed']} arcs changed, {told['shut']} shut: {words.out}")
    if trip := trip_of(words, network):
        program = program_of(words)
        with waiting("asking for the ways before and after"):
            answers = [
                program.query(one.files, trip.source, one.arrival(trip.target))
                for one in (network, new)
            ]
        compare(trip, (network, answers[0]), (new, answers[1]), stands, program.proof())
        print(proof_text(program.proof()))


if __name__ == "__main__":
    run(main)
