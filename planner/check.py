#!/usr/bin/python3
"""Checks a network: by the program whether its files agree, and what is odd in it. Ends with 1
where a pair has no walk.
"""

from __future__ import annotations

import argparse
from collections import Counter
from pathlib import Path

from saminoha_planner.command import Fault, add_program_options, program_of, run
from saminoha_planner.examine import Findings, examine
from saminoha_planner.network import Network, read_network
from saminoha_planner.parts import read_pairs
from saminoha_planner.progress import waiting


def parse_words() -> argparse.Namespace:
    parser = argparse.ArgumentParser(description=__doc__)
    parser.add_argument(
        "network", metavar="NETWORK", help="a folder that import_osm.py or apply.py made"
    )
    parser.add_argument(
        "pairs",
        nargs="?",
        type=Path,
        metavar="PAIRS",
        help="pairs that should have a walk: .p2p, .csv or .tsv",
    )
    add_program_options(parser)
    return parser.parse_args()


def tell(network: Network, found: Findings) -> None:
    sizes = Counter(found.components)
    print(
        "strongly connected parts: "
        + ", ".join(
            f"{count} of {size} nodes" for size, count in sorted(sizes.items(), reverse=True)[:8]
        )
    )
    if network.info.get("turns"):
        print(
            f"  with turns, each of {network.junctions} junctions is a part of its own twice,"
            " where walks begin and where they end"
        )
    for one in found.ranges:
        print(
            f"{one.criterion}: {one.least} to {one.most},"
            f" half of the arcs up to {one.median:g}, {one.zeros} of weight 0"
        )
    dominated = [one for one in found.parallel if one.dominated]
    print(
        f"parallel arcs: {len(found.parallel)},"
        f" of which {len(dominated)} are on no best walk or equal another"
    )
    for pair in dominated[:10]:
        title = network.arc(pair.other).title or "no name"
        print(f"  arc {pair.other} ({title}) beside arc {pair.arc}")
    print(f"loops: {len(found.loops)}")
    for source, target in found.without_walk:
        print(
            f"no walk from {network.name_of(source)} ({source})"
            f" to {network.name_of(target)} ({target})"
        )


def main() -> int:
    words = parse_words()
    network = read_network(words.network)
    with waiting("reading the weight files"):
        sizes = program_of(words).check(network.files)
    if (sizes.nodes, sizes.arcs) != (len(network.lon), len(network.arcs)):
        raise Fault(
            f"the weight files have {sizes.nodes} nodes and {sizes.arcs} arcs,"
            " and the folder arrays has others"
        )
    print(f"{sizes.nodes} nodes, {sizes.arcs} arcs, {sizes.criteria} criteria: the files agree")
    with waiting("looking at all arcs"):
        found = examine(network, read_pairs(words.pairs, network) if words.pairs else ())
    tell(network, found)
    return 1 if found.without_walk else 0


if __name__ == "__main__":
    run(main)
