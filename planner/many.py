#!/usr/bin/python3
"""All trade-offs of many pairs, by several processes or machines. It goes on after a kill, and
its files are the same however.
"""

from __future__ import annotations

import argparse
import sys
from collections.abc import Sequence
from contextlib import ExitStack
from pathlib import Path

from saminoha_planner.client import Program
from saminoha_planner.command import Fault, add_program_options, program_of, proof_text, run
from saminoha_planner.network import Network, read_network
from saminoha_planner.parts import Folder, Plan, read_pairs, share
from saminoha_planner.progress import Progress, waiting
from saminoha_planner.spread import on_this_machine, on_workers, processors


def parse_words() -> argparse.Namespace:
    parser = argparse.ArgumentParser(description=__doc__)
    parser.add_argument("network", metavar="NETWORK", help="a folder that import_osm.py made")
    parser.add_argument(
        "pairs",
        type=Path,
        metavar="PAIRS",
        help="a .p2p file, or a .csv or .tsv with columns from, to",
    )
    parser.add_argument(
        "out",
        type=Path,
        metavar="OUT",
        help="the folder of answers.jsonl and od.csv, and of the parts until then",
    )
    add_spreading_options(parser)
    parser.add_argument(
        "--progress",
        action="store_true",
        help="show progress where standard error is no terminal too",
    )
    add_program_options(parser)
    return parser.parse_args()


def add_spreading_options(parser: argparse.ArgumentParser) -> None:
    parser.add_argument(
        "--jobs",
        type=int,
        default=processors(),
        metavar="J",
        help="processes of this machine (as many as processors)",
    )
    parser.add_argument(
        "--dask",
        metavar="ADDRESS",
        help="a dask.distributed scheduler, as tcp://host:8786, whose workers do the parts",
    )
    parser.add_argument(
        "--send-program",
        action="store_true",
        help="send the program, a file, to dask's workers as well",
    )
    parser.add_argument(
        "--only",
        metavar="K/N",
        help="the K-th of N shares, and no answers.jsonl before all parts are there",
    )
    parser.add_argument(
        "--part", type=int, default=20, metavar="PAIRS", help="pairs in a part (20)"
    )


def answer(
    words: argparse.Namespace,
    network: Network,
    program: Program,
    folder: Folder,
    numbers: Sequence[int],
) -> None:
    """The parts of these numbers that aren't there yet."""
    plan = folder.plan
    tasks = [(number, plan.pairs_of(number)) for number in folder.missing(numbers)]
    total = sum(len(plan.pairs_of(number)) for number in numbers)
    has_bar = words.progress or sys.stderr.isatty()
    with ExitStack() as stack:
        progress = stack.enter_context(Progress("pairs", total, has_bar))
        watch = None if has_bar else stack.enter_context(waiting("answering pairs"))
        progress.skip(total - sum(len(pairs) for _, pairs in tasks))
        if words.dask and tasks:
            done = on_workers(program, network.files, tasks, words.dask, words.send_program)
        else:
            done = on_this_machine(program, network.files, tasks, words.jobs) if tasks else iter(())
        for number, text in done:
            folder.keep(number, text)
            progress.step(len(plan.pairs_of(number)))
            if watch:
                watch.count(progress.done, total)


def main() -> None:
    words = parse_words()
    if words.part < 1 or words.jobs < 1:
        raise Fault("--part and --jobs are 1 or more")
    network, program = read_network(words.network), program_of(words)
    with waiting("reading the network and the pairs"):
        pairs = tuple(read_pairs(words.pairs, network))
        plan = Plan(network.checksum(), pairs, words.part, words.budget)
    folder = Folder(words.out, plan)
    numbers = share(plan.count, words.only)
    answer(words, network, program, folder, numbers)
    if left := folder.missing(range(plan.count)):
        print(f"{len(numbers)} parts are there, and {len(left)} of the others are to come")
    else:
        with waiting("putting the parts together"):
            folder.merge(network)
        print(f"{len(plan.pairs)} pairs: {words.out / 'od.csv'}, {words.out / 'answers.jsonl'}")
        print(proof_text(program.proof()))


if __name__ == "__main__":
    run(main)
