"""Before and after a change of the roads, told and drawn side by side."""

from __future__ import annotations

import argparse
import sys
from collections.abc import Sequence
from dataclasses import dataclass, replace
from pathlib import Path

from .choose import LETTERS, Option, few
from .client import Answer, Change, Program, Proof, Publish, Query, Wait, answered
from .command import Fault
from .network import Network
from .tell import print_table


@dataclass(frozen=True)
class Trip:
    source: int
    target: int
    map: Path | None
    keep: int = 5


def add_trip_options(parser: argparse.ArgumentParser) -> None:
    group = parser.add_argument_group("before and after")
    group.add_argument(
        "--from", dest="source", metavar="END", help="where to begin: a place, a node, or lon,lat"
    )
    group.add_argument("--to", dest="target", metavar="END", help="where to end")
    group.add_argument(
        "--map", type=Path, metavar="FILE", help="draw before and after side by side"
    )


def trip_of(words: argparse.Namespace, network: Network) -> Trip | None:
    if not words.source and not words.target:
        if words.map:
            raise Fault("--map wants --from and --to")
        return None
    if not words.source or not words.target:
        raise Fault("--from and --to come together")
    return Trip(network.find(words.source), network.find(words.target), words.map)


def answer_after(program: Program, network: Network, trip: Trip, changes: list[Change]) -> Answer:
    """The answer at the epoch after the changes, by an operator and a session in one run."""
    query = Query(trip.source, network.arrival(trip.target))
    [replies] = program.lanes(network.files, [*changes, Publish()], [[Wait(1), query]]).sessions
    return answered(replies[1])


def compare(
    trip: Trip,
    before: tuple[Network, Answer],
    after: tuple[Network, Answer],
    changed: dict[int, Change],
    proof: Proof = Proof.UNKNOWN,
) -> None:
    """Prints the few of both, and draws them where a map is wanted. A letter means the same roads
    before and after. Changed arcs have their numbers before.
    """
    first = few(before[0], before[1].routes, trip.keep)
    second = lettered(few(after[0], after[1].routes, trip.keep), after[0], first, before[0])
    told = differences(before, after)
    for title, (network, answer), options in (
        ("before", before, first),
        ("after", after, second),
    ):
        print(f"{title}: {len(answer.routes)} trade-offs")
        print_table(sys.stdout, network, options)
    for line in told:
        print(line)
    if trip.map:
        from .draw import Side, draw_maps

        names = f"{before[0].name_of(trip.source)} – {before[0].name_of(trip.target)}"
        lines, ends = [before[0].arc(arc).line for arc in changed], (trip.source, trip.target)
        sides = [
            Side(f"{names}, before", before[0], first, ends, lines, proof),
            Side(f"{names}, after", after[0], second, ends, lines, proof, told),
        ]
        draw_maps(trip.map, sides)


def lettered(
    options: Sequence[Option], network: Network, known: Sequence[Option], known_network: Network
) -> list[Option]:
    """The options with the letters of the known ones that go along the same roads, and with new
    letters where there is none.
    """
    letters = {_way(option, known_network): option.letter for option in known}
    left = iter([letter for letter in LETTERS if letter not in letters.values()])
    found = [
        replace(option, letter=letters.get(_way(option, network)) or next(left))
        for option in options
    ]
    return sorted(found, key=lambda option: option.letter)


def differences(before: tuple[Network, Answer], after: tuple[Network, Answer]) -> list[str]:
    """For each criterion the least before and after."""
    if not before[1].routes or not after[1].routes:
        return ["no way leads there " + ("after" if before[1].routes else "before")]
    lines = []
    for place, criterion in enumerate(before[0].criteria):
        least = [min(route.cost[place] for route in answer.routes) for _, answer in (before, after)]
        texts = criterion.texts(least)
        more = least[1] - least[0]
        sign = "+" if more > 0 else "−" if more < 0 else "±"
        lines.append(
            f"least {criterion.label}: {texts[0]} before, {texts[1]} after"
            f" ({sign}{criterion.text(abs(more))})"
        )
    return lines


def _way(option: Option, network: Network) -> tuple[object, ...]:
    """The roads of an option in order, each with its direction."""
    return tuple(network.arc(arc).line for arc in option.route.arcs or ())
