#!/usr/bin/python3
"""An operator's lines in terms of roads: shuts, opens, slows or charges a road, and shows what
becomes of a trip. With --send or --log it is noted in the network's log of closures, which the
page shows; `list` shows it here, and `undo` lifts one.
"""

from __future__ import annotations

import argparse
import getpass
import sys
from collections.abc import Sequence
from datetime import datetime
from pathlib import Path

from saminoha_planner.changes import changes, parse_box, parse_measure, select
from saminoha_planner.client import Change, Operator, Publish, SetArc, parse_address, write_lines
from saminoha_planner.closures import LOG, Closure, Log, State, active, now
from saminoha_planner.command import Fault, add_program_options, program_of, proof_text, run
from saminoha_planner.compare import add_trip_options, answer_after, compare, trip_of
from saminoha_planner.network import Network, read_network
from saminoha_planner.progress import waiting


def parse_words() -> argparse.Namespace:
    parser = argparse.ArgumentParser(
        description=__doc__,
        epilog="Amounts are in money, seconds, metres."
        " Measures count from the network's own weights.",
    )
    parser.add_argument("network", metavar="NETWORK", help="a folder that import_osm.py made")
    parser.add_argument(
        "measure",
        metavar="MEASURE",
        help="shut, open, slow=1.5, surcharge=toll:20 (for each whole way), surcharge=toll:2/km;"
        " or list, undo=ID",
    )
    group = parser.add_argument_group("which roads")
    group.add_argument(
        "--road",
        action="append",
        default=[],
        metavar="NAME",
        help="the road of this name or ref; may come again",
    )
    group.add_argument(
        "--way",
        action="append",
        default=[],
        type=int,
        metavar="ID",
        help="the way of this number; may come again",
    )
    group.add_argument("--box", metavar="W,S,E,N", help="what of it lies in this box")
    add_log_options(parser)
    add_trip_options(parser)
    add_program_options(parser)
    return parser.parse_args()


def add_log_options(parser: argparse.ArgumentParser) -> None:
    group = parser.add_argument_group("what becomes of the lines")
    group.add_argument(
        "--out", type=Path, metavar="FILE", help="write them to a file, not to standard output"
    )
    group.add_argument(
        "--send",
        type=parse_address,
        metavar="ADDRESS",
        help="send them to a running server's operator address, HOST:PORT or unix:PATH, and note"
        " it in the log",
    )
    group.add_argument(
        "--log",
        action="store_true",
        help="note it in the log alone: a page that runs applies it at its time",
    )
    group.add_argument("--reason", default="", metavar="TEXT", help="why, for the log")
    group.add_argument(
        "--author", default=getpass.getuser(), metavar="NAME", help="who, for the log (you)"
    )
    for end in ("begin", "end"):
        group.add_argument(
            f"--{end}", metavar="TIME", help=f"its {end}, as 2026-05-04T07:00, for the log"
        )


def main() -> None:
    words = parse_words()
    network = read_network(words.network)
    log = Log(network.folder / LOG)
    if words.measure == "list":
        tell(log)
    elif words.measure.startswith("undo="):
        undo(words, network, log, words.measure.removeprefix("undo="))
    else:
        apply(words, network, log)


def apply(words: argparse.Namespace, network: Network, log: Log) -> None:
    if not words.road and not words.way and not words.box:
        raise Fault("name a --road, a --way or a --box")
    measure = parse_measure(words.measure)
    arcs = select(network, words.road, words.way, parse_box(words.box) if words.box else None)
    lines = changes(network, arcs, measure)
    trip = trip_of(words, network)
    begin, end = parse_time(words.begin), parse_time(words.end)
    if words.send and begin and begin > now():
        raise Fault("what begins later isn't sent now: --log it, and a page applies it at its time")
    epoch = send(words, lines) if words.send else None
    if words.send or words.log:
        note(log, closure_of(words, network, lines, (begin, end), epoch))
    if words.out:
        write_lines(words.out, [*lines, Publish()])
    elif not words.send and not words.log and not trip:
        sys.stdout.writelines(line.line + "\n" for line in [*lines, Publish()])
    if trip:
        program = program_of(words)
        with waiting("asking for the ways before") as watch:
            before = program.query(network.files, trip.source, network.arrival(trip.target))
            watch.now("asking for the ways after")
            after = answer_after(program, network, trip, lines)
        changed = {line.arc: line for line in lines}
        compare(trip, (network, before), (network, after), changed, program.proof())
        print(proof_text(program.proof()))


def send(words: argparse.Namespace, lines: Sequence[Change]) -> int:
    """Publishes the lines, and answers the epoch."""
    with waiting("sending to the server"), Operator(*words.send) as operator:
        for line in lines:
            operator.order(line)
        epoch = operator.publish()
    print(f"epoch {epoch}: {len(lines)} arcs", file=sys.stderr)
    return epoch


# The log.


def closure_of(
    words: argparse.Namespace,
    network: Network,
    lines: Sequence[Change],
    times: tuple[datetime | None, datetime | None],
    epoch: int | None,
) -> Closure:
    arc = network.arc(lines[0].arc)
    named = ", ".join(words.road) or arc.title or f"way {arc.way}"
    return Closure(
        road=named,
        measure=words.measure,
        changes=tuple(lines),
        piece=f"in the box {words.box}" if words.box else "",
        reason=words.reason,
        author=words.author,
        begin=times[0],
        end=times[1],
        epoch=epoch,
    )


def note(log: Log, closure: Closure) -> None:
    """What is opened lifts closures of these arcs; where others reach beyond them, it is noted
    as one that comes after.
    """
    if closure.measure != "open":
        log.add(closure)
        print(f"noted as {closure.name}: {closure.road}, {len(closure.changes)} arcs")
        return
    arcs, reaches_beyond = set(closure.arcs), False
    for one in log.read():
        if one.state() is State.ENDED or not arcs & set(one.arcs):
            continue
        if set(one.arcs) <= arcs:
            log.lift(one.name, closure.author, closure.epoch)
            print(f"lifted {one.name}: {one.road}")
        else:
            reaches_beyond = True
    if reaches_beyond:
        log.add(closure)


def undo(words: argparse.Namespace, network: Network, log: Log, name: str) -> None:
    """Lifts a closure. What others say of its arcs stands then, else the network's weights."""
    closure = next((one for one in log.read() if one.name == name), None)
    if closure is None:
        raise Fault(f"there is no closure {name!r}; ops.py {words.network} list shows them")
    if closure.state() is State.ENDED:
        raise Fault(f"closure {name} is over")
    epoch = None
    if words.send:
        left = active([one for one in log.read() if one.name != name])
        own = {arc: SetArc(arc, network.arc(arc).weights) for arc in closure.arcs}
        epoch = send(words, [left.get(arc, own[arc]) for arc in closure.arcs])
    log.lift(name, words.author, epoch)
    print(f"lifted {name}: {closure.road}")


def tell(log: Log) -> None:
    closures = log.read()
    if not closures:
        print("nothing is noted")
    for one in closures:
        span = f"{time_text(one.begin or one.at)} – {time_text(one.lifted or one.end)}"
        told = [one.name, one.state().value, one.measure, one.road, one.piece]
        told += [f"{len(one.arcs)} arcs", span, one.author, one.reason]
        print("  ".join(text for text in told if text))


def time_text(when: datetime | None) -> str:
    return f"{when.astimezone():%Y-%m-%d %H:%M}" if when else "until it is lifted"


def parse_time(text: str | None) -> datetime | None:
    """A time of this place where it doesn't say another."""
    try:
        return datetime.fromisoformat(text).astimezone() if text else None
    except ValueError as fault:
        raise Fault(f"{text!r} is no time like 2026-05-04T07:00") from fault


if __name__ == "__main__":
    run(main)
