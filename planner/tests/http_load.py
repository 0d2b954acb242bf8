#!/usr/bin/python3
"""Load on the HTTP service over a leader and a follower, both started here: so many clients ask
near pairs one after another, and each answer is compared with the program's own at the epoch that
it names. Then the same while roads are closed and opened, the follower is killed and comes again,
and the leader begins anew.

    planner/tests/http_load.py NETWORK --clients 200 --links 4 --seconds 30
"""

from __future__ import annotations

import argparse
import asyncio
import json
import os
import random
import sys
import tempfile
import threading
import time
from collections import Counter
from collections.abc import Sequence
from contextlib import suppress
from dataclasses import dataclass, field
from pathlib import Path
from statistics import quantiles

HERE = Path(__file__).resolve().parent
sys.path[:0] = [str(HERE.parent), str(HERE)]

from http_here import HOST, TOKEN, Here, service  # noqa: E402

from saminoha_planner.client import Change, Program, Publish, Query, Wait, answered  # noqa: E402
from saminoha_planner.closures import LOG, Log  # noqa: E402
from saminoha_planner.network import Network, read_network  # noqa: E402

NEAR = 30  # numbers of nodes apart, at most
PAIRS = 300
MOST_SHOWN = 3  # of wrong answers
LANES_BESIDE = 2  # for who watches and feeds, beside the service's links
ANN = {"Authorization": f"Bearer {TOKEN}"}
Costs = list[list[int]]
Pair = tuple[int, int]
HEADS = (
    "| Run | Answers | A second | Median | 99th percentile | 503 | Wrong | Lost | CPU | Memory |",
    "|---|---|---|---|---|---|---|---|---|---|",
)


@dataclass
class Due:
    """What is to be answered at an epoch: by the program itself, with the closures that the log has
    of it. `steady` is held by who closes and opens, since the log has a line behind its epoch.
    """

    program: Program
    network: Network
    pairs: list[Pair]
    steady: threading.Lock = field(default_factory=threading.Lock)
    _known: dict[tuple[Change, ...], dict[str, Costs]] = field(default_factory=dict)

    def costs(self, epoch: int, path: str) -> Costs:
        with self.steady:
            stands = self._stands(epoch)
            if stands not in self._known:
                self._known[stands] = dict(zip(map(path_of, self.pairs), self._all(stands)))
            return self._known[stands][path]

    def _stands(self, epoch: int) -> tuple[Change, ...]:
        read = Log(self.network.folder / LOG).read()
        begun = [one for one in read if one.epoch is not None and one.epoch <= epoch]
        open_yet = [one for one in begun if one.lifted_epoch is None or one.lifted_epoch > epoch]
        return tuple(change for one in open_yet for change in one.changes)

    def _all(self, changes: Sequence[Change]) -> list[Costs]:
        queries = [Query(source, self.network.arrival(target)) for source, target in self.pairs]
        orders = [*changes, Publish()]
        [replies] = self.program.lanes(self.network.files, orders, [[Wait(1), *queries]]).sessions
        return [[list(route.cost) for route in answered(one).routes] for one in replies[1:]]

    def road(self) -> str:
        titles = Counter(arc.title for arc in self.network.arcs if arc.title)
        return titles.most_common(1)[0][0]


@dataclass
class Told:
    statuses: Counter[int] = field(default_factory=Counter)
    seconds: list[float] = field(default_factory=list)
    wrong: int = 0
    lost: int = 0
    fits: set[tuple[str, bytes]] = field(default_factory=set)


def parse_words() -> argparse.Namespace:
    parser = argparse.ArgumentParser(description=__doc__)
    parser.add_argument("network", metavar="NETWORK", help="a folder that import_osm.py made")
    parser.add_argument("--clients", type=int, default=200, metavar="N", help="at once (200)")
    parser.add_argument(
        "--links", type=int, default=4, metavar="N", help="to each of the two servers (4)"
    )
    parser.add_argument("--seconds", type=float, default=30.0, metavar="S", help="of a run (30)")
    parser.add_argument("--turns", type=int, default=1, metavar="N", help="runs of each kind (1)")
    return parser.parse_args()


def drawn(network: Network) -> list[Pair]:
    dice, count = random.Random(61), network.junctions
    sources = [dice.randint(1, count) for _ in range(PAIRS)]
    return [(one, min(count, max(1, one + dice.randint(-NEAR, NEAR)))) for one in sources]


def path_of(pair: Pair) -> str:
    return f"/v1/alternatives?from=node:{pair[0]}&to=node:{pair[1]}&all=true"


async def ask(
    reader: asyncio.StreamReader, writer: asyncio.StreamWriter, path: str
) -> tuple[int, bytes]:
    writer.write(f"GET {path} HTTP/1.1\r\nHost: {HOST}\r\n\r\n".encode())
    head = (await reader.readuntil(b"\r\n\r\n")).decode("latin-1").lower()
    status = int(head.split(" ", 2)[1])
    length = int(head.partition("content-length:")[2].partition("\r\n")[0])
    return status, await reader.readexactly(length)


async def client(port: int, due: Due, number: int, end: float, told: Told) -> None:
    dice, paths, writer = random.Random(number), [path_of(pair) for pair in due.pairs], None
    while time.monotonic() < end:
        begun, path = time.monotonic(), dice.choice(paths)
        try:
            if writer is None:
                reader, writer = await asyncio.open_connection(HOST, port)
            status, body = await ask(reader, writer, path)
        except (OSError, EOFError):
            told.lost, writer = told.lost + 1, None
            continue
        told.statuses[status] += 1
        told.seconds.append(time.monotonic() - begun)
        if status != 503 and (path, body) not in told.fits:
            await fit(due, path, status, body, told)
    if writer:
        writer.close()


async def fit(due: Due, path: str, status: int, body: bytes, told: Told) -> None:
    """Whether it is the answer of its epoch."""
    answer = json.loads(body)
    costs = [one["weights"] for one in answer["all"]] if status == 200 else []
    epoch = answer.get("epoch", 0)
    wanted = await asyncio.to_thread(due.costs, epoch, path)
    if wanted == costs and status in (200, 404) and epoch > 0:
        told.fits.add((path, body))
    else:
        told.wrong += 1
        if told.wrong <= MOST_SHOWN:
            print("wrong:", status, path, body[:200], f"{wanted} were due", file=sys.stderr)


async def quiet(here: Here, due: Due, seconds: float) -> None:
    return None


async def kills(here: Here, due: Due, seconds: float) -> None:
    """In eighths of the time: a road is opened and closed, the follower goes and comes, the leader
    begins anew, and the road is opened.
    """

    async def published(work: str) -> None:
        await asyncio.to_thread(toggle, here, due, work)

    [follower], eighth = here.followers, seconds / 8
    await asyncio.sleep(eighth)
    await published("open")
    await asyncio.to_thread(follower.kill)
    await asyncio.sleep(eighth)
    await published("close")
    await asyncio.sleep(eighth)
    await asyncio.to_thread(follower.begin)
    await asyncio.sleep(eighth)
    await asyncio.to_thread(here.leader.kill)
    await asyncio.to_thread(here.leader.begin)
    await asyncio.sleep(2 * eighth)
    await published("open")


def toggle(here: Here, due: Due, work: str) -> None:
    """Closes the road, or opens it."""
    with due.steady:
        if work == "close":
            made = here.ask("POST", "/v1/closures", {"road": due.road()}, **ANN)
            assert made.status == 201, made.body
            return
        for one in here.get("/v1/closures", **ANN).told["closures"]:
            if one["state"] == "active":
                lifted = here.ask("DELETE", f"/v1/closures/{one['id']}", **ANN)
                assert lifted.status == 200, lifted.body


async def load(here: Here, words: argparse.Namespace, due: Due, does_kill: bool) -> Told:
    told, end = Told(), time.monotonic() + words.seconds
    clients = [client(here.port, due, number, end, told) for number in range(words.clients)]
    beside = kills if does_kill else quiet
    await asyncio.gather(*clients, beside(here, due, words.seconds))
    return told


def memory(process: int, name: str = "VmHWM") -> int:
    """The most that it took, in MB."""
    with suppress(OSError):
        for line in Path(f"/proc/{process}/status").read_text().splitlines():
            if line.startswith(name):
                return int(line.split()[1]) // 1024
    return 0


def processor(process: int) -> float:
    """Seconds of a processor that it took."""
    fields = Path(f"/proc/{process}/stat").read_text().rpartition(")")[2].split()
    return (int(fields[11]) + int(fields[12])) / os.sysconf("SC_CLK_TCK")


def row(name: str, told: Told, words: argparse.Namespace, took: float, most: int) -> str:
    count = sum(told.statuses.values())
    cuts = [1000 * one for one in quantiles(told.seconds, n=100)]
    cells = [
        name,
        f"{count:,}",
        f"{count / words.seconds:.0f}",
        f"{cuts[49]:.0f} ms",
        f"{cuts[98]:.0f} ms",
        f"{100 * told.statuses[503] / count:.2f} %",
        f"{told.wrong}",
        f"{told.lost}",
        f"{1000 * took / count:.2f} ms",
        f"{most} MB",
    ]
    return f"| {' | '.join(cells)} |"


def run(words: argparse.Namespace, due: Due, does_kill: bool) -> tuple[str, bool]:
    options = ("--rate", "1e9", "--burst", "1000000000")
    network, lanes = due.network, words.links + LANES_BESIDE
    with tempfile.TemporaryDirectory() as folder, service(
        due.program,
        network,
        Path(folder),
        *options,
        followers=1,
        lanes=lanes,
        links=words.links,
    ) as here:
        toggle(here, due, "close")
        time.sleep(1)  # the follower has it by now
        begun = processor(here.process.pid)
        told = asyncio.run(load(here, words, due, does_kill))
        took = processor(here.process.pid) - begun
        name = "with kills" if does_kill else "undisturbed"
        line = row(name, told, words, took, memory(here.process.pid))
    (network.folder / LOG).unlink(missing_ok=True)
    return line, not told.wrong and not told.lost


def main() -> int:
    words = parse_words()
    network = read_network(words.network)
    due, is_right = Due(Program.find(timeout=300), network, drawn(network)), True
    print(*HEADS, sep="\n", flush=True)
    for does_kill in [False] * words.turns + [True] * words.turns:
        line, fits = run(words, due, does_kill)
        is_right &= fits
        print(line, flush=True)
    return 0 if is_right else 1


if __name__ == "__main__":
    sys.exit(main())
