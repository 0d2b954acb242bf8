#!/usr/bin/python3
"""Serves HTTP and JSON in front of running servers of a network: alternatives as GeoJSON, many
pairs, closures by token, health and metrics.
"""

from __future__ import annotations

import argparse
import asyncio
import logging
import os
import signal
import socket
import sys
from pathlib import Path

from saminoha_planner.client import Address, Sizes, parse_address
from saminoha_planner.command import Fault, run
from saminoha_planner.network import read_network

FIRST_SOCKET = 3  # the descriptor that systemd passes


def parse_words() -> argparse.Namespace:
    parser = argparse.ArgumentParser(description=__doc__)
    parser.add_argument("network", metavar="NETWORK", help="a folder that import_osm.py made")
    add_addresses(parser)
    add_closures(parser)
    add_bounds(parser)
    return parser.parse_args()


def add_addresses(parser: argparse.ArgumentParser) -> None:
    group = parser.add_argument_group("addresses, each HOST:PORT, and of servers unix:PATH too")
    group.add_argument(
        "--leader",
        type=parse_address,
        required=True,
        metavar="ADDRESS",
        help="where a running server of this network serves sessions",
    )
    group.add_argument(
        "--follower",
        type=parse_address,
        action="append",
        default=[],
        metavar="ADDRESS",
        help="another server with the leader's epochs; may come again",
    )
    group.add_argument(
        "--operator",
        type=parse_address,
        metavar="ADDRESS",
        help="the leader's operator address, to close roads",
    )
    group.add_argument(
        "--listen",
        type=parse_address,
        default=Address("127.0.0.1", 8090),
        metavar="ADDRESS",
        help="where HTTP is served (127.0.0.1:8090); a socket of systemd comes before it",
    )
    group.add_argument(
        "--proxy",
        metavar="IP",
        help="the proxy that tells by X-Forwarded-For who asks",
    )


def add_closures(parser: argparse.ArgumentParser) -> None:
    group = parser.add_argument_group("closures")
    group.add_argument(
        "--tokens", type=Path, metavar="FILE", help="a line NAME TOKEN for each who may close roads"
    )
    group.add_argument(
        "--audit", type=Path, metavar="FILE", help="where audit lines go (standard output)"
    )
    group.add_argument(
        "--origin",
        action="append",
        default=[],
        metavar="URL",
        help="a site whose pages may ask, and close by token; may come again",
    )


def add_bounds(parser: argparse.ArgumentParser) -> None:
    group = parser.add_argument_group("bounds")
    for name, kind, default, text in (
        ("links", int, 8, "links to each server, as many as its lanes or fewer"),
        ("queue", int, 256, "requests that wait for a link"),
        ("queue-time", float, 5.0, "seconds that they wait"),
        ("answer-time", float, 30.0, "seconds that a reply may take"),
        ("stale", float, 10.0, "seconds for which a follower's epoch may be another"),
        ("rate", float, 50.0, "requests a second of one peer"),
        ("burst", int, 100, "requests of one peer at once beyond its rate"),
        ("at-once", int, 512, "requests under way"),
        ("body", int, 262_144, "bytes of a body"),
        ("pairs", int, 1000, "pairs of a matrix"),
    ):
        group.add_argument(
            f"--{name}", type=kind, default=default, metavar="N", help=f"{text} ({default:g})"
        )


def check(words: argparse.Namespace) -> None:
    for name in (
        "links",
        "queue",
        "queue_time",
        "answer_time",
        "rate",
        "burst",
        "at_once",
        "pairs",
    ):
        if not getattr(words, name) > 0:
            raise Fault(f"--{name.replace('_', '-')} is more than 0")
    if words.operator and not words.tokens:
        raise Fault("--operator comes with --tokens, by which roads are closed")
    if words.tokens and not words.operator:
        raise Fault("--tokens comes with --operator, where closures are published")
    if words.listen.file is not None:
        raise Fault("--listen takes HOST:PORT, since peers of a socket file have no address")


def listening(address: Address) -> socket.socket:
    """The socket that systemd passed, else one at the address."""
    if os.environ.get("LISTEN_PID") == str(os.getpid()) and os.environ.get("LISTEN_FDS") == "1":
        return socket.socket(fileno=FIRST_SOCKET)
    family = socket.AF_INET6 if ":" in address.host else socket.AF_INET
    try:
        return socket.create_server(address, family=family, backlog=1024)
    except OSError as fault:
        text = fault.strerror or fault
        raise Fault(f"{address} can't be listened at: {text}") from fault


def log_to(audit: Path | None) -> None:
    """Audit lines are JSON on standard output or in a file; what else is told, on standard
    error.
    """
    logging.basicConfig(format="%(levelname)s %(name)s: %(message)s", level=logging.INFO)
    own: logging.Handler = logging.StreamHandler(sys.stdout)
    if audit:
        own = logging.FileHandler(audit)
    log = logging.getLogger("saminoha.audit")
    log.addHandler(own)
    log.propagate = False
    for name in ("uvicorn.error", "uvicorn.asgi"):
        logging.getLogger(name).setLevel(logging.ERROR)  # what peers do wrong is told to them


async def serve(words: argparse.Namespace) -> None:
    import uvicorn  # it takes a while, and --help needs none of it

    from saminoha_http.access import AccessLog
    from saminoha_http.app import make_app
    from saminoha_http.guard import Bounds
    from saminoha_http.page import Page
    from saminoha_http.pool import Pool
    from saminoha_http.servers import Limits
    from saminoha_http.service import Service
    from saminoha_http.tokens import Tokens
    from saminoha_http.wire import protocol

    network = read_network(words.network)
    tokens = Tokens.read(words.tokens) if words.tokens else Tokens()
    sizes = Sizes(len(network.lon), len(network.arcs), len(network.criteria))
    limits = Limits(
        words.links, words.queue, words.queue_time, words.answer_time, stale=words.stale
    )
    bounds = Bounds(
        body=words.body,
        rate=words.rate,
        burst=words.burst,
        at_once=words.at_once,
        origins=tuple(words.origin),
    )
    place, log = listening(words.listen), AccessLog(sys.stdout)
    async with Pool([words.leader, *words.follower], sizes, limits) as pool:
        service = Service(network, pool, tokens, words.pairs)
        if words.operator:
            service.closing.begin(pool, words.operator)
        asyncio.get_running_loop().add_signal_handler(signal.SIGHUP, pool.begin_anew)
        config = uvicorn.Config(
            make_app(service, bounds, log, Page(service) if Page.is_there() else None),
            http=protocol(),
            ws="none",
            lifespan="off",
            access_log=False,
            log_config=None,
            server_header=False,
            proxy_headers=bool(words.proxy),
            forwarded_allow_ips=words.proxy,
            timeout_keep_alive=30,
        )
        print("ready", *place.getsockname()[:2], flush=True)
        try:
            await uvicorn.Server(config).serve(sockets=[place])
        finally:
            service.end()
            log.flush()


def main() -> None:
    words = parse_words()
    check(words)
    log_to(words.audit)
    from saminoha_http.wire import use_fast_loop

    use_fast_loop()
    asyncio.run(serve(words))


if __name__ == "__main__":
    run(main)
