#!/usr/bin/python3
"""A local web page of a network: two places on the map, their alternatives on the map and in a
plot, limits, closures.
"""

from __future__ import annotations

import argparse
import logging
import signal
import threading
from contextlib import ExitStack

from flask import Flask
from werkzeug.serving import BaseWSGIServer, make_server

from saminoha_planner.ask import Asker, OwnServer, ProgramAsker, ServerAsker
from saminoha_planner.client import ClientError, Program, parse_address
from saminoha_planner.command import Fault, add_program_options, program_of, run
from saminoha_planner.network import Network, read_network

TIMEOUT = 600.0  # seconds that a search may take, where --timeout doesn't say


def parse_words() -> argparse.Namespace:
    parser = argparse.ArgumentParser(description=__doc__)
    parser.add_argument("network", metavar="NETWORK", help="a folder that import_osm.py made")
    parser.add_argument(
        "--port",
        type=int,
        default=8080,
        metavar="P",
        help="where the page is, on this machine alone (8080)",
    )
    parser.add_argument(
        "--session",
        type=parse_address,
        metavar="ADDRESS",
        help="a running server of this network, HOST:PORT or unix:PATH; else one is started",
    )
    parser.add_argument(
        "--operator",
        type=parse_address,
        metavar="ADDRESS",
        help="its operator's address, to close roads",
    )
    parser.add_argument(
        "--keep", type=int, default=5, metavar="K", help="how many alternatives have letters (5)"
    )
    parser.add_argument(
        "--tiles",
        default="",
        metavar="URL",
        help="others' map tiles below the roads, as https://tiles.example/{z}/{x}/{y}.png",
    )
    parser.add_argument(
        "--tiles-attribution", default="", metavar="TEXT", help="whose these tiles are"
    )
    add_program_options(parser)
    return parser.parse_args()


def asker_of(
    words: argparse.Namespace, network: Network, program: Program | None, until: ExitStack
) -> Asker:
    timeout = words.timeout or TIMEOUT
    if words.session:
        return ServerAsker(words.session, words.operator, timeout)
    if words.operator:
        raise Fault("--operator comes with --session")
    if not program:
        program = program_of(words)
    if program.knows("serve"):
        return until.enter_context(OwnServer(program, network, timeout))
    print("page.py: the program has no `serve` yet, so that each query is a run of its own")
    return ProgramAsker(program, network)


def program_or_none(words: argparse.Namespace) -> Program | None:
    """Beside a running server no program is needed here."""
    try:
        return program_of(words)
    except ClientError:
        if words.session:
            return None
        raise


def listening(site: Flask, port: int) -> BaseWSGIServer:
    try:
        return make_server("127.0.0.1", port, site, threaded=True)
    except (SystemExit, OSError):
        raise Fault(f"the page can't be at port {port}: name another one by --port") from None


def end(*_: object) -> None:
    """As by Ctrl-C, so that what was started here ends too."""
    raise KeyboardInterrupt


def main() -> None:
    words = parse_words()
    if not 0 < words.port < 65536:
        raise Fault(f"{words.port} is no port")
    signal.signal(signal.SIGTERM, end)
    from saminoha_planner.desk import Desk  # it takes a while, and --help needs none of it
    from saminoha_planner.site import LEAFLET, make_site

    if not LEAFLET.is_dir():
        raise Fault(f"{LEAFLET} is missing: install libjs-leaflet")
    network = read_network(words.network)
    with ExitStack() as until:
        program = program_or_none(words)
        asker = asker_of(words, network, program, until)
        desk = Desk(network, asker, program, words.keep, words.tiles, words.tiles_attribution)
        for work in (desk.warm, desk.keeper.watch):
            threading.Thread(target=work, daemon=True).start()
        logging.getLogger("werkzeug").setLevel(logging.WARNING)
        site = listening(make_site(desk), words.port)
        print(f"http://127.0.0.1:{words.port}/", flush=True)
        site.serve_forever()


if __name__ == "__main__":
    run(main)
