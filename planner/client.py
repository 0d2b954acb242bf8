#!/usr/bin/python3
"""The client as a module, and as a command that asks a running server.

    from client import Program, Session, Operator
    with Session("127.0.0.1", 7001) as session:
        print(session.query(1, 4, limits=(None, 7)))

The code is the package saminoha_planner/client, which can be copied alone.
"""

from __future__ import annotations

import argparse
import json
import sys
from dataclasses import asdict

from saminoha_planner.client import (
    Address,
    Answer,
    ClientError,
    Costs,
    Drop,
    Epoch,
    LanesRun,
    Now,
    Operator,
    OperatorRefused,
    Program,
    ProgramFailed,
    Proof,
    ProtocolError,
    Publish,
    Query,
    Refusal,
    Refused,
    Route,
    Server,
    Session,
    SetArc,
    ShutArc,
    Sizes,
    StoreClosed,
    TimedOut,
    Wait,
    parse_address,
    parse_orders,
)
from saminoha_planner.command import run
from saminoha_planner.progress import waiting

__all__ = [
    "Address",
    "Answer",
    "ClientError",
    "Costs",
    "Drop",
    "Epoch",
    "LanesRun",
    "Now",
    "Operator",
    "OperatorRefused",
    "Program",
    "ProgramFailed",
    "Proof",
    "ProtocolError",
    "Publish",
    "Query",
    "Refusal",
    "Refused",
    "Route",
    "Server",
    "Session",
    "SetArc",
    "ShutArc",
    "Sizes",
    "StoreClosed",
    "TimedOut",
    "Wait",
    "parse_address",
    "parse_orders",
]


def main() -> None:
    parser = argparse.ArgumentParser(
        description="Asks a running `route serve` one query, and prints the answer as JSON."
    )
    parser.add_argument(
        "address",
        type=parse_address,
        metavar="ADDRESS",
        help="where sessions are served, HOST:PORT or unix:PATH",
    )
    parser.add_argument("source", type=int, metavar="FROM", help="a node")
    parser.add_argument("target", type=int, metavar="TO", help="a node")
    parser.add_argument(
        "limits",
        nargs="*",
        type=parse_bound,
        metavar="LIMIT",
        help="a bound for each criterion, or - for none",
    )
    parser.add_argument(
        "--timeout", type=float, default=60.0, metavar="SECONDS", help="how long to wait (60)"
    )
    words = parser.parse_args()
    address: Address = words.address
    with waiting("asking the server"), Session(*address, words.timeout) as session:
        answer = session.query(words.source, words.target, words.limits or None)
    json.dump(asdict(answer), sys.stdout)
    print()


def parse_bound(text: str) -> int | None:
    return None if text == "-" else int(text)


if __name__ == "__main__":
    run(main)
