"""Servers at socket files, as `unix:PATH`: a stand-in has replies to lines."""

from __future__ import annotations

import asyncio
import json
import socketserver
import threading

import pytest

from saminoha_http.links import Broken, Link
from saminoha_planner.client import (
    Address,
    Answer,
    ClientError,
    Now,
    Operator,
    Route,
    Session,
    Sizes,
    parse_address,
)

ROUTES = (Route((2, 8), (1, 3)), Route((4, 2), (2, 4)))
REPLIES = {
    "e": "k 5",
    "l 1 1 - -": "l 5 1 1 - - 1\np 0 0 0",
    "h 4 4 - -": "l 5 4 4 - - 1\np 0 0 0",
    "c 5 5": "x 5 5 5 node",
    "g 1 4": "r 5 1 4 2\np 2 8 2 1 3\np 4 2 2 2 4",
    "x 2": "ok",
    "publish": "k 6",
}


class Handler(socketserver.StreamRequestHandler):
    def handle(self) -> None:
        for line in self.rfile:
            asked = line.decode().strip()
            if asked == "bye":
                break
            self.wfile.write((REPLIES.get(asked, "x line") + "\n").encode())


@pytest.fixture
def address(tmp_path):
    """Where a stand-in listens."""
    path = str(tmp_path / "server")
    with socketserver.ThreadingUnixStreamServer(path, Handler) as server:
        threading.Thread(target=server.serve_forever, daemon=True).start()
        yield parse_address(f"unix:{path}")
        server.shutdown()


def test_addresses():
    found = parse_address("unix:/run/saminoha/operator")
    assert found.file == "/run/saminoha/operator" and str(found) == "unix:/run/saminoha/operator"
    assert parse_address("unix:7001").file == "7001"
    assert parse_address("host:70").file is None and str(parse_address("70")) == "127.0.0.1:70"
    with pytest.raises(ValueError):
        parse_address("unix:")


def test_session_and_operator(address):
    with Session(address.host) as session, Operator(*address) as operator:
        assert session.epoch() == 5
        assert session.query(1, 4) == Answer(5, 1, 4, ROUTES)
        operator.shut(2)
        assert operator.publish() == 6


def test_nobody_listens(tmp_path):
    with pytest.raises(ClientError, match=f"unix:{tmp_path}/none can't be reached"):
        Session(f"unix:{tmp_path}/none")


def test_a_link_of_the_service(address, tmp_path):
    async def work() -> None:
        link = await Link.open(address, Sizes(4, 6, 2))
        assert (await link.ask(Now())).number == 5
        link.close()
        with pytest.raises(Broken):
            await Link.open(Address(f"unix:{tmp_path}/none"), Sizes(4, 6, 2))

    asyncio.run(work())


def test_the_commands(tool, address):
    told = json.loads(tool("client.py", address, 1, 4))
    assert [route["cost"] for route in told["routes"]] == [[2, 8], [4, 2]]
    words = ("town", "--leader", address, "--listen", "unix:http")
    assert "--listen takes HOST:PORT" in tool("http_service.py", *words, status=1)
