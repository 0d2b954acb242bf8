"""The service as a process beside servers of a network, for its tests and its load."""

from __future__ import annotations

import json
import os
import subprocess
import sys
import time
import urllib.error
import urllib.request
from collections.abc import Iterator, Sequence
from contextlib import ExitStack, contextmanager
from dataclasses import dataclass, field
from pathlib import Path
from typing import Any

from http_follow import Feeding

from saminoha_planner.client import Program, free_ports
from saminoha_planner.network import Network

PLANNER = Path(__file__).resolve().parents[1]
TOKEN = "a-token-of-the-tests-alone-0123456789"
HOST = "127.0.0.1"
LANES = 6


@dataclass
class Reply:
    status: int
    headers: dict[str, str]
    body: bytes

    @property
    def told(self) -> Any:
        return json.loads(self.body)

    @property
    def kind(self) -> str:
        assert self.headers["content-type"] == "application/problem+json", self.body
        assert self.told["status"] == self.status and self.told["title"] and self.told["detail"]
        return self.told["type"].rpartition(":")[2]

    @property
    def lines(self) -> list[Any]:
        return [json.loads(line) for line in self.body.splitlines()]


@dataclass
class ServerHere:
    """`serve` on ports of its own, which may end and come again."""

    program: Program
    files: Sequence[str]
    lanes: int = LANES
    ports: list[int] = field(default_factory=lambda: free_ports(HOST, 2))
    process: subprocess.Popen[str] | None = None

    @property
    def session(self) -> str:
        return f"{HOST}:{self.ports[0]}"

    @property
    def operator(self) -> str:
        return f"{HOST}:{self.ports[1]}"

    def begin(self, *options: str) -> None:
        words = [self.program.path, "serve", "--listen", self.session, "--operator", self.operator]
        words += ["--lanes", str(self.lanes), *options, "--", *self.files]
        self.process = subprocess.Popen(words, stdout=subprocess.PIPE, text=True)
        assert self.process.stdout and self.process.stdout.readline() == f"ready {self.lanes}\n"

    def kill(self) -> None:
        if self.process:
            self.process.kill()
            self.process.wait()
            assert self.process.stdout
            self.process.stdout.close()
            self.process = None


@dataclass
class Here:
    port: int
    leader: ServerHere
    followers: list[ServerHere]
    log: Path
    process: subprocess.Popen[bytes]

    def ask(self, method: str, path: str, body: object = None, **headers: str) -> Reply:
        data = None
        if body is not None:
            data = body if isinstance(body, bytes) else json.dumps(body).encode()
            headers = {"Content-Type": "application/json"} | headers
        named = {name.replace("_", "-"): text for name, text in headers.items()}
        asked = urllib.request.Request(
            f"http://{HOST}:{self.port}{path}", data, named, method=method
        )
        try:
            with urllib.request.urlopen(asked, timeout=60) as reply:
                return Reply(reply.status, _lower(reply.headers), reply.read())
        except urllib.error.HTTPError as fault:
            with fault:
                return Reply(fault.code, _lower(fault.headers), fault.read())

    def get(self, path: str, **headers: str) -> Reply:
        return self.ask("GET", path, **headers)

    def wait(self, is_ready: bool = True, seconds: float = 20.0) -> None:
        end = time.monotonic() + seconds
        while (self.get("/health").status == 200) != is_ready:
            assert time.monotonic() < end, self.get("/health").body
            time.sleep(0.1)

    def wait_epoch(self, epoch: int, seconds: float = 20.0) -> None:
        end = time.monotonic() + seconds
        while self.get("/health").told["epoch"] != epoch:
            assert time.monotonic() < end, self.get("/health").body
            time.sleep(0.1)

    def entries(self, member: str) -> list[dict[str, Any]]:
        """The lines of the service's log that have this member."""
        lines = [line for line in self.log.read_text().splitlines() if line.startswith("{")]
        return [entry for entry in map(json.loads, lines) if member in entry]


def _lower(headers: Any) -> dict[str, str]:
    return {name.lower(): text for name, text in headers.items()}


@contextmanager
def service(
    program: Program,
    network: Network,
    folder: Path,
    *options: str,
    followers: int = 0,
    lanes: int = LANES,
    links: int | None = None,
    server_options: Sequence[str] = (),
    has_operator: bool = True,
) -> Iterator[Here]:
    """A leader, followers that follow it, and the service over them, whose log goes to a file of
    the folder.
    """
    servers = [ServerHere(program, network.files, lanes) for _ in range(1 + followers)]
    for server in servers:
        server.begin(*server_options)
    with ExitStack() as until:
        operator = servers[0].operator if has_operator else ""
        if followers and has_operator:
            words = (program, network.files, servers[0], servers[1:], folder)
            operator = until.enter_context(Feeding(*words)).address
        with _service(network, folder, servers, operator, links or lanes, options) as here:
            yield here


@contextmanager
def _service(
    network: Network,
    folder: Path,
    servers: list[ServerHere],
    operator: str,
    links: int,
    options: Sequence[str],
) -> Iterator[Here]:
    tokens, log = folder / "tokens", folder / "log"
    tokens.write_text(f"# who closes roads\nann {TOKEN}\n")
    tokens.chmod(0o600)
    [port] = free_ports(HOST, 1)
    words = [sys.executable, str(PLANNER / "http_service.py"), str(network.folder)]
    words += ["--leader", servers[0].session, "--listen", f"{HOST}:{port}", "--links", str(links)]
    if operator:
        words += ["--operator", operator, "--tokens", str(tokens)]
    for follower in servers[1:]:
        words += ["--follower", follower.session]
    with log.open("wb") as out:
        process = subprocess.Popen(
            [*words, *options], stdout=out, stderr=subprocess.STDOUT, env=dict(os.environ)
        )
        here = Here(port, servers[0], servers[1:], log, process)
        try:
            _await_ready(here)
            yield here
        finally:
            process.terminate()
            process.wait(20)
            for server in servers:
                server.kill()


def _await_ready(here: Here) -> None:
    end = time.monotonic() + 60
    while b"ready" not in here.log.read_bytes():
        assert here.process.poll() is None and time.monotonic() < end, here.log.read_text()
        time.sleep(0.05)
    while not here.get("/health").told["servers"][0]["restored"]:
        assert time.monotonic() < end, here.log.read_text()
        time.sleep(0.05)
    here.wait()
