"""The addresses of a server, and a server that the program runs for as long as a block takes."""

from __future__ import annotations

import socket
import subprocess
from collections.abc import Iterator, Sequence
from contextlib import contextmanager
from dataclasses import dataclass
from typing import NamedTuple

from .lines import ProgramFailed

SECONDS_TO_END = 5.0
SOCKET_FILE = "unix:"


class Address(NamedTuple):
    """Where a server listens: a host and a port, or `unix:PATH`, a socket file, without one."""

    host: str
    port: int = 0

    @property
    def file(self) -> str | None:
        """The path of its socket file, if it has one."""
        is_file = self.host.startswith(SOCKET_FILE)
        return self.host.removeprefix(SOCKET_FILE) if is_file else None

    def __str__(self) -> str:
        return f"{self.host}:{self.port}" if self.file is None else self.host

    def connect(self, timeout: float | None) -> socket.socket:
        if self.file is None:
            return socket.create_connection(self, timeout)
        link = socket.socket(socket.AF_UNIX)
        try:
            link.settimeout(timeout)
            link.connect(self.file)
        except BaseException:
            link.close()
            raise
        return link


@dataclass(frozen=True)
class Server:
    """Where sessions and the operator are served; the process where it was started here."""

    host: str
    port: int
    operator_port: int
    process: subprocess.Popen[str] | None = None


@contextmanager
def serving(words: Sequence[str], host: str, ports: Sequence[int], lanes: int) -> Iterator[Server]:
    """The server that these words of a command start on the two ports, ended with the block.
    `ProgramFailed` is raised where it isn't ready.
    """
    with subprocess.Popen(
        words, stdout=subprocess.PIPE, stderr=subprocess.PIPE, text=True
    ) as process:
        try:
            ready = process.stdout.readline().split() if process.stdout else []
            if ready != ["ready", str(lanes)]:
                process.kill()
                _, note = process.communicate()
                raise ProgramFailed(process.returncode, note)
            yield Server(host, ports[0], ports[1], process)
        finally:
            _end(process)


def _end(process: subprocess.Popen[str]) -> None:
    process.terminate()
    try:
        process.wait(SECONDS_TO_END)
    except subprocess.TimeoutExpired:
        process.kill()


def free_ports(host: str, count: int) -> list[int]:
    sockets = [socket.create_server((host, 0)) for _ in range(count)]
    ports: list[int] = [one.getsockname()[1] for one in sockets]
    for one in sockets:
        one.close()
    return ports


def parse_address(text: str) -> Address:
    """HOST:PORT, a port of this machine alone, or `unix:PATH`."""
    if text.startswith(SOCKET_FILE) and text != SOCKET_FILE:
        return Address(text)
    host, _, port = text.rpartition(":")
    if not port.isdecimal() or not 0 < int(port) < 65536:
        raise ValueError(f"{text!r} is no address HOST:PORT or unix:PATH")
    return Address(host.strip("[]") or "127.0.0.1", int(port))
