"""Followers that follow: what is published to a leader comes to them by the program's own feed.

`serve` takes no feed from a link, so this stands between the service and the leader's operator
address. It keeps what was published as an operator's script, has the program write the feed of it
(`follow --write`), and brings each message that a follower lacks to its operator address, in order.
"""

from __future__ import annotations

import socket
import subprocess
import threading
import time
from collections.abc import Iterator, Sequence
from contextlib import suppress
from pathlib import Path
from typing import Protocol

from saminoha_planner.client import ClientError, Program, Session, free_ports

HOST = "127.0.0.1"
PAUSE = 0.05


class Server(Protocol):
    ports: list[int]


class Feeding:
    """`address` is where the service takes the leader's operator to be."""

    def __init__(
        self,
        program: Program,
        files: Sequence[str],
        leader: Server,
        followers: Sequence[Server],
        folder: Path,
    ) -> None:
        self._program, self._files, self._folder = program, files, folder
        self._leader, self._followers = leader, followers
        self._script: list[str] = []
        self._base = self.latest = 0
        self._messages: dict[int, list[str]] = {}
        self._has_ended = False
        [port] = free_ports(HOST, 1)
        self.address = f"{HOST}:{port}"
        self._door = socket.create_server((HOST, port))
        self._threads = [threading.Thread(target=work) for work in (self._serve, self._follow)]

    def __enter__(self) -> Feeding:
        for thread in self._threads:
            thread.start()
        return self

    def __exit__(self, *_: object) -> None:
        self._has_ended = True
        with suppress(OSError):
            self._door.shutdown(socket.SHUT_RDWR)
        self._door.close()
        for thread in self._threads:
            thread.join()

    def _serve(self) -> None:
        while not self._has_ended:
            with suppress(OSError):
                peer, _ = self._door.accept()
                with peer, socket.create_connection((HOST, self._leader.ports[1])) as leader:
                    self._pass_on(peer, leader)

    def _pass_on(self, peer: socket.socket, leader: socket.socket) -> None:
        pending: list[str] = []
        asked, replies = peer.makefile("r"), leader.makefile("r")
        for line in asked:
            leader.sendall(line.encode())
            reply = replies.readline()
            if line.strip() != "publish":
                pending.append(line)
            elif reply.startswith("k "):
                self._published(int(reply.split()[1]), [*pending, line])
                pending = []
            if not reply:
                return
            peer.sendall(reply.encode())

    def _published(self, epoch: int, lines: list[str]) -> None:
        """A leader that began anew has a script that begins anew."""
        if epoch != self._base + self._script.count("publish\n") + 1:
            self._base, self._script = epoch - 1, []
        self._script += lines
        self._messages = dict(self._feed())
        self.latest = epoch

    def _feed(self) -> Iterator[tuple[int, list[str]]]:
        """The operator's lines of each message, by its epoch."""
        script = self._folder / "published"
        script.write_text("".join(self._script))
        words = [self._program.path, "follow", "--write", str(script), "--epoch", str(self._base)]
        told = subprocess.run([*words, *self._files], capture_output=True, text=True, check=True)
        head, *lines = told.stdout.splitlines()
        assert head.startswith("feed ") and head.endswith(f" {self._base}"), head
        message: list[str] = []
        for line in lines:
            if line.startswith("end "):
                yield int(line.split()[1]), message
            elif line.startswith("g "):
                message = []
            else:
                message.append(line)

    def _follow(self) -> None:
        while not self._has_ended:
            for follower in self._followers:
                with suppress(OSError, ClientError, ValueError):
                    self._bring(follower)
            time.sleep(PAUSE)

    def _bring(self, follower: Server) -> None:
        session, operator = follower.ports
        with Session(HOST, session, timeout=2.0) as asked:
            epoch = asked.epoch()
        if epoch >= self.latest:
            return
        with socket.create_connection((HOST, operator), timeout=2.0) as link:
            replies = link.makefile("r")
            while (message := self._messages.get(epoch + 1)) is not None:
                link.sendall("".join(f"{line}\n" for line in [*message, "publish"]).encode())
                told = [replies.readline().strip() for _ in [*message, "publish"]]
                assert told[-1] == f"k {epoch + 1}", told
                epoch += 1
