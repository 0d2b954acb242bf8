"""Who answers the page: a running server, one that starts beside the page, or one run of the
program for each query.
"""

from __future__ import annotations

import threading
import time
from collections.abc import Sequence
from contextlib import ExitStack
from dataclasses import dataclass, field, replace
from typing import Protocol

from .client import (
    Address,
    Answer,
    Change,
    ClientError,
    Operator,
    Program,
    Publish,
    Query,
    Session,
    SetArc,
    Wait,
    answered,
)
from .network import Network

OWN_LANES = 3  # one for who watches, and two that search


class Asker(Protocol):
    """`starting` is how many seconds the asker has been starting, and None once it answers."""

    @property
    def can_change(self) -> bool:
        ...

    @property
    def is_own(self) -> bool:
        ...

    @property
    def starting(self) -> float | None:
        ...

    def epoch(self) -> int:
        ...

    def query(self, source: int, target: int) -> Answer:
        ...

    def publish(self, changes: Sequence[Change]) -> int:
        ...


@dataclass
class ServerAsker:
    """Each query has a session of its own, so that a lane isn't kept from others."""

    session: Address
    operator: Address | None = None
    timeout: float = 60.0
    is_own: bool = False
    starting: float | None = None

    @property
    def can_change(self) -> bool:
        return self.operator is not None

    def epoch(self) -> int:
        with Session(*self.session, timeout=min(self.timeout, 5.0)) as session:
            return session.epoch()

    def query(self, source: int, target: int) -> Answer:
        with Session(*self.session, timeout=self.timeout) as session:
            return session.query(source, target)

    def publish(self, changes: Sequence[Change]) -> int:
        assert self.operator
        with Operator(*self.operator, timeout=self.timeout) as operator:
            for change in changes:
                operator.order(change)
            return operator.publish()


class OwnServer:
    """A server of the page's own: it starts beside the page, and ends with the block."""

    can_change = True
    is_own = True

    def __init__(self, program: Program, network: Network, timeout: float) -> None:
        self._program, self._files, self._timeout = program, network.files, timeout
        self._begun, self._ready, self._until = time.monotonic(), threading.Event(), ExitStack()
        self._asker: ServerAsker | None = None
        self._fault: ClientError | None = None
        threading.Thread(target=self._start, daemon=True).start()

    def __enter__(self) -> OwnServer:
        return self

    def __exit__(self, *_: object) -> None:
        self._ready.wait(1.0)
        self._until.close()

    def _start(self) -> None:
        try:
            started = self._program.serve(self._files, lanes=OWN_LANES)
            server = self._until.enter_context(started)
            ports = (server.port, server.operator_port)
            session, operator = (Address(server.host, port) for port in ports)
            self._asker = ServerAsker(session, operator, self._timeout, is_own=True)
        except ClientError as fault:
            self._fault = fault
        self._ready.set()

    @property
    def starting(self) -> float | None:
        return None if self._ready.is_set() else time.monotonic() - self._begun

    @property
    def _server(self) -> ServerAsker:
        self._ready.wait()
        if self._fault:
            raise self._fault
        assert self._asker
        return self._asker

    def epoch(self) -> int:
        return self._server.epoch()

    def query(self, source: int, target: int) -> Answer:
        return self._server.query(source, target)

    def publish(self, changes: Sequence[Change]) -> int:
        return self._server.publish(changes)


@dataclass
class ProgramAsker:
    """Changes are kept here, and told to the program before each query."""

    program: Program
    network: Network
    can_change: bool = True
    is_own: bool = True
    starting: float | None = None
    _epoch: int = 0
    _stands: dict[int, Change] = field(default_factory=dict)
    _lock: threading.Lock = field(default_factory=threading.Lock)

    def epoch(self) -> int:
        return self._epoch

    def query(self, source: int, target: int) -> Answer:
        with self._lock:
            epoch, changes = self._epoch, list(self._stands.values())
        answer = once(self.program, self.network.files, changes, Query(source, target))
        return replace(answer, epoch=epoch)

    def publish(self, changes: Sequence[Change]) -> int:
        with self._lock:
            for change in changes:
                self._stands[change.arc] = change
                if (
                    isinstance(change, SetArc)
                    and change.weights == self.network.arc(change.arc).weights
                ):
                    del self._stands[change.arc]
            self._epoch += 1
            return self._epoch


def once(program: Program, files: Sequence[str], changes: Sequence[Change], query: Query) -> Answer:
    """The answer of one run of the program, after these changes."""
    if not changes:
        return program.query(files, query.source, query.target, query.limits)
    orders = [*changes, Publish()]
    [replies] = program.lanes(files, orders, [[Wait(1), query]]).sessions
    return answered(replies[1])
