"""What the pool knows of each server: its links, its lives, and the epochs that it named."""

from __future__ import annotations

from collections import deque
from dataclasses import dataclass, field

from saminoha_planner.client import Address, ClientError

from .links import Link

MOST_EPOCHS = 1000  # of the leader, whose times are known


class Busy(ClientError):
    """No link came free in time: `seconds` is when to ask again."""

    def __init__(self, text: str, seconds: int = 1) -> None:
        super().__init__(text)
        self.seconds = seconds


@dataclass(frozen=True)
class Limits:
    """Links to each server, requests that wait, and seconds."""

    links: int = 8
    queue: int = 256
    queue_time: float = 5.0
    answer_time: float = 30.0
    open_time: float = 2.0
    stale: float = 10.0


@dataclass
class Backend:
    """A server as the pool sees it: `room` is how many links it had lanes for, `epoch` the
    greatest that it named in this life, and `greatest` in all of them.
    """

    name: str
    address: Address
    room: int
    is_leader: bool = False
    is_up: bool = False
    is_restored: bool = True
    life: int = 0
    epoch: int | None = None
    greatest: int = 0
    floor: int = 0
    busy: int = 0
    idle: list[Link] = field(default_factory=list)
    heard: float = 0.0
    differs_since: float | None = None
    fault: str = "it wasn't asked yet"

    @property
    def opened(self) -> int:
        return self.busy + len(self.idle)

    @property
    def is_behind(self) -> bool:
        """Whether it isn't yet where it was in an earlier life."""
        return self.epoch is not None and self.epoch < self.floor

    def named(self, epoch: int) -> None:
        self.epoch = max(epoch, self.epoch or 0)
        self.greatest = max(epoch, self.greatest)

    def drop_idle(self) -> None:
        for link in self.idle:
            link.close()
        self.idle.clear()


class LeaderEpochs:
    """When the leader's epochs came, which tells since when a follower's is another one."""

    def __init__(self) -> None:
        self._came: deque[tuple[int, float]] = deque(maxlen=MOST_EPOCHS)

    def clear(self) -> None:
        self._came.clear()

    def mind(self, leader: Backend) -> None:
        last = self._came[-1][0] if self._came else None
        if leader.epoch is None or leader.epoch == last:
            return
        if last is not None and leader.epoch < last:
            self.clear()  # it has begun anew
        self._came.append((leader.epoch, leader.heard))

    def since(self, server: Backend) -> float | None:
        if server.epoch is None or not self._came:
            return None
        last = self._came[-1][0]
        if server.epoch == last:
            return None
        if server.epoch > last:
            return server.differs_since or server.heard
        return next(at for epoch, at in self._came if epoch > server.epoch)
