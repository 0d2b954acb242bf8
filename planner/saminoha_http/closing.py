"""Closures by HTTP: the planner's keeper of the log over the pool's leader, and an audit line for
each change.
"""

from __future__ import annotations

import asyncio
import functools
import json
import logging
import threading
from collections.abc import Callable, Mapping, Sequence
from concurrent.futures import ThreadPoolExecutor
from contextlib import suppress
from datetime import datetime
from typing import TypeVar

from saminoha_planner.client import Address, Answer, Change, ClientError, Epoch, Now, Operator
from saminoha_planner.closures import Closure, Log, State
from saminoha_planner.keeper import PAUSE, Keeper
from saminoha_planner.network import Network
from saminoha_planner.roads import Roads
from saminoha_planner.stretches import Piece, Stretches

from .pool import Pool
from .problems import Problem
from .servers import Busy

AUDIT = logging.getLogger("saminoha.audit")
LOG = logging.getLogger("saminoha.closing")
NEAR = 100.0  # metres from a point to the road that it means
T = TypeVar("T")
MOST_CHANGES = 65_536  # that a server keeps pending
MOST_CLIMB = 10_000  # epochs without changes that are published, so that numbers go on
WORDS = {"road", "points", "measure", "reason", "begin", "end"}


class LeaderAsker:
    """What the keeper asks and publishes, from its own thread: the epoch by the pool's links, and
    changes at the operator's address.
    """

    can_change: bool = True
    is_own: bool = False
    starting: float | None = None

    def __init__(self, pool: Pool, operator: Address, loop: asyncio.AbstractEventLoop) -> None:
        self._pool, self._operator, self._loop = pool, operator, loop

    def epoch(self) -> int:
        """Of the leader whose life it was as this was asked."""
        life, asked = self._pool.leader.life, self._pool.ask(Now(), only_leader=True)
        reply = asyncio.run_coroutine_threadsafe(asked, self._loop).result()
        assert isinstance(reply, Epoch)
        if self._pool.leader.life != life:
            raise Busy("the leader came anew meanwhile")
        return reply.number

    def query(self, source: int, target: int) -> Answer:
        raise NotImplementedError("the pool answers queries")

    def publish(self, changes: Sequence[Change]) -> int:
        with Operator(*self._operator, timeout=self._pool.limits.answer_time) as operator:
            for change in changes:
                operator.order(change)
            return operator.publish()

    def climb(self, epoch: int, floor: int) -> int:
        """Publishes epochs without changes, up to a number."""
        with Operator(*self._operator, timeout=self._pool.limits.answer_time) as operator:
            while epoch < floor:
                epoch = operator.publish()
        return epoch


class Restorer:
    """Looks again and again. A leader that came, for the first time or anew, is asked by others
    only once all that is due stands on it. Before that is published, epochs without changes bring
    their numbers to where they were, so that no number comes to mean another thing, and who
    follows the leader goes on; where that is too far, the numbers begin anew.
    """

    def __init__(
        self, keeper: Keeper, asker: LeaderAsker, pool: Pool, loop: asyncio.AbstractEventLoop
    ) -> None:
        self._keeper, self._asker, self._pool, self._loop = keeper, asker, pool, loop
        self._life = 0

    def look(self) -> None:
        life = self._pool.leader.life
        if life == self._life:
            self._keeper.look()
        elif life:
            self._restore(life)

    def _restore(self, life: int) -> None:
        try:
            self._climb(self._asker.epoch(), self._pool.leader.floor)
        except ClientError as fault:
            self._keeper.fault = str(fault)
            return
        self._keeper.forget()
        self._keeper.look()
        epoch = self._keeper.epoch
        if not self._keeper.fault and epoch is not None:
            self._life = life
            self._tell(functools.partial(self._pool.restored, life, epoch))

    def _climb(self, epoch: int, floor: int) -> None:
        if floor - epoch > MOST_CLIMB:
            LOG.warning("the leader's epochs begin anew: they were at %d", floor)
            self._tell(self._pool.begin_anew)
        elif floor > epoch:
            self._keeper.knows(self._asker.climb(epoch, floor))

    def _tell(self, work: Callable[[], None]) -> None:
        with suppress(RuntimeError):  # the loop has ended
            self._loop.call_soon_threadsafe(work)


class Closing:
    """The closures of one network. Whatever publishes does so one after another."""

    def __init__(self, network: Network, roads: Callable[[], Roads], log: Log) -> None:
        self._network, self._roads, self.log = network, roads, log
        self._keeper: Keeper | None = None
        self._pool: Pool | None = None
        self._thread = ThreadPoolExecutor(1, "closures")
        self._woken, self._has_ended = threading.Event(), False

    def begin(self, pool: Pool, operator: Address) -> None:
        """From now on what the log has is published when it is due."""
        loop = asyncio.get_running_loop()
        asker = LeaderAsker(pool, operator, loop)
        self._keeper, self._pool = Keeper(self._network, asker, self.log), pool
        pool.has_keeper, pool.leader.is_restored = True, False
        pool.leader_came = self._woken.set
        words = (Restorer(self._keeper, asker, pool, loop),)
        threading.Thread(target=self._watch, args=words, daemon=True).start()

    def end(self) -> None:
        self._has_ended = True
        self._woken.set()
        self._thread.shutdown(wait=False)

    def _watch(self, restorer: Restorer) -> None:
        while not self._has_ended:
            restorer.look()
            self._woken.wait(PAUSE)
            self._woken.clear()

    @property
    def keeper(self) -> Keeper | None:
        """Who publishes, where an operator's address was given."""
        return self._keeper

    @property
    def told(self) -> dict[str, object]:
        """All that the log has, and how many epochs it doesn't explain."""
        keeper = self._keeper
        return {
            "closures": [told_closure(one) for one in self.log.read()],
            "unexplained_epochs": keeper.unknown if keeper else None,
            "fault": (keeper.fault if keeper else "") or None,
        }

    async def close(self, asked: Mapping[str, object], who: str, peer: str) -> Closure:
        keeper = self._due()
        return await self.add(await self._run(lambda: self._closure(keeper, asked, who)), who, peer)

    async def add(self, closure: Closure, who: str, peer: str) -> Closure:
        keeper = self._due()
        if len(closure.changes) > MOST_CHANGES:
            text = f"{len(closure.changes)} arcs are more than one epoch can change"
            raise Problem("bad-body", text)
        await self._run(lambda: self._publish(keeper, closure))
        found = self._find(closure.name) or closure
        audit("close", who, peer, found)
        return found

    def _publish(self, keeper: Keeper, closure: Closure) -> None:
        """It stands once it is in the log, also where no server answers any more behind that."""
        try:
            keeper.close(closure)
        except ClientError:
            if self._find(closure.name) is None:
                raise

    async def undo(self, name: str, who: str, peer: str) -> Closure:
        keeper = self._due()
        found = self._find(name)
        if found is None:
            raise Problem("no-such-closure", f"there is no closure {name[:40]!r}")
        if found.state() is State.ENDED:
            raise Problem("over", f"closure {name} is over")
        await self._run(lambda: self._lift(keeper, name, who))
        found = self._find(name) or found
        audit("open", who, peer, found)
        return found

    def _lift(self, keeper: Keeper, name: str, who: str) -> None:
        try:
            keeper.undo(name, who)
        except ClientError:
            found = self._find(name)
            if found is None or found.state() is not State.ENDED:
                raise

    def _find(self, name: str) -> Closure | None:
        return next((one for one in self.log.read() if one.name == name), None)

    def _due(self) -> Keeper:
        """The keeper, once all that it had published stands on the leader."""
        if self._keeper is None or self._pool is None:
            raise Problem("no-operator", "no operator's address was given to this service")
        if not self._pool.is_usable(self._pool.leader):
            raise Busy("the leader is gone, or has come anew and isn't restored yet")
        return self._keeper

    async def _run(self, work: Callable[[], T]) -> T:
        return await asyncio.get_running_loop().run_in_executor(self._thread, work)

    def _closure(self, keeper: Keeper, asked: Mapping[str, object], who: str) -> Closure:
        if unknown := set(asked) - WORDS:
            raise Problem(
                "bad-body", f"{min(unknown)[:40]!r} is none of {', '.join(sorted(WORDS))}"
            )
        measure, piece = _text(asked, "measure", 60) or "shut", self._piece(asked)
        arcs = self._roads().arcs(piece.roads)
        closure = Closure(
            road=piece.title,
            measure=measure,
            changes=tuple(keeper.changes(arcs, measure)),
            piece=piece.text,
            reason=_text(asked, "reason", 200),
            author=who,
            begin=_time(asked, "begin"),
            end=_time(asked, "end"),
        )
        if closure.end and closure.end <= (closure.begin or closure.at):
            raise Problem("bad-body", "it would end before it begins")
        return closure

    @functools.cached_property
    def _stretches(self) -> Stretches:
        return Stretches(self._roads())

    def _piece(self, asked: Mapping[str, object]) -> Piece:
        """A road by its name, or what lies at a point, or between two."""
        if ("road" in asked) == ("points" in asked):
            raise Problem("bad-body", "name a road, or one or two points")
        if "road" in asked:
            return self._stretches.of_road(_text(asked, "road", 100))
        points = _points(asked["points"])
        if len(points) == 2:
            return self._stretches.between(points[0], points[1], NEAR)
        return self._stretches.at(points[0], NEAR)


def told_closure(one: Closure) -> dict[str, object]:
    begin, end = one.begin or one.at, one.lifted or one.end
    return {
        "id": one.name,
        "state": one.state().value,
        "road": one.road,
        "piece": one.piece,
        "measure": one.measure,
        "arcs": len(one.changes),
        "reason": one.reason,
        "author": one.author,
        "begin": begin.isoformat(),
        "end": end.isoformat() if end else None,
        "epoch": one.epoch,
        "lifted_epoch": one.lifted_epoch,
    }


def audit(action: str, who: str, peer: str, closure: Closure) -> None:
    told = {"audit": action, "who": who, "peer": peer} | told_closure(closure)
    AUDIT.info("%s", json.dumps(told))


def _text(asked: Mapping[str, object], name: str, most: int) -> str:
    value = asked.get(name) or ""
    if not isinstance(value, str) or len(value) > most:
        raise Problem("bad-body", f"{name} is a text of {most} letters at most")
    if not value.isprintable():
        raise Problem("bad-body", f"{name} has letters that can't be shown")
    return " ".join(value.split())


def _time(asked: Mapping[str, object], name: str) -> datetime | None:
    value = asked.get(name)
    if value is None:
        return None
    try:
        when = datetime.fromisoformat(str(value))
    except ValueError:
        raise Problem("bad-body", f"{name} is no time as 2026-05-04T07:00:00Z") from None
    if when.tzinfo is None:
        raise Problem("bad-body", f"{name} has no zone")
    return when


def _points(value: object) -> list[tuple[float, float]]:
    """Longitude and latitude of points that are told as [lat, lon]."""
    if not isinstance(value, list) or not 1 <= len(value) <= 2:
        raise Problem("bad-body", "points are one or two of [lat, lon]")
    return [_point(one) for one in value]


def _point(value: object) -> tuple[float, float]:
    match value:
        case [int() | float() as lat, int() | float() as lon] if abs(lat) <= 90 and abs(lon) <= 180:
            return float(lon), float(lat)
    raise Problem("bad-body", "a point is [lat, lon]")
