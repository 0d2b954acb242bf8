"""The links to a leader and its followers, shared by all requests.

A request takes a link for its lines and gives it back. Where none is free it waits in a queue
that has a bound and a time. A server that is gone is left out and tried again, after pauses that
grow; one whose epoch stays other than the leader's is left out as well.

A server that begins anew has its files alone, and numbers its epochs from the beginning. So a link
that ends by itself ends the server's *life*, and in the next one nobody is asked before he is at
his *floor*: the epoch where he was, and for a follower the one where the leader was. Where a
keeper publishes closures, a leader isn't asked either before that has looked at this life.
"""

from __future__ import annotations

import asyncio
import logging
import time
from collections import deque
from collections.abc import AsyncIterator, Callable, Coroutine, Sequence
from contextlib import asynccontextmanager
from dataclasses import dataclass

from saminoha_planner.client import (
    Address,
    Answer,
    ClientError,
    Epoch,
    ProtocolError,
    Refusal,
    Reply,
    Request,
    Sizes,
    TimedOut,
)

from .links import Broken, Link
from .servers import Backend, Busy, LeaderEpochs, Limits

LOG = logging.getLogger("saminoha.pool")
FIRST_PAUSE, LONGEST_PAUSE = 0.1, 10.0  # seconds before a server that is gone is tried again
WATCH = 1.0  # seconds between looks at servers that nobody asks
FULL = 30.0  # seconds until a server that had no lane left is asked for one again
IDLE = 300.0  # seconds until a link that nobody uses is closed; servers end such after ten minutes


@dataclass
class Waiter:
    place: asyncio.Future[Backend]
    only_leader: bool


class Pool:
    """The first address is the leader's."""

    def __init__(
        self, addresses: Sequence[Address], sizes: Sizes, limits: Limits | None = None
    ) -> None:
        self.limits = limits or Limits()
        self.sizes = sizes
        self.servers = [
            Backend(f"follower {at}" if at else "leader", address, self.limits.links, not at)
            for at, address in enumerate(addresses)
        ]
        self.retried = 0
        self.has_keeper = False
        self.leader_came: Callable[[], None] = lambda: None
        self._waiting: deque[Waiter] = deque()
        self._leader_epochs = LeaderEpochs()
        self._tasks: set[asyncio.Task[None]] = set()

    async def __aenter__(self) -> Pool:
        for server in self.servers:
            self._begin(self._revive(server))
        self._begin(self._watch())
        return self

    async def __aexit__(self, *_: object) -> None:
        for task in self._tasks:
            task.cancel()
        await asyncio.gather(*self._tasks, return_exceptions=True)
        for server in self.servers:
            server.drop_idle()

    # What others ask of it.

    @property
    def leader(self) -> Backend:
        return self.servers[0]

    @property
    def queue(self) -> int:
        return len(self._waiting)

    @property
    def epoch(self) -> int | None:
        """The latest that a server in use has told of: the leader's, where it answers."""
        if self.is_usable(self.leader):
            return self.leader.epoch
        usable = filter(self.is_usable, self.servers)
        return max((one.epoch for one in usable if one.epoch is not None), default=None)

    @property
    def is_ready(self) -> bool:
        return any(self.is_usable(server) for server in self.servers)

    def is_usable(self, server: Backend) -> bool:
        if not server.is_up or server.is_behind:
            return False
        return server.is_restored if server.is_leader else not self.is_stale(server)

    def is_stale(self, server: Backend) -> bool:
        since = server.differs_since
        if since is None or server.is_leader or not self.is_usable(self.leader):
            return False
        return time.monotonic() - since > self.limits.stale

    async def ask(self, request: Request, only_leader: bool = False) -> Reply:
        """The reply; where a link breaks, the request is asked once more, by another server if
        there is one.
        """
        broken: list[Backend] = []
        try:
            return await self._ask(request, only_leader, broken)
        except Broken:
            self.retried += 1
        try:
            return await self._ask(request, only_leader, broken)
        except Broken as fault:
            raise Busy(f"two links broke: {fault}") from fault

    async def _ask(self, request: Request, only_leader: bool, broken: list[Backend]) -> Reply:
        async with self._lease(only_leader, broken) as (server, link):
            try:
                async with asyncio.timeout(self.limits.answer_time):
                    reply = await link.ask(request)
            except TimeoutError:
                raise TimedOut(f"no reply in {self.limits.answer_time:g} s") from None
            except (Broken, ProtocolError) as fault:
                link.close()
                broken.append(server)
                self._end_life(server, link, str(fault))
                raise Broken(str(fault)) from fault
            self._heard(server, reply)
            return reply

    # What a keeper of closures and who runs the service tell.

    def restored(self, life: int, epoch: int) -> None:
        """In this life of the leader all stands that is to stand."""
        if self.leader.life == life and self.leader.is_up:
            self.leader.is_restored = True
            self.leader.named(epoch)
            self._mind_epoch(self.leader)
            self._serve_waiting()

    def begin_anew(self) -> None:
        """The numbers of epochs have begun anew: what servers name now is right."""
        self._leader_epochs.clear()
        for server in self.servers:
            server.greatest, server.floor = server.epoch or 0, 0
            server.differs_since = None
        self._serve_waiting()

    # Links.

    @asynccontextmanager
    async def _lease(
        self, only_leader: bool, avoided: Sequence[Backend]
    ) -> AsyncIterator[tuple[Backend, Link]]:
        deadline = time.monotonic() + self.limits.queue_time
        while True:
            server = await self._place(only_leader, avoided, deadline)
            try:
                link = await self._link(server)
                if self._is_fit(server, only_leader):
                    break
                self._keep(server, link)
                self._free(server)
            except Broken as fault:
                self._free(server)
                LOG.info("%s: %s", server.name, fault)
            except BaseException:
                self._free(server)
                raise
        try:
            yield server, link
        finally:
            self._keep(server, link)
            self._free(server)

    async def _place(
        self, only_leader: bool, avoided: Sequence[Backend], deadline: float
    ) -> Backend:
        """A server with a place for a link, which is this request's until it is freed."""
        if server := self._best(only_leader, avoided):
            server.busy += 1
            return server
        if len(self._waiting) >= self.limits.queue:
            raise Busy(f"{len(self._waiting)} requests wait for a link already")
        waiter = Waiter(asyncio.get_running_loop().create_future(), only_leader)
        if only_leader:
            self._waiting.appendleft(waiter)  # the keeper doesn't stand behind all others
        else:
            self._waiting.append(waiter)
        try:
            async with asyncio.timeout(max(0.0, deadline - time.monotonic())):
                return await waiter.place
        except BaseException as fault:
            self._leave(waiter)
            if isinstance(fault, TimeoutError):
                raise Busy(self._why_late()) from None
            raise

    def _leave(self, waiter: Waiter) -> None:
        """What had come to the waiter as it left goes to the next one."""
        if waiter in self._waiting:
            self._waiting.remove(waiter)
        if waiter.place.done() and not waiter.place.cancelled():
            self._free(waiter.place.result())

    def _why_late(self) -> str:
        if not self.is_ready:
            return "no server answers"
        return f"no link came free in {self.limits.queue_time:g} s"

    def _best(self, only_leader: bool, avoided: Sequence[Backend] = ()) -> Backend | None:
        """The server with the least share of its links in use, of those that weren't avoided if
        there is one.
        """
        found = [one for one in self.servers if self._has_place(one, only_leader)]

        def rank(one: Backend) -> tuple[bool, float, int]:
            return one in avoided, one.busy / one.room, -len(one.idle)

        return min(found, key=rank) if found else None

    def _has_place(self, server: Backend, only_leader: bool) -> bool:
        return server.busy < server.room and self._is_fit(server, only_leader)

    def _is_fit(self, server: Backend, only_leader: bool) -> bool:
        """The keeper, who asks the leader alone, also asks one that isn't restored."""
        return server.is_leader and server.is_up if only_leader else self.is_usable(server)

    def _free(self, server: Backend) -> None:
        server.busy -= 1
        self._serve_waiting()

    def _serve_waiting(self) -> None:
        """Free places go to who waits, in the order in which they came."""
        for waiter in list(self._waiting):
            server = self._best(waiter.only_leader)
            if server is None and not waiter.only_leader:
                break
            if server:
                self._waiting.remove(waiter)
                if not waiter.place.done():
                    server.busy += 1
                    waiter.place.set_result(server)

    async def _link(self, server: Backend) -> Link:
        """One that idles, or a new one for the place that was taken."""
        while server.idle:
            link = server.idle.pop()
            if not link.has_ended:
                return link
        life = server.life
        try:
            link = await self._open(server)
        except TimedOut as late:
            if server.opened > 1:  # the others work: it has no lane left
                self._narrow(server)
            else:
                self._leave_out(server, str(late), life)
            raise Broken(str(late)) from late
        except Broken as fault:
            self._leave_out(server, str(fault), life)
            raise
        if not server.is_up or server.life != life:
            link.close()
            raise Broken("it was left out meanwhile")
        return link

    def _keep(self, server: Backend, link: Link) -> None:
        if link.is_whole and server.is_up and link.life == server.life:
            link.used = time.monotonic()
            server.idle.append(link)
        else:
            link.close()

    async def _open(self, server: Backend) -> Link:
        def ended(link: Link) -> None:
            self._end_life(server, link, "a link ended")

        try:
            async with asyncio.timeout(self.limits.open_time):
                link = await Link.open(server.address, self.sizes, ended)
                epoch = await link.epoch()
        except TimeoutError:
            raise TimedOut("it gives no lane") from None
        link.life = server.life
        if server.is_up and epoch < (server.epoch or 0):
            link.close()
            raise Broken(f"it has begun anew, at epoch {epoch}")
        server.named(epoch)
        self._mind_epoch(server)
        return link

    def _narrow(self, server: Backend) -> None:
        server.room = max(1, server.opened - 1)
        LOG.warning("%s has lanes for %d links alone", server.name, server.room)
        asyncio.get_running_loop().call_later(FULL, self._widen, server)

    def _widen(self, server: Backend) -> None:
        server.room = self.limits.links
        self._serve_waiting()

    # Servers that are gone, and come again.

    def _leave_out(self, server: Backend, why: str, life: int) -> None:
        """Whatever was learned of an earlier life says nothing of this one."""
        if server.is_up and server.life == life:
            LOG.warning("%s is left out: %s", server.name, why)
            server.is_up, server.fault, server.epoch = False, why, None
            server.drop_idle()
            self._begin(self._revive(server))

    def _end_life(self, server: Backend, link: Link, why: str) -> None:
        """A link that ended by itself may have been the server's end."""
        if link in server.idle:
            server.idle.remove(link)
        self._leave_out(server, why, link.life)

    async def _revive(self, server: Backend) -> None:
        pause = FIRST_PAUSE
        while not server.is_up:
            try:
                link = await self._open(server)
            except ClientError as fault:
                server.fault, server.epoch = str(fault), None
                await asyncio.sleep(pause)
                pause = min(2 * pause, LONGEST_PAUSE)
            else:
                self._begin_life(server, link)

    def _begin_life(self, server: Backend, link: Link) -> None:
        server.life += 1
        server.is_up, server.fault, server.room = True, "", self.limits.links
        server.floor = max(server.greatest, self.leader.greatest)
        server.is_restored = not (server.is_leader and self.has_keeper)
        link.life = server.life
        self._keep(server, link)
        LOG.info("%s answers, at epoch %s", server.name, server.epoch)
        if server.is_behind:
            LOG.warning("%s isn't asked before it is at epoch %s", server.name, server.floor)
        self._mind_epoch(server)
        if server.is_leader:
            self.leader_came()
        self._serve_waiting()

    async def _watch(self) -> None:
        """Servers that nobody asked of late are asked for their epoch, so that what is gone or
        stale is known, and links that idle too long are closed.
        """
        while True:
            await asyncio.sleep(WATCH)
            now = time.monotonic()
            due = [one for one in self.servers if one.is_up and now - one.heard >= WATCH]
            await asyncio.gather(*map(self._look, due))
            for server in self.servers:
                self._close_unused(server, now)
            self._serve_waiting()

    def _close_unused(self, server: Backend, now: float) -> None:
        for link in [one for one in server.idle if now - one.used > IDLE]:
            server.idle.remove(link)
            link.close()

    async def _look(self, server: Backend) -> None:
        if server.busy >= server.room:
            return
        server.busy += 1
        try:
            link = await self._link(server)
            try:
                async with asyncio.timeout(self.limits.open_time):
                    epoch = await link.epoch()
                self._keep(server, link)
                self._heard(server, Epoch(epoch))
            except (Broken, ProtocolError, TimeoutError) as fault:
                link.close()
                self._leave_out(server, str(fault) or "it doesn't answer", link.life)
        except Broken as fault:
            LOG.info("%s: %s", server.name, fault)
        finally:
            self._free(server)

    def _begin(self, work: Coroutine[object, object, None]) -> None:
        task = asyncio.get_running_loop().create_task(work)
        self._tasks.add(task)
        task.add_done_callback(self._tasks.discard)

    # Epochs.

    def _heard(self, server: Backend, reply: Reply) -> None:
        """A search may have begun at an epoch before the latest; who is asked for his epoch tells
        the latest.
        """
        server.heard = time.monotonic()
        is_search = isinstance(reply, Answer | Refusal)
        epoch = reply.epoch if isinstance(reply, Answer | Refusal) else reply.number
        latest = server.epoch or 0
        if epoch < latest and not is_search:
            self._leave_out(server, f"it has gone back from {latest} to {epoch}", server.life)
        elif epoch > latest or server.differs_since is not None:
            server.named(epoch)
            self._mind_epoch(server)

    def _mind_epoch(self, server: Backend) -> None:
        """Since when the epochs of followers are others than the leader's."""
        server.heard = time.monotonic()
        if server.is_leader:
            self._leader_epochs.mind(server)
        for one in self.servers[1:]:
            one.differs_since = self._leader_epochs.since(one)
