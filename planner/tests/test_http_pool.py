"""The pool over servers drawn here: slow ones, some that break off, some with few lanes."""

from __future__ import annotations

import asyncio
from collections.abc import Callable, Coroutine
from contextlib import AsyncExitStack
from dataclasses import dataclass, field

import pytest

from saminoha_http.pool import Pool
from saminoha_http.servers import Busy, Limits
from saminoha_planner.client import Address, Answer, Now, Query, Route, Sizes, TimedOut

SIZES = Sizes(9, 20, 2)
ASKED = Query(1, 2)
ROUTES = (Route((1, 5), (3,)), Route((2, 4), (4, 5)))


@dataclass
class Drawn:
    """Speaks a server's lines; `cuts` is how many replies it breaks off."""

    delay: float = 0.0
    lanes: int = 8
    cuts: int = 0
    epoch: int = 0
    asked: int = 0
    port: int = 0
    writers: set[asyncio.StreamWriter] = field(default_factory=set)
    gate: asyncio.Semaphore = field(default_factory=lambda: asyncio.Semaphore(8))

    async def __aenter__(self) -> Drawn:
        self.gate = asyncio.Semaphore(self.lanes)
        self.server = await asyncio.start_server(self.serve, "127.0.0.1", self.port)
        self.port = self.server.sockets[0].getsockname()[1]
        return self

    async def __aexit__(self, *_: object) -> None:
        self.end()
        await self.server.wait_closed()

    def end(self) -> None:
        for writer in self.writers:
            writer.transport.abort()
        self.writers.clear()
        self.server.close()

    async def begin_anew(self, epoch: int) -> None:
        """As a program that is killed and started again."""
        self.end()
        await self.server.wait_closed()
        self.epoch = epoch
        await self.__aenter__()

    @property
    def address(self) -> Address:
        return Address("127.0.0.1", self.port)

    async def serve(self, reader: asyncio.StreamReader, writer: asyncio.StreamWriter) -> None:
        self.writers.add(writer)
        async with self.gate:
            while line := (await reader.readline()).decode().split():
                match line:
                    case ["h", *_]:
                        writer.write(b"l %d 9 9 - - 1\np 0 0 0\n" % self.epoch)
                    case ["c", *_]:
                        writer.write(b"x %d 10 10 node\n" % self.epoch)
                    case ["e"]:
                        writer.write(b"k %d\n" % self.epoch)
                    case _:
                        self.asked += 1
                        await asyncio.sleep(self.delay)
                        writer.write(b"r %d 1 2 2\np 1 5 1 3\n" % self.epoch)
                        if self.cuts:
                            self.cuts -= 1
                            break
                        writer.write(b"p 2 4 2 4 5\n")
            writer.close()


def over(servers: list[Drawn], work: Callable[[Pool], Coroutine], **limits: float) -> None:
    """Runs the work over a pool of these servers, all of which answer."""

    async def run() -> None:
        async with AsyncExitStack() as until:
            for server in servers:
                await until.enter_async_context(server)
            addresses = [server.address for server in servers]
            pool = await until.enter_async_context(Pool(addresses, SIZES, Limits(**limits)))
            while not all(one.is_up for one in pool.servers):
                await asyncio.sleep(0.01)
            await work(pool)

    asyncio.run(run())


def whole(answer: object) -> bool:
    return isinstance(answer, Answer) and answer.routes == ROUTES


async def together(asked: list[Coroutine]) -> list[object]:
    return await asyncio.gather(*asked, return_exceptions=True)


def test_links_are_shared():
    """As many requests as there are links are under way, and all are answered."""
    server = Drawn(delay=0.05, lanes=3)

    async def work(pool):
        answers = await together([pool.ask(ASKED) for _ in range(30)])
        assert all(map(whole, answers)) and server.asked == 30
        assert pool.leader.busy == 0 and len(pool.leader.idle) <= 3 and pool.queue == 0

    over([server], work, links=3)


def test_the_queue_has_a_bound_and_a_time():
    server = Drawn(delay=0.4)

    async def work(pool):
        replies = await together([pool.ask(ASKED) for _ in range(6)])
        told = [str(one) for one in replies if isinstance(one, Busy)]
        assert whole(replies[0]) and len(told) == 5
        assert sum("wait for a link already" in text for text in told) == 3
        assert sum("no link came free in 0.2 s" in text for text in told) == 2
        assert whole(await pool.ask(ASKED)) and pool.leader.busy == 0 and pool.queue == 0

    over([server], work, links=1, queue=2, queue_time=0.2)


def test_a_link_that_breaks_within_a_reply():
    """The request is asked once more, by the other server."""
    servers = [Drawn(cuts=5), Drawn(cuts=0)]

    async def work(pool):
        answers = [await pool.ask(ASKED) for _ in range(8)]
        assert all(map(whole, answers)) and pool.retried >= 1
        assert pool.retried == 5 - servers[0].cuts

    over(servers, work)


def test_all_links_break():
    async def work(pool):
        with pytest.raises(Busy, match="two links broke"):
            await pool.ask(ASKED)
        assert whole(await pool.ask(ASKED)) and pool.leader.busy == 0

    over([Drawn(cuts=2)], work)


def test_a_reply_that_takes_too_long():
    """Its link is thrown away, and isn't asked again."""
    server = Drawn(delay=0.5)

    async def work(pool):
        with pytest.raises(TimedOut):
            await pool.ask(ASKED)
        assert server.asked == 1 and pool.leader.busy == 0 and not pool.leader.idle

    over([server], work, answer_time=0.1)


def test_who_goes_away_frees_its_link():
    server = Drawn(delay=0.2)

    async def work(pool):
        gone = [asyncio.create_task(pool.ask(ASKED)) for _ in range(4)]
        await asyncio.sleep(0.05)
        for task in gone:
            task.cancel()
        await asyncio.gather(*gone, return_exceptions=True)
        assert pool.leader.busy == 0 and pool.queue == 0
        assert whole(await pool.ask(ASKED))

    over([server], work, links=2)


def test_fewer_lanes_than_links():
    """The pool makes do with those that there are."""
    server = Drawn(delay=0.05, lanes=2)

    async def work(pool):
        answers = await together([pool.ask(ASKED) for _ in range(20)])
        assert all(map(whole, answers)) and pool.leader.is_up and pool.leader.room == 2

    over([server], work, links=4, open_time=0.3)


def test_followers_that_differ():
    servers = [Drawn(epoch=3), Drawn(epoch=2), Drawn(epoch=4)]

    async def work(pool):
        await asyncio.sleep(0.4)
        assert [pool.is_stale(one) for one in pool.servers] == [False, True, True]
        before = servers[0].asked
        await together([pool.ask(ASKED) for _ in range(5)])
        assert servers[0].asked == before + 5 and pool.epoch == 3

    over(servers, work, stale=0.2)


async def until(condition: Callable[[], bool]) -> None:
    async with asyncio.timeout(10):
        while not condition():
            await asyncio.sleep(0.01)


def test_a_server_that_goes_back():
    """It isn't asked before it is where it was, or it is said that the numbers begin anew."""
    server = Drawn(epoch=7)

    async def work(pool):
        assert whole(await pool.ask(ASKED)) and pool.leader.life == 1
        await server.begin_anew(epoch=2)
        with pytest.raises(Busy, match="no server answers"):
            await pool.ask(ASKED)
        assert pool.leader.is_up and pool.leader.is_behind and not pool.is_ready
        server.epoch = 7
        await until(lambda: pool.is_ready)
        assert (await pool.ask(ASKED)).epoch == 7
        await server.begin_anew(epoch=1)
        await until(lambda: pool.leader.is_up and pool.leader.is_behind)
        pool.begin_anew()
        assert (await pool.ask(ASKED)).epoch == 1

    over([server], work, queue_time=0.5)


def test_a_follower_that_comes_again():
    """It isn't asked before it is where the leader was as it came."""
    servers = [Drawn(epoch=5), Drawn(epoch=5)]

    async def work(pool):
        await servers[1].begin_anew(epoch=0)
        await until(lambda: pool.servers[1].life == 2)
        before = servers[1].asked
        await together([pool.ask(ASKED) for _ in range(10)])
        assert servers[1].asked == before and not pool.is_usable(pool.servers[1])
        servers[1].epoch = 5
        await until(lambda: pool.is_usable(pool.servers[1]))

    over(servers, work)


def test_a_leader_that_is_not_restored():
    """The keeper asks it; others wait until it tells that what is closed is closed."""
    server = Drawn(epoch=0)

    async def work(pool):
        lives = []
        pool.has_keeper, pool.leader_came = True, lambda: lives.append(pool.leader.life)
        await server.begin_anew(epoch=0)
        asked = asyncio.create_task(pool.ask(ASKED))
        await until(lambda: pool.leader.life == 2)
        assert not pool.is_ready and (await pool.ask(Now(), only_leader=True)).number == 0
        pool.restored(1, 0)
        assert not pool.is_ready and not asked.done()
        server.epoch = 1
        pool.restored(2, 1)
        assert (await asked).epoch == 1 and lives == [2]

    over([server], work)


def test_a_search_of_an_earlier_epoch():
    """An answer that comes late names the epoch at which it was begun, and is no server's end."""
    server = Drawn(epoch=3)

    async def work(pool):
        assert (await pool.ask(ASKED)).epoch == 3
        pool.leader.named(4)
        server.epoch = 3
        assert (await pool.ask(ASKED)).epoch == 3 and pool.leader.life == 1

    over([server], work)
