"""One connection to a running `serve`, in asyncio: a line is sent, and its reply is read whole."""

from __future__ import annotations

import asyncio
from collections.abc import Callable
from typing import cast

from saminoha_planner.client import (
    Address,
    Answer,
    ClientError,
    Costs,
    Now,
    ProtocolError,
    Query,
    Refusal,
    Reply,
    Request,
    Sizes,
)
from saminoha_planner.client.lines import Replies

MOST_BYTES = 2**26  # of one reply
LONG = 2**16  # bytes of a reply that is parsed beside the loop


class Broken(ClientError):
    """The link is of no further use, and the reply didn't come whole: another link may give it."""


class TooLong(ClientError):
    """The reply has more bytes than are held for one request."""


class Link(asyncio.Protocol):
    """`is_whole` tells whether no reply is under way, so that the link can be used again, and
    `has_ended` whether the server is known to have closed it.
    """

    def __init__(self, criteria: int, ended: Callable[[Link], None] | None = None) -> None:
        self._criteria, self._ended = criteria, ended
        self._transport: asyncio.Transport | None = None
        self._due: asyncio.Future[bytes] | None = None
        self._parts: list[bytes] = []
        self._bytes, self._lines, self._lines_due = 0, 0, 0
        self.is_whole, self.has_ended = True, False
        self.life, self.used = 0, 0.0  # its server's life, and when it was used last

    @staticmethod
    async def open(
        address: Address, sizes: Sizes, ended: Callable[[Link], None] | None = None
    ) -> Link:
        """A link to a server that has a lane for it and serves a network of these sizes. Once it
        has ended, whoever opened it is told.
        """
        link = Link(sizes.criteria, ended)
        try:
            await link._connect(address)
            await link._greet(sizes)
        except OSError as fault:
            raise Broken(f"it can't be reached: {fault.strerror or fault}") from fault
        except BaseException:
            link.close()
            raise
        return link

    async def _connect(self, address: Address) -> None:
        loop = asyncio.get_running_loop()
        if address.file is None:
            await loop.create_connection(lambda: self, *address)
        else:
            await loop.create_unix_connection(lambda: self, address.file)

    async def _greet(self, sizes: Sizes) -> None:
        last = sizes.nodes
        try:
            inner = await self.ask(Query(last, last, (None,) * sizes.criteria))
            outer = await self.ask(Costs(last + 1, last + 1))
        except ProtocolError as fault:
            raise Broken(f"it serves another network: {fault}") from fault
        if not isinstance(inner, Answer) or not isinstance(outer, Refusal):
            raise Broken(f"it serves another network, which hasn't {last} nodes")

    async def epoch(self) -> int:
        reply = await self.ask(Now())
        assert not isinstance(reply, Answer | Refusal)
        return reply.number

    async def ask(self, request: Request) -> Reply:
        if self.has_ended or not self._transport:
            raise Broken("the link has ended")
        self.is_whole = False
        self._due = asyncio.get_running_loop().create_future()
        self._transport.write(request.line.encode("ascii") + b"\n")
        text = await self._due
        self.is_whole = True
        if len(text) > LONG:
            return await asyncio.to_thread(self._parsed, text, request)
        return self._parsed(text, request)

    def _parsed(self, text: bytes, request: Request) -> Reply:
        try:
            lines = text.decode("ascii").splitlines()
            return Replies(iter(lines), self._criteria).reply_to(request)
        except ValueError as fault:
            raise ProtocolError(f"to {request.line!r} came what is no reply") from fault

    def close(self) -> None:
        """At once: what was sent and not replied to is given up."""
        self.is_whole, self._ended = False, None
        self._abort()

    def _abort(self) -> None:
        if self._transport:
            self._transport.abort()

    # What asyncio calls.

    def connection_made(self, transport: asyncio.BaseTransport) -> None:
        self._transport = cast(asyncio.Transport, transport)

    def data_received(self, data: bytes) -> None:
        """A reply is whole with its first line and as many more as that announces."""
        self._parts.append(data)
        self._bytes += len(data)
        self._lines += data.count(b"\n")
        if not self._lines_due and self._lines:
            self._lines_due = 1 + announced(b"".join(self._parts))
        if self._bytes > MOST_BYTES:
            self._ended = None
            self._fail(TooLong(f"the answer has more than {MOST_BYTES} bytes"))
        elif self._lines_due and self._lines >= self._lines_due:
            self._hand_over()

    def _hand_over(self) -> None:
        text, lines = b"".join(self._parts), self._lines
        due, is_exact = self._due, lines == self._lines_due and text.endswith(b"\n")
        self._parts, self._bytes, self._lines, self._lines_due = [], 0, 0, 0
        self._due = None
        if due is None or not is_exact:
            self._due = due
            self._fail(Broken("more came than was asked for"))
        elif not due.done():
            due.set_result(text)

    def _fail(self, fault: ClientError) -> None:
        due, self._due = self._due, None
        if due is not None and not due.done():
            due.set_exception(fault)
        self._parts = []
        self._abort()

    def connection_lost(self, fault: Exception | None) -> None:
        self.has_ended = True
        self._fail(Broken(f"the link broke: {fault}" if fault else "the link ended"))
        if self._ended:
            self._ended(self)


def announced(text: bytes) -> int:
    """How many lines follow the first one."""
    words = text.partition(b"\n")[0].split()
    is_answer = words and words[0] in (b"r", b"l") and words[-1].isdigit()
    return int(words[-1]) if is_answer else 0
