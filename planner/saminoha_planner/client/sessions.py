"""Sessions and the operator's session with a running server, over TCP or by its socket file."""

from __future__ import annotations

from collections.abc import Iterator, Sequence
from contextlib import contextmanager, suppress

from .lines import (
    Answer,
    ClientError,
    Costs,
    Drop,
    Epoch,
    Limits,
    Now,
    Order,
    ProtocolError,
    Publish,
    Query,
    Replies,
    Reply,
    Request,
    SetArc,
    ShutArc,
    StoreClosed,
    TimedOut,
    Wait,
    answered,
)
from .server import Address


class _Link:
    """One connection: a line is sent, and its reply is read whole or the link is closed."""

    def __init__(self, address: Address, timeout: float | None) -> None:
        try:
            self._socket = address.connect(timeout)
        except TimeoutError as late:
            raise TimedOut(f"{address} doesn't answer") from late
        except OSError as fault:
            raise ClientError(f"{address} can't be reached: {fault.strerror or fault}") from fault
        self._file = self._socket.makefile("r", encoding="ascii", newline="\n")
        self.replies = Replies(self._lines(), 0)

    def _lines(self) -> Iterator[str]:
        while line := self._file.readline():
            if not line.endswith("\n"):
                break
            yield line

    @contextmanager
    def exchange(self, line: str) -> Iterator[Replies]:
        try:
            self._socket.sendall(line.encode("ascii") + b"\n")
            yield self.replies
        except TimeoutError as late:
            self.shut_down()
            raise TimedOut(f"no reply to {line!r} in {self._socket.gettimeout()} s") from late
        except OSError as fault:
            self.shut_down()
            raise ClientError(f"the connection broke: {fault.strerror or fault}") from fault
        except ProtocolError:
            self.shut_down()
            raise

    def set_timeout(self, timeout: float | None) -> None:
        self._socket.settimeout(timeout)

    def shut_down(self) -> None:
        self._file.close()
        self._socket.close()

    def close(self) -> None:
        if self._socket.fileno() >= 0:
            with suppress(OSError):
                self._socket.sendall(b"bye\n")
            self.shut_down()


class Session:
    """A session with a running server. `with Session(host, port) as s: s.query(1, 4,
    limits=(None, 7))`. A host `unix:PATH` is a socket file, and has no port.
    """

    def __init__(self, host: str, port: int = 0, timeout: float | None = 60.0) -> None:
        self._link, self._timeout = _Link(Address(host, port), timeout), timeout
        self._criteria = 0

    def __enter__(self) -> Session:
        return self

    def __exit__(self, *_: object) -> None:
        self.close()

    def close(self) -> None:
        self._link.close()

    def query(self, source: int, target: int, limits: Limits | None = None) -> Answer:
        bounds = None if limits is None else tuple(limits)
        return answered(self.request(Query(source, target, bounds)))

    def costs(self, source: int, target: int) -> Answer:
        return answered(self.request(Costs(source, target)))

    def epoch(self) -> int:
        return self._epoch(Now())

    def wait(self, epoch: int, timeout: float | None = None) -> int:
        """Waits until this epoch is published, for the given seconds at most, or as long as the
        session waits for replies.
        """
        self._link.set_timeout(self._timeout if timeout is None else timeout)
        number = self._epoch(Wait(epoch))
        self._link.set_timeout(self._timeout)
        return number

    @property
    def criteria(self) -> int:
        """How many criteria the server's files have."""
        self._learn_criteria()
        return self._criteria

    def _learn_criteria(self) -> None:
        """Only a query with that many bounds is a request there, so this is asked."""
        for count in () if self._criteria else (2, 3, 4):
            with self._link.exchange("l 1 1" + " -" * count) as replies:
                if replies.fields() != ["x", "line"]:
                    replies.fields()
                    self._criteria = replies.criteria = count
                    return
        if not self._criteria:
            raise ProtocolError("the server takes no query with 2 to 4 limits")

    def request(self, request: Request) -> Reply:
        if isinstance(request, Query | Costs):
            self._learn_criteria()
        with self._link.exchange(request.line) as replies:
            return replies.reply_to(request)

    def _epoch(self, request: Now | Wait) -> int:
        with self._link.exchange(request.line) as replies:
            reply = replies.reply_to_wait(request)
        if reply.closed:
            raise StoreClosed(f"the last epoch is {reply.number}")
        return reply.number


class Operator:
    """The operator's session with a running server. Changes come with the next `publish`, all at
    once. A host `unix:PATH` is a socket file, and has no port.
    """

    def __init__(self, host: str, port: int = 0, timeout: float | None = 60.0) -> None:
        self._link = _Link(Address(host, port), timeout)

    def __enter__(self) -> Operator:
        return self

    def __exit__(self, *_: object) -> None:
        self.close()

    def close(self) -> None:
        self._link.close()

    def set(self, arc: int, weights: Sequence[int]) -> None:
        self.order(SetArc(arc, tuple(weights)))

    def shut(self, arc: int) -> None:
        self.order(ShutArc(arc))

    def drop(self) -> None:
        self.order(Drop())

    def publish(self) -> int:
        epoch = self.order(Publish())
        assert epoch is not None
        return epoch.number

    def order(self, order: Order) -> Epoch | None:
        with self._link.exchange(order.line) as replies:
            return replies.reply_to_order(order)
