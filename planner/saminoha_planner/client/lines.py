"""The lines of requests, operators' orders and replies, as `docs/FORMATS.md` has them, as typed
values, and what may go wrong with them.
"""

from __future__ import annotations

from collections.abc import Iterable, Iterator, Sequence
from dataclasses import dataclass, field
from pathlib import Path

Limits = Sequence["int | None"]
REFUSED_STATUS = 8  # the reply is a refusal's line
MEANINGS = {
    1: "there is no program to run",
    2: "the program doesn't know these words",
    3: "a file couldn't be opened or read",
    4: "the program couldn't send its reply",
    5: "a weight file has a faulty line",
    6: "the weight files don't agree",
    7: "the file of pairs has a faulty line, or a script is too long",
    9: "memory ran out",
    10: "the address can't be listened on",
    11: "the certificate has a faulty line",
    12: "the certificate breaks a rule",
}


# What may go wrong.


class ClientError(Exception):
    """What every call here raises, if anything."""


class ProgramFailed(ClientError):
    """The program ended with a status other than 0, or other than 8 where it sent a refusal."""

    def __init__(self, status: int, note: str = "") -> None:
        self.status, self.note = status, note.strip()
        meaning = MEANINGS.get(status, "the program failed")
        super().__init__(f"{meaning} (status {status})" + (f": {self.note}" if self.note else ""))


class ProtocolError(ClientError):
    """The other side sent a line that isn't due."""


class TimedOut(ClientError):
    """No whole reply came in time. A session is closed by it."""


class Refused(ClientError):
    """The query was refused: a node isn't there, or the query passes its budget, which counts
    goal-relevant labels, or of `costs` all relevant ones.
    """

    budget: int | None = None  # the labels that were allowed, where that is known

    def __init__(self, refusal: Refusal) -> None:
        self.refusal = refusal
        reasons = {
            "node": "a node isn't in the network",
            "budget": "the query takes more labels than its budget",
        }
        reason = reasons.get(refusal.reason, refusal.reason)
        super().__init__(f"from {refusal.source} to {refusal.target}: {reason}")


class StoreClosed(ClientError):
    """The operator has gone, so that the epoch that was waited for never comes."""


class OperatorRefused(ClientError):
    """An operator's line was refused: its reason is arc, zero, full, last or line."""

    def __init__(self, reason: str, line: str) -> None:
        self.reason, self.line = reason, line
        super().__init__(f"the operator's line {line!r} was refused: {reason}")


# What is answered.


@dataclass(frozen=True)
class Route:
    """One trade-off: its cost, and the arcs of its walk, or None where only costs were asked
    for.
    """

    cost: tuple[int, ...]
    arcs: tuple[int, ...] | None = None


@dataclass(frozen=True)
class Answer:
    """All trade-offs between two nodes at one epoch, within the limits if there are any."""

    epoch: int
    source: int
    target: int
    routes: tuple[Route, ...]
    limits: tuple[int | None, ...] | None = None


@dataclass(frozen=True)
class Refusal:
    epoch: int
    source: int
    target: int
    reason: str


@dataclass(frozen=True)
class Epoch:
    number: int
    closed: bool = False


@dataclass(frozen=True)
class Sizes:
    nodes: int
    arcs: int
    criteria: int


Reply = Answer | Refusal | Epoch


# What is asked. Each request knows its line.


@dataclass(frozen=True)
class Query:
    """All trade-offs with their walks, by a search toward the target."""

    source: int
    target: int
    limits: tuple[int | None, ...] | None = None

    @property
    def line(self) -> str:
        if self.limits is None:
            return f"g {self.source} {self.target}"
        bounds = " ".join("-" if bound is None else str(bound) for bound in self.limits)
        return f"h {self.source} {self.target} {bounds}"


@dataclass(frozen=True)
class Costs:
    source: int
    target: int

    @property
    def line(self) -> str:
        return f"c {self.source} {self.target}"


@dataclass(frozen=True)
class Wait:
    epoch: int

    @property
    def line(self) -> str:
        return f"w {self.epoch}"


@dataclass(frozen=True)
class Now:
    line: str = field(default="e", init=False)


Request = Query | Costs | Wait | Now


@dataclass(frozen=True)
class SetArc:
    arc: int
    weights: tuple[int, ...]

    @property
    def line(self) -> str:
        return f"s {self.arc} " + " ".join(map(str, self.weights))


@dataclass(frozen=True)
class ShutArc:
    arc: int

    @property
    def line(self) -> str:
        return f"x {self.arc}"


@dataclass(frozen=True)
class Publish:
    line: str = field(default="publish", init=False)


@dataclass(frozen=True)
class Drop:
    line: str = field(default="drop", init=False)


Change = SetArc | ShutArc
Order = SetArc | ShutArc | Publish | Drop


def parse_orders(text: str) -> list[Order]:
    """The operator's lines of a text, up to the first `bye`. A line that is none of them raises
    ValueError.
    """
    orders: list[Order] = []
    for number, line in enumerate(text.splitlines(), start=1):
        match line.split():
            case []:
                continue
            case ["bye"]:
                break
            case ["publish"]:
                orders.append(Publish())
            case ["drop"]:
                orders.append(Drop())
            case ["x", arc] if arc.isdecimal():
                orders.append(ShutArc(int(arc)))
            case ["s", arc, *weights] if all(
                word.isdecimal() for word in [arc, *weights]
            ) and 2 <= len(weights) <= 4:
                orders.append(SetArc(int(arc), tuple(map(int, weights))))
            case _:
                raise ValueError(f"line {number} is no operator's line: {line!r}")
    return orders


# How replies are read.


class Replies:
    """Reads replies off lines, for requests that are known, over so many criteria."""

    def __init__(self, lines: Iterator[str], criteria: int) -> None:
        self._lines, self.criteria = lines, criteria

    def fields(self) -> list[str]:
        line = next(self._lines, None)
        if line is None:
            raise ProtocolError("the replies end too early")
        return line.split()

    def due(self, *words: str) -> None:
        got = self.fields()
        if got != list(words):
            raise ProtocolError(f"{' '.join(words)!r} was due, and {' '.join(got)!r} came")

    def at_end(self) -> bool:
        return next(self._lines, None) is None

    def reply_to(self, request: Request) -> Reply:
        if isinstance(request, Query | Costs):
            return self.reply_to_query(request)
        return self.reply_to_wait(request)

    def reply_to_query(self, request: Query | Costs) -> Answer | Refusal:
        head = self.fields()
        match request, head:
            case _, ["x", epoch, source, target, ("node" | "budget") as reason]:
                reply: Answer | Refusal = Refusal(int(epoch), int(source), int(target), reason)
            case Query(limits=None) | Costs(), ["r", epoch, source, target, count]:
                reply = Answer(int(epoch), int(source), int(target), self._routes(int(count)))
            case Query(), ["l", epoch, source, target, *bounds, count]:
                limits = tuple(None if bound == "-" else int(bound) for bound in bounds)
                routes = self._routes(int(count))
                reply = Answer(int(epoch), int(source), int(target), routes, limits)
            case _:
                raise _not_due(request, head)
        if (reply.source, reply.target) != (request.source, request.target):
            raise _not_due(request, head)
        return reply

    def reply_to_wait(self, request: Wait | Now) -> Epoch:
        head = self.fields()
        match request, head:
            case _, ["k", number]:
                return Epoch(int(number))
            case Wait(), ["x", number, "closed"]:
                return Epoch(int(number), closed=True)
        raise _not_due(request, head)

    def reply_to_order(self, order: Order) -> Epoch | None:
        head = self.fields()
        match order, head:
            case Publish(), ["k", number]:
                return Epoch(int(number))
            case (SetArc() | ShutArc() | Drop()), ["ok"]:
                return None
            case _, ["x", reason]:
                raise OperatorRefused(reason, order.line)
        raise _not_due(order, head)

    def _routes(self, count: int) -> tuple[Route, ...]:
        return tuple(self._route() for _ in range(count))

    def _route(self) -> Route:
        kind, *numbers = self.fields()
        cost, rest = tuple(map(int, numbers[: self.criteria])), numbers[self.criteria :]
        if kind == "v" and not rest:
            return Route(cost)
        if kind == "p" and rest and int(rest[0]) == len(rest) - 1:
            return Route(cost, tuple(map(int, rest[1:])))
        raise ProtocolError(f"a route was due, and {kind} {' '.join(numbers)!r} came")


def _not_due(asked: Request | Order, head: Sequence[str]) -> ProtocolError:
    if list(head) == ["x", "line"]:
        return ProtocolError(f"the server takes {asked.line!r} for no request")
    return ProtocolError(f"to {asked.line!r} came {' '.join(head)!r}")


def answered(reply: Reply) -> Answer:
    """The answer, or `Refused` raised."""
    if isinstance(reply, Refusal):
        raise Refused(reply)
    assert isinstance(reply, Answer)
    return reply


def write_lines(file: Path, asked: Iterable[Request | Order]) -> None:
    file.write_text("".join(one.line + "\n" for one in asked))
