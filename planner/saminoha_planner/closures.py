"""The log of closures in a network's folder, `closures.jsonl`: a line of JSON for each measure
and for each one that was lifted. Tools and pages add lines; none is ever changed.

    {"id": "…", "at": "2026-05-04T07:00:00Z", "road": "Quay", "piece": "…", "measure": "shut",
     "lines": ["x 7", "x 8"], "reason": "…", "author": "…", "begin": null, "end": null,
     "epoch": 3}
    {"lifted": "…", "at": "2026-05-08T16:00:00Z", "author": "…", "epoch": 4}

Times are of UTC. `lines` are the operator's. An epoch is there where the lines were published
already, by who wrote them.

    log = Log(network.folder / LOG)
    log.add(Closure("Quay", "shut", changes, reason="works", author="Ann", end=tomorrow))
    stands = active(log.read())         # by arc; with `when`, at another time
    log.lift(log.read()[0].name, "Ann")
"""

from __future__ import annotations

import fcntl
import json
import secrets
from collections.abc import Sequence
from dataclasses import dataclass, field, replace
from datetime import datetime, timezone
from enum import Enum
from pathlib import Path
from typing import BinaryIO

from .client import Change, Drop, Publish, parse_orders
from .command import Fault

LOG = "closures.jsonl"


class State(Enum):
    PLANNED = "planned"
    ACTIVE = "active"
    ENDED = "ended"


def now() -> datetime:
    return datetime.now(timezone.utc).replace(microsecond=0)


@dataclass(frozen=True)
class Closure:
    """One measure: what it does to which arcs, why, whose it is, and from when to when."""

    road: str
    measure: str
    changes: tuple[Change, ...]
    piece: str = ""
    reason: str = ""
    author: str = ""
    begin: datetime | None = None
    end: datetime | None = None
    epoch: int | None = None
    at: datetime = field(default_factory=now)
    name: str = field(default_factory=lambda: secrets.token_hex(6))
    lifted: datetime | None = None
    lifted_epoch: int | None = None

    @property
    def arcs(self) -> list[int]:
        return [change.arc for change in self.changes]

    def state(self, when: datetime | None = None) -> State:
        when = when or now()
        if self.lifted or (self.end and self.end <= when):
            return State.ENDED
        return State.PLANNED if self.begin and self.begin > when else State.ACTIVE


class Log:
    """A network's log. It may be written to by several at once."""

    def __init__(self, file: Path) -> None:
        self.file = file
        self._read: tuple[tuple[int, int], list[Closure]] = ((-1, -1), [])

    def read(self) -> list[Closure]:
        """All closures in the order of the log. An unfinished last line is none."""
        try:
            stat = self.file.stat()
        except FileNotFoundError:
            return []
        stamp = (stat.st_mtime_ns, stat.st_size)
        if self._read[0] != stamp:
            self._read = (stamp, parse_log(self.file.read_text(), str(self.file)))
        return self._read[1]

    def add(self, closure: Closure) -> None:
        if closure.begin and closure.end and closure.end <= closure.begin:
            raise Fault("a closure ends after it begins")
        self._append(
            {
                "id": closure.name,
                "at": _text(closure.at),
                "road": closure.road,
                "piece": closure.piece,
                "measure": closure.measure,
                "lines": [change.line for change in closure.changes],
                "reason": closure.reason,
                "author": closure.author,
                "begin": _text(closure.begin),
                "end": _text(closure.end),
                "epoch": closure.epoch,
            }
        )

    def lift(self, name: str, author: str = "", epoch: int | None = None) -> None:
        found = [one for one in self.read() if one.name == name]
        if not found:
            raise Fault(f"there is no closure {name}")
        if found[0].state() is not State.ENDED:
            self._append({"lifted": name, "at": _text(now()), "author": author, "epoch": epoch})

    def _append(self, entry: dict[str, object]) -> None:
        line = (json.dumps(entry, ensure_ascii=False) + "\n").encode()
        with self.file.open("a+b") as out:
            fcntl.flock(out, fcntl.LOCK_EX)
            _cut_unfinished(out)
            out.write(line)


def _cut_unfinished(file: BinaryIO) -> None:
    """What a killed writer left behind the last whole line goes."""
    file.seek(0)
    file.truncate(file.read().rfind(b"\n") + 1)


def parse_log(text: str, file: str = "the log") -> list[Closure]:
    closures: dict[str, Closure] = {}
    *lines, unfinished = text.split("\n")
    for number, line in enumerate(lines, start=1):
        try:
            _take(closures, json.loads(line))
        except (ValueError, KeyError, TypeError) as fault:
            raise Fault(f"{file}, line {number}, is no closure: {fault}") from fault
    return list(closures.values())


def active(closures: Sequence[Closure], when: datetime | None = None) -> dict[int, Change]:
    """Of each arc the change that stands then: of several closures the later one's."""
    stands: dict[int, Change] = {}
    for closure in closures:
        if closure.state(when) is State.ACTIVE:
            stands |= {change.arc: change for change in closure.changes}
    return stands


def _take(closures: dict[str, Closure], entry: dict) -> None:
    if name := entry.get("lifted"):
        if name in closures:
            at, epoch = _time(entry["at"]), entry.get("epoch")
            closures[name] = replace(closures[name], lifted=at, lifted_epoch=epoch)
        return
    orders = parse_orders("\n".join(entry["lines"]))
    closures[entry["id"]] = Closure(
        road=entry["road"],
        measure=entry["measure"],
        changes=tuple(one for one in orders if not isinstance(one, Publish | Drop)),
        piece=entry.get("piece", ""),
        reason=entry.get("reason", ""),
        author=entry.get("author", ""),
        begin=_time(entry.get("begin")),
        end=_time(entry.get("end")),
        epoch=entry.get("epoch"),
        at=_time(entry.get("at")) or now(),
        name=entry["id"],
    )


def _text(when: datetime | None) -> str | None:
    if when is None:
        return None
    return when.astimezone(timezone.utc).strftime("%Y-%m-%dT%H:%M:%SZ")


def _time(text: str | None) -> datetime | None:
    return datetime.fromisoformat(text.replace("Z", "+00:00")) if text else None
