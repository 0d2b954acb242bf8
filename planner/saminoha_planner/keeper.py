"""What is closed on one server, as the page keeps it: it reads and writes the network's log of
closures, publishes what is due, lifts what is over, and watches the epoch.
"""

from __future__ import annotations

import threading
import time
from collections.abc import Mapping, Sequence
from dataclasses import replace

from .ask import Asker
from .changes import changes as changes_of
from .changes import parse_measure
from .client import Change, ClientError, SetArc
from .closures import LOG, Closure, Log, State, active
from .command import Fault
from .network import Network

PAUSE = 1.0  # seconds between looks
TOGETHER = 3.0  # seconds between a closure's time and the epoch that it makes


class Keeper:
    """`look` is called again and again; what it finds is what `closures` and `epoch` tell."""

    def __init__(self, network: Network, asker: Asker, log: Log) -> None:
        self._network, self._asker, self._log = network, asker, log
        self._lock = threading.RLock()
        self._stands: dict[int, Change] | None = None  # by arc, what is published; None at first
        self._lost: dict[int, Change] = {}  # what stood before the server may have begun anew
        self._states: dict[str, State] = {}
        self._came_due = -TOGETHER  # when a closure's time came last
        self._unexplained: dict[int, float] = {}  # epochs that came from elsewhere, and when
        self.epoch: int | None = None
        self.fault = ""

    def watch(self) -> None:
        """Looks for ever, beside the page."""
        while True:
            self.look()
            time.sleep(PAUSE)

    def look(self) -> None:
        if self._asker.starting is not None:
            return
        try:
            with self._lock:
                self._look()
            self.fault = ""
        except (ClientError, Fault, OSError) as fault:
            self.fault = str(fault)

    def forget(self) -> None:
        """The server may have begun anew: the next look publishes all that is wanted, and for who
        follows the server opens what stood and isn't wanted any more.
        """
        with self._lock:
            self._lost |= self._stands or {}
            self._stands = None

    def knows(self, epoch: int) -> None:
        """The epochs up to this one are no others' than this keeper's."""
        with self._lock:
            self.epoch = epoch

    @property
    def stands(self) -> list[Change]:
        """What is published, as far as this keeper knows."""
        return list((self._stands or {}).values())

    @property
    def closures(self) -> list[Closure]:
        return self._log.read()

    @property
    def unknown(self) -> int:
        """How many epochs were published elsewhere and stand in no line of the log."""
        return len(self._unexplained)

    def changes(self, arcs: Sequence[int], measure: str) -> list[Change]:
        return changes_of(self._network, arcs, parse_measure(measure))

    def close(self, closure: Closure) -> None:
        """Publishes and logs it; a planned one is only logged until its time comes."""
        with self._lock:
            epoch = self._publish(active([*self.closures, closure]))
            self._log.add(replace(closure, epoch=epoch))
            self._look()

    def undo(self, name: str, author: str = "") -> None:
        with self._lock:
            kept = [one for one in self.closures if one.name != name]
            if len(kept) == len(self.closures):
                raise Fault(f"there is no closure {name}")
            epoch = self._publish(active(kept))
            self._log.lift(name, author, epoch)
            self._look()

    def _look(self) -> None:
        epoch = self._asker.epoch()
        if self.epoch is not None and epoch < self.epoch:
            self._stands, self.epoch = None, None  # the server has begun anew
            self._unexplained.clear()
        self._mind_log()
        self._mind_epoch(epoch)
        if self._asker.can_change:
            self._publish(active(self.closures))

    def _mind_log(self) -> None:
        """Lines of the log explain the epochs that they name, and closures whose time came those
        of about now. What others closed and published stands already.
        """
        states = {one.name: one.state() for one in self.closures}
        if states == self._states:
            return
        for closure in self.closures:
            before, state = self._states.get(closure.name), states[closure.name]
            if before is None and state is State.ACTIVE and closure.epoch is not None:
                if self._stands is not None:
                    self._stands |= {change.arc: change for change in closure.changes}
            elif before not in (None, state) and not closure.lifted:
                self._came_due = time.monotonic()
        self._states = states
        for epoch, came in list(self._unexplained.items()):
            if epoch in self._named or abs(self._came_due - came) < TOGETHER:
                del self._unexplained[epoch]

    @property
    def _named(self) -> set[int | None]:
        """The epochs that the log names; those of a page's own server were of an earlier one."""
        if self._asker.is_own:
            return set()
        return {epoch for one in self.closures for epoch in (one.epoch, one.lifted_epoch)}

    def _mind_epoch(self, epoch: int) -> None:
        came, last = time.monotonic(), self.epoch or 0
        self.epoch = epoch
        if came - self._came_due >= TOGETHER:
            news = set(range(last + 1, epoch + 1)) - self._named
            self._unexplained |= {one: came for one in news}

    def _publish(self, wanted: Mapping[int, Change]) -> int | None:
        """Publishes where what stands isn't what is wanted, and answers the epoch if there was
        anything to do. At first all that is wanted is published, whatever the server has.
        """
        stands = self._stands or {}
        due = [change for arc, change in wanted.items() if stands.get(arc) != change]
        due += [self._open(arc) for arc in stands | self._lost if arc not in wanted]
        epoch = None
        if due:
            if not self._asker.can_change:
                raise Fault("no operator's address was given")
            before = self.epoch
            epoch = self._asker.publish(due)
            self._mind_own(before, epoch)
        self._stands, self._lost = dict(wanted), {}
        return epoch

    def _mind_own(self, before: int | None, epoch: int) -> None:
        """Epochs between the last look and this keeper's own are others'."""
        if before is not None:
            self._mind_epoch(epoch - 1)
        self.epoch = epoch

    def _open(self, arc: int) -> SetArc:
        return SetArc(arc, self._network.arc(arc).weights)


def log_of(network: Network) -> Log:
    return Log(network.folder / LOG)
