"""What a tool waits for, on standard error: a line with the seconds once that takes more than two,
and a bar with the time to go where many are done one after another.
"""

from __future__ import annotations

import sys
import threading
import time
from collections.abc import Iterator
from contextlib import contextmanager
from pathlib import Path

PATIENCE = 2.0  # seconds before anything is said


@contextmanager
def waiting(what: str, steady: bool = False) -> Iterator[Watch]:
    """Says what is waited for, and for how long, after two seconds. On a terminal the line is
    written over each second. Elsewhere a new line comes every two seconds where that is steady,
    and else after 2, 4, 8 .. seconds.
    """
    watch = Watch(what, steady)
    thread = threading.Thread(target=watch.speak, daemon=True)
    thread.start()
    try:
        yield watch
    finally:
        watch.end()
        thread.join()


class Watch:
    """`now` says that something else is waited for; `count` how much of it is done."""

    def __init__(self, what: str, steady: bool) -> None:
        self._what, self._steady, self._done = what, steady, ""
        self._over = threading.Event()
        self._begun = time.monotonic()

    @property
    def seconds(self) -> float:
        return time.monotonic() - self._begun

    def now(self, what: str) -> None:
        self._what, self._done = what, ""

    def count(self, done: int, of: int | None = None) -> None:
        self._done = f" {done / of:.0%}" if of else f" {done:,}"

    def end(self) -> None:
        self._over.set()

    def speak(self) -> None:
        is_terminal, pause = sys.stderr.isatty(), PATIENCE
        while not self._over.wait(pause):
            line = f"{Path(sys.argv[0]).name}: {self._what}{self._done}, {self.seconds:.0f} s"
            sys.stderr.write(f"\r{line}\x1b[K" if is_terminal else line + "\n")
            sys.stderr.flush()
            pause = 1.0 if is_terminal else PATIENCE if self._steady else self.seconds
        if is_terminal and self.seconds > PATIENCE:
            sys.stderr.write("\r\x1b[K")


class Progress:
    """A bar, on a terminal unless asked."""

    def __init__(self, label: str, total: int, show: bool | None = None) -> None:
        self.label, self.total, self.done = label, total, 0
        self.show = sys.stderr.isatty() if show is None else show
        self._begun = self._shown = time.monotonic()
        self._base = 0

    def skip(self, count: int) -> None:
        """Counts what was done before, which says nothing of the pace."""
        self.done += count
        self._base += count

    def step(self, count: int = 1) -> None:
        self.done += count
        now = time.monotonic()
        if self.show and (now - self._shown > 0.2 or self.done >= self.total):
            self._shown = now
            self._draw(now)

    def __enter__(self) -> Progress:
        return self

    def __exit__(self, *_: object) -> None:
        if self.show:
            self._draw(time.monotonic())
            sys.stderr.write("\n")

    def _draw(self, now: float) -> None:
        share = self.done / self.total if self.total else 1.0
        filled = round(30 * min(share, 1.0))
        bar = "#" * filled + "." * (30 - filled)
        sys.stderr.write(f"\r{self.label} [{bar}] {share:4.0%} {self._to_go(now)}   ")
        sys.stderr.flush()

    def _to_go(self, now: float) -> str:
        fresh = self.done - self._base
        if fresh <= 0 or self.done >= self.total:
            return f"{_span(now - self._begun)}"
        return f"{_span((now - self._begun) / fresh * (self.total - self.done))} to go"


def _span(seconds: float) -> str:
    minutes, rest = divmod(round(seconds), 60)
    return f"{minutes} min {rest:02d} s" if minutes else f"{rest} s"
