"""The commands of the program as calls with typed results."""

from __future__ import annotations

import functools
import os
import shutil
import subprocess
import tempfile
import threading
from collections.abc import Iterator, Sequence
from contextlib import AbstractContextManager, contextmanager
from dataclasses import dataclass
from enum import Enum
from pathlib import Path
from typing import IO

from .lines import (
    REFUSED_STATUS,
    Answer,
    ClientError,
    Costs,
    Epoch,
    Limits,
    Order,
    ProgramFailed,
    ProtocolError,
    Query,
    Refusal,
    Refused,
    Replies,
    Reply,
    Request,
    Sizes,
    TimedOut,
    answered,
    write_lines,
)
from .server import Server, free_ports, serving

Files = Sequence["str | os.PathLike[str]"]
DEFAULT_BUDGET = 10_000_000
MOST_BUDGET = 50_000_000
NOT_THERE = 3  # the status where a file can't be opened


class Proof(Enum):
    """What the program says of itself; a program without the command `version` says nothing."""

    PROVED = "proved"
    UNPROVED = "unproved"
    UNKNOWN = "unknown"


@dataclass(frozen=True)
class LanesRun:
    operator: list[Epoch | None]
    sessions: list[list[Reply]]


@dataclass(frozen=True)
class Program:
    """The program by its path, as workers may have it too, with the options of every search:
    labels at most, threads, and the seconds that a run may take.
    """

    path: str
    budget: int = DEFAULT_BUDGET
    workers: int = 1
    timeout: float | None = None

    @staticmethod
    def find(
        path: str | None = None,
        budget: int = DEFAULT_BUDGET,
        workers: int = 1,
        timeout: float | None = None,
    ) -> Program:
        """The program at the path, else the one that the environment names in ROUTE, else the
        repository's `./route`, else `saminoha` as it is installed.
        """
        own = str(Path(__file__).resolve().parents[3] / "route")
        if not os.access(own, os.X_OK):
            own = shutil.which("saminoha") or own
        found = path or os.environ.get("ROUTE") or own
        if not os.access(found, os.X_OK):
            raise ClientError(
                f"there is no program at {found}; name one by the environment's ROUTE"
            )
        return Program(found, budget, workers, timeout)

    def knows(self, command: str) -> bool:
        """Whether the program has the command: words are read before files, so files that aren't
        there tell (status 3).
        """
        return _knows(self.path, command)

    def proof(self) -> Proof:
        """Whether `version` says that the program is proved."""
        return _proof_of(self.path)

    def check(self, files: Files) -> Sizes:
        match self._run("check", files=files).split():
            case ["ok", nodes, arcs, criteria]:
                return Sizes(int(nodes), int(arcs), int(criteria))
            case other:
                raise ProtocolError(f"to check came {' '.join(other)!r}")

    def query(self, files: Files, source: int, target: int, limits: Limits | None = None) -> Answer:
        """All trade-offs with their walks, by a search toward the target. `Refused` is raised
        where the program refuses.
        """
        if limits is not None and any(bound is not None for bound in limits):
            request = Query(source, target, tuple(limits))
            return self.answered(self.lanes(files, [], [[request]]).sessions[0][0])
        options = [*_ends(source, target), "--budget", str(self.budget)]
        return self._ask("goal", options, files, Query(source, target))

    def answered(self, reply: Reply) -> Answer:
        """The answer, or `Refused` raised, which knows this budget."""
        try:
            return answered(reply)
        except Refused as fault:
            fault.budget = self.budget
            raise

    def costs(self, files: Files, source: int, target: int) -> Answer:
        options = [*_ends(source, target), *self._search_options()]
        return self._ask("costs", options, files, Costs(source, target))

    def batch(self, files: Files, pairs: Sequence[tuple[int, int]]) -> Iterator[Answer | Refusal]:
        """The reply to each pair in order, as they come, by searches toward their targets."""
        with tempfile.TemporaryDirectory(prefix="saminoha-") as folder:
            name = Path(folder, "pairs.p2p")
            with name.open("w") as out:
                out.write(f"p aux sp p2p {len(pairs)}\n")
                out.writelines(f"q {source} {target}\n" for source, target in pairs)
            options = ["--goal", "--pairs", str(name), *self._search_options()]
            words = self._words("batch", options, files)
            with self._streamed(words) as lines:
                replies = Replies(lines, len(files))
                for source, target in pairs:
                    yield replies.reply_to_query(Query(source, target))

    def lanes(
        self, files: Files, orders: Sequence[Order], sessions: Sequence[Sequence[Request]]
    ) -> LanesRun:
        """An operator's lines and sessions beside each other, in one run of the program."""
        with tempfile.TemporaryDirectory(prefix="saminoha-") as folder:
            write_lines(Path(folder, "operator"), orders)
            for number, requests in enumerate(sessions, start=1):
                write_lines(Path(folder, f"session{number}"), requests)
            options = ["--operator", f"{folder}/operator", "--sessions", f"{folder}/session"]
            options += ["--lanes", str(len(sessions)), *self._search_options()]
            replies = _replies(self._run("lanes", options, files), files)
        replies.due("operator")
        operator = [replies.reply_to_order(order) for order in orders]
        lanes = []
        for number, requests in enumerate(sessions, start=1):
            replies.due("lane", str(number))
            lanes.append([replies.reply_to(request) for request in requests])
        return LanesRun(operator, lanes)

    def prove(self, files: Files, source: int, target: int, budget: int = 1_000_000) -> str:
        """A certificate of the answer, as a text for `verify`."""
        options = [*_ends(source, target), "--budget", str(budget), "--workers", str(self.workers)]
        status, text = self._finish("prove", options, files)
        if status == REFUSED_STATUS:
            answered(_replies(text, files).reply_to(Query(source, target)))
        return text

    def verify(
        self, files: Files, certificate: str | os.PathLike[str], source: int, target: int
    ) -> Answer:
        """The answer that the certificate in this file proves, checked without a search.
        `ProgramFailed` says what is wrong.
        """
        text = self._run("verify", ["--cert", str(certificate)], files)
        return answered(_replies(text, files).reply_to(Query(source, target)))

    def serve(
        self, files: Files, host: str = "127.0.0.1", lanes: int = 1
    ) -> AbstractContextManager[Server]:
        """A server over the files on two free ports, ended with the block."""
        ports = free_ports(host, 2)
        options = ["--listen", f"{host}:{ports[0]}", "--operator", f"{host}:{ports[1]}"]
        options += ["--lanes", str(lanes), *self._search_options()]
        return serving(self._words("serve", options, files), host, ports, lanes)

    def _search_options(self) -> list[str]:
        return ["--budget", str(self.budget), "--workers", str(self.workers)]

    def _words(self, command: str, options: Sequence[str], files: Files) -> list[str]:
        return [self.path, command, *options, "--", *(os.fspath(file) for file in files)]

    def _ask(
        self, command: str, options: Sequence[str], files: Files, request: Query | Costs
    ) -> Answer:
        _, text = self._finish(command, options, files)
        return self.answered(_replies(text, files).reply_to(request))

    def _run(self, command: str, options: Sequence[str] = (), files: Files = ()) -> str:
        status, text = self._finish(command, options, files)
        if status:
            raise ProgramFailed(status)
        return text

    def _finish(self, command: str, options: Sequence[str], files: Files) -> tuple[int, str]:
        words = self._words(command, options, files)
        try:
            done = subprocess.run(
                words,
                capture_output=True,
                text=True,
                timeout=self.timeout,
                stdin=subprocess.DEVNULL,
            )
        except subprocess.TimeoutExpired as late:
            raise TimedOut(f"the program took more than {self.timeout} s") from late
        except OSError as fault:
            raise ClientError(f"{self.path} can't be run: {fault.strerror}") from fault
        if done.returncode not in (0, REFUSED_STATUS):
            raise ProgramFailed(done.returncode, _last_line(done.stderr))
        return done.returncode, done.stdout

    @contextmanager
    def _streamed(self, words: Sequence[str]) -> Iterator[Iterator[str]]:
        with tempfile.TemporaryFile("w+") as notes:
            process = subprocess.Popen(
                words, stdout=subprocess.PIPE, stderr=notes, text=True, stdin=subprocess.DEVNULL
            )
            timer = _Timer(self.timeout, process)
            assert process.stdout
            try:
                yield _lines_until_end(process, process.stdout, notes, timer)
            finally:
                timer.cancel()
                process.kill()
                process.wait()
                process.stdout.close()


def _ends(source: int, target: int) -> list[str]:
    return ["--from", str(source), "--to", str(target)]


def _replies(text: str, files: Files) -> Replies:
    return Replies(iter(text.splitlines()), len(files))


@functools.cache
def _knows(path: str, command: str) -> bool:
    query = _ends(1, 1)
    options = {
        "one": query,
        "costs": query,
        "prove": query,
        "verify": ["--cert", "none"],
        "serve": ["--listen", "none", "--operator", "none"],
        "lanes": ["--operator", "none", "--sessions", "none"],
    }
    with tempfile.TemporaryDirectory(prefix="saminoha-") as folder:
        words = [path, command, *options[command], "--", f"{folder}/none", f"{folder}/none"]
        done = subprocess.run(words, capture_output=True, stdin=subprocess.DEVNULL)
        return done.returncode == NOT_THERE


@functools.cache
def _proof_of(path: str) -> Proof:
    try:
        done = subprocess.run(
            [path, "version"],
            capture_output=True,
            text=True,
            stdin=subprocess.DEVNULL,
            timeout=30,
        )
    except (OSError, subprocess.TimeoutExpired):
        return Proof.UNKNOWN
    if "the program is proved" in done.stdout:
        return Proof.PROVED
    return Proof.UNPROVED if "no proved program" in done.stdout else Proof.UNKNOWN


class _Timer:
    """Kills a process that takes too long."""

    def __init__(self, seconds: float | None, process: subprocess.Popen[str]) -> None:
        self.late = threading.Event()
        self._process = process
        self._timer = threading.Timer(seconds, self._end) if seconds is not None else None
        if self._timer:
            self._timer.daemon = True
            self._timer.start()

    def _end(self) -> None:
        self.late.set()
        self._process.kill()

    def cancel(self) -> None:
        if self._timer:
            self._timer.cancel()


def _lines_until_end(
    process: subprocess.Popen[str], lines: IO[str], notes: IO[str], timer: _Timer
) -> Iterator[str]:
    yield from lines
    status = process.wait()
    if timer.late.is_set():
        raise TimedOut("the program took too long")
    if status:
        notes.seek(0)
        raise ProgramFailed(status, _last_line(notes.read()))


def _last_line(text: str) -> str:
    return (text.strip().splitlines() or [""])[-1]
