"""Who does the parts: processes of this machine, or the workers of a dask.distributed scheduler."""

from __future__ import annotations

import hashlib
import os
import socket
import tempfile
import zipfile
from asyncio import CancelledError
from collections.abc import Callable, Iterator, Sequence
from concurrent.futures import ProcessPoolExecutor, as_completed
from contextlib import suppress
from pathlib import Path
from typing import TYPE_CHECKING

from .client import Program, parse_address
from .command import Fault
from .parts import Pair, run_part

if TYPE_CHECKING:
    from distributed import Client, Future, Worker

SECONDS_TO_LOOK, SECONDS_TO_SEND = 5, 60
Task = tuple[int, tuple[Pair, ...]]
Done = tuple[int, str]


def on_this_machine(
    program: Program, files: Sequence[str], tasks: Sequence[Task], jobs: int
) -> Iterator[Done]:
    """Each part's number and text, as they are done."""
    with ProcessPoolExecutor(jobs) as pool:
        futures = {pool.submit(run_part, program, files, pairs): number for number, pairs in tasks}
        try:
            for future in as_completed(futures):
                yield futures[future], future.result()
        except BaseException:
            pool.shutdown(wait=False, cancel_futures=True)
            raise


def on_workers(
    program: Program, files: Sequence[str], tasks: Sequence[Task], address: str, send_program: bool
) -> Iterator[Done]:
    """The same by the workers of the scheduler at this address. A lost worker's parts are done
    again by another.

    This package and the network's files are sent once to each worker, also to one that comes
    later, and are checked there by their sum. The program is sent too, or is at the same path on
    each worker.
    """
    from distributed import Client

    _knock(address)
    with Client(address, timeout=90) as client, tempfile.TemporaryDirectory() as folder:
        client.upload_file(str(_packed(Path(folder))))
        sent = {f"{place}.gr": Path(file).read_bytes() for place, file in enumerate(files, start=1)}
        if send_program:
            sent["program"] = Path(program.path).read_bytes()
        parcel = Parcel(sent)
        client.register_worker_plugin(parcel, name=parcel.name)

        def submit(task: Task) -> Future:
            return client.submit(
                _run_at_worker, parcel.name, len(files), program, send_program, *task, pure=False
            )

        try:
            yield from _all_done(client, submit, tasks)
        finally:
            with suppress(Exception):  # the scheduler may be gone
                client.unregister_worker_plugin(parcel.name)


def _knock(address: str) -> None:
    """Fails at once where nobody listens; dask would try on for long."""
    _, _, place = address.rpartition("//")
    try:
        host, port = parse_address(place)
        socket.create_connection((host, port), 10).close()
    except (ValueError, OSError) as fault:
        raise Fault(f"there is no scheduler at {address}: {fault}") from fault


def _all_done(
    client: Client, submit: Callable[[Task], Future], tasks: Sequence[Task]
) -> Iterator[Done]:
    """A few tasks for each processor are under way at a time. One whose result went with its
    worker is submitted again.
    """
    left = list(reversed(tasks))
    running: dict[Future, Task] = {}
    while left or running:
        most = 4 * max(4, sum(client.nthreads().values()))
        while left and len(running) < most:
            task = left.pop()
            running[submit(task)] = task
        done = _some_done(list(running))
        if not done and not any(
            client.processing().values()
        ):  # no worker is at any of them: they were lost
            left.extend(running.values())
            client.cancel(list(running))
            running.clear()
        for future in done:
            task = running.pop(future)
            result = _result_of(future)
            if result is None:
                left.append(task)
            else:
                yield result


def _some_done(futures: list[Future]) -> list[Future]:
    """Those that are done in the next seconds; the first makes an end of waiting."""
    from distributed import wait

    try:
        wait(futures, timeout=SECONDS_TO_LOOK, return_when="FIRST_COMPLETED")
    except TimeoutError:
        pass
    except CancelledError:
        return [future for future in futures if future.cancelled()]
    return [future for future in futures if future.done()]


def _result_of(future: Future) -> Done | None:
    """None where the result was lost on its way."""
    try:
        return future.result(timeout=SECONDS_TO_SEND)
    except (TimeoutError, CancelledError, OSError):
        return None
    except Exception as fault:
        raise Fault(f"a worker failed: {fault}") from fault


class Parcel:
    """A plugin of dask's workers: it lays the files that it carries into the worker's own
    folder, and checks them there.
    """

    def __init__(self, files: dict[str, bytes]) -> None:
        self.files = files
        self.sums = {name: hashlib.sha256(content).hexdigest() for name, content in files.items()}
        self.name = (
            "saminoha-"
            + hashlib.sha256("".join(sorted(self.sums.values())).encode()).hexdigest()[:16]
        )

    def setup(self, worker: Worker) -> None:
        folder = Path(worker.local_directory, self.name)
        folder.mkdir(parents=True, exist_ok=True)
        for name, content in self.files.items():
            file = folder / name
            file.write_bytes(content)
            file.chmod(0o755 if name == "program" else 0o644)
            if hashlib.sha256(file.read_bytes()).hexdigest() != self.sums[name]:
                raise OSError(f"{file} isn't what was sent")


def _run_at_worker(
    parcel: str, count: int, program: Program, sent: bool, number: int, pairs: tuple[Pair, ...]
) -> Done:
    from dataclasses import replace

    from distributed import get_worker

    folder = Path(get_worker().local_directory, parcel)
    here = replace(program, path=str(folder / "program")) if sent else program
    return number, run_part(
        here, [str(folder / f"{place}.gr") for place in range(1, count + 1)], pairs
    )


def _packed(folder: Path) -> Path:
    """This package as a zip file, from which Python can import it."""
    file, here = folder / "saminoha_planner.zip", Path(__file__).parent
    with zipfile.ZipFile(file, "w") as out:
        for source in sorted(here.rglob("*.py")):
            out.write(source, f"{here.name}/{source.relative_to(here)}")
    return file


def processors() -> int:
    return len(os.sched_getaffinity(0))
