from __future__ import annotations

import csv
import itertools
import json
import os
import signal
import subprocess
import sys
import time
from contextlib import contextmanager, suppress
from pathlib import Path

import pytest
from conftest import PLANNER

SLOW = """#!/bin/sh
# Each part takes a while, so that a worker can be lost midway.
sleep {seconds}
exec {route} "$@"
"""

# Ends once a scheduler has so many workers: each gets parts then, however long it took to start.
ALL_THERE = """
import sys
from distributed import Client
with Client(sys.argv[1]) as client:
    client.wait_for_workers(int(sys.argv[2]), timeout=60)
"""


@pytest.fixture(scope="module")
def pairs(town, tmp_path_factory):
    """All ordered pairs of places and a refused one, by name and by node."""
    file = tmp_path_factory.mktemp("pairs") / "pairs.csv"
    ends = [place.name for place in town.places] + ["1", "17"]
    file.write_text("from,to\n" + "".join(f"{a},{b}\n" for a, b in itertools.permutations(ends, 2)))
    return file


@pytest.fixture(scope="module")
def alone(tool, town, pairs, tmp_path_factory):
    """What one process writes."""
    out = tmp_path_factory.mktemp("alone")
    tool("many.py", town.folder, pairs, out, "--jobs", 1, "--part", 7)
    return contents(out)


def contents(out: Path) -> tuple[bytes, bytes]:
    return (out / "od.csv").read_bytes(), (out / "answers.jsonl").read_bytes()


@pytest.fixture
def slow(program, tmp_path):
    def made(seconds: float) -> str:
        file = tmp_path / "slow"
        file.write_text(SLOW.format(seconds=seconds, route=program.path))
        file.chmod(0o755)
        return str(file)

    return made


@pytest.fixture
def begin():
    """Begins `many.py` in a group of its own, of which nothing is left after the test."""
    begun: list[subprocess.Popen] = []

    def call(*words: object) -> subprocess.Popen:
        command = [sys.executable, str(PLANNER / "many.py"), *map(str, words)]
        begun.append(
            subprocess.Popen(
                command,
                stdout=subprocess.DEVNULL,
                stderr=subprocess.PIPE,
                text=True,
                start_new_session=True,
            )
        )
        return begun[-1]

    yield call
    for process in begun:
        with suppress(ProcessLookupError):
            os.killpg(process.pid, signal.SIGKILL)
        process.wait()
        process.stderr.close()


def wait_for_parts(out: Path, count: int, process: subprocess.Popen) -> None:
    deadline = time.monotonic() + 120
    while len(list(out.glob("parts/??????.jsonl"))) < count:
        assert process.poll() is None and time.monotonic() < deadline, (
            process.stderr and process.stderr.read()
        )
        time.sleep(0.02)


def test_answers_in_the_order_of_the_pairs(alone, town, pairs, program):
    table = list(csv.DictReader(alone[0].decode().splitlines()))
    entries = [json.loads(line) for line in alone[1].splitlines()]
    names = list(csv.reader(pairs.open()))[1:]
    assert [(town.find(a), town.find(b)) for a, b in names] == [
        (entry["from"], entry["to"]) for entry in entries
    ]
    assert (
        [int(row["pair"]) for row in table]
        == [entry["pair"] for entry in entries]
        == list(range(1, 31))
    )
    first = program.query(town.files, entries[0]["from"], entries[0]["to"])
    assert [tuple(route["cost"]) for route in entries[0]["routes"]] == [
        route.cost for route in first.routes
    ]
    assert (
        table[0]["least time (min)"] == f"{min(route.cost[1] for route in first.routes) / 600:.3f}"
    )
    assert int(table[0]["trade_offs"]) == len(first.routes)


def test_the_same_by_other_parts(tool, town, pairs, alone, tmp_path):
    tool("many.py", town.folder, pairs, tmp_path, "--jobs", 4, "--part", 2)
    assert contents(tmp_path) == alone


def test_killed_and_resumed(tool, begin, town, pairs, alone, slow, tmp_path):
    process = begin(town.folder, pairs, tmp_path, "--jobs", 2, "--part", 3, "--route", slow(0.3))
    wait_for_parts(tmp_path, 2, process)
    os.killpg(process.pid, signal.SIGKILL)
    process.wait()
    assert not (tmp_path / "od.csv").exists()
    kept = {file: file.stat().st_mtime_ns for file in tmp_path.glob("parts/??????.jsonl")}
    tool("many.py", town.folder, pairs, tmp_path, "--jobs", 2, "--part", 3)
    assert contents(tmp_path) == alone
    assert len(kept) < 10 and all(file.stat().st_mtime_ns == when for file, when in kept.items())


def test_shares_of_an_array_job(tool, town, pairs, alone, tmp_path):
    for k in (2, 3):
        assert "to come" in tool(
            "many.py", town.folder, pairs, tmp_path, "--part", 4, "--only", f"{k}/3"
        )
    tool("many.py", town.folder, pairs, tmp_path, "--part", 4, "--only", "1/3")
    assert contents(tmp_path) == alone


def test_another_task_in_the_same_folder(tool, town, imported, pairs, tmp_path):
    tool("many.py", town.folder, pairs, tmp_path)
    for words in (
        (imported().folder, pairs, tmp_path),
        (town.folder, pairs, tmp_path, "--part", 3),
        (town.folder, pairs, tmp_path, "--budget", 5),
    ):
        assert "another folder" in tool("many.py", *words, status=1)


def test_refused_pairs(tool, town, tmp_path):
    file = tmp_path / "pairs.p2p"
    file.write_text("c some pairs\np aux sp p2p 2\nq 1 17\nq 17 17\n")
    tool("many.py", town.folder, file, tmp_path / "out", "--budget", 1)
    rows = list(csv.DictReader((tmp_path / "out" / "od.csv").open()))
    assert [row["status"] for row in rows] == ["budget", "ok"] and rows[0]["trade_offs"] == ""
    file.write_text("p aux sp p2p 1\nq 1 99\n")
    assert "no node 99" in tool("many.py", town.folder, file, tmp_path / "out", status=1)


def test_the_bar_tells_the_time_to_go(begin, town, pairs, tmp_path):
    process = begin(town.folder, pairs, tmp_path, "--part", 10, "--progress")
    _, bar = process.communicate(timeout=120)
    assert "pairs [" in bar and "100%" in bar and ("to go" in bar or " s" in bar)


@contextmanager
def cluster(count: int, folder: Path):
    """A scheduler and workers as processes of their own, that know nothing of this folder."""
    environment = {key: value for key, value in os.environ.items() if key != "PYTHONPATH"} | {
        "DASK_DISTRIBUTED__ADMIN__LOG_LENGTH": "10"
    }
    address_file = folder / "scheduler.json"
    common = {
        "env": environment,
        "cwd": folder,
        "stdout": subprocess.DEVNULL,
        "stderr": subprocess.DEVNULL,
    }
    begun = [
        subprocess.Popen(
            [
                sys.executable,
                "-m",
                "distributed.cli.dask_scheduler",
                "--host",
                "127.0.0.1",
                "--port",
                "0",
                "--no-dashboard",
                "--scheduler-file",
                str(address_file),
            ],
            **common,
        )
    ]
    try:
        deadline = time.monotonic() + 60
        while not address_file.exists() or not address_file.read_text().strip():
            assert time.monotonic() < deadline and begun[0].poll() is None
            time.sleep(0.05)
        address = json.loads(address_file.read_text())["address"]
        for number in range(count):
            words = [
                address,
                "--nthreads",
                "1",
                "--no-nanny",
                "--no-dashboard",
                "--name",
                f"w{number}",
                "--local-directory",
                str(folder / f"w{number}"),
            ]
            begun.append(
                subprocess.Popen(
                    [sys.executable, "-m", "distributed.cli.dask_worker", *words], **common
                )
            )
        words = [sys.executable, "-c", ALL_THERE, address, str(count)]
        subprocess.run(words, check=True, timeout=90, **common)
        yield address, begun[1:]
    finally:
        for process in reversed(begun):
            process.kill()
            process.wait()


def test_three_workers_of_which_one_is_lost(begin, town, pairs, alone, slow, tmp_path):
    with cluster(3, tmp_path) as (address, workers):
        out = tmp_path / "out"
        process = begin(
            town.folder,
            pairs,
            out,
            "--part",
            2,
            "--dask",
            address,
            "--route",
            slow(0.5),
            "--send-program",
        )
        wait_for_parts(out, 4, process)
        workers[1].kill()
        _, errors = process.communicate(timeout=120)
        assert process.returncode == 0, errors
        sent = [list((tmp_path / f"w{number}").rglob("1.gr")) for number in range(3)]
    assert contents(out) == alone
    assert all(len(files) == 1 for files in sent)


def test_no_scheduler(tool, town, pairs, tmp_path):
    assert "many.py: " in tool(
        "many.py", town.folder, pairs, tmp_path, "--dask", "tcp://127.0.0.1:1", status=1
    )
