"""The tools as they are called in a shell: what they say while one waits, of faults, and of the
program.
"""

from __future__ import annotations

import json
import os
import subprocess
import sys
import time

import pytest
from conftest import HERE, PLANNER

from saminoha_planner.client import Proof, Refusal, Refused
from saminoha_planner.closures import LOG, Log, State
from saminoha_planner.command import advice, proof_text
from saminoha_planner.criteria import CRITERIA, coarser
from saminoha_planner.network import read_network

TRIP = ("--from", "Northend", "--to", "Southend")


def shell(line, **environment):
    """A line as the README has it, from the folder that has `planner`."""
    return subprocess.run(
        ["bash", "-c", line],
        capture_output=True,
        text=True,
        cwd=PLANNER.parent,
        env=os.environ | {"MPLBACKEND": "Agg"} | environment,
        timeout=300,
    )


@pytest.mark.parametrize("name", [file.name for file in sorted(PLANNER.glob("*.py"))])
def test_each_tool_is_a_command(name):
    done = shell(f"planner/{name} --help")
    assert done.returncode == 0 and done.stdout.startswith("usage: " + name)


def test_a_reader_that_has_enough(town):
    done = shell(f"planner/ops.py {town.folder} shut --box 9,49,11,51 | head -n 1")
    assert done.stdout.startswith("x 1") and done.stderr == ""


@pytest.mark.parametrize(
    "library, tool", [("numpy", "plan.py"), ("osmium", "import_osm.py"), ("scipy", "check.py")]
)
def test_a_missing_library(tmp_path, library, tool):
    (tmp_path / f"{library}.py").write_text(
        f"raise ModuleNotFoundError('no {library}', name='{library}')"
    )
    done = shell(f"planner/{tool} --help", PYTHONPATH=str(tmp_path))
    [line] = done.stderr.splitlines()
    assert done.returncode == 1 and line.startswith(
        f"{tool}: a library is missing: apt-get install"
    )
    assert line.endswith({"osmium": "python3-pyosmium"}.get(library, f"python3-{library}"))


# Networks aren't written over.


def test_a_folder_is_replaced_only_when_asked(tool, tmp_path):
    words = (HERE / "town.osm", tmp_path / "net")
    tool("import_osm.py", *words, "--criteria", "distance,junctions")
    assert "--replace" in tool("import_osm.py", *words, status=1)
    (tmp_path / "net" / LOG).write_text("")
    tool("import_osm.py", *words, "--replace")
    names = {file.name for file in (tmp_path / "net").iterdir()}
    assert "time.gr" in names and not names & {"junctions.gr", LOG}
    assert (tmp_path / "net.closures.old.jsonl").exists()
    (tmp_path / "mine").mkdir()
    (tmp_path / "mine" / "letter.txt").write_text("keep")
    words = (HERE / "town.osm", tmp_path / "mine", "--replace")
    assert "other things" in tool("import_osm.py", *words, status=1)
    assert (tmp_path / "mine" / "letter.txt").read_text() == "keep"


def test_the_table_of_arcs(tool, tmp_path):
    tool("import_osm.py", HERE / "town.osm", tmp_path / "net", "--table")
    rows = [line.split("\t") for line in (tmp_path / "net" / "arcs.tsv").read_text().splitlines()]
    network = read_network(tmp_path / "net")
    assert len(rows) == len(network.arcs) + 1
    for row, arc in zip(rows[1:], network.arcs):
        assert (int(row[1]), int(row[2]), row[5]) == (arc.tail, arc.head, arc.name)
        line = [tuple(map(float, point.split(","))) for point in row[-1].split()]
        assert tuple(line) == arc.line


def test_an_older_network(tmp_path, tool):
    (tmp_path / "import.json").write_text('{"criteria": []}')
    (tmp_path / "arcs.tsv").write_text("")
    assert "import its extract again" in tool("plan.py", tmp_path, *TRIP, status=1)


# Long searches, refusals, and whether the program is proved.


def slow_program(tmp_path, program, seconds):
    file = tmp_path / "slow"
    file.write_text(f'#!/bin/sh\n[ "$1" = goal ] && sleep {seconds}\nexec {program.path} "$@"\n')
    file.chmod(0o755)
    return file


def test_who_waits_is_told(town, program, tmp_path):
    slow = slow_program(tmp_path, program, 5)
    words = f"planner/plan.py {town.folder} --from Northend --to Southend"
    begun = time.monotonic()
    done = shell(f"{words} --route {slow}")
    assert done.returncode == 0 and time.monotonic() - begun > 5
    lines = done.stderr.splitlines()
    assert lines[0] == "plan.py: asking for all ways, 2 s" and len(lines) >= 2
    assert shell(f"{words} --route {program.path}").stderr == ""


def test_a_refusal_says_what_helps(tool, town):
    told = tool("plan.py", town.folder, *TRIP, "--budget", 1, status=1)
    for text in ("budget of 1.", "50,000,000", "GB", "--criteria", "--limit", "--coarser"):
        assert text in told
    fault = Refused(Refusal(0, 1, 2, "budget"))
    fault.budget = 50_000_000
    assert "larger" not in advice(fault) and "--limit" in advice(fault)
    assert advice(Refused(Refusal(0, 1, 2, "node"))) == ""


@pytest.mark.parametrize(
    "said, proof",
    [("the program is proved", Proof.PROVED), ("no proved program", Proof.UNPROVED)],
)
def test_the_proof_is_told(town, program, tmp_path, tool, said, proof):
    file = tmp_path / "route"
    file.write_text(
        f'#!/bin/sh\n[ "$1" = version ] && echo "{said}" && exit\nexec {program.path} "$@"\n'
    )
    file.chmod(0o755)
    rows = tmp_path / "rows.csv"
    text = tool("plan.py", town.folder, *TRIP, "--route", file, "--csv", rows)
    assert proof_text(proof) in text
    assert all(line.endswith(proof.value) for line in rows.read_text().splitlines()[1:])


def test_coarser_weights(tool, tmp_path, program):
    fine, coarse = tmp_path / "fine", tmp_path / "coarse"
    tool("import_osm.py", HERE / "town.osm", fine)
    tool("import_osm.py", HERE / "town.osm", coarse, "--coarser", "time=100")
    for one, other in zip(read_network(fine).arcs, read_network(coarse).arcs):
        assert one.weights[0] == other.weights[0]
        assert abs(one.weights[1] / 100 - other.weights[1]) <= 1
    network = read_network(coarse)
    assert network.criteria[1].weight("30min") == 180 and network.criteria[1].text(6) == "1.0 min"
    wrong = tool(
        "import_osm.py", HERE / "town.osm", tmp_path / "x", "--coarser", "toll=2", status=1
    )
    assert "toll" in wrong
    assert coarser([CRITERIA["time"]], "") == [CRITERIA["time"]]


# The log of closures.


@pytest.fixture
def net(tool, tmp_path):
    tool("import_osm.py", HERE / "town.osm", tmp_path / "net")
    return read_network(tmp_path / "net")


def test_a_closure_is_sent_noted_shown_and_undone(tool, net, served):
    with served(net.files) as server:
        send = ("--send", f"127.0.0.1:{server.operator_port}", "--author", "Ann")
        bridge = ("--road", "Toll Bridge")
        tool("ops.py", net.folder, "shut", *bridge, *send, "--reason", "ice")
        [closure] = Log(net.folder / LOG).read()
        assert (closure.road, closure.author, closure.epoch) == ("Toll Bridge", "Ann", 1)
        told = tool("ops.py", net.folder, "list")
        assert "active  shut  Toll Bridge  2 arcs" in told and "Ann  ice" in told
        tool("ops.py", net.folder, f"undo={closure.name}", *send)
        [closure] = Log(net.folder / LOG).read()
        assert closure.state() is State.ENDED and closure.lifted_epoch == 2
        assert "is over" in tool("ops.py", net.folder, f"undo={closure.name}", status=1)
        tool("ops.py", net.folder, "shut", *bridge, *send)
        tool("ops.py", net.folder, "open", *bridge, *send)
    assert [one.state() for one in Log(net.folder / LOG).read()] == [State.ENDED] * 2


def test_a_planned_closure_is_noted_alone(tool, net):
    words = (net.folder, "shut", "--road", "Quay", "--begin", "2999-01-01T07:00")
    assert "noted as" in tool("ops.py", *words, "--log", "--end", "2999-02-01T07:00")
    assert "planned" in tool("ops.py", net.folder, "list")
    assert "later" in tool("ops.py", *words, "--send", "127.0.0.1:1", status=1)
    assert "no time" in tool("ops.py", *words[:-1], "soon", status=1)
    entry = json.loads((net.folder / LOG).read_text())
    assert entry["measure"] == "shut" and entry["lines"][0].startswith("x ")


def test_roads_that_are_not_there(tool, net):
    told = tool("ops.py", net.folder, "shut", "--road", "Old Brigde", status=1)
    assert "Old Bridge" in told
    assert "Southend" in tool("plan.py", net.folder, "--from", "Southent", "--to", "1", status=1)


# Tables of pairs.


@pytest.mark.parametrize(
    "text, fault",
    [
        ("id,from,to\n7,Northend,Southend\n", None),
        ("Northend,Southend\n", None),
        ("\ufefffrom,to\nNorthend,Southend\n", None),
        ("origin,destination\nNorthend,Southend\n", "name the columns of the ends from and to"),
        ("from,to\nNorthend\n", "row 2"),
        ("from,to\n", "no pairs"),
    ],
)
def test_headings(tool, town, tmp_path, text, fault):
    (tmp_path / "pairs.csv").write_text(text)
    words = (town.folder, tmp_path / "pairs.csv", tmp_path / "out", "--jobs", 1)
    told = tool("many.py", *words, status=1 if fault else 0)
    assert (fault or "1 pairs") in told
    if not fault:
        head, row = (tmp_path / "out" / "od.csv").read_text().splitlines()
        assert head.endswith("least distance (km),least time (min),least toll (EUR)")
        assert row.split(",")[5:] == ["1.534", "2.198", "0.0000"]


def test_a_region_can_be_made_and_imported(tool, tmp_path):
    made = [sys.executable, HERE / "make_region.py", tmp_path / "region.osm.pbf", "--side", "40"]
    subprocess.run(made, check=True)
    text = tool("import_osm.py", tmp_path / "region.osm.pbf", tmp_path / "net")
    assert 1400 < int(text.split()[0]) <= 1600
    arrays = read_network(tmp_path / "net").arrays
    assert arrays.first[-1] == len(arrays.points) and arrays.boxes.shape == (len(arrays.ways), 4)
    west, south, east, north = arrays.boxes[7] / 1e7
    assert 7 in arrays.within((west, south, east, north))
    assert 7 not in arrays.within((west, south, east, north), classes={"motorway"})
    for arc in arrays.arcs_of([7]):
        assert arrays.stretches[arc - 1] == 7
    assert {arrays.title(one) for one in arrays.titled("t0ew")} == {"T0EW"}
