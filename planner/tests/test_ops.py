from __future__ import annotations

import json

import pytest

from saminoha_planner.client import Session
from saminoha_planner.closures import LOG
from saminoha_planner.network import read_network

TRIP = ("--from", "Northend", "--to", "Southend")


def test_lines(tool, town):
    bridge = [number for number, arc in enumerate(town.arcs, start=1) if arc.name == "Toll Bridge"]
    shut = tool("ops.py", town.folder, "shut", "--road", "toll bridge").splitlines()
    assert shut == [*(f"x {number}" for number in bridge), "publish"]
    first = town.arc(bridge[0]).weights
    slow = tool("ops.py", town.folder, "slow=1.5", "--way", "120").splitlines()
    assert slow[0] == f"s {bridge[0]} {first[0]} {round(first[1] * 1.5)} {first[2]}"
    dear = tool("ops.py", town.folder, "surcharge=toll:20", "--road", "Toll Bridge").splitlines()
    assert dear[0] == f"s {bridge[0]} {first[0]} {first[1]} {first[2] + 2000}"
    by_km = tool("ops.py", town.folder, "surcharge=toll:2/km", "--road", "Toll Bridge").splitlines()
    assert by_km[0] == f"s {bridge[0]} {first[0]} {first[1]} {first[2] + round(first[0] * 0.2)}"
    opened = tool("ops.py", town.folder, "open", "--road", "Toll Bridge").splitlines()
    assert opened[0] == f"s {bridge[0]} {first[0]} {first[1]} {first[2]}"
    north = [number for number, arc in enumerate(town.arcs, start=1) if arc.name == "North Street"]
    assert len(tool("ops.py", town.folder, "shut", "--road", "B1").splitlines()) == len(north) + 1
    box = tool(
        "ops.py", town.folder, "shut", "--road", "B1", "--box", "9.9,50,10.001,50.1"
    ).splitlines()
    assert len(box) == 3


@pytest.mark.parametrize(
    "words, text",
    [
        (("shut", "--road", "Elm Street"), "no arc"),
        (("raze", "--road", "Quay"), "raze"),
        (("slow=0", "--road", "Quay"), "slow=0"),
        (("surcharge=beauty:1", "--road", "Quay"), "beauty"),
        (("shut",), "--road"),
        (("shut", "--road", "Quay", "--map", "x.png"), "--from"),
    ],
)
def test_faults(tool, town, words, text):
    assert text in tool("ops.py", town.folder, *words, status=1)


def test_before_and_after(tool, town, tmp_path):
    picture, lines = tmp_path / "both.png", tmp_path / "lines"
    text = tool(
        "ops.py",
        town.folder,
        "shut",
        "--road",
        "Toll Bridge",
        *TRIP,
        "--map",
        picture,
        "--out",
        lines,
    )
    before, after = text.split("after: ")
    assert (
        before.startswith("before: ")
        and "Toll Bridge" in before
        and "Toll Bridge" not in after
        and "Old Bridge" in after
    )
    assert picture.read_bytes().startswith(b"\x89PNG")
    applied = tool("apply.py", town.folder, lines, tmp_path / "new", *TRIP)
    assert (
        applied.split("after: ")[1] == after
    )  # new weight files answer as the operator's epoch does


def test_apply(tool, town, tmp_path, program):
    lines = tmp_path / "lines"
    lines.write_text("x 1\ns 2 7 8 9\npublish\nx 3\ndrop\ns 2 5 5 5\npublish\nx 4\n")
    tool("apply.py", town.folder, lines, tmp_path / "new")
    new = read_network(tmp_path / "new")
    assert program.check(new.files).arcs == len(new.arcs) == len(town.arcs) - 1
    assert new.arcs[0].weights == (5, 5, 5) and new.arcs[1:] == town.arcs[2:]
    info = json.loads((tmp_path / "new" / "import.json").read_text())
    assert (
        info["applied"] == {"to": town.folder.name, "shut": 1, "changed": 1}
        and info["mode"] == "car"
    )
    lines.write_text("publish it\n")
    assert "no operator's line" in tool(
        "apply.py", town.folder, lines, tmp_path / "other", status=1
    )
    lines.write_text("x 999\npublish\n")
    assert "no arc 999" in tool("apply.py", town.folder, lines, tmp_path / "other", status=1)


def test_sent_to_a_server(tool, town, served):
    with served(town.files) as server:
        tool(
            "ops.py",
            town.folder,
            "shut",
            "--road",
            "Toll Bridge",
            "--send",
            f"127.0.0.1:{server.operator_port}",
        )
        (town.folder / LOG).unlink()  # other tests have the town as it is drawn
        with Session(server.host, server.port) as session:
            answer = session.query(town.find("Northend"), town.find("Southend"))
    assert answer.epoch == 1 and all(
        town.arc(arc).name != "Toll Bridge" for route in answer.routes for arc in route.arcs
    )
