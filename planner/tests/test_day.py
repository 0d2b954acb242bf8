"""The planner's day of the README, line by line, over the extract that PLANNER_EXTRACT names."""

from __future__ import annotations

import os
import shutil
from pathlib import Path

import pytest
from conftest import PLANNER
from day import play

from saminoha_planner.client import free_ports

EXTRACT = "liechtenstein-2013-08-03.osm.pbf"


def test_the_day(tmp_path):
    file = Path(os.environ.get("PLANNER_EXTRACT", ""))
    if file.name != EXTRACT:
        pytest.skip(f"PLANNER_EXTRACT doesn't name osm2pgsql's {EXTRACT}")
    shutil.copy(file, tmp_path)
    readme = tmp_path / "README.md"
    text = (PLANNER / "README.md").read_text()
    [port] = free_ports("127.0.0.1", 1)
    readme.write_text(text.replace("--port 8080", f"--port {port}"))
    assert play(readme, tmp_path, str(PLANNER)) == []
    pictures = sorted(file.name for file in tmp_path.glob("*.png"))
    assert pictures == ["both.png", "front.png", "map.png"]
    assert len((tmp_path / "table" / "od.csv").read_text().splitlines()) == 14 * 14 + 1
    assert (tmp_path / "week" / "import.json").exists()
