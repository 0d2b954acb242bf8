from __future__ import annotations

import os
import subprocess
import sys
from pathlib import Path

import pytest

PLANNER = Path(__file__).resolve().parents[1]
HERE = Path(__file__).parent
sys.path[:0] = [str(PLANNER), str(HERE)]

from saminoha_planner.client import Program  # noqa: E402
from saminoha_planner.network import Network, read_network  # noqa: E402


@pytest.fixture(scope="session")
def program() -> Program:
    return Program.find(timeout=300)


@pytest.fixture(scope="session")
def served(program):
    """`serve` over files, as a context: a server on two free ports, with lanes for a test."""
    return lambda files: program.serve(files, lanes=4)


@pytest.fixture(scope="session")
def tool():
    """Runs a tool and answers its standard output; `status` is the one that is due."""

    def call(name: str, *words: object, status: int = 0) -> str:
        command = [sys.executable, str(PLANNER / name), *map(str, words)]
        done = subprocess.run(
            command,
            capture_output=True,
            text=True,
            timeout=300,
            env=os.environ | {"MPLBACKEND": "Agg"},
        )
        assert done.returncode == status, done.stderr
        return done.stderr if status else done.stdout

    return call


@pytest.fixture(scope="session")
def imported(tool, tmp_path_factory):
    """The town by options of the import, each once."""
    made: dict[tuple, Network] = {}

    def network(*options: str) -> Network:
        if options not in made:
            folder = tmp_path_factory.mktemp("town")
            tool("import_osm.py", HERE / "town.osm", folder, *options)
            made[options] = read_network(folder)
        return made[options]

    return network


@pytest.fixture(scope="session")
def town(imported) -> Network:
    """By distance, time and toll."""
    return imported("--criteria", "distance,time,toll", "--rules", str(HERE / "town.toml"))


@pytest.fixture(scope="session")
def six_arcs() -> list[str]:
    folder = PLANNER.parent / "examples" / "six_arcs"
    return [str(folder / "A.gr"), str(folder / "B.gr")]
