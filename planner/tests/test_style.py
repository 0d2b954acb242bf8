"""The code is as pyproject.toml wants it, by the checkers that are there."""

from __future__ import annotations

import shutil
import subprocess

import pytest
from conftest import PLANNER


@pytest.mark.parametrize(
    "words",
    [("mypy", "--cache-dir", "/dev/null"), ("ruff", "check", "."), ("black", "--check", "-q", ".")],
)
def test_checkers(words):
    if not shutil.which(words[0]):
        pytest.skip(f"{words[0]} is missing")
    done = subprocess.run(words, cwd=PLANNER, capture_output=True, text=True)
    assert done.returncode == 0, done.stdout + done.stderr


def test_no_fault_is_hushed():
    for file in PLANNER.rglob("*.py"):
        if file.name != "test_style.py":
            text = file.read_text()
            assert "type: ignore" not in text and "import *" not in text, file
