#!/usr/bin/python3
"""Plays the planner's day of README.md in a folder that has its extract: each line as it stands
there, in that order. What a line prints is what the document shows of it, and the page of the last
one answers. `--installed` calls the tools by their names in the package.
"""

from __future__ import annotations

import argparse
import json
import re
import subprocess
import sys
import time
import urllib.request
from collections.abc import Iterator
from pathlib import Path
from urllib.error import HTTPError, URLError

PLANNER = Path(__file__).resolve().parents[1]
PATIENCE = 60.0  # seconds that the page may take
SHORT = {"import_osm": "import", "http_service": "http"}


def day(readme: str) -> Iterator[str]:
    """Each line that is to be typed."""
    part = readme.split("**In the morning**")[1].split("\n## ")[0]
    for line in re.findall(r"^    (.*)$", part, re.MULTILINE):
        if re.match(r"planner/|awk |\(", line):
            yield line


def tables(readme: str) -> list[str]:
    """The rows of replies that the document shows, by their letters."""
    return re.findall(r"^    ([A-Z]   .*\S)$", readme, re.MULTILINE)


def call(line: str, tools: str, folder: Path) -> str:
    """Runs a line of the document; `ID` is the last closure's."""
    if "=ID" in line:
        log = (folder / "li2" / "closures.jsonl").read_text().splitlines()
        line = line.replace("=ID", "=" + json.loads(log[-1])["id"])
    command = re.sub(r"planner/(\w+)\.py", lambda name: tool(name[1], tools), line)
    print(f"$ {command}", flush=True)
    if " --port " in command:
        return try_page(command, folder)
    begun = time.monotonic()
    done = subprocess.run(
        ["bash", "-c", command], cwd=folder, stdout=subprocess.PIPE, text=True, check=True
    )
    print(done.stdout, end="")
    print(f"({time.monotonic() - begun:.1f} s)", flush=True)
    return done.stdout


def tool(name: str, tools: str) -> str:
    return f"{tools}/{name}.py" if tools else f"saminoha-{SHORT.get(name, name)}"


def try_page(command: str, folder: Path) -> str:
    """The page comes, its server is ready, and ends when it is told to."""
    begun, address = time.monotonic(), f"http://127.0.0.1:{command.split()[-1]}"
    page = subprocess.Popen(["bash", "-c", f"exec {command}"], cwd=folder)
    try:
        text = fetch(f"{address}/")
        print(f"(its page is there after {time.monotonic() - begun:.1f} s)")
        while not json.loads(fetch(f"{address}/api/state"))["ready"]:
            time.sleep(0.1)
        print(f"(its server answers after {time.monotonic() - begun:.1f} s)", flush=True)
    finally:
        page.terminate()
        page.wait(10)
    return text


def fetch(address: str) -> str:
    """What is there, as soon as something answers."""
    deadline = time.monotonic() + PATIENCE
    while True:
        try:
            with urllib.request.urlopen(address, timeout=10) as reply:
                return reply.read().decode()
        except URLError as fault:
            if isinstance(fault, HTTPError) or time.monotonic() > deadline:
                raise
            time.sleep(0.05)


def play(readme: Path, folder: Path, tools: str) -> list[str]:
    """Answers the rows of the document's tables that no line printed."""
    text = readme.read_text()
    told = "".join(call(line, tools, folder) for line in day(text))
    return [row for row in tables(text) if row not in told]


def main() -> int:
    parser = argparse.ArgumentParser(description=__doc__)
    parser.add_argument("folder", type=Path, metavar="FOLDER", help="the folder to play it in")
    parser.add_argument("--readme", type=Path, default=PLANNER / "README.md", metavar="FILE")
    parser.add_argument("--installed", action="store_true", help="by the installed commands")
    words = parser.parse_args()
    missing = play(words.readme, words.folder, "" if words.installed else str(PLANNER))
    for row in missing:
        print(f"day.py: no line printed: {row}", file=sys.stderr)
    return 1 if missing else 0


if __name__ == "__main__":
    sys.exit(main())
