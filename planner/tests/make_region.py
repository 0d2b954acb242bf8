#!/usr/bin/python3
"""Makes an extract of a drawn region, for tests at the size of a real one: streets on a bent grid
of 600 by 600 junctions, some left out, with trunk and primary roads, names, places, a river, and
toll roads. By default the network has more than 350,000 nodes.
"""

from __future__ import annotations

import argparse
import itertools
from collections.abc import Iterator
from pathlib import Path

import numpy as np
import osmium

WEST, SOUTH, STEP = 6.0, 46.0, 0.0016  # degrees; a step is some 120 to 180 m
BETWEEN = 2  # points between two junctions
PIECES = 6  # streets' stretches in a way
LEFT_OUT = 0.08  # share of the streets' stretches
CLASSES = ((120, "trunk"), (60, "primary"), (20, "secondary"), (10, "tertiary"))
FIRST, LAST = ("Ash Birch Cedar Elm Fir Hazel Larch Lime Maple Oak Pine Rowan Willow Yew".split(),
               "Street Road Lane Way Row Hill Grove Walk".split())  # fmt: skip
PLACES = ((100, "city"), (50, "town"), (25, "village"))


class Region:
    """Junction (i, j) of a side of n is point i n + j + 1; the points between come after."""

    def __init__(self, side: int, seed: int) -> None:
        self.side, self.random = side, np.random.default_rng(seed)
        i, j = np.meshgrid(np.arange(side), np.arange(side), indexing="ij")
        bend = 12 * np.sin(i / 70) + 9 * np.cos(j / 90)
        noise = self.random.normal(0, 0.12, (2, side, side))
        self.lon = WEST + STEP * (j + bend + noise[0])
        self.lat = SOUTH + STEP * 0.7 * (i + 10 * np.sin(j / 80) + noise[1])
        self.between: list[tuple[float, float]] = []

    def point(self, i: int, j: int) -> int:
        return i * self.side + j + 1

    def points_between(self, a: tuple[int, int], b: tuple[int, int]) -> list[int]:
        """New points on a bent line from one junction to the next."""
        first = self.side * self.side + len(self.between) + 1
        aside = self.random.normal(0, 0.08 * STEP, (BETWEEN, 2))
        for share, (x, y) in zip(np.linspace(0, 1, BETWEEN + 2)[1:-1], aside):
            lon = self.lon[a] * (1 - share) + self.lon[b] * share + x
            lat = self.lat[a] * (1 - share) + self.lat[b] * share + y
            self.between.append((float(lon), float(lat)))
        return list(range(first, first + BETWEEN))

    def streets(self) -> Iterator[tuple[list[int], dict[str, str]]]:
        """The points and tags of each way, row by row and then column by column."""
        for flip, line in itertools.product((False, True), range(self.side)):
            cls = next((name for every, name in CLASSES if line % every == 0), "residential")
            for begin in range(0, self.side - 1, PIECES):
                yield from self._way(flip, line, begin, cls)

    def _way(
        self, flip: bool, line: int, begin: int, cls: str
    ) -> Iterator[tuple[list[int], dict[str, str]]]:
        run: list[int] = []
        tags = self._tags(flip, line, begin, cls)
        for place in range(begin, min(begin + PIECES, self.side - 1)):
            a, b = (
                ((place, line), (place + 1, line)) if flip else ((line, place), (line, place + 1))
            )
            if cls == "residential" and self.random.random() < LEFT_OUT:
                if len(run) > 1:
                    yield run, tags
                run = []
                continue
            run = [*(run or [self.point(*a)]), *self.points_between(a, b), self.point(*b)]
        if len(run) > 1:
            yield run, tags

    def _tags(self, flip: bool, line: int, begin: int, cls: str) -> dict[str, str]:
        tags = {"highway": cls}
        if cls == "residential":
            word, kind = self.random.integers(len(FIRST)), self.random.integers(len(LAST))
            tags["name"] = f"{FIRST[word]} {LAST[kind]} {line // 40 * 15 + begin // 40}"
            if self.random.random() < 0.1:
                tags["oneway"] = "yes"
        else:
            tags["ref"] = f"{cls[0].upper()}{line}{'NS' if flip else 'EW'}"
            tags["maxspeed"] = {"trunk": "100", "primary": "80"}.get(cls, "60")
        if cls == "trunk" and line == 240:
            tags |= {"toll": "yes", "charge": "0.10 EUR/km" if flip else "4 EUR"}
        return tags

    def places(self) -> Iterator[tuple[float, float, dict[str, str]]]:
        for i, j in itertools.product(range(12, self.side, 25), repeat=2):
            kind = next(name for every, name in PLACES if (i - 12) % every == (j - 12) % every == 0)
            people = {"city": 200_000, "town": 20_000, "village": 900}[kind] + i * 7 + j
            tags = {"place": kind, "name": f"{kind.title()} {i}-{j}", "population": str(people)}
            yield float(self.lon[i, j]), float(self.lat[i, j]), tags


def write(region: Region, file: Path) -> None:
    ways = list(region.streets())
    writer = osmium.SimpleWriter(str(file))
    corners = zip(region.lon.ravel().tolist(), region.lat.ravel().tolist())
    number = 0
    for number, place in enumerate(itertools.chain(corners, region.between), start=1):
        writer.add_node(osmium.osm.mutable.Node(id=number, location=place))
    for number, (lon, lat, tags) in enumerate(region.places(), start=number + 1):
        writer.add_node(osmium.osm.mutable.Node(id=number, location=(lon, lat), tags=tags))
    river = range(1, region.side * region.side, region.side * 7 + 3)
    tags = {"waterway": "river", "name": "Long River"}
    for number, (points, told) in enumerate([*ways, (list(river), tags)], start=1):
        writer.add_way(osmium.osm.mutable.Way(id=number, nodes=points, tags=told))
    writer.close()


def main() -> None:
    parser = argparse.ArgumentParser(description=__doc__)
    parser.add_argument("file", type=Path, metavar="FILE", help="the extract to write, .osm.pbf")
    parser.add_argument("--side", type=int, default=600, help="junctions on a side (600)")
    parser.add_argument("--seed", type=int, default=1, help="of what is left to chance (1)")
    words = parser.parse_args()
    write(Region(words.side, words.seed), words.file)


if __name__ == "__main__":
    main()
