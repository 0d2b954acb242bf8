"""Heights of points, from an ESRI ASCII grid (`.asc`) or SRTM tiles (`.hgt`, one or a folder of
them).
"""

from __future__ import annotations

import re
from dataclasses import dataclass
from pathlib import Path

import numpy as np

from .command import Fault


@dataclass
class Grid:
    """Heights on a raster whose first row is the northernmost; NaN where none is known."""

    west: float
    north: float
    step: float
    rows: np.ndarray

    def at(self, lon: np.ndarray, lat: np.ndarray) -> np.ndarray:
        """Between four neighbours in proportion, and NaN outside."""
        x, y = (lon - self.west) / self.step, (self.north - lat) / self.step
        inside = (x >= 0) & (y >= 0) & (x <= self.rows.shape[1] - 1) & (y <= self.rows.shape[0] - 1)
        x, y = np.where(inside, x, 0), np.where(inside, y, 0)
        column = np.minimum(x.astype(int), self.rows.shape[1] - 2)
        row = np.minimum(y.astype(int), self.rows.shape[0] - 2)
        right, down = x - column, y - row
        upper = self.rows[row, column] * (1 - right) + self.rows[row, column + 1] * right
        lower = self.rows[row + 1, column] * (1 - right) + self.rows[row + 1, column + 1] * right
        return np.where(inside, upper * (1 - down) + lower * down, np.nan)


def read_grids(path: Path) -> list[Grid]:
    files = sorted(path.glob("*.hgt")) + sorted(path.glob("*.asc")) if path.is_dir() else [path]
    if not files:
        raise Fault(f"{path} has no .hgt or .asc file")
    return [_read_asc(file) if file.suffix == ".asc" else _read_hgt(file) for file in files]


def heights_at(grids: list[Grid], lon: np.ndarray, lat: np.ndarray) -> np.ndarray:
    found = np.full(len(lon), np.nan)
    for grid in grids:
        found = np.where(np.isnan(found), grid.at(lon, lat), found)
    return found


def _read_asc(file: Path) -> Grid:
    head: dict[str, float] = {}
    with file.open() as lines:
        try:
            position = lines.tell()
            while (words := lines.readline().split()) and words[0][0].isalpha():
                head[words[0].lower()] = float(words[1])
                position = lines.tell()
            lines.seek(position)
            rows = np.loadtxt(lines, ndmin=2)
            step, half = head["cellsize"], head["cellsize"] / 2
            west = head["xllcenter"] if "xllcenter" in head else head["xllcorner"] + half
            south = head["yllcenter"] if "yllcenter" in head else head["yllcorner"] + half
        except (KeyError, ValueError, IndexError) as fault:
            raise Fault(f"{file} is no ESRI ASCII grid: {fault}") from fault
    rows[rows == head.get("nodata_value", -9999.0)] = np.nan
    return Grid(west, south + step * (len(rows) - 1), step, rows)


def _read_hgt(file: Path) -> Grid:
    named = re.fullmatch(r"([NS])(\d+)([EW])(\d+)", file.stem.upper())
    values = np.fromfile(file, dtype=">i2").astype(float)
    side = round(len(values) ** 0.5)
    if not named or side * side != len(values) or side < 2:
        raise Fault(f"{file} is no SRTM tile, whose name is like N47E009.hgt")
    values[values == -32768] = np.nan
    south = int(named[2]) * (1 if named[1] == "N" else -1)
    west = int(named[4]) * (1 if named[3] == "E" else -1)
    return Grid(west, south + 1.0, 1.0 / (side - 1), values.reshape(side, side))
