"""Lines on the ground as lists of points in metres: in parts, simpler, moved aside."""

from __future__ import annotations

import itertools
from collections.abc import Sequence
from dataclasses import dataclass, replace

import numpy as np


@dataclass(frozen=True)
class Run:
    """A stretch on which as many routes go along, and the offset of this one's lane."""

    line: np.ndarray
    offset: float
    count: int


def runs_of(
    lines: Sequence[np.ndarray], offsets: Sequence[float], counts: Sequence[int], least: float
) -> list[Run]:
    """A run of fewer metres than the least goes on in the lane of the run before it."""
    runs: list[Run] = []
    for (offset, count), group in itertools.groupby(
        zip(lines, offsets, counts), key=lambda one: (round(one[1], 3), one[2])
    ):
        parts = [line for line, _, _ in group]
        run = Run(np.vstack([parts[0], *(part[1:] for part in parts[1:])]), offset, count)
        if runs and (metres_of(run.line) < least or runs[-1].offset == run.offset):
            runs[-1] = replace(runs[-1], line=np.vstack([runs[-1].line, run.line[1:]]))
        else:
            runs.append(run)
    return runs


def simplified(line: np.ndarray, most: float) -> np.ndarray:
    """The line through some of its points, from which the others are at most so many metres away
    (Douglas and Peucker).
    """
    kept, open_parts = {0, len(line) - 1}, [(0, len(line) - 1)]
    while open_parts:
        first, last = open_parts.pop()
        if last - first < 2:
            continue
        base, between = line[last] - line[first], line[first + 1 : last] - line[first]
        length = float(np.hypot(*base))
        away = (
            np.abs(base[0] * between[:, 1] - base[1] * between[:, 0]) / length
            if length > 1e-6
            else np.hypot(*between.T)
        )
        farthest = int(np.argmax(away))
        if away[farthest] > most:
            kept.add(first + 1 + farthest)
            open_parts += [(first, first + 1 + farthest), (first + 1 + farthest, last)]
    return line[sorted(kept)]


def beside(line: np.ndarray, offset: float) -> np.ndarray:
    """The line moved aside by so many metres, to the right where that is positive. Sharp corners
    are cut.
    """
    steps = np.diff(line, axis=0)
    line = line[np.concatenate([[True], np.hypot(*steps.T) > 1e-6])]
    if len(line) < 2 or abs(offset) < 1e-6:
        return line
    steps = np.diff(line, axis=0)
    sides = np.column_stack([steps[:, 1], -steps[:, 0]]) / np.hypot(*steps.T)[:, None]
    corners = np.vstack([sides[:1], (sides[:-1] + sides[1:]) / 2, sides[-1:]])
    return line + corners / np.maximum((corners**2).sum(axis=1), 0.4)[:, None] * offset


def metres_of(line: np.ndarray) -> float:
    return float(np.hypot(*np.diff(line, axis=0).T).sum())


def middle_of(line: np.ndarray) -> np.ndarray:
    if len(line) < 2:
        return line[0]
    sums = np.concatenate([[0.0], np.cumsum(np.hypot(*np.diff(line, axis=0).T))])
    return np.array(
        [np.interp(sums[-1] / 2, sums, line[:, 0]), np.interp(sums[-1] / 2, sums, line[:, 1])]
    )


def dense(line: np.ndarray, step: float) -> np.ndarray:
    """The line's points with others between them, at most so many metres apart."""
    if len(line) < 2:
        return line
    counts = np.maximum(1, np.ceil(np.hypot(*np.diff(line, axis=0).T) / step)).astype(int)
    at = np.repeat(np.arange(len(counts)), counts)
    share = (np.arange(len(at)) - np.repeat(np.cumsum(counts) - counts, counts)) / counts[at]
    return line[at] + (line[at + 1] - line[at]) * share[:, None]
