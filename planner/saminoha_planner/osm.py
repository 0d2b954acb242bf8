"""What an extract of OpenStreetMap says of roads, places, houses and turns, for one mode."""

from __future__ import annotations

from array import array
from collections.abc import Iterator
from dataclasses import dataclass, field

import numpy as np
import osmium
from osmium.geom import WKBFactory, use_nodes

from .aside import Aside
from .heights import Grid, heights_at
from .modes import Mode, blocks, duration, use_of
from .network import PLACES
from .progress import Watch
from .rules import Rules
from .tolls import Found, Price, is_booth, is_toll, price_of

WKB_HEAD = 9  # bytes before the points: the order of bytes, the kind, the count
NEWS = 5000  # ways between two counts for who waits


@dataclass(frozen=True)
class Roads:
    """Ways, or parts of ways where points of them are missing, a row each. Row r has the points
    `first[r]` to `first[r + 1]`, of which none follows itself.
    """

    ways: np.ndarray
    classes: np.ndarray  # places in class_names
    names: np.ndarray  # places in texts
    refs: np.ndarray
    along: np.ndarray  # km/h, NaN where one may not go so
    against: np.ndarray
    seconds: np.ndarray  # of a ferry by its timetable, else NaN
    first: np.ndarray
    points: np.ndarray  # places in Extract.ids
    class_names: list[str]
    texts: list[str]

    def __len__(self) -> int:
        return len(self.ways)

    @property
    def rows(self) -> np.ndarray:
        """The row of each point."""
        return np.repeat(np.arange(len(self)), np.diff(self.first))


@dataclass(frozen=True)
class Place:
    name: str
    kind: str
    population: int
    lon: float
    lat: float


@dataclass(frozen=True)
class Ban:
    """From way `source` over point `via` one may not turn into way `target`; or only into it."""

    source: int
    via: int
    target: int
    only: bool


@dataclass
class Extract:
    roads: Roads
    ids: np.ndarray  # of the roads' points, ascending
    places: np.ndarray  # their longitudes and latitudes
    heights: dict[int, float]
    blocked: np.ndarray  # whether each of the points can't be passed
    houses: np.ndarray
    named: list[Place]
    bans: list[Ban]
    bans_left_out: int
    points_missing: int
    tolls: Found

    def heights_of(self, grids: list[Grid]) -> dict[int, float]:
        """Of the roads' points, where the grids know them."""
        lon, lat = self.places.T
        found = heights_at(grids, lon, lat)
        known = ~np.isnan(found)
        return dict(zip(self.ids[known].tolist(), found[known].tolist()))


class _Texts:
    """Numbers for texts, by their first appearance."""

    def __init__(self, *first: str) -> None:
        self.numbers = {text: number for number, text in enumerate(first)}

    def number(self, text: str) -> int:
        return self.numbers.setdefault(text, len(self.numbers))


@dataclass
class _Columns:
    """Rows of roads as they are read."""

    ways: array = field(default_factory=lambda: array("q"))
    classes: array = field(default_factory=lambda: array("l"))
    names: array = field(default_factory=lambda: array("l"))
    refs: array = field(default_factory=lambda: array("l"))
    along: array = field(default_factory=lambda: array("d"))
    against: array = field(default_factory=lambda: array("d"))
    seconds: array = field(default_factory=lambda: array("d"))
    counts: array = field(default_factory=lambda: array("q"))
    points: array = field(default_factory=lambda: array("q"))
    places: bytearray = field(default_factory=bytearray)


@dataclass
class Points:
    """What single points say, and relations of them."""

    heights: dict[int, float] = field(default_factory=dict)
    blocked: set[int] = field(default_factory=set)
    booths: dict[int, Price | None] = field(default_factory=dict)
    named: list[Place] = field(default_factory=list)
    bans: list[Ban] = field(default_factory=list)
    bans_left_out: int = 0


class _PointsReader(osmium.SimpleHandler):
    def __init__(self, mode: Mode, with_bans: bool) -> None:
        super().__init__()
        self.mode, self.with_bans, self.found = mode, with_bans, Points()

    def node(self, node: osmium.osm.Node) -> None:
        if not len(node.tags):
            return
        tags = {tag.k: tag.v for tag in node.tags}
        if ("barrier" in tags or "access" in tags) and blocks(tags, self.mode):
            self.found.blocked.add(node.id)
        if "ele" in tags:
            try:
                self.found.heights[node.id] = float(tags["ele"].removesuffix("m"))
            except ValueError:
                pass
        if is_booth(tags):
            self.found.booths[node.id] = price_of(tags, self.mode)
        if tags.get("place") in PLACES and "name" in tags and node.location.valid():
            people = tags.get("population", "").replace("'", "").replace(" ", "")
            self.found.named.append(
                Place(
                    tags["name"].replace("\t", " "),
                    tags["place"],
                    int(people) if people.isdecimal() else 0,
                    node.location.lon,
                    node.location.lat,
                )
            )

    def relation(self, relation: osmium.osm.Relation) -> None:
        if not self.with_bans or relation.tags.get("type") != "restriction":
            return
        kind = None
        for key in self.mode.restriction:
            kind = relation.tags.get(key, kind)
        if kind is None or self.mode.access[-1] in (relation.tags.get("except") or "").split(";"):
            return
        members: dict[str, list[tuple[str, int]]] = {}
        for member in relation.members:
            members.setdefault(member.role, []).append((member.type, member.ref))
        match members.get("via", []):
            case [("n", via)] if kind.startswith(("no_", "only_")):
                for _, source in members.get("from", []):
                    for _, target in members.get("to", []):
                        self.found.bans.append(Ban(source, via, target, kind.startswith("only_")))
            case _:
                self.found.bans_left_out += 1


class _WaysReader(osmium.SimpleHandler):
    def __init__(self, mode: Mode, rules: Rules, with_houses: bool, watch: Watch) -> None:
        super().__init__()
        self.mode, self.rules, self.with_houses, self.watch = mode, rules, with_houses, watch
        self.columns, self.tolls = _Columns(), Found()
        self.classes, self.texts = _Texts(), _Texts("")
        self.houses = bytearray()
        self.points_missing = self.ways_seen = 0
        self._wkb = WKBFactory()

    def way(self, way: osmium.osm.Way) -> None:
        self.ways_seen += 1
        if self.ways_seen % NEWS == 0:
            self.watch.count(self.ways_seen)
        if "highway" in way.tags or "route" in way.tags:
            self._road(way)
        if self.with_houses and "building" in way.tags:
            self.houses += self._places_of(way) or b""

    def _road(self, way: osmium.osm.Way) -> None:
        tags = {tag.k: tag.v for tag in way.tags}
        use = use_of(tags, self.mode)
        if use is None or (use.along is None and use.against is None):
            return
        name, ref = (tags.get(key, "").replace("\t", " ") for key in ("name", "ref"))
        factor = self.rules.factors.get(use.cls, 1.0)
        along, against = (speed * factor if speed else np.nan for speed in (use.along, use.against))
        seconds = duration(tags.get("duration")) if use.cls == "ferry" else None
        for points, places in self._runs(way):
            self._toll_on(len(self.columns.ways), way.id, tags, (use.cls, name, ref))
            columns = self.columns
            columns.ways.append(way.id)
            columns.classes.append(self.classes.number(use.cls))
            columns.names.append(self.texts.number(name))
            columns.refs.append(self.texts.number(ref))
            columns.along.append(along)
            columns.against.append(against)
            columns.seconds.append(seconds or np.nan)
            columns.counts.append(len(points))
            columns.points.extend(points)
            columns.places += places

    def _toll_on(
        self, row: int, way: int, tags: dict[str, str], told: tuple[str, str, str]
    ) -> None:
        cls, name, ref = told
        if fit := [one for one in self.rules.charges if one.fits(way, cls, name, ref)]:
            self.tolls.rules[row] = fit
        if is_toll(tags, self.mode):
            self.tolls.rows.add(row)
            if price := price_of(tags, self.mode):
                self.tolls.prices[row] = price
                self.tolls.keys[row] = name or ref or f"way {way}"

    def _places_of(self, way: osmium.osm.Way) -> bytes | None:
        """Longitudes and latitudes of all points as 64-bit floats, or None where one is missing."""
        try:
            return bytes.fromhex(self._wkb.create_linestring(way, use_nodes.ALL))[WKB_HEAD:]
        except (osmium.InvalidLocationError, RuntimeError):
            return None

    def _runs(self, way: osmium.osm.Way) -> Iterator[tuple[list[int], bytes]]:
        """The way's points, cut where one isn't in the extract; of a point that follows itself
        once.
        """
        points = [point.ref for point in way.nodes]
        is_plain = len(points) > 1 and all(map(int.__ne__, points, points[1:]))
        if is_plain and (places := self._places_of(way)):
            yield points, places
        else:
            yield from self._runs_of_valid(way)

    def _runs_of_valid(self, way: osmium.osm.Way) -> Iterator[tuple[list[int], bytes]]:
        run: list[int] = []
        places: list[float] = []
        for point in way.nodes:
            if not point.location.valid():
                self.points_missing += 1
                if len(run) > 1:
                    yield run, array("d", places).tobytes()
                run, places = [], []
            elif not run or run[-1] != point.ref:
                run.append(point.ref)
                places += (point.lon, point.lat)
        if len(run) > 1:
            yield run, array("d", places).tobytes()

    def _mind_rules_at_points(self, ids: np.ndarray) -> None:
        for one in self.rules.charges:
            for point in one.points(self.tolls.booths):
                if point in ids:
                    self.tolls.rules_at.setdefault(point, []).append(one)

    def found(self, at: Points) -> Extract:
        columns = self.columns
        self.tolls.booths = at.booths
        points = np.frombuffer(columns.points, np.int64) if columns.points else np.zeros(0, int)
        ids, first_at, places_of_points = np.unique(points, return_index=True, return_inverse=True)
        self._mind_rules_at_points(ids)
        roads = Roads(
            _plain(columns.ways),
            _plain(columns.classes),
            _plain(columns.names),
            _plain(columns.refs),
            _plain(columns.along),
            _plain(columns.against),
            _plain(columns.seconds),
            np.concatenate([[0], np.cumsum(_plain(columns.counts))]).astype(np.int64),
            places_of_points,
            list(self.classes.numbers),
            list(self.texts.numbers),
        )
        return Extract(
            roads,
            ids,
            _pairs(columns.places)[first_at],
            at.heights,
            np.isin(ids, list(at.blocked)),
            _pairs(self.houses),
            at.named,
            at.bans,
            at.bans_left_out,
            self.points_missing,
            self.tolls,
        )


def _plain(column: array) -> np.ndarray:
    return np.array(column)


def _pairs(floats: bytearray) -> np.ndarray:
    return np.frombuffer(floats, np.float64).reshape(-1, 2)


def read_points(file: str, mode: Mode, with_bans: bool) -> Points:
    reader = _PointsReader(mode, with_bans)
    reader.apply_file(file)
    return reader.found


def read_extract(
    file: str,
    mode: Mode,
    rules: Rules,
    points: Aside[Points],
    with_houses: bool,
    watch: Watch,
) -> Extract:
    """The ways, while another process reads the points."""
    reader = _WaysReader(mode, rules, with_houses, watch)
    reader.apply_file(file, locations=True)
    watch.now("putting roads together")
    return reader.found(points.result())
