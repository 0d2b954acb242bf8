"""A network's folder: a weight file for each criterion, `nodes.co`, `arcs.tsv`, `places.tsv`,
`import.json`, and the folder `arrays` from which the tools read.
"""

from __future__ import annotations

import difflib
import functools
import hashlib
import json
import os
import shutil
from collections.abc import Callable, Iterable, Iterator, Sequence
from dataclasses import asdict, dataclass, field, replace
from pathlib import Path
from typing import NamedTuple, overload

import numpy as np

from . import arrays as network_arrays
from .arrays import Arrays, degrees
from .command import Fault
from .criteria import CRITERIA, Criterion

ATTRIBUTION = "© OpenStreetMap contributors"
LICENCE = "Open Database License (ODbL) 1.0, https://www.openstreetmap.org/copyright"
PLACES = (
    "city",
    "town",
    "village",
    "suburb",
    "hamlet",
    "neighbourhood",
    "isolated_dwelling",
    "farm",
    "locality",
)
MOST_KEPT = 2**16  # arcs of which what was made of them is kept
Line = tuple[tuple[float, float], ...]


@dataclass(frozen=True)
class Arc:
    """A row of `arcs.tsv`. The arc to the arrival of a network with turns has way 0, the class
    `arrival` and a line of one point.
    """

    tail: int
    head: int
    way: int
    cls: str
    name: str
    ref: str
    speed: float
    weights: tuple[int, ...]
    line: Line

    @property
    def title(self) -> str:
        return self.name or self.ref


class Leg(NamedTuple):
    """What tells one way from another on an arc: its road, which is the same for all arcs of one
    stretch, the road's title, and the arc's metres.
    """

    road: int
    title: str
    metres: float


@dataclass(frozen=True)
class NamedNode:
    name: str
    kind: str
    population: int
    node: int
    lon: float
    lat: float


class Arcs(Sequence[Arc]):
    """The arcs one by one, each made as it is asked for; who looks at all of a large network
    takes its arrays.
    """

    def __init__(self, arrays: Arrays) -> None:
        self.arrays = arrays
        self._made = functools.lru_cache(MOST_KEPT)(self._make)

    def __len__(self) -> int:
        return len(self.arrays.tails)

    def __eq__(self, other: object) -> bool:
        return isinstance(other, Sequence) and list(self) == list(other)

    @overload
    def __getitem__(self, place: int) -> Arc:
        ...

    @overload
    def __getitem__(self, place: slice) -> list[Arc]:
        ...

    def __getitem__(self, place: int | slice) -> Arc | list[Arc]:
        if isinstance(place, slice):
            return [self[one] for one in range(*place.indices(len(self)))]
        if not -len(self) <= place < len(self):
            raise IndexError(place)
        return self._made(place % len(self))

    def _make(self, place: int) -> Arc:
        arrays, stretch = self.arrays, int(self.arrays.stretches[place])
        tail, head = int(arrays.tails[place]), int(arrays.heads[place])
        weights = tuple(map(int, arrays.weights[place]))
        if stretch < 0:
            [point] = _line(arrays.nodes[head - 1 : head])
            return Arc(tail, head, 0, "arrival", "", "", 0.0, weights, (point,))
        line = _line(arrays.points[arrays.first[stretch] : arrays.first[stretch + 1]])
        return Arc(
            tail,
            head,
            int(arrays.ways[stretch]),
            arrays.class_of(stretch),
            arrays.texts[arrays.names[stretch]],
            arrays.texts[arrays.refs[stretch]],
            float(f"{arrays.speeds[place]:g}"),
            weights,
            line[::-1] if arrays.back[place] else line,
        )


def _line(places: np.ndarray) -> Line:
    return tuple((lon, lat) for lon, lat in degrees(places).tolist())


@dataclass
class Network:
    folder: Path
    criteria: list[Criterion]
    arrays: Arrays
    places: list[NamedNode]
    info: dict = field(default_factory=dict)

    @functools.cached_property
    def arcs(self) -> Arcs:
        """Arc k at k - 1."""
        return Arcs(self.arrays)

    @functools.cached_property
    def lon(self) -> np.ndarray:
        """Of node k at k - 1, in degrees."""
        return degrees(self.arrays.nodes[:, 0])

    @functools.cached_property
    def lat(self) -> np.ndarray:
        return degrees(self.arrays.nodes[:, 1])

    @property
    def currency(self) -> str:
        return self.info.get("tolls", {}).get("currency", "")

    @property
    def files(self) -> list[str]:
        return [str(self.folder / f"{criterion.name}.gr") for criterion in self.criteria]

    @property
    def attribution(self) -> str:
        return self.info.get("attribution", ATTRIBUTION)

    @property
    def junctions(self) -> int:
        """How many nodes are junctions, at which walks begin; all, but in a network with turns."""
        return self.info.get("junctions") or len(self.lon)

    def arc(self, number: int) -> Arc:
        return self.arcs[number - 1]

    def arrival(self, node: int) -> int:
        """The node at which walks to this junction end: itself, but in a network with turns."""
        return node + self.junctions if self.info.get("turns") and node <= self.junctions else node

    def index_of(self, criterion: str) -> int:
        for index, one in enumerate(self.criteria):
            if one.name == criterion:
                return index
        names = ", ".join(one.name for one in self.criteria)
        raise Fault(f"{self.folder} has no criterion {criterion!r}; it has {names}")

    def with_criteria(self, places: Sequence[int]) -> Network:
        """With the criteria at these places alone, in this order."""
        arrays = replace(self.arrays, weights=self.arrays.weights[:, list(places)])
        return replace(self, criteria=[self.criteria[place] for place in places], arrays=arrays)

    @functools.cached_property
    def metres_per_arc(self) -> np.ndarray:
        """Each arc's length, by which routes are told apart."""
        if any(one.name == "distance" for one in self.criteria):
            return self.arrays.weights[:, self.index_of("distance")].astype(float)
        return np.where(self.arrays.stretches < 0, 0.0, self.arrays.metres[self.arrays.stretches])

    def road_key(self, number: int) -> int:
        """The same for all arcs of one stretch of road."""
        stretch = int(self.arrays.stretches[number - 1])
        return stretch if stretch >= 0 else -number

    @functools.cached_property
    def leg(self) -> Callable[[int], Leg]:
        """Of an arc; what was made is kept, up to a bound."""
        return functools.lru_cache(MOST_KEPT)(self._make_leg)

    def _make_leg(self, number: int) -> Leg:
        metres = float(self.metres_per_arc[number - 1])
        return Leg(self.road_key(number), self.arc(number).title, metres)

    def nearest(self, lon: float, lat: float) -> int:
        """The junction nearest to a point."""
        count = self.junctions
        stretch = np.cos(np.radians(lat))
        return (
            int(
                np.argmin(((self.lon[:count] - lon) * stretch) ** 2 + (self.lat[:count] - lat) ** 2)
            )
            + 1
        )

    def find(self, text: str) -> int:
        """The junction that a node's number, `lon,lat` or a place's name means."""
        if text.isdecimal():
            if not 1 <= int(text) <= self.junctions:
                raise Fault(f"there is no node {text}; the network has {self.junctions}")
            return int(text)
        parts = text.split(",")
        if len(parts) == 2:
            try:
                return self.nearest(float(parts[0]), float(parts[1]))
            except ValueError:
                pass
        return self._find_place(text).node

    def name_of(self, node: int) -> str:
        node = node - self.junctions if self.info.get("turns") and node > self.junctions else node
        named = [place for place in self.places if place.node == node]
        return min(named, key=rank_of).name if named else f"node {node}"

    def _find_place(self, text: str) -> NamedNode:
        wanted = text.casefold()
        exact = [place for place in self.places if place.name.casefold() == wanted]
        found = exact or [
            place for place in self.places if place.name.casefold().startswith(wanted)
        ]
        if not found:
            raise Fault(
                f"there is no place {text!r} in {self.folder / 'places.tsv'}{self._like(wanted)}"
            )
        best = min(found, key=rank_of)
        equal = [
            place for place in found if rank_of(place) == rank_of(best) and place.node != best.node
        ]
        if equal:
            others = ", ".join(f"{place.name} (node {place.node})" for place in [best, *equal])
            raise Fault(f"{text!r} may be {others}: give the node")
        return best

    def _like(self, wanted: str) -> str:
        names = {place.name.casefold(): place.name for place in self.places}
        near = difflib.get_close_matches(wanted, names, 1, 0.7)
        return f"; is it {names[near[0]]}?" if near else ""

    def checksum(self) -> str:
        """Of the weight files, in their order."""
        total = hashlib.sha256()
        for file in self.files:
            total.update(Path(file).read_bytes())
        return total.hexdigest()


def rank_of(place: NamedNode) -> tuple[int, int]:
    return PLACES.index(place.kind) if place.kind in PLACES else len(PLACES), -place.population


# Writing.


def refuse_other_files(folder: Path, replaces: bool) -> None:
    """A folder that has files isn't written to, but for a network's that is to be replaced."""
    names = {file.name for file in folder.iterdir()} if folder.is_dir() else set()
    if not names:
        return
    if "import.json" not in names:
        raise Fault(f"{folder} has files of other things: name another folder")
    if not replaces:
        raise Fault(f"{folder} has a network: name another folder, or say --replace")


def write_network(network: Network, with_table: bool = False) -> None:
    """Beside its place, and moved there whole; what the folder had is gone then. The table is
    `arcs.tsv`, which no tool reads.
    """
    folder = network.folder
    beside = folder.with_name(f".{folder.name}.{os.getpid()}.new")
    beside.mkdir(parents=True)
    try:
        _write_files(network, beside)
        if with_table:
            _write_arcs(beside / "arcs.tsv", network)
        if folder.is_dir():
            _keep_log(folder)
            shutil.rmtree(folder)
        beside.rename(folder)
    finally:
        shutil.rmtree(beside, ignore_errors=True)


def _keep_log(folder: Path) -> None:
    """A log of closures names arcs by their numbers, which the new network may not have."""
    log = folder / "closures.jsonl"
    if log.exists():
        log.replace(folder.with_name(f"{folder.name}.closures.old.jsonl"))


def _write_files(network: Network, folder: Path) -> None:
    arrays = network.arrays
    ends = (arrays.tails.tolist(), arrays.heads.tolist())
    for place, criterion in enumerate(network.criteria):
        head = [
            f"criterion {criterion.name}",
            f"unit {criterion.unit}",
            network.attribution,
            f"licence {LICENCE}",
        ]
        with (folder / f"{criterion.name}.gr").open("w") as out:
            out.writelines(f"c {line}\n" for line in head)
            out.write(f"p sp {len(arrays.nodes)} {len(arrays.tails)}\n")
            out.writelines(
                map("a %d %d %d\n".__mod__, zip(*ends, arrays.weights[:, place].tolist()))
            )
    _write_nodes(folder / "nodes.co", network)
    rows = (
        [p.name, p.kind, p.population, p.node, f"{p.lon:.7f}", f"{p.lat:.7f}"]
        for p in network.places
    )
    _write_table(folder / "places.tsv", ["name", "kind", "population", "node", "lon", "lat"], rows)
    network_arrays.save(arrays, folder)
    criteria = [
        asdict(criterion) | {"file": f"{criterion.name}.gr"} for criterion in network.criteria
    ]
    info = network.info | {
        "criteria": criteria,
        "nodes": len(arrays.nodes),
        "arcs": len(arrays.tails),
        "attribution": network.attribution,
        "licence": LICENCE,
    }
    (folder / "import.json").write_text(json.dumps(info, indent=2, ensure_ascii=False) + "\n")


def _write_nodes(file: Path, network: Network) -> None:
    places = np.rint(network.arrays.nodes / 10).astype(int)
    rows = zip(range(1, len(places) + 1), places[:, 0].tolist(), places[:, 1].tolist())
    with file.open("w") as out:
        out.write(
            "c degrees times 1000000: longitude, latitude\n"
            f"c {network.attribution}\nc licence {LICENCE}\n"
        )
        out.write(f"p aux sp co {len(places)}\n")
        out.writelines(map("v %d %d %d\n".__mod__, rows))


def _write_arcs(file: Path, network: Network) -> None:
    names = [criterion.name for criterion in network.criteria]
    head = ["arc", "from", "to", "way", "class", "name", "ref", "speed", *names, "line"]
    with file.open("w") as out:
        out.write("\t".join(head) + "\n")
        out.writelines(_rows_of_arcs(network.arrays))


def _rows_of_arcs(arrays: Arrays) -> Iterator[str]:
    """A row for each arc; what the arcs of a stretch have in common is put together once."""
    roads = list(
        map(
            "%d\t%s\t%s\t%s".__mod__,
            zip(
                arrays.ways.tolist(),
                map(arrays.class_names.__getitem__, arrays.classes.tolist()),
                map(arrays.texts.__getitem__, arrays.names.tolist()),
                map(arrays.texts.__getitem__, arrays.refs.tolist()),
            ),
        )
    )
    points = list(map("%.7f,%.7f".__mod__, map(tuple, degrees(arrays.points).tolist())))
    first = arrays.first.tolist()
    weights = map("\t".join, zip(*(map(str, column) for column in arrays.weights.T.tolist())))
    ends = zip(arrays.tails.tolist(), arrays.heads.tolist())
    which = zip(arrays.stretches.tolist(), arrays.back.tolist(), arrays.speeds.tolist())
    rows = enumerate(zip(ends, which, weights), start=1)
    for number, ((tail, head), (stretch, back, speed), costs) in rows:
        if stretch < 0:
            line = "%.7f,%.7f" % tuple(degrees(arrays.nodes[head - 1]).tolist())
            yield f"{number}\t{tail}\t{head}\t0\tarrival\t\t\t0\t{costs}\t{line}\n"
            continue
        run = points[first[stretch] : first[stretch + 1]]
        text = " ".join(run[::-1] if back else run)
        yield f"{number}\t{tail}\t{head}\t{roads[stretch]}\t{speed:g}\t{costs}\t{text}\n"


def _write_table(file: Path, head: Sequence[str], rows: Iterable[Sequence[object]]) -> None:
    with file.open("w") as out:
        out.write("\t".join(head) + "\n")
        out.writelines("\t".join(map(str, row)) + "\n" for row in rows)


# Reading.


def read_network(folder: str | Path) -> Network:
    folder = Path(folder)
    try:
        info = json.loads((folder / "import.json").read_text())
        criteria = [_criterion(entry) for entry in info["criteria"]]
        arrays = network_arrays.load(folder)
        return Network(folder, criteria, arrays, _read_places(folder / "places.tsv"), info)
    except FileNotFoundError as fault:
        name = Path(fault.filename)
        if name.parent.name == network_arrays.FOLDER and (folder / "arcs.tsv").exists():
            raise Fault(
                f"{folder} was made by an older import_osm.py: import its extract again"
            ) from fault
        raise Fault(
            f"{folder} is no network that import_osm.py made: it lacks {name.name}"
        ) from fault
    except (ValueError, KeyError, IndexError) as fault:
        raise Fault(f"{folder} is no network that import_osm.py made: {fault!r}") from fault


def _criterion(entry: dict) -> Criterion:
    if entry["name"] in CRITERIA:
        told = ("unit", "shown_unit", "scale", "plain", "step")
        return replace(CRITERIA[entry["name"]], **{key: entry[key] for key in told if key in entry})
    return Criterion(**{key: value for key, value in entry.items() if key != "file"})


def _read_places(file: Path) -> list[NamedNode]:
    with file.open() as lines:
        next(lines)
        rows = [line.rstrip("\n").split("\t") for line in lines]
    return [
        NamedNode(row[0], row[1], int(row[2]), int(row[3]), float(row[4]), float(row[5]))
        for row in rows
    ]
