"""Where a trip begins and ends: places, streets, points of the map, and what was meant where no
name is just so.
"""

from __future__ import annotations

import difflib
from collections.abc import Callable
from dataclasses import dataclass

import numpy as np

from .command import Fault
from .network import NamedNode, Network, rank_of
from .roads import METRES_PER_DEGREE, Roads

FARTHEST = 3000.0  # metres from a point to the junction that it may mean


class EndFault(Fault):
    """Why a text or a point is no end: `code` and `values` let the page say it in its language."""

    def __init__(self, code: str, text: str, **values: object) -> None:
        super().__init__(text)
        self.code, self.values = code, values


@dataclass(frozen=True)
class End:
    """A junction, its name, and how many metres it lies from what was asked."""

    node: int
    name: str
    lon: float
    lat: float
    metres: float = 0.0


class Ends:
    """The places and streets of one network."""

    def __init__(self, network: Network, roads: Callable[[], Roads]) -> None:
        self._network, self._roads = network, roads

    def at(self, lon: float, lat: float) -> End:
        """The junction nearest to a point, if it is near."""
        if not (-180 <= lon <= 180 and -90 <= lat <= 90):
            raise EndFault("no_point", f"{lon:g},{lat:g} is no point of the earth")
        end = self.of(self._network.nearest(lon, lat), (lon, lat))
        if end.metres > FARTHEST:
            km = round(end.metres / 1000)
            raise EndFault("far", f"the nearest junction is {km} km away", km=km)
        return end

    def of(self, node: int, asked: tuple[float, float] | None = None, name: str = "") -> End:
        network = self._network
        lon, lat = float(network.lon[node - 1]), float(network.lat[node - 1])
        metres = _metres(asked or (lon, lat), (lon, lat))
        return End(node, name or network.name_of(node), lon, lat, metres)

    def find(self, text: str) -> End:
        """What a number, `lon,lat`, a place, a street, or `place, street` means."""
        text = " ".join(text.split())
        if not text:
            raise EndFault("empty", "name a place, a street, or click on the map")
        if text.isdecimal():
            return self.of(self._network.find(text))
        if point := _point(text):
            return self.at(*point)
        if place := self._place(text):
            return self.of(place.node, (place.lon, place.lat), place.name)
        if end := self._street(text):
            return end
        raise self._unknown(text)

    def suggestions(self, text: str, most: int = 12) -> list[str]:
        """Names of places and streets that begin with the text, or have it, or are like it."""
        wanted = " ".join(text.split()).casefold()
        names = self._names
        if not wanted:
            return names[:most]
        first = [name for name in names if name.casefold().startswith(wanted)]
        inner = [name for name in names if wanted in name.casefold() and name not in first]
        return (first + inner + self._like(wanted))[:most]

    @property
    def _names(self) -> list[str]:
        places = [place.name for place in sorted(self._network.places, key=rank_of)]
        return list(dict.fromkeys([*places, *sorted(filter(None, self._roads().names))]))

    def _like(self, wanted: str) -> list[str]:
        by_text = {name.casefold(): name for name in self._names}
        return [by_text[name] for name in difflib.get_close_matches(wanted, by_text, 3, 0.75)]

    def _unknown(self, text: str) -> EndFault:
        like = self._like(text.split(",")[-1].strip().casefold())
        more = f"; did you mean {' or '.join(like)}?" if like else ""
        return EndFault(
            "unknown", f"there is no place or street {text!r}{more}", asked=text, like=like
        )

    def _place(self, text: str) -> NamedNode | None:
        """The largest place of the name."""
        wanted = text.casefold()
        found = [place for place in self._network.places if place.name.casefold() == wanted]
        return min(found, key=rank_of) if found else None

    def _street(self, text: str) -> End | None:
        """The middle of the street, of several parts the one nearest to the place where one is
        named, else the longest.
        """
        first, comma, rest = (part.strip() for part in text.partition(","))
        for street, beside in ((text, ""), (rest, first), (first, rest)):
            roads = self._roads()
            chosen = roads.titled(street)
            place = self._place(beside) if beside else None
            if len(chosen) and (not beside or place):
                return self._of_street(roads, chosen, place)
            if not comma:
                break
        return None

    def _of_street(self, roads: Roads, chosen: np.ndarray, place: NamedNode | None) -> End:
        middles = np.array([roads.line(road)[len(roads.line(road)) // 2] for road in chosen])
        centre = np.array([place.lon, place.lat]) if place else np.median(middles, axis=0)
        stretch = np.array([np.cos(np.radians(centre[1])), 1.0])
        near = middles[int(np.argmin((((middles - centre) * stretch) ** 2).sum(axis=1)))]
        lon, lat = map(float, near)
        title = roads.title(int(chosen[0]))
        name = f"{place.name}, {title}" if place else title
        return self.of(self._network.nearest(lon, lat), (lon, lat), name)


def _point(text: str) -> tuple[float, float] | None:
    try:
        lon, lat = map(float, text.split(","))
    except ValueError:
        return None
    return lon, lat


def _metres(one: tuple[float, float], other: tuple[float, float]) -> float:
    stretch = np.cos(np.radians((one[1] + other[1]) / 2))
    return float(METRES_PER_DEGREE * np.hypot((one[0] - other[0]) * stretch, one[1] - other[1]))
