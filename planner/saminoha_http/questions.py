"""What is asked in a query or a body, checked: ends, limits, how many are kept."""

from __future__ import annotations

import functools
import re
from collections.abc import Iterable, Mapping
from dataclasses import dataclass

from saminoha_planner.choose import MOST
from saminoha_planner.client import Query
from saminoha_planner.command import Fault
from saminoha_planner.ends import End, EndFault, Ends
from saminoha_planner.network import Network

from .problems import Problem

LONGEST = 100  # letters of an end's name
MOST_BOUND = 2**64 - 1  # as FORMATS has it
KEEP = 5
MOST_NODES = 2**14  # whose ends are kept
NODE = re.compile(r"node:([0-9]{1,10})")
POINT = re.compile(r"\s*(-?\d{1,3}(?:\.\d{1,12})?)\s*,\s*(-?\d{1,3}(?:\.\d{1,12})?)\s*", re.ASCII)


@dataclass(frozen=True)
class Question:
    source: End
    target: End
    limits: tuple[int | None, ...] | None
    criteria: tuple[int, ...]  # places among the network's
    keep: int
    has_all: bool

    def query(self, network: Network) -> Query:
        return Query(self.source.node, network.arrival(self.target.node), self.limits)


class Asked:
    """How the words of requests are read, over one network."""

    def __init__(self, network: Network, ends: Ends) -> None:
        self._network, self._ends = network, ends
        self._names = [one.name for one in network.criteria]
        self._limit_names = [f"limit.{name}" for name in self._names]
        self._known = {"from", "to", "criteria", "keep", "all", *self._limit_names}
        self._node = functools.lru_cache(MOST_NODES)(self._make_node)

    def is_quick(self, words: Iterable[tuple[str, str]]) -> bool:
        """Whether no name or point has to be looked up, so that it can be read within the loop."""
        return all(NODE.fullmatch(text) for name, text in words if name in ("from", "to"))

    def question(self, words: Iterable[tuple[str, str]]) -> Question:
        given = self._once(words, self._known)
        for name in ("from", "to"):
            if name not in given:
                raise Problem("bad-parameter", f"{name} is missing", parameter=name)
        source, target = (self.end(given[name], name) for name in ("from", "to"))
        limits, criteria = self._limits(given), self._criteria(given)
        return Question(source, target, limits, criteria, keep_of(given), flag_of(given, "all"))

    def end(self, text: str, parameter: str) -> End:
        """Of `node:N`, `lat,lon`, a place, a street, or `place, street`."""
        try:
            return self._end(text)
        except EndFault as fault:
            kinds = {"far": "outside", "unknown": "no-such-place"}
            kind, like = kinds.get(fault.code, "bad-parameter"), fault.values.get("like")
            raise Problem(kind, str(fault), parameter=parameter, like=like) from None

    def _end(self, text: str) -> End:
        if len(text) > LONGEST:
            raise EndFault("long", f"an end has {LONGEST} letters at most")
        if found := NODE.fullmatch(text):
            return self._node(int(found[1]))
        if point := POINT.fullmatch(text):
            return self._ends.at(float(point[2]), float(point[1]))
        if not any(letter.isalpha() for letter in text):
            raise EndFault("no_end", f"{text!r} is no place, no lat,lon and no node:N")
        return self._ends.find(text)

    def _make_node(self, number: int) -> End:
        count = self._network.junctions
        if not 1 <= number <= count:
            raise EndFault("unknown", f"there is no node {number}; the network has {count}")
        return self._ends.of(number)

    def _criteria(self, given: Mapping[str, str]) -> tuple[int, ...]:
        """In the order of their names, or all."""
        if "criteria" not in given:
            return tuple(range(len(self._names)))
        names = given["criteria"].split(",")
        if len(set(names)) < len(names) or not set(names) <= set(self._names):
            text = f"criteria are some of {', '.join(self._names)}, each once, between commas"
            raise Problem("bad-parameter", text, parameter="criteria")
        return tuple(map(self._names.index, names))

    def _limits(self, given: Mapping[str, str]) -> tuple[int | None, ...] | None:
        limits = [self._limit(given.get(name), name) for name in self._limit_names]
        return None if all(limit is None for limit in limits) else tuple(limits)

    def _limit(self, text: str | None, name: str) -> int | None:
        if text is None:
            return None
        criterion = self._network.criteria[self._limit_names.index(name)]
        if not re.fullmatch(r"[ -~]{1,30}", text):
            raise Problem("bad-parameter", f"{name} is no limit", parameter=name)
        try:
            return min(criterion.weight(text), MOST_BOUND)
        except Fault as fault:
            raise Problem("bad-parameter", str(fault), parameter=name) from None

    def _once(self, words: Iterable[tuple[str, str]], known: set[str]) -> dict[str, str]:
        given: dict[str, str] = {}
        for name, text in words:
            if name not in known:
                names = ", ".join(sorted(known))
                raise Problem("bad-parameter", f"{name!r} is none of {names}", parameter=name)
            if name in given:
                raise Problem("bad-parameter", f"{name} comes twice", parameter=name)
            given[name] = text
        return given


def keep_of(given: Mapping[str, str]) -> int:
    text = given.get("keep", str(KEEP))
    if not re.fullmatch(r"[0-9]{1,2}", text) or not 1 <= int(text) <= MOST:
        raise Problem("bad-parameter", f"keep is a number from 1 to {MOST}", parameter="keep")
    return int(text)


def flag_of(given: Mapping[str, str], name: str) -> bool:
    text = given.get(name, "false")
    if text not in ("true", "false"):
        raise Problem("bad-parameter", f"{name} is true or false", parameter=name)
    return text == "true"
