"""The criteria that roads can be weighed by: what a weight counts, and how it is told to people."""

from __future__ import annotations

import re
from collections.abc import Sequence
from dataclasses import dataclass, replace

from .command import Fault


@dataclass(frozen=True)
class Criterion:
    name: str
    unit: str  # what a weight of 1 is
    label: str  # as an axis has it
    shown_unit: str
    scale: float  # weights to one shown unit
    digits: int = 1
    plain: float = 1.0  # weights to a metre, a second, or what is counted
    step: float = 1.0  # how many of the usual units a weight of 1 is

    def value(self, weight: float) -> float:
        return weight / self.scale

    def text(self, weight: float) -> str:
        number = f"{self.value(weight):.{self.digits}f}"
        return f"{number} {self.shown_unit}".rstrip()

    def texts(self, weights: Sequence[int]) -> list[str]:
        """Of several weights, with as many digits as tell them apart, up to two more than usual."""
        for digits in range(self.digits, self.digits + 3):
            texts = [replace(self, digits=digits).text(weight) for weight in weights]
            if len(set(texts)) == len(set(weights)):
                break
        return texts

    def weight(self, text: str) -> int:
        """The weight that a text like 1800, 30min, 25km or 2.50 means; a bare number is metres,
        seconds, or what is counted.
        """
        found = re.fullmatch(r"(\d+(?:\.\d+)?) ?([^\W\d]*)", text.strip())
        parts = SUFFIXES.get(self.shown_unit, {self.shown_unit: 1.0})
        units = {"": self.plain} | {unit: self.scale * part for unit, part in parts.items()}
        if not found or found[2] not in units:
            known = ", ".join(unit for unit in units if unit)
            raise Fault(
                f"{text!r} is no limit on {self.name}: it takes a number"
                + (f" with {known}" if known else "")
            )
        return round(float(found[1]) * units[found[2]])


SUFFIXES = {  # in shown units
    "km": {"m": 1 / 1000, "km": 1.0},
    "m": {"m": 1.0},
    "min": {"s": 1 / 60, "min": 1.0, "h": 60.0},
}
CRITERIA = {
    criterion.name: criterion
    for criterion in (
        Criterion("distance", "metre", "distance", "km", 1000.0),
        Criterion("time", "tenth of a second", "time", "min", 600.0, plain=10.0),
        Criterion("houses", "metre with houses within 35 m", "along houses", "km", 1000.0),
        Criterion("junctions", "junction", "junctions", "", 1.0, 0),
        Criterion("climb", "metre of climb", "climb", "m", 1.0, 0),
        Criterion("toll", "hundredth of the currency", "toll", "", 100.0, 2, 100.0),
    )
}


def coarser(criteria: Sequence[Criterion], text: str) -> list[Criterion]:
    """The criteria, some in so many of their usual units, as `time=10,distance=50` has it."""
    steps = {}
    for part in filter(None, text.split(",")):
        name, _, times = part.partition("=")
        if name not in {one.name for one in criteria}:
            raise Fault(f"no criterion {name!r} is weighed, so that it can't be coarser")
        if not times.isdecimal() or not 1 <= int(times) <= 100_000:
            raise Fault(f"{part!r} is no criterion and a whole number of its units, as time=10")
        steps[name] = int(times)
    return [_in_steps(one, steps.get(one.name, 1)) for one in criteria]


def _in_steps(one: Criterion, step: int) -> Criterion:
    if step == 1:
        return one
    scale, plain = one.scale / step, one.plain / step
    return replace(one, unit=f"{step} times a {one.unit}", scale=scale, plain=plain, step=step)


def with_currency(criteria: Sequence[Criterion], currency: str) -> list[Criterion]:
    """Tolls in hundredths of this currency."""
    unit = f"hundredth of {currency or 'the currency'}"
    return [
        replace(one, unit=unit, shown_unit=currency) if one.name == "toll" else one
        for one in criteria
    ]


def parse_criteria(text: str) -> list[Criterion]:
    names = text.split(",")
    unknown = [name for name in names if name not in CRITERIA]
    if unknown:
        raise Fault(f"there is no criterion {unknown[0]!r}; there are {', '.join(CRITERIA)}")
    if not 2 <= len(names) <= 4 or len(set(names)) < len(names):
        raise Fault("a network has two to four criteria, each once")
    return [CRITERIA[name] for name in names]
