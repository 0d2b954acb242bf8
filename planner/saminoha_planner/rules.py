"""A user's file of speeds, vehicle sizes, tolls and surcharges, in TOML:

    currency = "EUR"          # of all charges here
    [speeds]                  # km/h by class of road, in place of the usual ones
    residential = 25
    [factors]                 # of what tags or classes say, by class of road
    primary = 0.9
    [vehicle]                 # metres and tonnes: roads signed for less are left out
    height = 4.0
    weight = 40
    [[charge]]                # for roads of this name, ref, way or class
    ref = "A13"
    per_km = 0.1              # in units of money
    [[charge]]
    name = "Toll Bridge"
    per_entry = 2.5           # once for all that hangs together of these roads
    [[charge]]
    point = 4711              # a point of the extract by its number, or "toll_booth" for all booths
    per_gantry = 3            # each time when it is passed; a way is passed at its middle
    [[charge]]
    way = 121
    criterion = "time"        # seconds in place of money
    per_gantry = 30

All charges that fit a road add up, but for those by entry, of which the first counts.
"""

from __future__ import annotations

from collections.abc import Iterable, Mapping
from dataclasses import dataclass, replace
from pathlib import Path

import tomllib

from .command import Fault
from .modes import Mode

MATCHES = ("name", "ref", "way", "class", "point")
KINDS = ("per_km", "per_entry", "per_gantry")
SIZES = ("height", "width", "length", "weight")
BOOTHS = "toll_booth"


@dataclass(frozen=True)
class Charge:
    """So much for the roads, or at the points, whose `key` has this value."""

    key: str
    value: str
    criterion: str
    per_km: float = 0.0
    per_entry: float = 0.0
    per_gantry: float = 0.0

    def fits(self, way: int, cls: str, name: str, ref: str) -> bool:
        told = {"way": str(way), "class": cls, "name": name, "ref": ref}
        return self.value == told.get(self.key)

    def points(self, booths: Iterable[int]) -> list[int]:
        """The points that it is for, of which some are booths."""
        if self.key != "point":
            return []
        return list(booths) if self.value == BOOTHS else [int(self.value)]

    @property
    def text(self) -> str:
        return f"{self.key} = {self.value!r}"


@dataclass(frozen=True)
class Rules:
    speeds: Mapping[str, float]
    factors: Mapping[str, float]
    vehicle: Mapping[str, float]
    charges: tuple[Charge, ...] = ()
    currency: str = ""

    def applied_to(self, mode: Mode) -> Mode:
        return replace(
            mode,
            speeds=dict(mode.speeds) | dict(self.speeds),
            sizes=dict(mode.sizes) | dict(self.vehicle),
        )


NO_RULES = Rules({}, {}, {})


def read_rules(file: Path) -> Rules:
    try:
        text = tomllib.loads(file.read_text())
    except (tomllib.TOMLDecodeError, UnicodeDecodeError) as fault:
        raise Fault(f"{file}: {fault}") from fault
    unknown = set(text) - {"currency", "speeds", "factors", "vehicle", "charge"}
    if unknown:
        raise Fault(
            f"{file}: unknown part {min(unknown)!r};"
            " there are currency, [speeds], [factors], [vehicle] and [[charge]]"
        )
    tables = {
        name: _numbers(file, name, text.get(name, {})) for name in ("speeds", "factors", "vehicle")
    }
    if unknown := set(tables["vehicle"]) - set(SIZES):
        raise Fault(f"{file}: a vehicle has no {min(unknown)!r}; it has {', '.join(SIZES)}")
    charges = tuple(_charge(file, entry) for entry in text.get("charge", []))
    return Rules(**tables, charges=charges, currency=_currency(file, text.get("currency", "")))


def _currency(file: Path, text: object) -> str:
    if not isinstance(text, str) or len(text) > 8 or any(letter.isdigit() for letter in text):
        raise Fault(f'{file}: a currency is a short text like "EUR"')
    return text.strip()


def _numbers(file: Path, name: str, table: object) -> dict[str, float]:
    if not isinstance(table, dict) or not all(
        isinstance(value, (int, float)) and value > 0 for value in table.values()
    ):
        raise Fault(f"{file}: [{name}] has a value that is no number above 0")
    return {key: float(value) for key, value in table.items()}


def _charge(file: Path, entry: dict[str, object]) -> Charge:
    if "amount" in entry:
        raise Fault(
            f"{file}: a charge has no amount, which counted once for each way that the extract cuts"
            f" a road into; it has {', '.join(KINDS[:-1])} or {KINDS[-1]}"
        )
    keys = [key for key in MATCHES if key in entry]
    kinds = [kind for kind in KINDS if kind in entry]
    if len(keys) != 1 or not kinds or set(entry) - {*MATCHES, *KINDS, "criterion"}:
        raise Fault(
            f"{file}: a charge names one of {', '.join(MATCHES)}, and so much"
            f" {', '.join(KINDS[:-1])} or {KINDS[-1]}; it may have a criterion"
        )
    [key] = keys
    criterion = entry.get("criterion", "toll")
    if criterion not in ("toll", "time"):
        raise Fault(f"{file}: a charge's criterion is toll or time, and not {criterion!r}")
    if key == "point" and kinds != ["per_gantry"]:
        raise Fault(f"{file}: a charge at a point is per_gantry")
    if key not in ("point", "way") and "per_gantry" in kinds:
        raise Fault(f"{file}: a charge per_gantry names a point or a way, and not a {key}")
    if key == "point" and entry[key] != BOOTHS and not str(entry[key]).isdecimal():
        raise Fault(f"{file}: a point is a number or {BOOTHS!r}, and not {entry[key]!r}")
    amounts = {kind: _amount(file, entry[kind]) for kind in kinds}
    return Charge(key, str(entry[key]), str(criterion), **amounts)


def _amount(file: Path, value: object) -> float:
    if isinstance(value, bool) or not isinstance(value, (int, float)) or not 0 <= value < 1e7:
        raise Fault(f"{file}: a charge's amount is a number, 0 or more")
    return float(value)
