"""Who may use a road, which way, and how fast: the tags of OpenStreetMap read for a car, a
truck, a bike or a walker.
"""

from __future__ import annotations

import functools
import re
from collections.abc import Mapping
from dataclasses import dataclass, field

Tags = Mapping[str, str]
REFUSED = {
    "no",
    "private",
    "agricultural",
    "forestry",
    "emergency",
    "military",
    "bus",
    "psv",
    "delivery",
    "use_sidepath",
}
BARRIERS = {
    "block",
    "bollard",
    "bus_trap",
    "chain",
    "cycle_barrier",
    "debris",
    "jersey_barrier",
    "log",
    "rope",
    "stile",
    "sump_buster",
    "turnstile",
    "kissing_gate",
    "full-height_turnstile",
}
IMPLIED = {
    "walk": 5.0,
    "none": 130.0,
    "signals": 100.0,
    "motorway": 120.0,
    "rural": 80.0,
    "urban": 50.0,
    "living_street": 15.0,
    "zone30": 30.0,
    "zone:30": 30.0,
    "trunk": 100.0,
}

CAR = {
    "motorway": 110,
    "motorway_link": 60,
    "trunk": 90,
    "trunk_link": 50,
    "primary": 65,
    "primary_link": 45,
    "secondary": 55,
    "secondary_link": 40,
    "tertiary": 45,
    "tertiary_link": 35,
    "unclassified": 40,
    "residential": 30,
    "living_street": 10,
    "road": 30,
    "service": 15,
    "ferry": 10,
}
TRUCK = {name: min(speed, 80) * 0.9 for name, speed in CAR.items()} | {"ferry": 10}
BIKE = {
    "primary": 18,
    "primary_link": 18,
    "secondary": 18,
    "secondary_link": 18,
    "tertiary": 18,
    "tertiary_link": 18,
    "unclassified": 18,
    "residential": 18,
    "living_street": 12,
    "road": 16,
    "service": 14,
    "track": 12,
    "cycleway": 18,
    "path": 10,
    "bridleway": 8,
    "ferry": 10,
}
FOOT = {name: 5 for name in (*BIKE, "footway", "pedestrian")} | {"steps": 2, "ferry": 10}
BY_SIGN_ALONE: dict[str, set[str]] = {
    "bike": {"footway", "pedestrian"},
    "car": {"track"},
    "truck": {"track"},
    "foot": set(),
}


@dataclass(frozen=True)
class Mode:
    name: str
    access: tuple[str, ...]  # keys of access, from the general to the special
    speeds: Mapping[str, float]  # km/h by class of road
    oneway: tuple[str, ...]  # keys that say one-way, from the general to the special
    minds_speed_limits: bool = True
    fastest: float = 130.0
    restriction: tuple[str, ...] = ("restriction",)
    sizes: Mapping[str, float] = field(default_factory=dict)  # height, weight .. of the vehicle


MODES = {
    "car": Mode(
        "car",
        ("access", "vehicle", "motor_vehicle", "motorcar"),
        CAR,
        ("oneway", "oneway:motorcar"),
        restriction=("restriction", "restriction:motorcar"),
    ),
    "truck": Mode(
        "truck",
        ("access", "vehicle", "motor_vehicle", "goods", "hgv"),
        TRUCK,
        ("oneway", "oneway:hgv"),
        fastest=80.0,
        restriction=("restriction", "restriction:hgv"),
    ),
    "bike": Mode(
        "bike",
        ("access", "vehicle", "bicycle"),
        BIKE,
        ("oneway", "oneway:bicycle"),
        False,
        25.0,
        restriction=("restriction", "restriction:bicycle"),
    ),
    "foot": Mode(
        "foot",
        ("access", "foot"),
        FOOT,
        ("oneway:foot",),
        False,
        6.0,
        restriction=("restriction:foot",),
    ),
}


@dataclass(frozen=True)
class Use:
    """Speeds in km/h along a way and against it; None where it may not be used so."""

    cls: str
    along: float | None
    against: float | None


def class_of(tags: Tags) -> str | None:
    if tags.get("area") == "yes":
        return None
    return "ferry" if tags.get("route") == "ferry" else tags.get("highway")


def use_of(tags: Tags, mode: Mode) -> Use | None:
    """How the mode uses a way with these tags, or None where it doesn't."""
    cls = class_of(tags)
    if cls is None or not _admits(tags, cls, mode) or not _fits(tags, mode):
        return None
    along, against = directions(tags, cls, mode)
    speed = mode.speeds.get(cls, mode.speeds.get("service", mode.speeds["ferry"]))
    return Use(
        cls,
        _speed(tags, "forward", speed, mode) if along else None,
        _speed(tags, "backward", speed, mode) if against else None,
    )


def blocks(tags: Tags, mode: Mode) -> bool:
    """Whether a point with these tags can't be passed."""
    access = _access(tags, mode)
    if access is not None:
        return access in REFUSED
    on_wheels = mode.name in ("car", "truck")
    return on_wheels and tags.get("barrier") in BARRIERS


def directions(tags: Tags, cls: str, mode: Mode) -> tuple[bool, bool]:
    value = "no"
    if mode.name != "foot" and (
        cls == "motorway" or tags.get("junction") in ("roundabout", "circular")
    ):
        value = "yes"
    for key in mode.oneway:
        value = tags.get(key, value)
    if (
        mode.name == "bike"
        and tags.get("cycleway", "").startswith("opposite")
        and "oneway:bicycle" not in tags
    ):
        value = "no"
    return value not in ("-1", "reverse"), value not in ("yes", "1", "true")


def duration(text: str | None) -> float | None:
    """Seconds of a ferry's `duration`, as HH:MM, HH:MM:SS or minutes."""
    if not text or not re.fullmatch(r"\d+(:\d\d){0,2}", text):
        return None
    parts = [int(part) for part in text.split(":")]
    hours, minutes, seconds = ([0] + parts + [0])[:3] if len(parts) == 1 else (parts + [0])[:3]
    return hours * 3600.0 + minutes * 60.0 + seconds or None


@functools.cache
def parse_speed(text: str | None) -> float | None:
    """km/h of a `maxspeed`."""
    text = (text or "").strip().lower().split(";")[0]
    if found := re.fullmatch(r"(\d+(?:\.\d+)?)\s*(mph|knots|km/h|kmh|kph)?", text):
        factor = {"mph": 1.609344, "knots": 1.852}.get(found[2] or "", 1.0)
        return float(found[1]) * factor or None
    return IMPLIED.get(text.partition(":")[2] or text)


def _access(tags: Tags, mode: Mode) -> str | None:
    found = None
    for key in mode.access:
        found = tags.get(key, found)
    return found


def _admits(tags: Tags, cls: str, mode: Mode) -> bool:
    access = _access(tags, mode)
    signed = tags.get(mode.access[-1]) in ("yes", "designated", "permissive")
    if cls not in mode.speeds and not (signed and cls in BY_SIGN_ALONE[mode.name]):
        return False
    if tags.get("motorroad") == "yes" and mode.name in ("bike", "foot"):
        return False
    return access not in REFUSED


def _fits(tags: Tags, mode: Mode) -> bool:
    for what, size in mode.sizes.items():
        found = re.match(r"\d+(\.\d+)?", tags.get(f"max{what}", ""))
        if found and float(found[0]) < size:
            return False
    return True


def _speed(tags: Tags, way: str, usual: float, mode: Mode) -> float:
    if not mode.minds_speed_limits:
        return usual
    keys = [f"maxspeed:{way}", "maxspeed"]
    if mode.name == "truck":
        keys = [f"maxspeed:hgv:{way}", "maxspeed:hgv", *keys]
    signed = next((speed for key in keys if (speed := parse_speed(tags.get(key)))), None)
    return min(signed or usual, mode.fastest)
