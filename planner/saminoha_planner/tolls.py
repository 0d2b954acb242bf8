"""What roads and points charge: by the rules, else by the tags `toll`, `charge` and
`barrier=toll_booth` of OpenStreetMap (wiki.openstreetmap.org/wiki/Key:charge).
"""

from __future__ import annotations

import re
from collections import Counter
from collections.abc import Iterable, Mapping
from dataclasses import dataclass, field

from .modes import Mode, Tags
from .rules import Charge, Rules

AMOUNT = r"(\d+(?:[.,]\d+)?)"
CURRENCY = r"([A-Z]{3}|[€$£])"
SIGNS = {"€": "EUR", "$": "USD", "£": "GBP"}
ONCE = {"", "passage", "pass", "trip", "entry", "vehicle", "car", "use", "crossing", "way"}
BOOTH_TAGS = (("barrier", "toll_booth"), ("highway", "toll_gantry"))


@dataclass(frozen=True)
class Price:
    """What a tag `charge` says: so much each time, or by the kilometre."""

    amount: float
    currency: str
    by_km: bool = False


@dataclass(frozen=True)
class Entry:
    """Paid once for all roads of one key that hang together."""

    key: str
    criterion: str
    amount: float


@dataclass
class Charged:
    """What is added to weights, in units of money and seconds, by criterion; roads by their
    rows.
    """

    per_km: dict[int, dict[str, float]] = field(default_factory=dict)
    gantries: dict[int, dict[str, float]] = field(default_factory=dict)  # by points
    middles: dict[int, dict[str, float]] = field(default_factory=dict)  # of ways, by rows
    entries: dict[int, Entry] = field(default_factory=dict)


@dataclass
class Found:
    """What was read of tolls: rows and points that say that they have one, and prices."""

    rows: set[int] = field(default_factory=set)
    prices: dict[int, Price] = field(default_factory=dict)
    keys: dict[int, str] = field(default_factory=dict)  # of rows with a price: name, ref or way
    booths: dict[int, Price | None] = field(default_factory=dict)
    rules: dict[int, list[Charge]] = field(default_factory=dict)  # that fit, by rows
    rules_at: dict[int, list[Charge]] = field(default_factory=dict)  # by points


def is_toll(tags: Tags, mode: Mode) -> bool:
    """Whether the mode pays here; who walks or rides a bike only where a tag of its own says so."""
    own = tags.get(f"toll:{mode.access[-1]}")
    general = tags.get("toll") if mode.name in ("car", "truck") else None
    if tags.get("route") == "ferry" and general is None:
        general = tags.get("fee")
    return (own or general or "no") != "no"


def price_of(tags: Tags, mode: Mode) -> Price | None:
    return parse_charge(tags.get(f"charge:{mode.access[-1]}") or tags.get("charge") or "")


def is_booth(tags: Tags) -> bool:
    return any(tags.get(key) == value for key, value in BOOTH_TAGS)


def parse_charge(text: str) -> Price | None:
    """Of a text like `2.50 EUR`, `CHF 5` or `0.10 EUR/km`; None of any other."""
    text = text.strip()
    if found := re.fullmatch(rf"{AMOUNT} ?{CURRENCY}(?: ?(?:/|per) ?(\w+))?", text):
        amount, sign, per = found.groups()
    elif found := re.fullmatch(rf"{CURRENCY} ?{AMOUNT}(?: ?(?:/|per) ?(\w+))?", text):
        sign, amount, per = found.groups()
    else:
        return None
    price = Price(float(amount.replace(",", ".")), SIGNS.get(sign, sign), per == "km")
    return price if price.by_km or (per or "") in ONCE else None


def currency_of(found: Found, rules: Rules) -> str:
    """The rules', else that of most prices."""
    prices = [*found.prices.values(), *(price for price in found.booths.values() if price)]
    common = Counter(price.currency for price in prices).most_common(1)
    return rules.currency or (common[0][0] if common else "")


def charged(found: Found, currency: str) -> Charged:
    """Rules go before tags. Prices of another currency aren't valued."""
    result = Charged()
    for row, charges in found.rules.items():
        for charge in charges:
            _add_rule(result, row, charge)
    for row, price in found.prices.items():
        if price.currency != currency or _has_toll(found.rules.get(row, ())):
            continue
        if price.by_km:
            _add(result.per_km, row, "toll", price.amount)
        else:
            key = f"{found.keys[row]} {price.amount}"
            result.entries.setdefault(row, Entry(key, "toll", price.amount))
    for point, charges in found.rules_at.items():
        for charge in charges:
            _add(result.gantries, point, charge.criterion, charge.per_gantry)
    for point, price in _prices_at(found, currency).items():
        _add(result.gantries, point, "toll", price.amount)
    return result


def _add_rule(result: Charged, row: int, charge: Charge) -> None:
    if charge.per_km:
        _add(result.per_km, row, charge.criterion, charge.per_km)
    if charge.per_gantry:
        _add(result.middles, row, charge.criterion, charge.per_gantry)
    if charge.per_entry:
        result.entries.setdefault(row, Entry(charge.text, charge.criterion, charge.per_entry))


def _add(to: dict[int, dict[str, float]], at: int, criterion: str, amount: float) -> None:
    amounts = to.setdefault(at, {})
    amounts[criterion] = amounts.get(criterion, 0.0) + amount


def _has_toll(charges: Iterable[Charge]) -> bool:
    return any(charge.criterion == "toll" for charge in charges)


def _prices_at(found: Found, currency: str) -> dict[int, Price]:
    return {
        point: price
        for point, price in found.booths.items()
        if price
        and price.currency == currency
        and not price.by_km
        and not _has_toll(found.rules_at.get(point, ()))
    }


# What is told of it.


def report(found: Found, rules: Rules, currency: str, metres: Mapping[int, float]) -> dict:
    """Counts for `import.json`: what is charged by what, and what has no charge that counts."""
    by_rule = {row for row, charges in found.rules.items() if _has_toll(charges)}
    by_tag = {row for row, price in found.prices.items() if price.currency == currency} - by_rule
    left = found.rows - by_rule - by_tag
    at_rule = {point for point, charges in found.rules_at.items() if _has_toll(charges)}
    at_tag = set(_prices_at(found, currency))
    used = {charge for charges in found.rules.values() for charge in charges}
    used |= {charge for charges in found.rules_at.values() for charge in charges}
    prices = [*found.prices.values(), *(price for price in found.booths.values() if price)]
    return {
        "currency": currency,
        "roads_by_rules": len(by_rule),
        "roads_by_tags": len(by_tag),
        "roads_without_charge": len(left),
        "km_without_charge": round(sum(metres[row] for row in left) / 1000, 1),
        "booths_by_rules": len(at_rule),
        "booths_by_tags": len(at_tag),
        "booths_without_charge": len(set(found.booths) - at_rule - at_tag),
        "other_currencies": sorted({one.currency for one in prices} - {currency}),
        "rules_that_fit_nothing": [one.text for one in rules.charges if one not in used],
    }


def warnings(told: dict) -> list[str]:
    """What a user should know of a report, in lines."""
    lines = [f"the charge for {text} fits nothing" for text in told["rules_that_fit_nothing"]]
    if told["other_currencies"]:
        others = ", ".join(told["other_currencies"])
        lines.append(f"charges in {others} aren't counted, as tolls are in {told['currency']}")
    if told["roads_without_charge"] or told["booths_without_charge"]:
        lines.append(
            f"{told['roads_without_charge']} toll roads of {told['km_without_charge']} km and"
            f" {told['booths_without_charge']} booths have no charge that counts: these tolls are 0"
            " until --rules has them"
        )
    counted = ("roads_by_rules", "roads_by_tags", "booths_by_rules", "booths_by_tags")
    if not any(told[key] for key in counted):
        lines.append("nothing has a charge: all tolls are 0; --rules can have some")
    return lines
