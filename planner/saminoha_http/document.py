"""What each address takes and answers, as the OpenAPI document has it."""

from __future__ import annotations

from typing import Any

from saminoha_planner.choose import MOST
from saminoha_planner.criteria import Criterion

from .answers import unit_of
from .problems import KINDS, MEDIA_TYPE
from .questions import KEEP, LONGEST

Schema = dict[str, Any]
JSON = "application/json"
END_TEXT = "node:N, lat,lon, a place, a street, or place, street"
END: Schema = {"type": "string", "minLength": 1, "maxLength": LONGEST}
BY_TOKEN: Schema = {"security": [{"token": []}]}
PROBLEM: Schema = {
    "type": "object",
    "required": ["type", "title", "status", "detail"],
    "properties": {
        "type": {"type": "string", "enum": [f"urn:saminoha:problem:{kind}" for kind in KINDS]},
        "title": {"type": "string"},
        "status": {"type": "integer"},
        "detail": {"type": "string"},
    },
}


def of_alternatives(criteria: list[Criterion]) -> Schema:
    names = [one.name for one in criteria]
    limits = [
        _parameter(
            f"limit.{one.name}",
            {"type": "string", "maxLength": 30},
            f"no more than this: a number of {unit_of(one) or one.unit}, or one with its unit",
        )
        for one in criteria
    ]
    keep = {"type": "integer", "minimum": 1, "maximum": MOST, "default": KEEP}
    words = [
        _parameter("from", END, END_TEXT, True),
        _parameter("to", END, END_TEXT, True),
        _parameter(
            "criteria",
            {"type": "string", "maxLength": 100, "default": ",".join(names)},
            "those by which trade-offs are told, between commas",
        ),
        *limits,
        _parameter("keep", keep, "how many"),
        _parameter("all", {"type": "boolean", "default": False}, "tell the costs of all"),
    ]
    return {"parameters": words}


def of_matrix(most_pairs: int) -> Schema:
    ends = {"type": "array", "items": END, "minItems": 1}
    pair = {"type": "array", "items": END, "minItems": 2, "maxItems": 2}
    pairs = {"type": "array", "items": pair, "minItems": 1, "maxItems": most_pairs}
    return _body({"pairs": pairs, "from": ends, "to": ends, "all": {"type": "boolean"}})


def of_places() -> Schema:
    word = {"type": "string", "maxLength": LONGEST}
    return {"parameters": [_parameter("q", word, "a part of a name", True)]}


def of_tiles() -> Schema:
    number = {"type": "integer", "minimum": 0}
    return {"parameters": [_in_path(name, number) for name in ("z", "x", "y")]}


def of_closing() -> Schema:
    point = {"type": "array", "items": {"type": "number"}, "minItems": 2, "maxItems": 2}
    time = {"type": "string", "format": "date-time"}
    members = {
        "road": {"type": "string", "maxLength": 100},
        "points": {"type": "array", "items": point, "minItems": 1, "maxItems": 2},
        "measure": {"type": "string", "default": "shut", "example": "slow=1.5"},
        "reason": {"type": "string", "maxLength": 200},
        "begin": time,
        "end": time,
    }
    return _body(members) | BY_TOKEN


def of_lifting() -> Schema:
    return {"parameters": [_in_path("name", {"type": "string"})]} | BY_TOKEN


def responses(status: int, summary: str, media: str) -> dict[int | str, Schema]:
    problem = {"description": "A problem", "content": {MEDIA_TYPE: {"schema": PROBLEM}}}
    return {status: {"description": summary, "content": {media: {}}}, "default": problem}


def with_tokens(document: Schema) -> None:
    schemes = document.setdefault("components", {}).setdefault("securitySchemes", {})
    schemes["token"] = {"type": "http", "scheme": "bearer"}


def _parameter(name: str, schema: Schema, text: str, is_due: bool = False) -> Schema:
    told = {"name": name, "in": "query", "schema": schema, "description": text}
    return told | {"required": is_due}


def _in_path(name: str, schema: Schema) -> Schema:
    return {"name": name, "in": "path", "required": True, "schema": schema}


def _body(members: Schema) -> Schema:
    schema = {"type": "object", "properties": members, "additionalProperties": False}
    return {"requestBody": {"required": True, "content": {JSON: {"schema": schema}}}}
