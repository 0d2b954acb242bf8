"""Requests drawn from an OpenAPI document: some as it says, some with one thing wrong."""

from __future__ import annotations

import http.client
import json
import random
import string
from collections import Counter
from typing import Any
from urllib.parse import quote

ENDS = ("Northend", "Southend", "Market", "node:3", "50.001,10.004", "North Street")
ODD = (
    "",
    " ",
    "\0",
    "%",
    "../..",
    "nan,nan",
    "inf,1e999",
    "node:-1",
    "node:99999999999",
    "１２",
    "9" * 400,
    "é" * 50,
    "\u202e",
    "' or 1=1",
    "<script>",
    "1,2,3",
    "-0,-0",
    "1e5",
    "90,180",
    "true",
    "null",
)
VALUES: tuple[Any, ...] = (
    None,
    True,
    -1,
    0,
    1e308,
    10**400,
    [],
    {},
    [[]],
    "",
    "\ud800",
    "x" * 300,
)


class Drawer:
    def __init__(self, document: dict[str, Any], token: str, seed: int) -> None:
        self.dice, self.token = random.Random(seed), token
        self.operations = [
            (method.upper(), path, operation)
            for path, methods in document["paths"].items()
            for method, operation in methods.items()
        ]

    def request(self) -> tuple[str, str, bytes | None, dict[str, str]]:
        method, path, operation = self.dice.choice(self.operations)
        words = []
        for one in operation.get("parameters", []):
            if one["in"] == "path":
                path = path.replace(f"{{{one['name']}}}", quote(self.text(one["schema"]), safe=""))
            elif one["required"] or self.chance(0.2):
                words.append((one["name"], self.text(one["schema"])))
        if words and self.chance(0.1):
            words.append(self.dice.choice([words[0], ("other", "1")]))
        query = "&".join(f"{name}={self.quoted(text)}" for name, text in words)
        headers = {"Authorization": f"Bearer {self.token}"} if self.chance(0.7) else {}
        body = self.body(operation.get("requestBody"), headers)
        if self.chance(0.03):
            method = self.dice.choice(["PUT", "OPTIONS", "HEAD", "PATCH", "X" * 20])
        return method, path + ("?" + query if query else ""), body, headers

    def chance(self, share: float) -> bool:
        return self.dice.random() < share

    def quoted(self, text: str) -> str:
        if self.chance(0.05):
            return "".join(f"%{self.dice.randrange(256):02x}" for _ in range(5))
        return quote(text)

    def text(self, schema: dict[str, Any]) -> str:
        if self.chance(0.25):
            return self.dice.choice(ODD)
        value = self.value(schema)
        return value if isinstance(value, str) else json.dumps(value)

    def value(self, schema: dict[str, Any]) -> Any:
        match schema.get("type"):
            case "string" if schema.get("format") == "date-time":
                return f"20{self.dice.randrange(10, 99)}-05-04T07:00:00Z"
            case "string":
                letters = "".join(self.dice.choices(string.printable, k=self.dice.randrange(20)))
                return self.dice.choice([*ENDS, *ENDS, letters, "10", "30min", "slow=2"])
            case "integer":
                return self.dice.randint(
                    int(schema.get("minimum", 0)), int(schema.get("maximum", 9))
                )
            case "number":
                return self.dice.choice([50.004, 10.0045, self.dice.uniform(-200, 200)])
            case "boolean":
                return self.chance(0.5)
            case "array":
                least, most = schema.get("minItems", 0), min(schema.get("maxItems", 3), 4)
                count = self.dice.randint(least, max(least, most))
                return [self.value(schema["items"]) for _ in range(count)]
            case "object":
                return self.members(schema["properties"])
        return None

    def members(self, schemas: dict[str, Any]) -> dict[str, Any]:
        told = {}
        for name, schema in schemas.items():
            if self.chance(0.4):
                odd = self.chance(0.15)
                told[name] = self.dice.choice(VALUES) if odd else self.value(schema)
        return told

    def body(self, told: dict[str, Any] | None, headers: dict[str, str]) -> bytes | None:
        if told is None:
            return self.dice.randbytes(20) if self.chance(0.05) else None
        [(media, content)] = told["content"].items()
        if self.chance(0.95):
            headers["Content-Type"] = media
        text = json.dumps(self.value(content["schema"])).encode()
        if self.chance(0.1):
            place = self.dice.randrange(len(text))
            text = text[:place] + self.dice.randbytes(3) + text[place + 1 :]
        return text


def fuzz(host: str, port: int, document: dict[str, Any], count: int, token: str) -> Counter[int]:
    """How often each status came."""
    drawer, statuses = Drawer(document, token, 61), Counter[int]()
    for _ in range(count):
        method, path, body, headers = drawer.request()
        peer = http.client.HTTPConnection(host, port, timeout=60)
        peer.request(method, path, body, headers)
        reply = peer.getresponse()
        content = reply.read()
        peer.close()
        statuses[reply.status] += 1
        assert reply.status < 500, (method, path, body, headers, content)
        if reply.status >= 400 and method != "HEAD":
            assert json.loads(content)["status"] == reply.status, (method, path, content)
    return statuses
