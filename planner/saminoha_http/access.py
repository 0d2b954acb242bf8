"""The access log: a line of JSON for each request, without what was asked."""

from __future__ import annotations

import asyncio
import json
import time
from dataclasses import dataclass, field
from typing import TextIO

from starlette.types import Message

PAUSE = 0.2  # seconds after which lines are written, together


@dataclass
class Told:
    """What became of one request."""

    begun: float = field(default_factory=time.monotonic)
    status: int = 0
    bytes: int = 0

    def mind(self, message: Message) -> None:
        if message["type"] == "http.response.start":
            self.status = message["status"]
        elif message["type"] == "http.response.body":
            self.bytes += len(message.get("body", b""))


class AccessLog:
    def __init__(self, out: TextIO) -> None:
        self._out, self._lines = out, list[str]()
        self._told = json.JSONEncoder().encode

    def add(self, peer: str, method: str, path: str, told: Told, seconds: float) -> None:
        line = {
            "time": time.strftime("%Y-%m-%dT%H:%M:%SZ", time.gmtime()),
            "peer": peer,
            "method": method,
            "path": path,
            "status": told.status,
            "seconds": round(seconds, 4),
            "bytes": told.bytes,
        }
        self._lines.append(self._told(line) + "\n")
        if len(self._lines) == 1:
            asyncio.get_running_loop().call_later(PAUSE, self.flush)

    def flush(self) -> None:
        lines, self._lines = self._lines, []
        if lines:
            self._out.write("".join(lines))
            self._out.flush()
