"""Who may close roads: a file with a line `NAME TOKEN` for each."""

from __future__ import annotations

import hmac
import re
from pathlib import Path

from saminoha_planner.command import Fault

SHORTEST = 24  # letters of a token
OTHERS = 0o007  # the rights of all others on a file


class Tokens:
    """Names by their tokens. Without any, nobody may."""

    def __init__(self, by_token: dict[bytes, str] | None = None) -> None:
        self._by_token = by_token or {}

    @staticmethod
    def read(file: Path) -> Tokens:
        if file.stat().st_mode & OTHERS:
            raise Fault(f"{file} has tokens and may be read by all: chmod o= {file}")
        found = {}
        for number, line in enumerate(file.read_text().splitlines(), start=1):
            if line.strip() and not line.startswith("#"):
                name, token = _parts(line, f"{file}, line {number}")
                found[token.encode()] = name
        return Tokens(found)

    def name_of(self, authorization: str) -> str | None:
        """Whose token it is. Each one is compared, in a time that doesn't tell how far it fits."""
        scheme, _, token = authorization.partition(" ")
        given, found = token.strip().encode(), None
        for known, name in self._by_token.items():
            if hmac.compare_digest(known, given):
                found = name
        return found if scheme.casefold() == "bearer" else None


def _parts(line: str, where: str) -> tuple[str, str]:
    words = line.split()
    if len(words) != 2 or not re.fullmatch(rf"[!-~]{{{SHORTEST},}}", words[1]):
        raise Fault(f"{where}, is no name and a token of {SHORTEST} or more letters")
    return words[0], words[1]
