"""What went wrong, as problem details (RFC 9457)."""

from __future__ import annotations

import json
from collections.abc import Mapping

from starlette.responses import Response

from saminoha_planner.client import ClientError, Refused, TimedOut
from saminoha_planner.command import Fault
from saminoha_planner.ends import EndFault

from .links import TooLong
from .servers import Busy

MEDIA_TYPE = "application/problem+json"
KINDS = {  # by the last part of a problem's `type`: its status and title
    "no-request": (400, "This is no request"),
    "bad-parameter": (400, "A parameter isn't as it should be"),
    "bad-body": (400, "The body isn't as it should be"),
    "unauthorized": (401, "A token is wanted"),
    "foreign-origin": (403, "A page of this origin may change nothing"),
    "no-such-place": (404, "There is no such place"),
    "no-route": (404, "No route leads there"),
    "no-such-closure": (404, "There is no such closure"),
    "not-found": (404, "There is nothing here"),
    "no-operator": (404, "Roads can't be closed here"),
    "method": (405, "This method isn't answered here"),
    "over": (409, "The closure is over"),
    "too-large": (413, "The body is too large"),
    "uri-too-long": (414, "The address is too long"),
    "media-type": (415, "The body has to be JSON"),
    "outside": (422, "The point lies outside the network"),
    "budget": (422, "The search takes more labels than the server allows"),
    "too-many": (422, "The answer is too long"),
    "too-many-requests": (429, "Too many requests of one peer"),
    "server": (502, "The server's reply wasn't as it should be"),
    "busy": (503, "All links are in use"),
    "timeout": (504, "The server took too long"),
}
OF_ENDS = {"far": "outside", "unknown": "no-such-place", "no_road": "no-such-place"}


class Problem(Exception):
    """`more` are members of its own beside those of the RFC."""

    def __init__(
        self, kind: str, detail: str, headers: Mapping[str, str] | None = None, **more: object
    ) -> None:
        super().__init__(detail)
        self.kind, self.detail, self.headers = kind, detail, headers or {}
        self.more = {name: value for name, value in more.items() if value not in (None, [])}

    @property
    def status(self) -> int:
        return KINDS[self.kind][0]

    @property
    def told(self) -> dict[str, object]:
        status, title = KINDS[self.kind]
        head = {"type": f"urn:saminoha:problem:{self.kind}", "title": title, "status": status}
        return head | {"detail": self.detail} | self.more

    def response(self) -> Response:
        body = json.dumps(self.told)
        return Response(body, self.status, dict(self.headers), MEDIA_TYPE)


def problem_of(fault: Exception) -> Problem:
    """Of what the planner's library and the pool raise. Texts of the library are for people."""
    match fault:
        case Problem():
            return fault
        case EndFault():
            return Problem(OF_ENDS.get(fault.code, "bad-parameter"), str(fault))
        case Fault():
            return Problem("bad-parameter", str(fault))
        case Refused() if fault.refusal.reason == "budget":
            advice = "ask for fewer trade-offs by limits, or for nearer ends"
            return Problem("budget", f"{fault}: {advice}", epoch=fault.refusal.epoch)
        case Busy():
            return Problem("busy", str(fault), {"Retry-After": str(fault.seconds)})
        case TimedOut():
            return Problem("timeout", str(fault))
        case TooLong():
            return Problem("too-many", str(fault))
        case ClientError():
            return Problem("server", str(fault))
    raise fault
