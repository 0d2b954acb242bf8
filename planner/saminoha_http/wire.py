"""How requests come in: uvicorn's parser in C where Debian's httptools is installed, else that in
Python. With the one in C, what is no request of HTTP is told as a problem, and a head has to come
in a time; with the other, let a proxy stand before it where strangers come.
"""

from __future__ import annotations

import asyncio
import importlib.util
from typing import Any

from .problems import MEDIA_TYPE, Problem

HEAD_TIME = 30.0  # seconds until a connection that sends no whole head is closed


def has(library: str) -> bool:
    return importlib.util.find_spec(library) is not None


def use_fast_loop() -> None:
    """The loop of libuv, where python3-uvloop is installed."""
    if has("uvloop"):
        import uvloop

        uvloop.install()


def protocol() -> Any:
    """What `http=` of uvicorn's configuration takes."""
    return _of_httptools() if has("httptools") else "h11"


def _of_httptools() -> type[asyncio.Protocol]:
    from uvicorn.protocols.http.httptools_impl import STATUS_LINE, HttpToolsProtocol

    class Wire(HttpToolsProtocol):
        """The head's time begins with the connection and with the end of each reply, and ends
        with the head.
        """

        is_head_due = True

        def connection_made(self, transport: asyncio.Transport) -> None:
            super().connection_made(transport)
            self.timeout_keep_alive_task = self.loop.call_later(
                HEAD_TIME, self.timeout_keep_alive_handler
            )

        def _unset_keepalive_if_required(self) -> None:
            if not self.is_head_due:
                super()._unset_keepalive_if_required()

        def on_headers_complete(self) -> None:
            self.is_head_due = False
            self._unset_keepalive_if_required()
            super().on_headers_complete()

        def on_response_complete(self) -> None:
            """Of requests that were sent together the next one's head has come already."""
            super().on_response_complete()
            self.is_head_due = bool(self.cycle.response_complete)
            self._unset_keepalive_if_required()

        def send_400_response(self, text: str) -> None:
            problem = Problem("no-request", "what came is no request of HTTP/1.1").response()
            head = {"content-type": MEDIA_TYPE, "content-length": str(len(problem.body))}
            lines = [f"{name}: {value}\r\n".encode() for name, value in head.items()]
            told = [STATUS_LINE[400], *lines, b"connection: close\r\n\r\n", problem.body]
            self.transport.write(b"".join(told))
            self.transport.close()

    return Wire
