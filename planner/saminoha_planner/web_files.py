"""Where the page's files lie, and what a browser may do with them."""

from __future__ import annotations

from pathlib import Path
from urllib.parse import urlsplit

LEAFLET = Path("/usr/share/javascript/leaflet")
WEB = Path(__file__).parent / "web"


def content_policy(tiles: str = "") -> str:
    """Names of an extract are others' texts: nothing in them can fetch or run a thing. Images come
    from others where their tiles are wanted.
    """
    parts = urlsplit(tiles)
    images = f" {parts.scheme}://{parts.netloc.replace('{s}', '*')}" if tiles else ""
    return f"default-src 'self'; img-src 'self' data:{images}; style-src 'self' 'unsafe-inline'"
