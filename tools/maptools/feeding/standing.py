"""Where a server stands: its edition, and the digest of its map."""
from __future__ import annotations

from typing import NamedTuple

from maptools.addresses import Server
from maptools.connection import Broken
from maptools.digest import map_digest
from maptools.status_page import status_body, status_object


class Standing(NamedTuple):
    """An edition, and the digest of the map at it."""

    edition: int
    map: str

    def text(self) -> str:
        """Both in words."""
        return f"edition {self.edition}, map {self.map}"


# A server that begins without a map.
EMPTY = Standing(0, map_digest([]))


def standing_of(status: Server, seconds: float) -> Standing:
    """Where a server stands by what it says at its status address; Broken where it does not say, or is not ready."""
    value = status_object(status, status_body(status, seconds))
    edition, digest = value.get("edition"), value.get("map")
    if not isinstance(edition, int) or not isinstance(digest, str):
        raise Broken(f"the status of {status} has no edition or no map")
    if value.get("ready") is False:
        raise Broken(f"the server at {status} is not ready: it is reading its map")
    return Standing(edition, digest)
