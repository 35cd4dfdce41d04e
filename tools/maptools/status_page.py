"""The status of a server over HTTP: whether it is ready, and what it counts."""
from __future__ import annotations

import http.client
import json
from typing import Any, Dict, NamedTuple

from maptools.addresses import Server, Tcp
from maptools.connection import Broken, connect

OK, UNAVAILABLE = 200, 503
LONGEST_BODY = 1_048_576
HINT = "is it the server's --status address?"


class Page(NamedTuple):
    """What a path of the server holds."""

    status: int
    body: bytes


class Http(http.client.HTTPConnection):
    """HTTP over TCP or over a socket in the file system."""

    def __init__(self, server: Server, seconds: float) -> None:
        super().__init__(*(server if isinstance(server, Tcp) else ("localhost",)))
        self.server, self.seconds = server, seconds

    def connect(self) -> None:
        """Connects, as the base class wants it."""
        self.sock = connect(self.server, self.seconds)


def page_of(server: Server, path: str, seconds: float) -> Page:
    """What a path holds, over a connection of its own, which the server may end after one answer. Broken without an answer."""
    http_side = Http(server, seconds)
    try:
        http_side.request("GET", path)
        answer = http_side.getresponse()
        return Page(answer.status, answer.read(LONGEST_BODY))
    except (OSError, http.client.HTTPException) as error:
        raise Broken(f"{server} gave no answer over HTTP ({str(error).strip() or type(error).__name__}): {HINT}") from None
    finally:
        http_side.close()


def is_ready(server: Server, seconds: float) -> bool:
    """Whether the server says that it is ready; Broken where it says neither yes nor no."""
    status = page_of(server, "/health", seconds).status
    if status not in (OK, UNAVAILABLE):
        raise Broken(f"{server} answers /health with {status}: {HINT}")
    return status == OK


def status_body(server: Server, seconds: float) -> str:
    """The text of the status."""
    page = page_of(server, "/status", seconds)
    if page.status != OK:
        raise Broken(f"{server} answers /status with {page.status}: {HINT}")
    return page.body.decode(errors="replace")


def status_object(server: Server, body: str) -> Dict[str, Any]:
    """The object that the text of a status is; Broken where it is none."""
    try:
        value = json.loads(body)
    except (ValueError, RecursionError):
        value = None
    if not isinstance(value, dict):
        raise Broken(f"the status of {server} is not a JSON object: {body[:80]!r}")
    return value
