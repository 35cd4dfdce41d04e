"""Serves the page of map-page: it asks a running lostd at each click, and looks whether the file of the map changes."""
from __future__ import annotations

import os
import socket
import threading
from http.server import BaseHTTPRequestHandler, ThreadingHTTPServer
from typing import Any, Callable, Dict, NamedTuple, Optional, Tuple
from urllib.parse import parse_qs, urlsplit

from maptools.addresses import Server, Tcp
from maptools.connection import Broken, ask
from maptools.lines import line_of
from maptools.replies import reply_of
from maptools.rings import is_pair
from maptools.server_map import file_of
from maptools.status_page import status_body, status_object

SECONDS = 10
HTML, JSON, BYTES, TEXT = "text/html", "application/json", "application/octet-stream", "text/plain"

# The page, and the packed map, of a file in a version.
Made = Tuple[bytes, bytes]


class Lostd(NamedTuple):
    """A running server: where it is asked, and where it tells its status, if that is known."""

    queries: Server
    status: Optional[Server]

    def edition(self) -> Optional[int]:
        """The edition that it answers from."""
        _, reply = reply_of(ask(self.queries, b'{"listServices":{}}', SECONDS))
        return reply.get("edition")

    def digest(self) -> Optional[str]:
        """The digest of the map that it answers from; None where it is not told."""
        return status_object(self.status, status_body(self.status, SECONDS)).get("map") if self.status else None


class MapSource:
    """Where a map comes from: the page and the data that are made of it, anew after each change."""

    def __init__(self, make: Callable[[str, str], Made]) -> None:
        self.make = make
        self.lock = threading.Lock()
        self.version, self.made = "", (b"", b"")
        self.look()

    def stamp(self) -> str:
        """What changes with the map."""
        raise NotImplementedError

    def made_now(self, stamp: str) -> Made:
        """What is made of the map as it is now."""
        raise NotImplementedError

    def look(self) -> str:
        """Reads the map if it has changed; its version. What cannot be read leaves the version before."""
        with self.lock:
            stamp = self.stamp()
            if stamp != self.version:
                self.made = self.made_now(stamp)
                self.version = stamp
            return self.version


class MapFile(MapSource):
    """The file of a map."""

    def __init__(self, path: str, make: Callable[[str, str], Made]) -> None:
        self.path = path
        super().__init__(make)

    def stamp(self) -> str:
        about = os.stat(self.path)
        return f"{about.st_ino}-{about.st_mtime_ns}-{about.st_size}"

    def made_now(self, stamp: str) -> Made:
        return self.make(self.path, stamp)


class MapOfServer(MapSource):
    """The map that a server holds: read at its desk's address when the edition that it answers from has changed."""

    def __init__(self, desk: Server, lostd: Lostd, make: Callable[[str, str], Made]) -> None:
        self.desk, self.lostd = desk, lostd
        super().__init__(make)

    def stamp(self) -> str:
        return f"edition-{self.lostd.edition()}-{self.lostd.digest() or ''}"

    def made_now(self, stamp: str) -> Made:
        with file_of(self.desk, SECONDS) as path:
            return self.make(path, stamp)


def question_of(words: Dict[str, Any]) -> bytes:
    """The findService line of a request of the page; ValueError where it asks for no point."""
    position = [int(words["latitude"][0]), int(words["longitude"][0])]
    if not is_pair(position):
        raise ValueError("the point is not on the globe")
    place = {"id": "here", "profile": "geodetic-2d", "pos": position}
    return line_of({"findService": {"service": words["service"][0], "location": [place]}}).encode()


def state_of(source: MapSource, lostd: Lostd) -> Dict[str, Any]:
    """The version of the map, and the edition and the digest of the server or why there are none."""
    try:
        return {"version": source.look(), "edition": lostd.edition(), "digest": lostd.digest(), "fault": None}
    except Broken as error:
        fault = str(error)
    except OSError as error:
        fault = f"{error.filename}: {error.strerror}"
    return {"version": source.version, "edition": None, "digest": None, "fault": fault}


class Pages(BaseHTTPRequestHandler):
    """What a browser asks for."""

    source: MapSource
    lostd: Lostd
    hosts: Tuple[str, ...]

    def do_GET(self) -> None:  # noqa: N802 (the name that the base class calls)
        """Answers a request."""
        if self.headers.get("Host") not in self.hosts:
            return self.reply(403, TEXT, b"this page is served under another name\n")
        parts = urlsplit(self.path)
        try:
            if parts.path == "/":
                return self.reply(200, HTML, self.source.made[0])
            if parts.path == "/map":
                return self.reply(200, BYTES, self.source.made[1])
            if parts.path == "/state":
                return self.reply(200, JSON, line_of(state_of(self.source, self.lostd)).encode())
            if parts.path == "/answer":
                return self.reply(200, JSON, ask(self.lostd.queries, question_of(parse_qs(parts.query)), SECONDS))
        except (ValueError, KeyError):
            return self.reply(400, TEXT, b"ask with latitude, longitude and service\n")
        except Broken as error:
            return self.reply(502, TEXT, f"{error}\n".encode())
        return self.reply(404, TEXT, b"there is no such page\n")

    def reply(self, status: int, kind: str, body: bytes) -> None:
        """Writes a reply."""
        self.send_response(status)
        self.send_header("Content-Type", f"{kind}; charset=utf-8" if kind in (HTML, TEXT) else kind)
        self.send_header("Content-Length", str(len(body)))
        self.send_header("Cache-Control", "no-store")
        self.send_header("X-Content-Type-Options", "nosniff")
        self.end_headers()
        self.wfile.write(body)

    def log_message(self, format: str, *words: Any) -> None:  # pylint: disable=redefined-builtin
        """Says nothing of each request."""


def names_of(address: Tcp, port: int) -> Tuple[str, ...]:
    """The names by which a browser may call the server: a page from elsewhere cannot have itself called so."""
    hosts = (str(Tcp(address.host, port)), f"localhost:{port}")
    return (*hosts, *(host.rpartition(":")[0] for host in hosts)) if port == 80 else hosts


def server_at(address: Tcp, source: MapSource, lostd: Lostd) -> ThreadingHTTPServer:
    """A server of the page that listens at an address; OSError where it cannot."""
    handler = type("PagesOfMap", (Pages,), {"source": source, "lostd": lostd, "hosts": names_of(address, address.port)})
    family = socket.AF_INET6 if ":" in address.host else socket.AF_INET
    return type("ServerOfMap", (ThreadingHTTPServer,), {"address_family": family})((address.host, address.port), handler)
