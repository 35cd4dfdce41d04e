"""The address of a follower: /health for balancers, /metrics for Prometheus."""
from __future__ import annotations

import http.server
import threading
from typing import Any, Iterator, Tuple

from maptools.addresses import Tcp
from maptools.connection import Broken
from maptools.feeding.level import Level
from maptools.status_page import OK, UNAVAILABLE

# How long a client of this address may take.
SECONDS = 5
NO_PAGE = 404
TEXT, METRICS = "text/plain; charset=utf-8", "text/plain; version=0.0.4; charset=utf-8"


def rows_of(level: Level) -> Iterator[Tuple[str, str, str, float]]:
    """What is counted: names, kinds, what they mean, and values."""
    position = level.position
    yield "healthy", "gauge", "1 if /health gives 200, else 0", not level.cause()
    yield "edition", "gauge", "The edition of the server, as last seen", position.edition if position else 0
    yield "log_edition", "gauge", "The edition of the log, as last seen", level.log_edition
    yield "commits_behind", "gauge", "How many commits of the log the server lacks", level.commits_behind
    yield "seconds_behind", "gauge", "For how long the log has had what the server lacks", level.seconds_behind()
    yield "log_apart_seconds", "gauge", "For how long the log could not be reached", level.seconds_apart()
    yield "commits_total", "counter", "Commits sent to the server", level.commits
    yield "edits_total", "counter", "Edits sent to the server", level.edits
    yield "bursts_total", "counter", "Times that commits were sent", level.bursts
    yield "looks_total", "counter", "Times that the server's edition and digest were compared with the log's", level.looks


def metrics_of(level: Level) -> str:
    """The numbers as Prometheus reads them."""
    lines = []
    for name, kind, meaning, value in rows_of(level):
        full = f"lostd_feed_{name}"
        lines += [f"# HELP {full} {meaning}.", f"# TYPE {full} {kind}", f"{full} {float(value):.10g}"]
    return "\n".join([*lines, ""])


def health_of(level: Level) -> Tuple[int, str]:
    """The status and the text of /health."""
    cause = level.cause()
    position = level.position
    return (UNAVAILABLE, f"{cause}\n") if cause or position is None else (OK, f"{position.text()}\n")


class Handler(http.server.BaseHTTPRequestHandler):
    """Answers one request a connection."""

    level: Level
    timeout = SECONDS
    server_version, sys_version = "lost-feed", ""

    def do_GET(self) -> None:  # pylint: disable=invalid-name
        """Answers a page."""
        if self.path == "/health":
            self.answer(*health_of(self.level))
        elif self.path == "/metrics":
            self.answer(OK, metrics_of(self.level), METRICS)
        else:
            self.answer(NO_PAGE, "there are /health and /metrics\n")

    def answer(self, status: int, text: str, kind: str = TEXT) -> None:
        """Sends a page."""
        body = text.encode()
        self.send_response(status)
        self.send_header("Content-Type", kind)
        self.send_header("Content-Length", str(len(body)))
        self.send_header("Connection", "close")
        self.end_headers()
        self.wfile.write(body)

    def log_message(self, *_: Any) -> None:
        """Says nothing."""


class Server(http.server.ThreadingHTTPServer):
    """A thread for each connection."""

    daemon_threads = True
    request_queue_size = 64

    def handle_error(self, *_: Any) -> None:
        """A client that went away is nothing to tell of."""


def listen(address: Tcp, level: Level) -> str:
    """Answers from now on, in threads; the address. Broken where it cannot."""
    handler = type("LevelHandler", (Handler,), {"level": level})
    try:
        server = Server((address.host, address.port), handler)
    except OSError as error:
        raise Broken(f"--listen {address}: {error.strerror or error}") from None
    threading.Thread(target=server.serve_forever, daemon=True).start()
    return str(Tcp(address.host, server.server_address[1]))
