"""Small servers in threads, which the client is tried against."""
from __future__ import annotations

import http.server
import json
import socket
import socketserver
import threading
from contextlib import suppress
from itertools import chain
from typing import Any, Callable, Dict, List, Optional, Tuple

from maptools.addresses import Tcp, Unix
from maptools.desk_rules import EDITS, Book, apply_edit, edit_fault, empty_book
from maptools.digest import map_digest, mapping_digest
from maptools.lines import read_line
from maptools.refusals import REFUSALS

Replier = Callable[[bytes], Optional[bytes]]


def line_of(value: Any) -> bytes:
    """A reply as a line."""
    return json.dumps(value, ensure_ascii=False).encode() + b"\n"


def free_address() -> str:
    """An address of this machine at which nobody listens."""
    with socket.create_server(("127.0.0.1", 0)) as listener:
        return "127.0.0.1:{}".format(listener.getsockname()[1])


def unix_listener(path: str) -> socket.socket:
    """A socket in the file system that is listened on."""
    listener = socket.socket(socket.AF_UNIX)
    listener.bind(path)
    listener.listen()
    return listener


def tcp_listener(host: str) -> socket.socket:
    """A port of this machine that is listened on."""
    return socket.create_server((host, 0), family=socket.AF_INET6 if ":" in host else socket.AF_INET)


def serve_once(replier: Replier, path: str = "", host: str = "127.0.0.1") -> Tuple[str, List[bytes]]:
    """A server of one connection, in a thread: its address, and the lines that it gets. None from the replier ends it.

    It listens at a port of the host, or at a socket in the file system where a path is given.
    """
    listener = unix_listener(path) if path else tcp_listener(host)
    address = str(Unix(path) if path else Tcp(host, listener.getsockname()[1]))
    got: List[bytes] = []

    def run() -> None:
        connection = listener.accept()[0]
        listener.close()
        connection.setsockopt(socket.SOL_SOCKET, socket.SO_SNDBUF, 4096)
        # A client that was told enough may close its end with replies unread, which resets the connection.
        with suppress(ConnectionResetError, BrokenPipeError), connection, connection.makefile("rb") as lines:
            for line in lines:
                got.append(line)
                reply = replier(line)
                if reply is None:
                    return
                connection.sendall(reply)

    threading.Thread(target=run, daemon=True).start()
    return address, got


class DeskServer:
    """A server that serves desks one after another, by the rules that the tools have. What a desk did not commit is dropped.

    `heard` has the lines of each connection. A line that `interrupt` names ends the connection without a reply. Over HTTP it tells
    its map, and how often; if `lies` says something, that is the digest. What `meanwhile` has becomes its book once it has told it.
    `before_lines` is done once, before the next desk's first line. `refuses` has a code for each kind of line
    that it refuses whatever it says.
    """

    def __init__(self, path: str) -> None:
        self.address, self.listener = f"unix:{path}", unix_listener(path)
        self.book, self.edition = empty_book(), 0
        self.heard: List[List[bytes]] = []
        self.interrupt, self.lies, self.told = b"", "", 0
        self.refuses: Dict[str, int] = {}
        self.meanwhile: Optional[Book] = None
        self.before_lines: Callable[[], None] = lambda: None
        threading.Thread(target=self.run, daemon=True).start()

    def run(self) -> None:
        """Serves desks until the listener is closed."""
        while True:
            try:
                connection = self.listener.accept()[0]
            except OSError:
                return
            with connection, connection.makefile("rb") as lines:
                self.serve(connection, lines)

    def serve(self, connection: socket.socket, lines: Any) -> None:
        """Serves one desk."""
        first = lines.readline()
        before, self.before_lines = self.before_lines, lambda: None
        before()
        staged, pending = copy_of(self.book), 0
        if first.startswith(b"GET /map "):
            self.tell(connection, lines)
            return
        self.heard.append([])
        for line in chain([first] if first else [], lines):
            self.heard[-1].append(line.rstrip(b"\n"))
            if self.interrupt and self.interrupt in line:
                return
            kind, value = read_line(line) or ("", None)
            code = self.refuses.get(kind) or code_of(staged, kind, value)
            if kind == "commit" and not code:
                self.book, self.edition, pending = copy_of(staged), self.edition + pending, 0
            elif not code:
                apply_edit(staged, kind, value)
                pending += 1
            connection.sendall(line_of(desk_reply(kind, code, pending, self.edition)))

    def tell(self, connection: socket.socket, lines: Any) -> None:
        """Answers GET /map."""
        while lines.readline().strip():
            pass
        body = b"".join(line_of({"publish": value}) for value in self.book.held.values()) + line_of({"commit": {}})
        digest = self.lies or map_digest(map(mapping_digest, self.book.held.values()))
        head = f"HTTP/1.1 200 OK\r\nContent-Length: {len(body)}\r\nEdition: {self.edition}\r\nMap: {digest}\r\nConnection: close\r\n\r\n"
        self.told += 1
        self.book, self.meanwhile = self.meanwhile or self.book, None
        # (who wants the digest alone reads no further)
        with suppress(ConnectionResetError, BrokenPipeError):
            connection.sendall(head.encode() + body)

    def close(self) -> None:
        """Ends the server."""
        self.listener.close()


def copy_of(book: Book) -> Book:
    """A book of its own."""
    return Book(dict(book.held), dict(book.keys), dict(book.traces))


def code_of(book: Book, kind: str, value: Any) -> int:
    """The code that refuses a desk line; 0 where it is accepted."""
    if kind in EDITS:
        fault = edit_fault(book, kind, value)
        return fault.code if fault else 0
    return 0 if kind == "commit" and isinstance(value, dict) else 1


def desk_reply(kind: str, code: int, pending: int, edition: int) -> Dict[str, Any]:
    """The reply to a desk line."""
    if code:
        return {"refused": {"code": code, "name": REFUSALS[code].name}}
    return {"committed": {"edition": edition}} if kind == "commit" else {"staged": {"pending": pending}}


Pages = Dict[str, Tuple[int, bytes]]


class UnixHttpServer(socketserver.ThreadingUnixStreamServer):
    """HTTP at a socket in the file system."""

    daemon_threads = True

    def get_request(self) -> Tuple[Any, Any]:
        return self.socket.accept()[0], ("a unix socket", 0)


def serve_pages(pages: Pages, path: str = "") -> Any:
    """A server of HTTP in a thread, which has these pages and ends each connection after one; `address` says where."""

    class Handler(http.server.BaseHTTPRequestHandler):
        """Answers GET."""

        protocol_version = "HTTP/1.1"

        def do_GET(self) -> None:  # pylint: disable=invalid-name
            """Answers with the page, or else with 404."""
            status, body = pages.get(self.path, (404, b"no such path\n"))
            self.send_response(status)
            self.send_header("Content-Length", str(len(body)))
            self.send_header("Connection", "close")
            self.end_headers()
            self.wfile.write(body)

        def log_message(self, *_: Any) -> None:
            """Says nothing."""

    server = UnixHttpServer(path, Handler) if path else http.server.ThreadingHTTPServer(("127.0.0.1", 0), Handler)
    server.address = f"unix:{path}" if path else "127.0.0.1:{}".format(server.server_address[1])
    threading.Thread(target=server.serve_forever, args=(0.01,), daemon=True).start()
    return server
