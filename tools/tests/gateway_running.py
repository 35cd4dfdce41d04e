"""Runs the gateway, and a stand-in for lostd, in tests."""
from __future__ import annotations

import http.client
import json
import os
import re
import signal
import socket
import subprocess
import threading
import time
import xml.etree.ElementTree as ElementTree
from typing import Any, Callable, Dict, List, NamedTuple, Optional, Tuple

from tests.running import CASES, TOOLS

PYTHON = "/usr/bin/python3"
MODULES = "import lxml.etree, aiohttp, prometheus_client"
QUESTION = b'{"listServices":{}}'
NAMED = b'{"listServicesResponse":{"edition":0,"path":["lost.example"],"serviceList":[]}}'
NOT_FOUND = b'{"errors":{"edition":7,"error":"notFound"}}'
MEDIA_TYPE = "application/lost+xml"
PATIENCE = 20.0

# The reply to a line, without its newline; None where the connection is closed, and SILENCE where nothing is said.
Replier = Callable[[bytes], Optional[bytes]]
SILENCE = b""


def has_packages() -> bool:
    """Whether Debian's Python has what the gateway needs."""
    return os.access(PYTHON, os.X_OK) and subprocess.run([PYTHON, "-c", MODULES], capture_output=True).returncode == 0


def has_shapely() -> bool:
    """Whether Debian's Python has what the gateway needs for areas."""
    return os.access(PYTHON, os.X_OK) and subprocess.run([PYTHON, "-c", "import shapely.geometry"], capture_output=True).returncode == 0


class StandIn:
    """Listens as lostd does for queries. It answers the gateway's own question, unless told to answer nothing."""

    def __init__(self, replier: Optional[Replier] = None, name: bytes = NAMED, port: int = 0) -> None:
        self.replier = replier or (lambda line: NOT_FOUND)
        self.name = name
        self.got: List[bytes] = []
        self.connections: List[socket.socket] = []
        self.listener = socket.create_server(("127.0.0.1", port))
        self.port = self.listener.getsockname()[1]
        threading.Thread(target=self.accept, daemon=True).start()

    @property
    def address(self) -> str:
        """HOST:PORT."""
        return f"127.0.0.1:{self.port}"

    def accept(self) -> None:
        """Takes each connection into a thread of its own."""
        while True:
            try:
                connection = self.listener.accept()[0]
            except OSError:
                return
            self.connections.append(connection)
            threading.Thread(target=self.serve, args=(connection,), daemon=True).start()

    def serve(self, connection: socket.socket) -> None:
        """Answers the lines of a connection, one after another."""
        try:
            with connection, connection.makefile("rb") as lines:
                for line in lines:
                    reply = self.reply(line.rstrip(b"\n"))
                    if reply is None:
                        connection.shutdown(socket.SHUT_RDWR)
                        return
                    connection.sendall(reply + b"\n" if reply else b"")
        except OSError:
            pass

    def reply(self, line: bytes) -> Optional[bytes]:
        """The reply to a line."""
        if line == QUESTION:
            return self.name
        self.got.append(line)
        return self.replier(line)

    def end(self) -> None:
        """Closes all, as a server that is killed does."""
        for one in [self.listener, *self.connections]:
            try:
                one.shutdown(socket.SHUT_RDWR)
            except OSError:
                pass
        self.listener.close()

    def __enter__(self) -> StandIn:
        return self

    def __exit__(self, *_: Any) -> None:
        self.end()


class Answer(NamedTuple):
    """A response of the gateway."""

    status: int
    headers: Dict[str, str]
    body: bytes

    def outcome(self) -> str:
        """The name of the outermost element, or of the error in it."""
        root = ElementTree.fromstring(self.body)
        return local((root[0] if local(root.tag) == "errors" else root).tag)


def local(tag: str) -> str:
    """A name without its namespace."""
    return tag.rpartition("}")[2]


class Gateway:
    """A gateway that runs. Used in a `with`, it is ended at the end in any case."""

    seen: List[bytes] = []

    def __init__(self, servers: str, *words: str) -> None:
        command = [f"{TOOLS}/lost-gateway", "--listen", "127.0.0.1:0", "--lostd", servers, *words]
        self.process = subprocess.Popen(command, stdout=subprocess.PIPE, stderr=subprocess.PIPE)
        assert self.process.stdout
        ready = self.process.stdout.readline().decode()
        if not ready.startswith("ready "):
            raise AssertionError(f"the gateway did not begin: {ready!r} {self.end()}")
        self.port = int(ready.rpartition(":")[2])

    def connect(self) -> http.client.HTTPConnection:
        """A connection of a client."""
        return http.client.HTTPConnection("127.0.0.1", self.port, timeout=PATIENCE)

    def ask(self, method: str, path: str, body: Any = None, headers: Optional[Dict[str, str]] = None) -> Answer:
        """The response to one request over a connection of its own."""
        connection = self.connect()
        try:
            return ask_over(connection, method, path, body, headers)
        finally:
            connection.close()

    def post(self, body: Any, **headers: str) -> Answer:
        """The response to a question; its body is kept, to be validated."""
        given = body.encode() if isinstance(body, str) else body
        answer = self.ask("POST", "/lost", given, {"Content-Type": MEDIA_TYPE, **headers})
        Gateway.seen.append(answer.body)
        return answer

    def await_first(self, server: StandIn) -> None:
        """Waits until questions go to this server."""
        address = server.address.encode()
        assert wait_until(lambda: self.ask("GET", "/health").body.startswith(address))

    def end(self, number: int = signal.SIGTERM) -> Tuple[int, bytes]:
        """Ends the gateway; its status, and what it said on standard error."""
        if self.process.poll() is None:
            self.process.send_signal(number)
        said = self.process.communicate(timeout=PATIENCE)[1]
        return self.process.returncode, said

    def __enter__(self) -> Gateway:
        return self

    def __exit__(self, *_: Any) -> None:
        if self.process.poll() is None:
            self.end()


def ask_over(connection: http.client.HTTPConnection, method: str, path: str, body: Any = None, headers: Any = None) -> Answer:
    """The response to one request over a connection."""
    connection.request(method, path, body, headers or {})
    response = connection.getresponse()
    return Answer(response.status, {name.lower(): value for name, value in response.getheaders()}, response.read())


def wait_until(is_so: Callable[[], bool], seconds: float = PATIENCE) -> bool:
    """Waits until something is so; whether it came to be."""
    end = time.monotonic() + seconds
    while not is_so():
        if time.monotonic() > end:
            return False
        time.sleep(0.02)
    return True


def canonical(xml: Any) -> str:
    """A document in one spelling, without white space between elements."""
    return ElementTree.canonicalize(xml.decode() if isinstance(xml, bytes) else xml, strip_text=True)


class Case(NamedTuple):
    """A case of a table: its name and its parts."""

    name: str
    parts: Dict[str, str]


def cases(name: str) -> List[Case]:
    """The cases of a table under tools/cases/gateway: `== NAME`, and parts below lines `-- PART`."""
    with open(f"{CASES}/gateway/{name}.cases", encoding="utf-8") as file:
        blocks = re.split(r"^== ", file.read(), flags=re.MULTILINE)[1:]
    table = []
    for block in blocks:
        title, *parts = re.split(r"^-- ", block, flags=re.MULTILINE)
        named = (part.partition("\n") for part in parts)
        table.append(Case(title.strip(), {head.strip(): text.strip() for head, _, text in named}))
    return table


OWN_SCHEMA, STANDARD_SCHEMA = f"{TOOLS}/gateway/lost.rng", f"{CASES}/gateway/standard.rng"
VALIDATE = """
import json, sys
from lxml import etree
schemas = [(path, etree.RelaxNG(etree.parse(path))) for path in sys.argv[1:]]
for number, text in enumerate(json.load(sys.stdin)):
    try:
        document = etree.fromstring(text.encode())
    except etree.XMLSyntaxError as error:
        print(number, error)
        continue
    for path, schema in schemas:
        if not schema.validate(document):
            print(number, path, schema.error_log.last_error, text[:2000].replace("\\n", " "))
"""


def invalid_of(documents: List[bytes], *schemas: str) -> str:
    """What is not valid by the schemas: without any, by lost.rng and by that of RFC 5222; empty where all documents are."""
    command = [PYTHON, "-c", VALIDATE, *(schemas or (OWN_SCHEMA, STANDARD_SCHEMA))]
    given = json.dumps([document.decode() for document in documents]).encode()
    ran = subprocess.run(command, input=given, capture_output=True, timeout=60, check=True)
    return ran.stdout.decode()
