"""Tests what an operator watches of a server: its pages of HTTP, and that Prometheus' own parser reads its metrics."""
from __future__ import annotations

import http.client
import json
import os
import socket
import subprocess
import tempfile
import unittest
from typing import Any, Dict, Tuple

from maptools.digest import map_digest, mapping_digest
from tests.gateway_running import wait_until
from tests.running import TOP, lostd, question

PYTHON = "/usr/bin/python3"
NEEDS = "the package python3-prometheus-client of Debian is missing"
PATIENCE = 20.0
ROWS = f"{TOP}/crates/rows_gate/data/status.rows"
NEW_SERVER = "# the numbers of a new server\n"

# Prints the families of a text on standard input: name, type and help, and of each sample its name, labels and value.
PARSE = """
import json, sys
from prometheus_client.parser import text_string_to_metric_families
print(json.dumps([
    [family.name, family.type, family.documentation, [[sample.name, sample.labels, sample.value] for sample in family.samples]]
    for family in text_string_to_metric_families(sys.stdin.read())
]))
"""

# A default, which holds where no other mapping does, and its commit.
MAP = (
    '{"publish":{"default":true,"expires":"NO-EXPIRATION","lastUpdated":"2025-12-01T00:00:00Z","service":"urn:service:sos.police",'
    '"source":"map.example","sourceId":"A","uri":["sip:A@map.example"]}}\n{"commit":{}}\n'
)

DIGEST = map_digest([mapping_digest(json.loads(MAP.splitlines()[0])["publish"])])

# A family of metrics: its type, its help, and its values by name and labels.
Family = Tuple[str, str, Dict[Tuple[str, Tuple[Tuple[str, str], ...]], float]]


def has_parser() -> bool:
    """Whether Debian's Python has Prometheus' parser."""
    command = [PYTHON, "-c", "import prometheus_client.parser"]
    return os.access(PYTHON, os.X_OK) and subprocess.run(command, capture_output=True).returncode == 0


def families_of(text: str) -> Dict[str, Family]:
    """The families of a text of metrics, by name, as Prometheus' parser reads them."""
    ran = subprocess.run([PYTHON, "-c", PARSE], input=text.encode(), capture_output=True, timeout=60, check=True)
    return {
        name: (kind, help_text, {(sample, tuple(sorted(labels.items()))): value for sample, labels, value in samples})
        for name, kind, help_text, samples in json.loads(ran.stdout)
    }


def wanted_text() -> str:
    """The text of metrics that the rows of the gate want of a new server."""
    with open(ROWS, encoding="utf-8") as file:
        row = next(row for row in file.read().split("\n\n") if row.startswith(NEW_SERVER))
    return "".join(f"{line[2:]}\n" for line in row.splitlines() if line.startswith("> "))


def has_status() -> bool:
    """Whether the built program has the option --status."""
    path = lostd()
    return path is not None and b"--status" in subprocess.run([path, "serve", "--help"], capture_output=True, timeout=10).stdout


def free_port() -> int:
    """A port that nobody listens on."""
    with socket.create_server(("127.0.0.1", 0)) as listener:
        return int(listener.getsockname()[1])


class Server:
    """A server with a map of one mapping, and its status."""

    def __init__(self) -> None:
        self.queries, self.status = free_port(), free_port()
        self.folder = tempfile.TemporaryDirectory()
        path = f"{self.folder.name}/map.jsonl"
        with open(path, "w", encoding="utf-8") as file:
            file.write(MAP)
        words = ["serve", "--name", "lost.example", "--map", path, "--queries", f"127.0.0.1:{self.queries}"]
        words += ["--status", f"127.0.0.1:{self.status}", "--workers", "2"]
        self.process = subprocess.Popen([str(lostd()), *words], stdout=subprocess.PIPE)

    def __enter__(self) -> Server:
        assert self.process.stdout is not None
        if self.process.stdout.readline() != b"ready\n":
            raise AssertionError("the server is not ready")
        return self

    def __exit__(self, *_: Any) -> None:
        self.process.kill()
        self.process.communicate()
        self.folder.cleanup()

    def ask(self, line: str) -> Dict[str, Any]:
        """The reply to a line, over a connection of its own."""
        with socket.create_connection(("127.0.0.1", self.queries), timeout=PATIENCE) as connection:
            connection.sendall(line.encode())
            with connection.makefile("rb") as replies:
                reply: Dict[str, Any] = json.loads(replies.readline())
                return reply

    def get(self, path: str, method: str = "GET") -> Tuple[int, Dict[str, str], str]:
        """The status code, the fields and the text of a page."""
        connection = http.client.HTTPConnection("127.0.0.1", self.status, timeout=PATIENCE)
        try:
            connection.request(method, path)
            answer = connection.getresponse()
            return answer.status, {name.lower(): value for name, value in answer.getheaders()}, answer.read().decode()
        finally:
            connection.close()


class Metrics(unittest.TestCase):
    """The text of metrics."""

    @unittest.skipUnless(has_parser(), NEEDS)
    def test_the_wanted_text_is_read_by_the_parser(self) -> None:
        families = families_of(wanted_text())
        self.check_families(families)
        self.assertEqual({value for family in families.values() for value in family[2].values()}, {0.0, 1.0, 2.0})

    def check_families(self, families: Dict[str, Family]) -> None:
        """Each family has a type and a help, and each name is of this program."""
        for name, (kind, help_text, samples) in families.items():
            self.assertIn(kind, ("counter", "gauge"), name)
            self.assertTrue(help_text.endswith((".", "0", "1")), name)
            self.assertTrue(name.startswith("lostd_"), name)
            self.assertTrue(samples, name)
            for sample, _ in samples:
                self.assertEqual(sample, f"{name}_total" if kind == "counter" else name)
        self.assertEqual(len(families["lostd_replies"][2]), 13)
        self.assertEqual(len(families["lostd_refusals"][2]), 23)

    @unittest.skipUnless(has_parser() and has_status(), f"{NEEDS}, or the program has no --status")
    def test_a_server_gives_what_it_did(self) -> None:
        with Server() as server:
            for _ in range(3):
                server.ask(question(1, 2))
            server.ask("{}\n")
            wait_until(lambda: sum(families_of(server.get("/metrics")[2])["lostd_replies"][2].values()) == 4)
            status, fields, text = server.get("/metrics")
        self.assertEqual((status, fields["content-type"]), (200, "text/plain; version=0.0.4; charset=utf-8"))
        families = families_of(text)
        self.check_families(families)
        replies = families["lostd_replies"][2]
        self.assertEqual(replies["lostd_replies_total", (("kind", "findServiceResponse"),)], 3)
        self.assertEqual(replies["lostd_replies_total", (("kind", "badRequest"),)], 1)
        self.assertEqual(families["lostd_edition"][2]["lostd_edition", ()], 1)
        self.assertEqual(families["lostd_map_info"][2]["lostd_map_info", (("digest", DIGEST),)], 1)
        self.assertEqual(families["lostd_connections"][2]["lostd_connections_total", ()], 4)


@unittest.skipUnless(has_status(), "the program has no --status")
class Pages(unittest.TestCase):
    """The pages of a server."""

    def test_health(self) -> None:
        with Server() as server:
            status, fields, text = server.get("/health")
            head = server.get("/health", "HEAD")
        self.assertEqual((status, text), (200, f"ready\nedition 1\nmap {DIGEST}\n"))
        self.assertEqual((fields["content-type"], fields["connection"]), ("text/plain; charset=utf-8", "close"))
        self.assertEqual((head[0], head[1]["content-length"], head[2]), (200, "53", ""))

    def test_status(self) -> None:
        with Server() as server:
            server.ask(question(1, 2))
            wait_until(lambda: json.loads(server.get("/status")[2])["replies"]["findServiceResponse"] == 1)
            status, fields, text = server.get("/status")
        told = json.loads(text)
        self.assertEqual((status, fields["content-type"]), (200, "application/json"))
        self.assertEqual((told["ready"], told["edition"], told["mappings"], told["pending"], told["map"]), (True, 1, 1, 0, DIGEST))
        self.assertEqual((told["replies"]["findServiceResponse"], told["connections"]["accepted"]), (1, 1))
        self.assertEqual(told["workers"]["count"], 2)
        version = subprocess.run([str(lostd()), "--version"], capture_output=True, timeout=10, check=True).stdout.decode()
        self.assertEqual(f"lostd {told['version']}\n", version)

    def test_a_line_without_its_memory_is_counted(self) -> None:
        places = [{"id": "p", "profile": "none"}] * 37_000
        line = json.dumps({"findService": {"service": "urn:service:sos.police", "location": places}}, separators=(",", ":"))
        with Server() as server:
            reply = server.ask(f"{line}\n")
            wait_until(lambda: json.loads(server.get("/status")[2])["replies"]["internalError"] == 1)
            told = json.loads(server.get("/status")[2])
        self.assertLess(len(line), 1_048_576)
        self.assertEqual(reply["errors"]["error"], "internalError")
        self.assertEqual((told["replies"]["internalError"], sum(told["replies"].values())), (1, 1))

    def test_other_paths_and_methods(self) -> None:
        with Server() as server:
            self.assertEqual(server.get("/")[::2], (404, "/health\n/metrics\n/status\n"))
            refused = server.get("/status", "POST")
        self.assertEqual((refused[0], refused[1]["allow"]), (405, "GET, HEAD"))
