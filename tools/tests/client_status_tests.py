"""tools/lost-client status: against a small server of HTTP in a thread."""
from __future__ import annotations

import json
import tempfile
import unittest
from typing import Any, Dict, Tuple

from tests.fake_servers import Pages, free_address, serve_once, serve_pages
from tests.running import read, run_tool

STATUS: Dict[str, Any] = {
    "version": "0.1.0", "uptimeSeconds": 93784, "ready": True, "edition": 177, "mappings": 176, "pending": 2,
    "lastCommit": "2026-11-27T04:00:00Z", "desk": False, "connections": {"open": 3, "waiting": 0, "accepted": 1204},
    "workers": {"count": 4, "busy": 1}, "replies": {"findServiceResponse": 812, "notFound": 31},
    "refusals": {"IdentityHeld": 2}, "faults": 0, "cacheHits": 611,
}  # fmt: skip
READY = (200, b"ready\n")


def pages_of(status: Any, health: Tuple[int, bytes] = READY) -> Pages:
    """The pages of a server."""
    return {"/health": health, "/status": (200, json.dumps(status).encode() + b"\n")}


class Status(unittest.TestCase):
    """The status of a server."""

    def status(self, pages: Pages, *words: str, path: str = "") -> Tuple[int, str, str]:
        server = serve_pages(pages, path)
        try:
            return run_tool("lost-client", ["status", "--server", server.address, "--timeout", "5", *words])
        finally:
            server.shutdown()
            server.server_close()

    def test_it_is_laid_out(self) -> None:
        self.assertEqual(self.status(pages_of(STATUS)), (0, read("client/status.text"), ""))

    def test_json_is_printed_as_it_comes(self) -> None:
        given = b'{"ready": true,  "edition":7}\n'
        self.assertEqual(self.status({"/health": READY, "/status": (200, given)}, "--json"), (0, given.decode(), ""))

    def test_over_a_socket_in_the_file_system(self) -> None:
        with tempfile.TemporaryDirectory() as folder:
            self.assertEqual(self.status(pages_of({"edition": 7}), path=f"{folder}/status.sock"), (0, "edition  7\n", ""))

    def test_the_status_says_whether_it_is_ready(self) -> None:
        before = (503, b"not ready\n")
        self.assertEqual(self.status(pages_of({"ready": False}, before)), (3, "ready  no\n", ""))
        self.assertEqual(self.status(pages_of({"ready": False}, before), "--json"), (3, '{"ready": false}\n', ""))

    def test_unknown_and_missing_members(self) -> None:
        for status, text in (
            ({}, "\n"), ({"refusals": {}, "x": [1, {"y": None}]}, 'refusals  none\nx         [1, {"y": null}]\n'),
            ({"lastCommit": None, "a\u001b": "b\u001b[2J"}, 'last commit  none\n"a\\u001b"    "b\\u001b[2J"\n'),
            ({"uptimeSeconds": "soon", "oneSeconds": 1e300, "twoSeconds": -1}, "uptime  soon\none     1e+300\ntwo     -1\n"),
        ):  # fmt: skip
            self.assertEqual(self.status(pages_of(status)), (0, text, ""))

    def test_what_is_no_status_is_status_1(self) -> None:
        for pages in (
            {}, {"/health": READY}, {"/health": (500, b""), "/status": (200, b"{}")}, {"/health": READY, "/status": (503, b"{}")},
            pages_of([]), pages_of(7), *({"/health": READY, "/status": (200, body)} for body in (b'{"half":', b"\xff")),
        ):  # fmt: skip
            status, output, said = self.status(pages)
            self.assertEqual((status, output, said.count("\n"), said[:13]), (1, "", 1, "lost-client: "), said)

    def test_the_address_of_queries_and_of_nobody(self) -> None:
        server, _ = serve_once(lambda line: b'{"errors":{"error":"badRequest"}}\n')
        status, _, said = run_tool("lost-client", ["status", "--server", server, "--timeout", "5"])
        cause = """({"errors":{"error":"badRequest"}}): is it the server's --status address?"""
        self.assertEqual((status, said), (1, f"lost-client: {server} gave no answer over HTTP {cause}\n"))
        nobody = free_address()
        status, _, said = run_tool("lost-client", ["status", "--server", nobody])
        self.assertEqual((status, said[: 31 + len(nobody)]), (1, f"lost-client: no connection to {nobody}:"))

    def test_a_server_that_says_nothing(self) -> None:
        server, _ = serve_once(lambda line: b"")
        status, _, said = run_tool("lost-client", ["status", "--server", server, "--timeout", "0.3"])
        self.assertEqual((status, "timed out" in said), (1, True), said)
