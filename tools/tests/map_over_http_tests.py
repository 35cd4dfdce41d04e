"""The map that a server holds, read back over HTTP at its desk's address. Skipped where no program with it is built."""
from __future__ import annotations

import http.client
import json
import signal
import socket
import tempfile
import unittest
from typing import Dict, List, Tuple

from maptools.addresses import Unix
from maptools.connection import Broken
from maptools.digest import map_digest, mapping_digest
from maptools.server_map import digest_told, told_by
from tests.running import TOP, lostd, run_tool, serve_has
from tests.server import PATIENCE, READY, Server, ask, unix

COMMIT = '{"commit":{}}\n'
NEXT_DAY = "2026-01-01T00:00:00Z"


def lines_of(name: str) -> List[str]:
    """The desk lines of a map of examples/."""
    with open(f"{TOP}/examples/maps/{name}.jsonl", encoding="utf-8") as file:
        return [line for line in file if '"commit"' not in line]


@unittest.skipUnless(serve_has("GET /map"), "no program that gives its map is built")
class MapOverHttp(unittest.TestCase):
    """A server with a map, and what is asked at its desk's address."""

    def setUp(self) -> None:
        self.folder = tempfile.TemporaryDirectory()
        self.desk, queries = f"{self.folder.name}/desk.sock", f"{self.folder.name}/queries.sock"
        self.lines = lines_of("two-districts")
        path = f"{self.folder.name}/map.jsonl"
        with open(path, "w", encoding="utf-8") as file:
            file.writelines([*self.lines, COMMIT])
        self.server = Server(["--map", path, "--desk", f"unix:{self.desk}", "--queries", f"unix:{queries}"])
        self.assertEqual(self.server.first_line(), READY)

    def tearDown(self) -> None:
        self.server.__exit__()
        self.folder.cleanup()

    def get(self, method: str = "GET", path: str = "/map", **fields: str) -> Tuple[int, Dict[str, str], str]:
        """The status code, the fields and the body of an answer."""
        connection = http.client.HTTPConnection("desk", timeout=PATIENCE)
        connection.sock = unix(self.desk)
        connection.request(method, path, headers=fields)
        answer = connection.getresponse()
        body = answer.read().decode()
        connection.close()
        return answer.status, {name.lower(): value for name, value in answer.getheaders()}, body

    def raw(self, request: bytes) -> bytes:
        """All that is answered to these bytes."""
        with unix(self.desk) as connection:
            connection.settimeout(PATIENCE)
            connection.sendall(request)
            answer = b""
            while piece := connection.recv(65_536):
                answer += piece
            return answer

    def values(self, body: str) -> List[Dict[str, object]]:
        """The mappings that a body publishes, which ends in one commit."""
        *publishes, last = body.splitlines(keepends=True)
        self.assertEqual(last, COMMIT)
        return [json.loads(line)["publish"] for line in publishes]

    def test_it_is_the_map(self) -> None:
        """A publish for each mapping, in order, and one commit; edition and digest are fields."""
        status, fields, body = self.get()
        wanted = [json.loads(line)["publish"] for line in self.lines]
        self.assertEqual((status, self.values(body)), (200, wanted))
        digest = map_digest(map(mapping_digest, wanted))
        self.assertEqual((fields["edition"], fields["map"]), (str(len(wanted)), digest))

    def test_after_edits(self) -> None:
        """What is withdrawn and replaced is as it is now, whatever order the edits had; the digest is that of these mappings."""
        first, *others = [json.loads(line)["publish"] for line in self.lines]
        changed = {**others[0], "lastUpdated": NEXT_DAY, "uri": ["sip:new@map.example"]}
        withdrawal = {name: first[name] for name in ("source", "sourceId")}
        with unix(self.desk) as desk:
            for edit in ({"withdraw": {**withdrawal, "lastUpdated": NEXT_DAY}}, {"replace": changed}):
                self.assertIn("staged", ask(desk, json.dumps(edit) + "\n"))
            self.assertIn("committed", ask(desk, COMMIT))
        status, fields, body = self.get()
        self.assertEqual((status, self.values(body)), (200, [changed, *others[1:]]))
        digest = map_digest(map(mapping_digest, (changed, *others[1:])))
        self.assertEqual((fields["edition"], fields["map"]), (str(len(self.lines) + 2), digest))

    def test_what_is_staged_is_not_in_it(self) -> None:
        """What a desk left without a commit is in no map."""
        with unix(self.desk) as desk:
            value = {**json.loads(self.lines[0])["publish"], "lastUpdated": NEXT_DAY, "uri": ["sip:new@map.example"]}
            self.assertIn("staged", ask(desk, json.dumps({"replace": value}) + "\n"))
        self.assertEqual(self.get()[1]["edition"], str(len(self.lines)))

    def test_it_is_read_again_as_the_same(self) -> None:
        """A second server that begins with these lines gives the same lines."""
        body = self.get()[2]
        with tempfile.TemporaryDirectory() as folder:
            path, desk = f"{folder}/map.jsonl", f"{folder}/desk.sock"
            with open(path, "w", encoding="utf-8") as file:
                file.write(body)
            with Server(["--map", path, "--desk", f"unix:{desk}", "--queries", f"unix:{folder}/queries.sock"]) as second:
                self.assertEqual(second.first_line(), READY)
                with told_by(Unix(desk), PATIENCE) as told:
                    lines = told.lines.read()
        self.assertEqual((lines.decode(), told.digest), (body, self.get()[1]["map"]))

    def test_a_peer_without_chunks(self) -> None:
        """HTTP/1.0 gets the lines as they are, up to the end of the connection."""
        head, _, body = self.raw(b"GET /map HTTP/1.0\r\n\r\n").decode().partition("\r\n\r\n")
        self.assertNotIn("chunked", head)
        self.assertEqual(len(self.values(body)), len(self.lines))

    def test_a_request_in_pieces(self) -> None:
        """A request may come byte by byte."""
        with unix(self.desk) as connection:
            connection.settimeout(PATIENCE)
            for byte in b"GET /map HTTP/1.0\r\n\r\n":
                connection.sendall(bytes([byte]))
            self.assertTrue(connection.recv(4096).startswith(b"HTTP/1.1 200 OK\r\n"))

    def test_what_gets_no_map(self) -> None:
        """Other methods and paths, and a browser's page, get no map and change nothing."""
        for method, path, fields, status in (
            ("POST", "/map", {}, 405), ("HEAD", "/map", {}, 405), ("PUT", "/map", {}, 405), ("GET", "/", {}, 404),
            ("GET", "/map/", {}, 404), ("GET", "/map", {"Origin": "https://map.example"}, 403),
            ("POST", "/map", {"Origin": "null"}, 403),
        ):  # fmt: skip
            with self.subTest(method=method, path=path):
                self.assertEqual(self.get(method, path, **fields)[0], status)
        self.assertEqual(self.get()[0], 200)

    def test_the_tools_read_it(self) -> None:
        """map-check and map-page take the map of a server."""
        address = f"unix:{self.desk}"
        status, output, said = run_tool("map-check", ["--server", address, "--lostd", str(lostd())])
        if "lacks the module" in said:
            self.skipTest(said)
        self.assertEqual((status, said), (0, ""))
        self.assertRegex(output, r"0 errors")
        double = {**json.loads(self.lines[0])["publish"], "sourceId": "double", "key": "double-1"}
        with unix(self.desk) as desk:
            self.assertIn("staged", ask(desk, json.dumps({"publish": double}) + "\n"))
            self.assertIn("committed", ask(desk, COMMIT))
        status, output, said = run_tool("map-check", ["--server", address, "--lostd", str(lostd())])
        self.assertEqual((status, said), (3, ""))
        self.assertRegex(output, r"error: same-area .* findService answers map\.example \S+ and map\.example double\.\n")
        with self.assertRaises(Broken), told_by(Unix(f"{self.folder.name}/queries.sock"), 5):
            pass

    def test_who_asks_for_the_digest_leaves_no_fault_behind(self) -> None:
        """The server reports a peer that leaves in the middle of an answer; lost-client, which compares digests, reads it all."""
        ring = [[number, number * number % 997] for number in range(1000)] + [[0, 0]]
        regions = [{"profile": "geodetic-2d", "polygon": ring}] * 20
        first = json.loads(self.lines[0])["publish"]
        many = [{**first, "sourceId": f"large {number}", "key": f"large {number}", "serviceBoundary": regions} for number in range(20)]
        with unix(self.desk) as desk:
            for mapping in many:
                self.assertIn("staged", ask(desk, json.dumps({"publish": mapping}) + "\n"))
            self.assertIn("committed", ask(desk, COMMIT))
        wanted = [json.loads(line)["publish"] for line in self.lines] + many
        self.assertEqual(digest_told(Unix(self.desk), PATIENCE), map_digest(map(mapping_digest, wanted)))
        self.assertEqual(self.get()[0], 200)
        self.server.process.send_signal(signal.SIGTERM)
        self.assertEqual(self.server.end()[1], [])

    def test_the_server_goes_on(self) -> None:
        """A peer that leaves in the middle of an answer, or of a request, keeps nobody out."""
        for request in (b"GET /map HTTP/1.1\r\n", b"GET /map HTTP/1.1\r\n\r\n"):
            with unix(self.desk) as connection:
                connection.sendall(request)
                connection.shutdown(socket.SHUT_RD)
        self.assertEqual(self.get()[0], 200)
