"""tools/lost-client: against the built program where it serves desks one after another, begins with a map, and has a status."""
from __future__ import annotations

import json
import os
import shutil
import stat
import subprocess
import tempfile
import unittest
from typing import Any, List, Tuple

from maptools.addresses import server_of
from maptools.connection import Broken
from maptools.server_map import digest_told
from tests.client_address_tests import has_ipv6
from tests.fake_servers import free_address
from tests.map_file import A, B, C, COMMIT, mapping, published, withdrawal
from tests.running import CASES, lostd, run_tool, serve_has, start_tool

OPTIONS = ("--map", "--status", "--desk-idle")
POLICE = "urn:service:sos.police"
WAITS = b"lost-client: no reply yet: another desk is probably being served; this one waits for its turn\n"


@unittest.skipUnless(all(map(serve_has, OPTIONS)), "lostd is not built, or does not serve desks one after another")
class Standing(unittest.TestCase):
    """A server at sockets in the file system, which begins with a map of two squares."""

    def setUp(self) -> None:
        folder = tempfile.TemporaryDirectory()
        self.addCleanup(folder.cleanup)
        self.folder, self.file = folder.name, f"{folder.name}/map.jsonl"
        self.queries, self.desk, self.status = f"unix:{self.folder}/queries", f"unix:{self.folder}/desk", free_address()
        shutil.copy(f"{CASES}/client/two-squares.jsonl", self.file)

    def begin(self, *words: str) -> Any:
        """A server, once it is ready; it is ended at the end of the test."""
        command = [str(lostd()), "serve", "--name", "lost.example", "--workers", "2", *words]
        server = subprocess.Popen(command, stdout=subprocess.PIPE, stderr=subprocess.PIPE)
        self.addCleanup(server.communicate)
        self.addCleanup(server.kill)
        self.assertEqual(server.stdout.readline(), b"ready\n")
        return server

    def begin_usual(self, map_file: str = "") -> Any:
        """A server of all addresses, which begins with the map file."""
        words = ["--queries", self.queries, "--desk", self.desk, "--status", self.status]
        return self.begin(*words, "--map", map_file or self.file)

    def found(self, point: str) -> List[str]:
        """The sourceIds that are found at a point in whole units; none for an error."""
        words = ["find", "--server", self.queries, "--service", POLICE, "--units", "--json", "--point", point]
        reply = json.loads(run_tool("lost-client", words)[1])
        return [one["sourceId"] for one in reply.get("findServiceResponse", {}).get("mapping", [])]

    def write(self, *lines: Any) -> None:
        """Writes the map file."""
        with open(self.file, "w", encoding="utf-8") as file:
            file.writelines(json.dumps(line) + "\n" for line in lines)

    def sync(self, *words: str) -> Tuple[int, str, str]:
        """Syncs the map file."""
        return run_tool("lost-client", ["desk", "--sync", self.file, "--server", self.desk, *words])

    def test_a_map_and_sockets_that_others_may_not_use(self) -> None:
        self.begin_usual()
        self.assertEqual([self.found("1,1"), self.found("1,10000001"), self.found("-1,1")], [["west"], ["east"], []])
        for name in ("queries", "desk"):
            mode = os.stat(f"{self.folder}/{name}").st_mode
            self.assertEqual((stat.S_ISSOCK(mode), stat.S_IMODE(mode)), (True, 0o600))

    def test_a_server_without_a_desk_and_addresses_of_all_kinds(self) -> None:
        hosts = ["127.0.0.1", "localhost"] + (["[::1]"] if has_ipv6() else [])
        for host in hosts:
            server = f"{host}:{free_address().rpartition(':')[2]}"
            self.begin("--queries", server, "--map", self.file)
            status, output, _ = run_tool("lost-client", ["boundary", "--server", server, "--key", "west-1"])
            self.assertEqual((status, output.splitlines()[-1]), (0, "from lost.example, edition 2"))

    def begin_one_that_tells_its_map(self) -> None:
        """Begins a server, if the program can tell its map."""
        self.begin_usual()
        try:
            digest_told(server_of(self.desk), 2)
        except Broken:
            self.skipTest("the program does not tell its map")

    def test_syncs(self) -> None:
        self.write(*published(A, B))
        self.begin_one_that_tells_its_map()
        self.assertEqual(self.sync()[1].split(";")[0], f"{self.desk}: nothing to send: it holds what {self.file} says")
        self.write(*published(mapping("B", 2, place=100, uri=["sip:other@map.example"]), C))
        status, output, said = self.sync()
        self.assertEqual((status, output.split("; map ")[0], said), (0, f"{self.desk}: 1 published, 1 replaced, 1 withdrawn; edition 5", ""))
        self.assertEqual([self.found("5,5"), self.found("105,5"), self.found("205,5")], [[], ["B"], ["C"]])
        self.write(*published(mapping("B", 2, place=100, uri=["sip:other@map.example"]), C, A))
        status, _, said = self.sync()
        self.assertEqual((status, "code 21, Withdrawn" in said), (3, True))
        self.assertEqual(self.sync("--stamp", "now")[0], 0)
        self.assertEqual(self.found("5,5"), ["A"])

    def test_another_desk_changes_the_map(self) -> None:
        self.write(*published(A, B))
        self.begin_one_that_tells_its_map()
        other = json.dumps(withdrawal("A", "2025-12-02T00:00:00Z")) + "\n" + json.dumps(COMMIT) + "\n"
        self.assertEqual(run_tool("lost-client", ["desk", "--server", self.desk, "-"], other)[0], 0)
        self.write(*published(mapping("A", 3), B, C))
        self.assertEqual(self.sync()[:1], (0,))
        self.assertEqual([self.found("5,5"), self.found("205,5")], [["A"], ["C"]])

    def test_a_second_desk_waits(self) -> None:
        self.begin_usual()
        first = start_tool("lost-client", ["desk", "--server", self.desk, "-"])
        first.stdin.write(json.dumps({"publish": C}).encode() + b"\n")
        first.stdin.flush()
        self.await_pending()
        second = start_tool("lost-client", ["desk", "--server", self.desk, "-"])
        second.stdin.write(json.dumps({"publish": A}).encode() + b"\n" + json.dumps(COMMIT).encode() + b"\n")
        second.stdin.close()
        self.assertEqual(second.stderr.readline(), WAITS)
        self.assertIn(b"; 1 staged edits are not committed", first.communicate(timeout=20)[0])
        output, said = second.stdout.read(), second.stderr.read()
        self.assertEqual((second.wait(timeout=20), said), (0, b""))
        self.assertEqual(output, b"2 lines: 1 edits staged, 1 commits, 0 refused; edition 3\n")
        second.stdout.close()
        second.stderr.close()
        self.assertEqual([self.found("205,5"), self.found("5,5")], [["west"], ["west", "A"]])

    def await_pending(self) -> None:
        """Waits until the server says that an edit is pending."""
        for _ in range(200):
            if json.loads(run_tool("lost-client", ["status", "--server", self.status, "--json"])[1])["pending"]:
                return
        self.fail("no edit is pending")

    def test_status(self) -> None:
        self.begin_usual()
        self.found("1,1")
        status, output, said = run_tool("lost-client", ["status", "--server", self.status, "--json"])
        told = json.loads(output)
        self.assertEqual((status, said, told["ready"], told["edition"], told["mappings"]), (0, "", True, 2, 2))
        self.assertEqual(sum(told["replies"].values()), 1)
        status, output, said = run_tool("lost-client", ["status", "--server", self.status])
        self.assertEqual((status, said), (0, ""))
        self.assertRegex(output, r"(?m)^ready +yes$")
