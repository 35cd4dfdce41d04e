"""Clients of `lostd serve` beside a desk that commits, and as time passes. Skipped where no program is built."""
from __future__ import annotations

import http.client
import json
import os
import re
import socket
import tempfile
import threading
import time
import unittest
from datetime import datetime, timezone
from typing import List, Tuple

from maptools.digest import map_digest, mapping_digest
from tests.running import TOP, question
from tests.server import PATIENCE, READY, Server, ask, ended, has_maps, unix

NOTHING = '{"errors":{"edition":%d,"error":"serviceNotImplemented"}}\n'
STAGED = '{"staged":{"pending":1}}\n'
STAMP = "2025-12-01T00:00:00Z"


def free_port() -> int:
    """A port that nobody listens on."""
    with socket.create_server(("127.0.0.1", 0)) as listener:
        port: int = listener.getsockname()[1]
        return port


@unittest.skipUnless(has_maps(), "no program with --map is built")
class Serving(unittest.TestCase):
    """A desk and clients over Unix sockets, with the mapping and the question of one session."""

    def setUp(self) -> None:
        folder = tempfile.TemporaryDirectory()
        self.addCleanup(folder.cleanup)
        self.folder = folder.name
        self.desk, self.queries = f"{self.folder}/desk.sock", f"{self.folder}/queries.sock"
        with open(f"{TOP}/examples/one-mapping.jsonl", encoding="utf-8") as session:
            self.publish, self.commit, self.question = session
        with open(f"{TOP}/examples/one-mapping.expected", encoding="utf-8") as replies:
            self.found = replies.readlines()[2]

    def server(self, *words: str, workers: int = 2) -> Server:
        """A server of a desk and clients, which is ready."""
        server = Server(["--desk", f"unix:{self.desk}", "--queries", f"unix:{self.queries}", *words], workers=workers)
        self.assertEqual(server.first_line(), READY)
        return server

    def edit(self, number: int, expires: str = "NO-EXPIRATION") -> str:
        """The edit of this number, with a later stamp than those before it: a publish if it is odd, else its withdrawal."""
        stamp = f"2025-12-03T00:00:00.{100_000_000 + number}Z"
        if number % 2:
            return self.publish.replace(STAMP, stamp).replace("NO-EXPIRATION", expires)
        return '{"withdraw":{"lastUpdated":"%s","source":"map.example","sourceId":"A"}}\n' % stamp

    def answer(self, edition: int) -> str:
        """The reply to the question once so many of these edits are committed, each alone."""
        if edition % 2 == 0:
            return NOTHING % edition
        stamp = f"2025-12-03T00:00:00.{100_000_000 + edition}Z"
        return self.found.replace('"edition":1', f'"edition":{edition}').replace(STAMP, stamp)

    def change(self, desk: socket.socket, number: int, expires: str = "NO-EXPIRATION") -> None:
        """Stages the edit of this number and commits it alone."""
        self.assertEqual(ask(desk, self.edit(number, expires)), STAGED)
        self.assertEqual(ask(desk, self.commit), '{"committed":{"edition":%d}}\n' % number)

    def test_a_desk_stays(self) -> None:
        """A client is answered while the desk stays, and what is withdrawn and not committed counts at the desk alone."""
        with self.server("--connections", "1", workers=1) as server:
            with unix(self.desk) as desk:
                self.assertEqual(ask(desk, self.publish), STAGED)
                self.assertEqual(ask(desk, self.commit), '{"committed":{"edition":1}}\n')
                with unix(self.queries) as client:
                    self.assertEqual(ask(client, self.question), self.found)
                    self.assertEqual(ask(desk, self.edit(2)), STAGED)
                    self.assertEqual(ask(desk, self.publish), '{"refused":{"code":21,"name":"Withdrawn"}}\n')
                    self.assertEqual(ask(desk, self.edit(3)), '{"staged":{"pending":2}}\n')
                    self.assertEqual(ask(client, self.question), self.found)
            self.assertEqual(server.end(), (0, []))
            self.assertEqual(server.output, "done lines=2 faults=0\n")

    def beside_commits(self, commits: int) -> None:
        """Eight clients are answered by lists that are published one after another, and then four at once by the last list."""
        failures: List[str] = []
        clients = [threading.Thread(target=self.client, args=(number, failures)) for number in range(8)]
        for client in clients:
            client.start()
        with unix(self.desk) as desk:
            for number in range(1, commits + 1):
                self.change(desk, number)
                time.sleep(0.001)
            for client in clients:
                client.join(PATIENCE)
            self.assertEqual(failures, [])
            with unix(self.queries) as one, unix(self.queries) as two, unix(self.queries) as three, unix(self.queries) as four:
                for last in (one, two, three, four):
                    self.assertEqual(ask(last, self.question), self.answer(commits))

    def test_clients_beside_commits(self) -> None:
        """Four workers answer the clients as their lines come."""
        with self.server(workers=4):
            self.beside_commits(200)

    def test_clients_of_workers_beside_commits(self) -> None:
        """With --connections four workers answer the clients as their lines come; at the end each has the last list."""
        with self.server("--connections", "12", workers=4) as server:
            self.beside_commits(200)
            self.assertEqual(server.end(), (0, []))
            self.assertEqual(server.output, "done lines=8004 faults=0\n")

    def test_each_commit_is_seen(self) -> None:
        """A thousand times: what the desk has committed is in the next reply to a client."""
        with self.server(workers=1), unix(self.desk) as desk, unix(self.queries) as client:
            for number in range(1, 1_001):
                self.change(desk, number)
                self.assertEqual(ask(client, self.question), self.answer(number))

    def client(self, number: int, failures: List[str]) -> None:
        """Asks a thousand times, every other client fifty lines at a time. Notes a reply that is wrong for its edition, and an
        edition that falls."""
        at_once, last = (1, 50)[number % 2], 0
        with unix(self.queries) as connection, connection.makefile("rb") as replies:
            connection.settimeout(PATIENCE)
            for _ in range(1_000 // at_once):
                connection.sendall(self.question.encode() * at_once)
                for _ in range(at_once):
                    reply = replies.readline().decode()
                    found = re.search(r'"edition":(\d+)', reply)
                    edition = int(found[1]) if found else -1
                    if edition < last or reply != self.answer(edition):
                        failures.append(f"after edition {last}: {reply}")
                    last = edition

    def test_expired_long_ago(self) -> None:
        """A mapping that has expired implements no service."""
        with self.server(), unix(self.desk) as desk, unix(self.queries) as client:
            self.change(desk, 1, "2020-01-01T00:00:00Z")
            self.assertEqual(ask(client, self.question), NOTHING % 1)

    def test_a_mapping_that_expires(self) -> None:
        """A mapping is found until it expires, and from then on it is not. The clock, read before and after each reply, decides
        which reply is right, so a slow machine may need more time, and no other result."""
        with self.server(), unix(self.desk) as desk, unix(self.queries) as client:
            for number, seconds in enumerate((2, 4, 8, 16, 32)):
                end = int(time.time()) + seconds
                expires = datetime.fromtimestamp(end, timezone.utc).strftime("%Y-%m-%dT%H:%M:%SZ")
                self.change(desk, 2 * number + 1, expires)
                was_found = self.ask_until(client, end, expires, 2 * number + 1)
                self.change(desk, 2 * number + 2)
                if was_found:
                    return
        self.fail("the machine is too slow to answer within half a minute")

    def ask_until(self, client: socket.socket, end: float, expires: str, edition: int) -> bool:
        """Asks until a mapping has expired. Whether it was found before."""
        found, was_found = self.answer(edition).replace("NO-EXPIRATION", expires), False
        while True:
            before = time.time()
            reply = ask(client, self.question)
            after = time.time()
            right = ([found] if before < end else []) + ([NOTHING % edition] if after >= end else [])
            self.assertIn(reply, right)
            was_found = was_found or reply == found
            if before >= end:
                return was_found
            time.sleep(0.02)

    def test_many_edits_of_a_commit(self) -> None:
        """Two thousand mappings are staged before one commit, and replaced before another; the last one is found."""
        with self.server() as server, unix(self.desk) as desk, desk.makefile("rb") as replies:
            desk.settimeout(PATIENCE)
            for edition, verb, day in ((2_000, "publish", 1), (4_000, "replace", 2)):
                lines = "".join(numbered(verb, number, day) for number in range(1, 2_001))
                sender = threading.Thread(target=desk.sendall, args=((lines + self.commit).encode(),))
                sender.start()
                said = [replies.readline().decode() for _ in range(2_001)]
                sender.join(PATIENCE)
                staged = [f'{{"staged":{{"pending":{number}}}}}\n' for number in range(1, 2_001)]
                self.assertEqual(said, [*staged, f'{{"committed":{{"edition":{edition}}}}}\n'])
            with unix(self.queries) as client:
                reply = ask(client, question(500, 2_000_500))
            self.assertIn('"edition":4000,', reply)
            self.assertIn('"lastUpdated":"2025-12-02T00:00:00Z"', reply)
            self.assertIn('"sourceId":"2000"', reply)
            self.assertIsNone(server.process.poll())

    def test_two_workers_at_once(self) -> None:
        """With --connections two clients are answered beside each other, by a worker each."""
        with self.server("--connections", "2") as server:
            unix(self.desk).close()
            with unix(self.queries) as first, unix(self.queries) as second:
                self.assertEqual([ask(first, self.question), ask(second, self.question)], [NOTHING % 0] * 2)
                self.assertEqual(ask(first, self.question), NOTHING % 0)
            self.assertEqual(server.end(), (0, []))
            self.assertEqual(server.output, "done lines=3 faults=0\n")

    def test_idle_connections(self) -> None:
        """With --connections a client is ended that sends nothing, and one that takes no reply."""
        address = ("127.0.0.1", free_port())
        ways = (
            (f"unix:{self.queries}", "a unix socket", lambda: unix(self.queries)),
            (f"127.0.0.1:{address[1]}", r"127\.0\.0\.1:[0-9]+", lambda: socket.create_connection(address)),
        )
        for queries, peer, connect in ways:
            words = ["--desk", f"unix:{self.desk}", "--queries", queries, "--connections", "2", "--idle", "1"]
            with Server(words) as server:
                self.assertEqual(server.first_line(), READY)
                with unix(self.desk) as desk, connect() as silent, connect() as greedy:
                    self.change(desk, 1)
                    self.assertTrue(ended(silent))
                    self.assertTrue(self.is_ended_in_questions(greedy))
                status, said = server.end()
            self.assertEqual((status, len(said)), (0, 2))
            self.assertRegex(server.output, r"^done lines=[0-9]+ faults=2\n$")
            for line in said:
                self.assertRegex(line, rf"^lostd: query connection [12] from {peer}: ")

    def is_ended_in_questions(self, client: socket.socket) -> bool:
        """Sends questions and takes no reply. Whether the server ends the connection."""
        client.settimeout(PATIENCE)
        try:
            for _ in range(100_000):
                client.sendall(self.question.encode() * 64)
        except OSError as error:
            return not isinstance(error, socket.timeout)
        return False

    def test_health_before_the_map_is_read(self) -> None:
        """A server says that it is not ready until it has read its map."""
        port, path = free_port(), f"{self.folder}/map.jsonl"
        os.mkfifo(path)
        with Server(["--map", path, "--queries", f"unix:{self.queries}", "--status", f"127.0.0.1:{port}"]) as server:
            self.assertEqual(health(port), (503, "not ready\n"))
            self.assertFalse(os.path.exists(self.queries))
            with open(path, "w", encoding="utf-8") as lines:
                lines.write(self.publish + self.commit)
            self.assertEqual(server.first_line(), READY)
            digest = map_digest([mapping_digest(json.loads(self.publish)["publish"])])
            self.assertEqual(health(port), (200, f"ready\nedition 1\nmap {digest}\n"))


def numbered(verb: str, number: int, day: int) -> str:
    """The line that publishes or replaces a mapping by its number, from 1. No two rings meet."""
    west, east = f"{number}000", f"{number}999"
    ring = f"[[0,{west}],[0,{east}],[1000,{east}],[1000,{west}],[0,{west}]]"
    front = f'"expires":"NO-EXPIRATION","key":"{verb}-{number}","lastUpdated":"2025-12-0{day}T00:00:00Z"'
    region = f'"service":"urn:service:sos.police","serviceBoundary":[{{"polygon":{ring},"profile":"geodetic-2d"}}]'
    return f'{{"{verb}":{{{front},{region},"source":"map.example","sourceId":"{number}","uri":["sip:{number}@map.example"]}}}}\n'


def health(port: int) -> Tuple[int, str]:
    """The status code and the text of a server's health page, once it listens."""
    end = time.monotonic() + PATIENCE
    while True:
        connection = http.client.HTTPConnection("127.0.0.1", port, timeout=PATIENCE)
        try:
            connection.request("GET", "/health")
            answer = connection.getresponse()
            return answer.status, answer.read().decode()
        except ConnectionRefusedError:
            if time.monotonic() > end:
                raise
            time.sleep(0.01)
        finally:
            connection.close()
