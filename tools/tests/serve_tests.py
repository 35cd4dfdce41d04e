"""`lostd serve` as an operator starts it: its map, its addresses and how it ends. Skipped where no program is built."""
from __future__ import annotations

import os
import select
import signal
import socket
import stat
import tempfile
import time
import unittest

from tests.running import TOP, has_ipv6, serve_has
from tests.server import FREE, PATIENCE, READY, Server, ask, ended, has_maps, unix


@unittest.skipUnless(has_maps(), "no program with --map is built")
class ServeTests(unittest.TestCase):
    """Maps, addresses, the status and signals."""

    def setUp(self) -> None:
        self.folder = tempfile.TemporaryDirectory()
        with open(f"{TOP}/examples/one-mapping.jsonl", encoding="utf-8") as session:
            self.publish, self.commit, self.question = session

    def tearDown(self) -> None:
        self.folder.cleanup()

    def path(self, name: str) -> str:
        """A path in a folder of this test."""
        return os.path.join(self.folder.name, name)

    def map(self, lines: str) -> str:
        """The path of a map with these lines."""
        path = self.path("map.jsonl")
        with open(path, "w", encoding="utf-8") as file:
            file.write(lines)
        return path

    def test_map_from_standard_input(self) -> None:
        """A map comes over a pipe, and the first reply is right."""
        queries = self.path("queries.sock")
        with Server(["--map", "-", "--queries", f"unix:{queries}"], (self.publish + self.commit).encode()) as server:
            self.assertEqual(server.first_line(), READY)
            with open(f"{TOP}/examples/one-mapping.expected", encoding="utf-8") as replies, unix(queries) as client:
                self.assertEqual(ask(client, self.question), replies.readlines()[2])

    def test_refused_lines(self) -> None:
        """Each refused line is said with its number, code and cause, and nothing is listened on."""
        queries = self.path("queries.sock")
        lines = self.publish + self.publish + self.question + self.commit
        with Server(["--map", self.map(lines), "--queries", f"unix:{queries}"]) as server:
            status, said = server.end()
        self.assertEqual(status, 3)
        self.assertRegex(said[0], r"^lostd: --map: line 2: 13 IdentityHeld")
        self.assertRegex(said[1], r"^lostd: --map: line 3: 1 BadLine")
        self.assertRegex(said[2], r"^lostd: --map '.*map\.jsonl': 2 lines refused, 0 edits after the last commit")
        self.assertEqual(len(said), 3)
        self.assertFalse(os.path.exists(queries))

    def test_no_commit(self) -> None:
        """A map that ends without a commit is refused too."""
        queries = self.path("queries.sock")
        with Server(["--map", self.map(self.publish), "--queries", f"unix:{queries}"]) as server:
            status, said = server.end()
        self.assertEqual((status, len(said)), (3, 1))
        self.assertRegex(said[0], r"^lostd: --map '.*map\.jsonl': 0 lines refused, 1 edits? after the last commit")
        self.assertFalse(os.path.exists(queries))

    def test_no_map(self) -> None:
        """A file that is not there is no map, and a folder is none."""
        for path in (self.path("nothing.jsonl"), self.folder.name):
            with Server(["--map", path, "--queries", f"unix:{self.path('queries.sock')}"]) as server:
                status, said = server.end()
            self.assertEqual((status, len(said)), (1, 1))
            self.assertIn(path, said[0])
        self.assertEqual(os.listdir(self.folder.name), [])

    def test_keep_going(self) -> None:
        """With --keep-going the same map starts a server with what was accepted."""
        queries = self.path("queries.sock")
        lines = self.publish + self.publish + self.commit + self.publish.replace('"A', '"B')
        with Server(["--map", self.map(lines), "--keep-going", "--queries", f"unix:{queries}"]) as server:
            self.assertEqual(server.first_line(), READY)
            with unix(queries) as client:
                self.assertIn('"edition":1,', ask(client, self.question))

    def test_a_million_lines_and_more(self) -> None:
        """A map may have more lines than a connection."""
        path = self.map(self.commit * 1_000_001 + self.publish + self.commit)
        queries = self.path("queries.sock")
        with Server(["--map", path, "--queries", f"unix:{queries}"]) as server:
            self.assertEqual(server.first_line(), READY)
            with unix(queries) as client:
                self.assertIn('"findServiceResponse":{"edition":1', ask(client, self.question))

    def test_socket_files(self) -> None:
        """A socket's file is for its owner; that of a dead server is replaced, and that of a live one is not."""
        desk, queries = self.path("desk.sock"), self.path("queries.sock")
        words = ["--desk", f"unix:{desk}", "--queries", f"unix:{queries}"]
        with Server(words) as server:
            self.assertEqual(server.first_line(), READY)
            self.assertEqual(stat.S_IMODE(os.stat(desk).st_mode), 0o600)
            with unix(desk) as connection:
                self.assertEqual(ask(connection, self.publish), '{"staged":{"pending":1}}\n')
                self.assertEqual(ask(connection, self.commit), '{"committed":{"edition":1}}\n')
            with Server(["--desk", f"unix:{desk}", "--queries", FREE]) as other:
                self.assertEqual(other.end(), (1, [f"lostd: --desk 'unix:{desk}' is in use: another program listens there"]))
        self.assertTrue(os.path.exists(desk))
        with Server([*words, "--socket-mode", "0660"]) as server:
            self.assertEqual(server.first_line(), READY)
            self.assertEqual(stat.S_IMODE(os.stat(desk).st_mode), 0o660)

    def test_no_socket_is_left(self) -> None:
        """A server that ends by itself removes its sockets' files."""
        desk, queries = self.path("desk.sock"), self.path("queries.sock")
        with Server(["--desk", f"unix:{desk}", "--queries", f"unix:{queries}", "--connections", "1"]) as server:
            self.assertEqual(server.first_line(), READY)
            unix(desk).close()
            unix(queries).close()
            self.assertEqual(server.end()[0], 0)
        self.assertEqual(os.listdir(self.folder.name), [])

    @unittest.skipUnless(has_ipv6(), "this machine has no ::1")
    def test_addresses(self) -> None:
        """An address of IPv6 and a name are listened on."""
        for address in ("[::1]:0", "localhost:0"):
            with Server(["--map", self.map(self.publish + self.commit), "--queries", address]) as server:
                self.assertEqual(server.first_line(), READY)

    def test_hang_up(self) -> None:
        """SIGHUP ends a server."""
        with Server(["--map", self.map(self.publish + self.commit), "--queries", FREE]) as server:
            self.assertEqual(server.first_line(), READY)
            server.process.send_signal(signal.SIGHUP)
            self.assertEqual(server.process.wait(PATIENCE), -signal.SIGHUP)

    def test_desks_one_after_another(self) -> None:
        """A second desk waits for the first, and what it leaves without a commit is dropped before the third."""
        desk, queries = self.path("desk.sock"), self.path("queries.sock")
        withdraw = '{"withdraw":{"source":"map.example","sourceId":"A","lastUpdated":"2025-12-03T00:00:00Z"}}\n'
        staged = '{"staged":{"pending":1}}\n'
        with Server(["--desk", f"unix:{desk}", "--queries", f"unix:{queries}"]) as server:
            self.assertEqual(server.first_line(), READY)
            with unix(desk) as first, unix(desk) as second:
                self.assertEqual(ask(first, self.publish), staged)
                self.assertEqual(ask(first, self.commit), '{"committed":{"edition":1}}\n')
                second.sendall(withdraw.encode())
                self.assertEqual(select.select([second], [], [], 0.5)[0], [])
                first.close()
                self.assertEqual(ask(second, ""), staged)
            with unix(desk) as third, unix(queries) as client:
                self.assertEqual(ask(third, withdraw), staged)
                self.assertEqual(ask(third, self.commit), '{"committed":{"edition":2}}\n')
                self.assertEqual(ask(client, self.question), '{"errors":{"edition":2,"error":"serviceNotImplemented"}}\n')

    def test_two_hundred_clients(self) -> None:
        """A server without --connections serves one client after another."""
        queries = self.path("queries.sock")
        with Server(["--map", self.map(self.publish + self.commit), "--queries", f"unix:{queries}"]) as server:
            self.assertEqual(server.first_line(), READY)
            for _ in range(200):
                with unix(queries) as client:
                    self.assertIn('"findServiceResponse":{"edition":1', ask(client, self.question))


LIST = '{"listServices":{}}\n'
NOTHING = '{"listServicesResponse":{"edition":0,"path":["lost.example"],"serviceList":[]}}\n'


@unittest.skipUnless(serve_has("--line-time"), "no program with --line-time is built")
class LimitTests(unittest.TestCase):
    """What a server without --connections does with clients and desks that keep it waiting, or are too many."""

    def setUp(self) -> None:
        self.folder = tempfile.TemporaryDirectory()
        self.desk, self.queries = (os.path.join(self.folder.name, name) for name in ("desk.sock", "queries.sock"))

    def tearDown(self) -> None:
        self.folder.cleanup()

    def server(self, *words: str) -> Server:
        """A server of a desk and clients, which is ready."""
        server = Server(["--desk", f"unix:{self.desk}", "--queries", f"unix:{self.queries}", *words])
        self.assertEqual(server.first_line(), READY)
        return server

    def test_line_time(self) -> None:
        """A line that is not whole in time ends its connection, and others are served."""
        with self.server("--line-time", "1") as server, unix(self.queries) as half, unix(self.queries) as whole:
            half.sendall(b'{"list')
            self.assertEqual(ask(whole, LIST), NOTHING)
            begun = time.monotonic()
            self.assertTrue(ended(half))
            self.assertLess(time.monotonic() - begun, 10)
            self.assertRegex(server.said(), r"^lostd: query connection 1 from a unix socket: it did not finish a line in time$")
            self.assertEqual(ask(whole, LIST), NOTHING)

    def test_no_line_time(self) -> None:
        """With --line-time 0 a line may come in any time."""
        with self.server("--line-time", "0"), unix(self.queries) as half:
            half.sendall(b'{"list')
            time.sleep(1.5)
            self.assertEqual(ask(half, LIST[6:]), NOTHING)

    def test_reply_time(self) -> None:
        """A client that takes no reply is ended."""
        with self.server("--reply-time", "1") as server, unix(self.queries) as greedy:
            greedy.settimeout(PATIENCE)
            with self.assertRaises(OSError) as caught:
                for _ in range(100_000):
                    greedy.sendall(LIST.encode() * 100)
            self.assertNotIsInstance(caught.exception, socket.timeout)
            self.assertRegex(server.said(), r": it took no reply for too long$")

    def test_idle(self) -> None:
        """A client that sends nothing is ended."""
        with self.server("--idle", "1") as server, unix(self.queries) as silent:
            self.assertTrue(ended(silent))
            self.assertRegex(server.said(), r": it sent nothing for too long$")

    def test_most_connections(self) -> None:
        """One too many is closed at once, and once another has ended there is room again."""
        with self.server("--most-connections", "2") as server, unix(self.queries) as first, unix(self.queries) as second:
            self.assertEqual([ask(first, LIST), ask(second, LIST)], [NOTHING] * 2)
            with unix(self.queries) as third:
                self.assertTrue(ended(third))
            self.assertRegex(server.said(), r"^lostd: query connection 3 from .*: refused: too many connections are open$")
            first.shutdown(socket.SHUT_WR)
            self.assertTrue(ended(first))
            with unix(self.queries) as fourth:
                self.assertEqual(ask(fourth, LIST), NOTHING)

    def test_per_address(self) -> None:
        """One too many of an address is closed at once, and others are served. A Unix socket has no such limit."""
        with socket.create_server(("127.0.0.1", 0)) as probe:
            port = probe.getsockname()[1]
        with Server(["--desk", f"unix:{self.desk}", "--queries", f"127.0.0.1:{port}", "--per-address", "1"]) as server:
            self.assertEqual(server.first_line(), READY)
            with socket.create_connection(("127.0.0.1", port)) as first:
                self.assertEqual(ask(first, LIST), NOTHING)
                with socket.create_connection(("127.0.0.1", port)) as second:
                    self.assertTrue(ended(second))
                self.assertRegex(server.said(), r": refused: too many connections from its address are open$")
                with socket.create_connection(("127.0.0.1", port), PATIENCE, ("127.0.0.2", 0)) as other:
                    self.assertEqual(ask(other, LIST), NOTHING)
        with self.server("--per-address", "1"), unix(self.queries) as first, unix(self.queries) as second:
            self.assertEqual([ask(first, LIST), ask(second, LIST)], [NOTHING] * 2)

    def test_more_clients_than_workers(self) -> None:
        """Fifty clients stay connected to two workers, and each is answered."""
        with self.server():
            clients = [unix(self.queries) for _ in range(50)]
            for client in clients * 2:
                self.assertEqual(ask(client, LIST), NOTHING)
            for client in clients:
                client.close()

    def test_no_desk(self) -> None:
        """What asks over HTTP for something else than the map, or speaks TLS, is ended at once, and a desk is served after it."""
        other = "it asked over HTTP for something else than GET /map"
        with self.server() as server:
            for text, cause in (
                (b"GET / HTTP/1.1\r\n\r\n", other), (b"GET /map HTTP/9\r\n\r\n", "it speaks HTTP, not desk lines"),
                (b"\x16\x03\x01", "it speaks TLS, not desk lines"),
            ):  # fmt: skip
                with unix(self.desk) as stranger:
                    stranger.sendall(text)
                    self.assertTrue(ended(stranger))
                self.assertEqual(server.said(), f"lostd: desk connection from a unix socket: {cause}\n")
            with unix(self.desk) as desk:
                self.assertEqual(ask(desk, '{"commit":{}}\n'), '{"committed":{"edition":0}}\n')

    def test_turns_of_desks(self) -> None:
        """A desk that is silent from its start gives its turn to the next."""
        with self.server() as server, unix(self.desk) as silent, unix(self.desk) as next_one:
            begun = time.monotonic()
            self.assertEqual(ask(next_one, '{"commit":{}}\n'), '{"committed":{"edition":0}}\n')
            self.assertTrue(9 < time.monotonic() - begun < 20)
            self.assertTrue(ended(silent))
            self.assertRegex(server.said(), r": it sent no whole line within 10 seconds$")

    def test_mistakes(self) -> None:
        """The limits are no words of a server with --connections, and have ends."""
        words = ["--desk", f"unix:{self.desk}", "--queries", f"unix:{self.queries}"]
        for limit in ("--line-time", "--reply-time", "--most-connections", "--per-address"):
            for more in ([limit, "5", "--connections", "1"], [limit, "1000001"], [limit, "x"]):
                with Server([*words, *more]) as server:
                    status, said = server.end()
                self.assertEqual((status, len(said)), (2, 1), more)
                self.assertIn(limit, said[0])
